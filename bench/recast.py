#!/usr/bin/env python3
"""Measures a recast of a table while batches are loaded, and queries by a further order beside ones by the table.

    bench/recast.py [PROGRAM [ROWS]]

PROGRAM is the built program, by default crates/mesa/out/mesa, which `rt run` leaves there. ROWS is 1,000,000 by default.
The rows lie in ten files, and a recast leaves one of two key columns out. Beside it a session loads batches of 1,000 rows
from its beginning to behind its end. Each answer goes out when its command is decided, so the time between the last batch
that is told before the recast and the recast itself is at least the time for which its closing turn held the lock, in which
it rewrites what came meanwhile. The queries ask for one value of the second key column, which a view has as its first; what
is read is counted by strace, if that is there."""
import re
import shutil
import subprocess
import sys
import tempfile
import time

from measure import again, given_program, machine, new_folder, run

FILES = 10
OF_A_DAY = 1_000
BATCHES = [0, 1_000]
OF_A_BATCH = 1_000
TABLE = "table,t,day int;item int,n sum;top max"


def batch(version, rows):
    """A load of every tenth row from this one on."""
    if version == 0:
        yield TABLE
    for i in range(version, rows, FILES):
        yield f"row,t,{i // OF_A_DAY},{i % OF_A_DAY},{i},{i * 7 % 1000}"
    yield "commit"


def load(program, folder, rows):
    """Loads the rows, a run for each file."""
    for version in range(FILES):
        run(program, folder, batch(version, rows))


def beside(count):
    """A script of a recast, and of a session that loads so many batches beside it, each of its own days."""
    yield from ["session", "recast,t,item,n;top"]
    if count:
        yield "session"
    for number in range(count):
        yield from (f"row,t,{1_000_000 + number},{i},{i},{i}" for i in range(OF_A_BATCH))
        yield "commit"


def told(program, folder, lines):
    """When each answer of a run came, in seconds from its first."""
    with tempfile.TemporaryFile("w+") as script:
        script.writelines(line + "\n" for line in lines)
        script.seek(0)
        child = subprocess.Popen([program, "run"], cwd=folder, stdin=script, stdout=subprocess.PIPE, text=True)
        start = time.monotonic()
        return [(time.monotonic() - start, line.rstrip("\n")) for line in child.stdout]


def recast(program, folder, count):
    """Prints what a recast takes while so many batches are loaded, and for how long nothing else was told before it."""
    with new_folder() as copy:
        shutil.copytree(f"{folder}/mesa-store", f"{copy}/mesa-store")
        answers = told(program, copy, beside(count))
    at = next(place for place, (_, line) in enumerate(answers) if " recast t " in line)
    when = answers[at][0]
    before = sum(" loaded " in line for _, line in answers[:at])
    refused = sum(" refused " in line for _, line in answers)
    gap = (when - answers[at - 1][0]) * 1000 if at else float("nan")
    print(f"| {count} | {before} | {refused} | {when:.2f} | {gap:.0f} |", flush=True)


def bytes_read(program, folder, lines):
    """The calls that read the store's files in a run, and their bytes, beyond those of an empty one."""
    found = []
    for script in [[], lines]:
        with tempfile.NamedTemporaryFile("r") as calls:
            run(program, folder, script, ["strace", "-f", "-e", "trace=pread64,read", "-o", calls.name])
            sizes = [int(it) for it in re.findall(r"(?:pread64|read)\([3-9]\d*,.*= (\d+)$", calls.read(), re.M)]
        found.append((len(sizes), sum(sizes)))
    return tuple(after - before for before, after in zip(*found))


def query(program, folder, name, asked, times=20):
    """Prints what a query takes, and what it reads."""
    empty, many = again(program, folder, []), again(program, folder, [asked] * times)
    seconds, _ = many.beyond(empty)
    reads, size = bytes_read(program, folder, [asked]) if shutil.which("strace") else (float("nan"),) * 2
    print(f"| {name} | {seconds / times * 1000:.2f} | {reads} | {size:,} |", flush=True)


def main():
    program = given_program()
    rows = int(sys.argv[2]) if len(sys.argv) > 2 else 1_000_000
    asked = "query,t,,item=77,day,n"
    print(f"{machine()}; {rows:,} rows in {FILES} files")
    with new_folder() as folder:
        load(program, folder, rows)
        print("| batches beside | loaded before the recast's close | refused | recast told after, s | told nothing before it for, ms |")
        print("|---|---|---|---|---|")
        for count in BATCHES:
            recast(program, folder, count)
        run(program, folder, [f"expire,{FILES - 1}", "work,t"])
        print("| query of one item | ms | reads | bytes |")
        print("|---|---|---|---|")
        query(program, folder, "by the table", asked)
    with new_folder() as folder:
        run(program, folder, [TABLE, "view,by_item,t,item;day,n;top"])
        for version in range(FILES):
            run(program, folder, [it for it in batch(version, rows) if it != TABLE])
        run(program, folder, [f"expire,{FILES - 1}", "work,t"])
        query(program, folder, "by a further order", asked)


if __name__ == "__main__":
    main()
