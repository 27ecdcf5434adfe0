#!/usr/bin/env python3
"""Measures the merge of a table's files to a base in one part, in two and in four, side by side in threads.

    bench/parts.py [PROGRAM [ROWS]]

PROGRAM is the built program, by default crates/mesa/out/mesa, which `rt run` leaves there. ROWS is 10,000,000 by default.
The rows lie in ten files, neighbouring keys in different ones. Each merge is made on a copy of one store. Its time is what
its run takes beyond an empty one, the best of two. The files that are left have to be the same, byte for byte, however many
parts there are. The peak tells what the rows of two rounds take, which are held where there are parts; in one part none are."""
import hashlib
import pathlib
import shutil
import sys

from measure import again, given_program, least, machine, new_folder, run, stored

FILES = 10
OF_A_DAY = 1_000
PARTS = [1, 2, 4]
RUNS = 2
TABLE = "table,t,day int;item int,n sum;top max"


def batch(version, rows):
    """A load of every tenth row from this one on."""
    if version == 0:
        yield TABLE
    for i in range(version, rows, FILES):
        yield f"row,t,{i // OF_A_DAY},{i % OF_A_DAY},{i},{i * 7 % 1000}"
    yield "commit"


def load(program, folder, rows):
    """Loads the rows, a run for each file, and lets all versions but the newest go."""
    for version in range(FILES):
        run(program, folder, batch(version, rows))
    run(program, folder, [f"expire,{FILES - 1}"])


def contents(folder):
    """The digests of all files of a store."""
    return sorted(hashlib.sha256(it.read_bytes()).hexdigest() for it in pathlib.Path(folder, "mesa-store").glob("*.mesa"))


def merge(program, folder, parts):
    """The best of some merges in so many parts, and the files that the last one left."""
    found = []
    for _ in range(RUNS):
        with new_folder() as copy:
            shutil.copytree(f"{folder}/mesa-store", f"{copy}/mesa-store")
            found.append(run(program, copy, [f"work,t,{parts}"]))
            left = contents(copy)
    return least(found), left


def main():
    program = given_program()
    rows = int(sys.argv[2]) if len(sys.argv) > 2 else 10_000_000
    print(f"{machine()}; {rows:,} rows in {FILES} files; the best of {RUNS} runs")
    with new_folder() as folder:
        load(program, folder, rows)
        empty = again(program, folder, [])
        print(f"the files have {stored(folder, '.mesa'):,} bytes; an empty run peaks at {empty.peak:.1f} MB")
        print("| parts | merging, s | processor s | times as quick | peak MB |")
        print("|---|---|---|---|---|")
        first, files = None, None
        for parts in PARTS:
            work, left = merge(program, folder, parts)
            seconds, busy = work.beyond(empty)
            first, files = first or seconds, files or left
            if left != files:
                sys.exit(f"the files of a merge in {parts} parts differ from those of one in {PARTS[0]}")
            print(f"| {parts} | {seconds:.2f} | {busy:.2f} | {first / seconds:.2f} | {work.peak:.0f} |", flush=True)


if __name__ == "__main__":
    main()
