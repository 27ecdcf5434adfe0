#!/usr/bin/env python3
"""Measures a table of 1,000,000 rows: its files merged to a base, and queries of one row, one block and all of it.

    bench/million.py [PROGRAM]

PROGRAM is the built program, by default crates/mesa/out/mesa, which `rt run` leaves there. The rows lie in 10 files of
100,000, and in 1,000 files of 1,000, so that neighbouring keys are in different files. A merging's time is what its run
takes beyond an empty one, the best of three; SHA-256's part is that of perf's samples of the whole run. A query's time is
that of 500 in one run beyond an empty one, divided. The last table has 3,000,000 rows in three files; its query is asked on
one processor and on all that there are."""
import os

from measure import again, allow_open_files, anew, digest_part, given_program, machine, new_folder, run, stored

ROWS = 1_000_000
OF_A_DAY = 1_000
ASKED = 500
TABLE = "table,t,day int;item int,n sum;top max"


def row(i):
    """The row at a place in the order of the keys."""
    return f"row,t,{i // OF_A_DAY},{i % OF_A_DAY},{i},{i * 7 % 1000}"


def interleaved(files):
    """The rows in so many batches: neighbouring keys are in different ones."""
    yield TABLE
    for version in range(files):
        for i in range(version, ROWS, files):
            yield row(i)
        yield "commit"


def merge(program, folder, files):
    """Loads the rows, merges them, and prints a line of the table; leaves the merged store."""
    load = run(program, folder, interleaved(files))
    empty = again(program, folder, [])
    lines = [f"expire,{files - 1}", "work,t"]
    part = digest_part(program, folder, lines)
    work = anew(program, folder, lines)
    seconds, busy = work.beyond(empty)
    print(f"| {files:,} of {ROWS // files:,} | {load.seconds:.2f} | {load.peak:.0f} | {seconds:.2f} | {busy:.2f} | {ROWS / seconds:,.0f} | {part} | {work.peak:.0f} |", flush=True)


def ask(program, folder, name, filter_of, group=""):
    """Asks many queries, and prints what each takes."""
    empty = again(program, folder, [])
    asked = again(program, folder, [f"query,t,,{filter_of(i * 7919 % ROWS)},{group}" for i in range(ASKED)])
    seconds, busy = asked.beyond(empty)
    print(f"| {name} | {seconds / ASKED * 1000:.2f} | {busy / ASKED * 1000:.2f} | {asked.peak:.1f} | {empty.peak:.1f} |", flush=True)


def ask_all(program, folder):
    """A query over three files of as many rows each, grouped."""
    for part in range(3):
        lines = [row(i) for i in range(part * ROWS, (part + 1) * ROWS)]
        run(program, folder, [TABLE] * (part == 0) + lines + ["commit"])
    allowed = sorted(os.sched_getaffinity(0))
    for processors in (1, len(allowed)):
        os.sched_setaffinity(0, allowed[:processors])
        empty, asked = again(program, folder, []), again(program, folder, ["query,t,,,item"])
        seconds, busy = asked.beyond(empty)
        print(f"| all of {3 * ROWS:,}, by item, on {processors} | {seconds * 1000:,.0f} | {busy * 1000:,.0f} | {asked.peak:.1f} | {empty.peak:.1f} |")
    size, part = stored(folder, ".mesa"), digest_part(program, folder, ["query,t,,,item"])
    print(f"the query of all reads {size:,} bytes, and SHA-256 is {part} of its time")


def main():
    program = given_program()
    allow_open_files()
    print(f"{machine()}; {ROWS:,} rows")
    print("| files | load, s | load, peak MB | merging, s | processor s | rows a second | SHA-256 | peak MB |")
    print("|---|---|---|---|---|---|---|---|")
    with new_folder() as folder:
        merge(program, folder, 1_000)
    with new_folder() as folder:
        merge(program, folder, 10)
        print(f"the merged file has {stored(folder, '.mesa'):,} bytes")
        print("| a query of | ms | processor ms | peak MB | of an empty run |")
        print("|---|---|---|---|---|")
        ask(program, folder, "one key", lambda i: f"day={i // OF_A_DAY}&item={i % OF_A_DAY}")
        ask(program, folder, "one day, 1,000 rows", lambda i: f"day={i // OF_A_DAY}", "-")
    with new_folder() as folder:
        ask_all(program, folder)


if __name__ == "__main__":
    main()
