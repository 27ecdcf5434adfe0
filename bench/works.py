#!/usr/bin/env python3
"""Measures works on a table whose versions are never let go: each makes a cumulative of ten versions more.

    bench/works.py [PROGRAM [VERSIONS..]]

PROGRAM is the built program, by default crates/mesa/out/mesa, which `rt run` leaves there; VERSIONS, multiples of ten that
are at least 100, are 1,000, 4,000 and 16,000 by default. Each version adds to 10 of 1,000 keys, so a cumulative has at most
1,000 rows. The load does the work of each ten versions, but for the last ten works: these are measured, by a run of just
them beyond an empty one. The best of three."""
import sys

from measure import again, allow_open_files, anew, given_program, machine, new_folder, run, stored

SIZES = [1_000, 4_000, 16_000]
ROWS = 10
TENS = 10
WORKS = 10


def loads(versions):
    """The loads as a script, with all works but the last ones."""
    yield "table,t,k int;part int,n sum;last replace"
    for version in range(versions):
        for i in range(ROWS):
            yield f"row,t,{(version * ROWS + i) % 1000},{i},{version},{version}"
        yield "commit"
        if version % TENS == TENS - 1 and version < versions - WORKS * TENS:
            yield "work,t"


def main():
    program = given_program()
    allow_open_files()
    print(f"{machine()}; {ROWS} rows a version")
    print("| versions | loads and works, s | opening, ms | a work, ms | of processors | peak MB: load, works | files, MB |")
    print("|---|---|---|---|---|---|---|")
    for versions in [int(it) for it in sys.argv[2:]] or SIZES:
        with new_folder() as folder:
            load = run(program, folder, loads(versions))
            empty = again(program, folder, [])
            works = anew(program, folder, ["work,t"] * WORKS)
            clock, busy = works.beyond(empty)
            cells = [f"{versions:,}", f"{load.seconds:.1f}", f"{empty.seconds * 1000:.1f}", f"{clock / WORKS * 1000:.2f}", f"{busy / WORKS * 1000:.2f}"]
            cells += [f"{load.peak:.0f}, {works.peak:.0f}", f"{stored(folder, '.mesa') / 1e6:.0f}"]
        print("| " + " | ".join(cells) + " |", flush=True)


if __name__ == "__main__":
    main()
