#!/usr/bin/env python3
"""Measures how a load, a reopening and a query grow with the versions of a store of which nothing is merged.

    bench/growth.py [PROGRAM [VERSIONS..]]

PROGRAM is the built program, by default crates/mesa/out/mesa, which `rt run` leaves there; VERSIONS are 10, 100, 1,000 and
10,000 by default. Each version has 10 rows. A query at the newest version reads the file of each. Loads are run once,
the others are the best of three runs; the query's time is what it takes beyond a reopening."""
import sys

from measure import again, allow_open_files, given_program, machine, new_folder, run, stored

SIZES = [10, 100, 1_000, 10_000]
ROWS = 10


def loads(versions):
    """The load as a script: each version adds to 10 of 1,000 keys."""
    yield "table,t,k int;part int,n sum;last replace"
    for version in range(versions):
        for i in range(ROWS):
            yield f"row,t,{(version * ROWS + i) % 1000},{i},{version},{version}"
        yield "commit"


def each(run_, versions):
    """Milliseconds a version, by the clock and of the processors."""
    return f"{run_.seconds / versions * 1000:.2f} | {run_.busy / versions * 1000:.3f}"


def main():
    program = given_program()
    allow_open_files()
    print(f"{machine()}; {ROWS} rows a version; ms a version but for the query")
    print("| versions | load | of processors | reopening | of processors | query of the newest, ms | peak MB: load, reopening, query | journal, bytes |")
    print("|---|---|---|---|---|---|---|---|")
    for versions in [int(it) for it in sys.argv[2:]] or SIZES:
        with new_folder() as folder:
            load = run(program, folder, loads(versions))
            empty = again(program, folder, [])
            asked = again(program, folder, ["query,t,,,-,n"])
            query = asked.beyond(empty)[0] * 1000
            peaks = f"{load.peak:.0f}, {empty.peak:.0f}, {asked.peak:.0f}"
            cells = [f"{versions:,}", each(load, versions), each(empty, versions), f"{query:.1f}", peaks, f"{stored(folder, 'journal0'):,}"]
        print("| " + " | ".join(cells) + " |", flush=True)


if __name__ == "__main__":
    main()
