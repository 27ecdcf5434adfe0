#!/usr/bin/env python3
"""Measures what an opening takes while a store's journal is long, and once it is stated anew in the other area.

    bench/openings.py [PROGRAM [VERSIONS..]]

PROGRAM is the built program, by default crates/mesa/out/mesa, which `rt run` leaves there; VERSIONS are 100, 1,000, 10,000
and 100,000 by default. Each version has one row. Of one store nothing is merged, so that the journal names a file for each
version, before and after; of the other all but the last hundred versions are merged as they come. An opening is a run of an
empty script: the first one, of which the best of three copies is taken, reads the whole journal, and writes the checkpoint
where it ends at 65,536 bytes or behind; the others, the best of three, read what that left."""
import sys

from measure import again, allow_open_files, anew, given_program, machine, new_folder, run, stored

SIZES = [100, 1_000, 10_000, 100_000]


def loads(versions, merged):
    """The loads as a script: each version adds to one of 1,000 keys."""
    yield "table,t,k int,v sum"
    for version in range(versions):
        yield f"row,t,{version % 1000},{version}"
        yield "commit"
        if merged and version % 100 == 99 and version > 100:
            yield f"expire,{version - 100}"
            yield "work,t"


def areas(folder):
    return f"{stored(folder, 'journal0'):,} and {stored(folder, 'journal1'):,}"


def main():
    program = given_program()
    allow_open_files()
    print(machine())
    print("| versions | merged | first opening, ms | later ones, ms | bytes of both areas at first | later |")
    print("|---|---|---|---|---|---|")
    for versions in [int(it) for it in sys.argv[2:]] or SIZES:
        for merged in (False, True):
            with new_folder() as folder:
                run(program, folder, loads(versions, merged))
                before = areas(folder)
                first = anew(program, folder, [])
                later = again(program, folder, [])
                words = "all but the last" if merged else "nothing"
                cells = [f"{versions:,}", words, f"{first.seconds * 1000:.1f}", f"{later.seconds * 1000:.1f}", before, areas(folder)]
            print("| " + " | ".join(cells) + " |", flush=True)


if __name__ == "__main__":
    main()
