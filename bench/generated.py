#!/usr/bin/env python3
"""Measures the generated script: seconds against its versions, the store's files, and the growth of a version's time.

    bench/generated.py [PROGRAM [SEED [VERSIONS..]]]

PROGRAM is the built program, by default crates/mesa/out/mesa, which `rt run` leaves there; SEED is 7, and VERSIONS are 200
and 2,000 by default. The script is made here by the rule of mesa_generate: four rows a version, a work behind each, and an
expiry behind every twenty-fifth, so that what is kept stays small. Each is run once."""
import pathlib
import sys

from measure import given_program, machine, new_folder, run, stored

SIZES = [200, 2_000]


def draws(seed):
    """The generator's numbers."""
    state = seed
    while True:
        state = (75 * state + 74) % 65537
        yield state


def script(seed, versions):
    draw = draws(seed)
    yield "table,facts,day int;site int,clicks sum;low min;last replace"
    yield "view,by_site,facts,site,clicks;low"
    for version in range(versions):
        for j in range(4):
            site, clicks, low = 4 * (next(draw) % 16) + j, next(draw) % 201 - 100, next(draw) % 1000
            yield f"row,facts,{version // 10},{site},{clicks},{low},{version}"
        yield from ("commit", "work,facts")
        if version % 25 == 24:
            yield f"expire,{version - 10}"
    yield "query,facts,latest,,-,clicks;low"
    yield "query,by_site,latest,site<16,,,8"
    yield "query,facts,latest,day=0&site>=48,,,4"


def main():
    program = given_program()
    seed = int(sys.argv[2]) if len(sys.argv) > 2 else 7
    print(f"{machine()}; seed {seed}")
    print("| versions | s | processor s | ms a version | peak MB | files | bytes of files | of the journal |")
    print("|---|---|---|---|---|---|---|---|")
    for versions in [int(it) for it in sys.argv[3:]] or SIZES:
        with new_folder() as folder:
            made = run(program, folder, script(seed, versions))
            files = len(list(pathlib.Path(folder, "mesa-store").glob("*.mesa")))
            sizes = f"{stored(folder, '.mesa'):,} | {stored(folder, 'journal0'):,}"
        each = made.seconds / versions * 1000
        print(f"| {versions:,} | {made.seconds:.2f} | {made.busy:.2f} | {each:.2f} | {made.peak:.0f} | {files} | {sizes} |", flush=True)


if __name__ == "__main__":
    main()
