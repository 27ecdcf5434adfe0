#!/usr/bin/env python3
"""Measures `check` over a table of 1,000,000 rows with a view, beside SHA-256 alone over the store's files, and `digest` of the table.

    bench/checks.py [PROGRAM]

PROGRAM is the built program, by default crates/mesa/out/mesa, which `rt run` leaves there. The rows lie in so many files of
as many rows each, and so do those of the view; in the first store nothing is merged, in the second each ten versions have
a cumulative. SHA-256 alone is that of Python's hashlib, over each file's bytes in memory. Times are the best of three."""
import hashlib
import pathlib
import time

from measure import allow_open_files, given_program, least, machine, new_folder, digest_part, run, stored

ROWS = 1_000_000
FILES = 20
OF_A_DAY = 1_000


def loads():
    """The rows in so many batches: neighbouring keys are in different ones."""
    yield "table,t,day int;item int,n sum;top max"
    yield "view,by_day,t,day,n;top"
    for version in range(FILES):
        for i in range(version, ROWS, FILES):
            yield f"row,t,{i // OF_A_DAY},{i % OF_A_DAY},{i},{i * 7 % 1000}"
        yield "commit"


def digest_alone(folder):
    """The least of three times that the digests of the store's files take."""
    contents = [it.read_bytes() for it in pathlib.Path(folder, "mesa-store").glob("*.mesa")]
    times = []
    for _ in range(3):
        start = time.monotonic()
        for content in contents:
            hashlib.sha256(content).digest()
        times.append(time.monotonic() - start)
    return min(times)


def checked(program, folder, name):
    """Checks the store, and prints a line of the table."""
    checks = [run(program, folder, [], words=("check",)) for _ in range(3)]
    found, alone = least(checks), digest_alone(folder)
    part = digest_part(program, folder, [], ("check",))
    size = stored(folder, ".mesa")
    print(f"| {name} | {size:,} | {found.seconds:.2f} | {found.busy:.2f} | {alone:.2f} | {alone / found.busy:.2f} | {part} | {found.peak:.0f} | {found.printed.strip()} |", flush=True)


def digested(program, folder, name):
    """Prints how long the digests of the table take."""
    found = least([run(program, folder, [], words=("digest", "t")) for _ in range(3)])
    print(f"digest of the table, {name}: {found.seconds:.2f} s, of the processors {found.busy:.2f} s, peak {found.peak:.0f} MB: {found.printed.strip()}", flush=True)


def main():
    program = given_program()
    allow_open_files()
    print(f"{machine()}; {ROWS:,} rows in {FILES} files")
    print("| the store | bytes | check, s | processor s | SHA-256 alone, s | its part | by perf | peak MB | answer |")
    print("|---|---|---|---|---|---|---|---|---|")
    with new_folder() as folder:
        run(program, folder, loads())
        checked(program, folder, "nothing merged")
        digested(program, folder, "nothing merged")
        run(program, folder, ["work,t"] * 2)
        checked(program, folder, "two cumulatives")


if __name__ == "__main__":
    main()
