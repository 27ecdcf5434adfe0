#!/usr/bin/env python3
"""Measures commands while a table has 64 pins and many files wait to be removed: pins, releases, explains and works.

    bench/pins.py [PROGRAM [FILES]]

PROGRAM is the built program, by default crates/mesa/out/mesa, which `rt run` leaves there. A table gets FILES batches of one
row, by default 2,000; a pin holds their files, all but the last are merged, and 63 more pins are made behind a batch each. So
at least FILES files wait, and each of 64 pins holds what was named when it was made. Pins last for a run, so all of this is
in one script, and a command's time is what many of it take beyond that script alone, divided: the best of three. The same
is measured with one pin, and with as many files and none held."""
import sys

from measure import allow_open_files, anew, given_program, machine, new_folder

PINS = 64
MANY = 10_000
WORKS = 20
TABLE = "table,t,k int,n sum"


def batch(i):
    return [f"row,t,{i},1", "commit"]


def waiting(files, pins):
    """The script that leaves so many files waiting, held by so many pins, if any."""
    yield TABLE
    for i in range(files):
        yield from batch(i)
    yield from ["pin,"] * (pins > 0)
    yield f"expire,{files - 2}"
    yield from ["work,t"] * (files // 10 + 10)
    for i in range(1, max(pins, 1)):
        yield from batch(files + i)
        yield from ["pin,"] * (pins > i)


def works(files):
    """Works, each behind ten batches, which it merges."""
    for i in range(WORKS):
        for j in range(10):
            yield from batch(files + PINS + 10 * i + j)
        yield "work,t"


def beyond(program, lines, more, count):
    """The processor milliseconds that one of so many commands takes, which follow a script."""
    with new_folder() as first, new_folder() as second:
        short, long = anew(program, first, lines), anew(program, second, [*lines, *more])
    return (long.busy - short.busy) / count * 1000


def tell(program, files, pins):
    """Prints a line of the table."""
    lines = list(waiting(files, pins))
    token = pins + 1
    turned = [it for i in range(MANY // 2) for it in ("pin,", f"release,{token + i}")]
    if pins == PINS:
        # (a 65th pin is refused)
        turned = [f"release,{pins}", *[it for i in range(MANY // 2) for it in ("pin,", f"release,{token + i}")]]
    explain = beyond(program, lines, ["explain,t"] * MANY, MANY)
    pin = beyond(program, lines, turned, len(turned))
    work = beyond(program, lines, list(works(files)), WORKS)
    print(f"| {pins} | {files:,} | {explain:.3f} | {pin:.3f} | {work:.3f} |", flush=True)


def main():
    program = given_program()
    files = int(sys.argv[2]) if len(sys.argv) > 2 else 2_000
    allow_open_files()
    print(machine())
    print("| pins | files | explain, ms | pin or release, ms | ten loads and a work, ms |")
    print("|---|---|---|---|---|")
    for pins in (0, 1, PINS):
        tell(program, files, pins)


if __name__ == "__main__":
    main()
