#!/usr/bin/env python3
"""Measures a delta file of 1,000,000 rows: seconds of writing and of reading, bytes a second, peak memory, and
the share that SHA-256 takes.

    bench/files.py [PROGRAM]

PROGRAM is the built program, by default crates/mesa_bench/out/mesa_bench. The file is in memory, so its bytes count in
the peak. Seconds are of the processor, the best of three runs."""
from measure import call, given_program, least, machine

ROWS = 1_000_000
RUNS = 3


def best(program, word, number):
    """The best of some calls that do one thing so many times."""
    return least([call([program, word, str(number)]) for _ in range(RUNS)])


def field(printed, name):
    """A number that the program printed under a name."""
    return int(dict(word.split("=") for word in printed.split() if "=" in word)[name])


def line(name, seconds, size, peak, digests):
    """A line of the table."""
    return f"| {name} | {seconds:.2f} | {size / 1e6 / seconds:.0f} | {peak:.0f} | {digests / seconds:.0%} |"


def main():
    program = given_program("mesa_bench")
    rows, write, read = (best(program, word, ROWS) for word in ("rows", "write", "read"))
    size = field(write.printed, "bytes")
    digests = best(program, "digest", size).busy
    print(f"{machine()}; {ROWS:,} rows in {field(write.printed, 'blocks')} blocks, {size:,} bytes")
    print("| | Seconds | MB/s | Peak MB | SHA-256 |")
    print("|---|---|---|---|---|")
    print(line("Writing", write.busy - rows.busy, size, write.peak, digests))
    print(line("Reading", read.busy - write.busy, size, read.peak, digests))
    print(f"making the rows takes {rows.busy:.2f} s, which is taken off; SHA-256 of all bytes {digests:.2f} s")


if __name__ == "__main__":
    main()
