#!/usr/bin/env python3
"""Counts what queries read of a store's files, and what that takes: reads, bytes, the processor's instructions, and the peak
of memory.

    bench/reads.py [PROGRAM]

PROGRAM is the built program, by default crates/mesa/out/mesa, which `rt run` leaves there. Each query takes all rows of a
table and groups them: of three files, whose blocks are longer than a page of the page cache; and of 1,000 small files, each
of which lies in one page. strace counts the reads, and valgrind the instructions, which don't depend on how fast or how busy
a machine is. What a run of no commands over the same store takes is taken off; the peak is the query's own run's."""
import re
import tempfile

import million
from instructions import instructions
from measure import again, allow_open_files, given_program, new_folder, run

FILES, ROWS_OF_A_FILE = 3, 200_000
SMALL_FILES, ROWS_OF_A_SMALL_FILE = 1_000, 100
ASKED = ["query,t,,,item"]
READ = re.compile(r"pread64\(.* = (\d+)$", re.M)


def reads(program, folder, lines):
    """How often a run of a script reads a file at a place, and the bytes that it is given."""
    with tempfile.NamedTemporaryFile("r") as told:
        run(program, folder, lines, ["strace", "-f", "-e", "trace=pread64", "-o", told.name])
        given = [int(it) for it in READ.findall(told.read())]
    return len(given), sum(given)


def tell(program, folder, name):
    """Prints what the query reads and takes."""
    (none, least), (count, given) = reads(program, folder, []), reads(program, folder, ASKED)
    counted = instructions(program, folder, ASKED) - instructions(program, folder, [])
    peak = again(program, folder, ASKED).peak
    print(f"| {name} | {count - none:,} | {given - least:,} | {counted:,} | {peak:.1f} |", flush=True)


def main():
    program = given_program()
    allow_open_files()
    print("| a query of | reads | bytes | instructions | peak MB |")
    print("|---|---|---|---|---|")
    with new_folder() as folder:
        for part in range(FILES):
            lines = [million.row(i) for i in range(part * ROWS_OF_A_FILE, (part + 1) * ROWS_OF_A_FILE)]
            run(program, folder, [million.TABLE] * (part == 0) + lines + ["commit"])
        tell(program, folder, f"{FILES} files of {ROWS_OF_A_FILE:,} rows")
    million.ROWS = SMALL_FILES * ROWS_OF_A_SMALL_FILE
    with new_folder() as folder:
        run(program, folder, million.interleaved(SMALL_FILES))
        tell(program, folder, f"{SMALL_FILES:,} files of {ROWS_OF_A_SMALL_FILE:,} rows")


if __name__ == "__main__":
    main()
