#!/usr/bin/env python3
"""Counts the processor's instructions for each row that is loaded, queried and merged. They don't depend on how fast or how
busy a machine is, so programs can be compared that were measured on different days.

    bench/instructions.py [PROGRAM]

PROGRAM is the built program, by default crates/mesa/out/mesa, which `rt run` leaves there. valgrind counts (callgrind, all
threads). The load is that of bench/versions.py, of which a query groups all rows of a version by shop; merged are ten files
of bench/million.py's table, with fewer rows. What a run of no commands over the same store takes is taken off."""
import re
import subprocess
import sys
import tempfile

import million
import versions
from measure import given_program, new_folder, run

MERGED_ROWS = 200_000
MERGED_FILES = 10
ASKED_VERSION = versions.VERSIONS - 1


def instructions(program, folder, lines):
    """The instructions of a run of a script over the store in a folder."""
    with tempfile.TemporaryFile("w+") as script:
        script.writelines(line + "\n" for line in lines)
        script.seek(0)
        words = ["valgrind", "--tool=callgrind", "--callgrind-out-file=/dev/null", program, "run"]
        told = subprocess.run(words, cwd=folder, stdin=script, capture_output=True, text=True)
    found = re.search(r"Collected : (\d+)", told.stderr)
    if told.returncode or not found:
        sys.exit(f"{' '.join(words)}: ended with status {told.returncode}: {told.stderr[-300:]}")
    return int(found[1])


def each(program, folder, lines, rows):
    """The instructions that a script takes for each of so many rows."""
    empty = instructions(program, folder, [])
    return (instructions(program, folder, lines) - empty) / rows


def line(name, count):
    print(f"| {name} | {count:,.0f} |", flush=True)


def main():
    program = given_program()
    print("| | Instructions a row |")
    print("|---|---|")
    rows = versions.VERSIONS * versions.ROWS
    with new_folder() as folder:
        line("load", each(program, folder, versions.loads(), rows))
    with new_folder() as folder:
        run(program, folder, versions.loads())
        line("query, nothing merged", each(program, folder, [f"query,sales,{ASKED_VERSION},,shop"], rows))
    million.ROWS = MERGED_ROWS
    with new_folder() as folder:
        run(program, folder, million.interleaved(MERGED_FILES))
        merging = [f"expire,{MERGED_FILES - 1}", "work,t"]
        line(f"merging {MERGED_FILES} files", each(program, folder, merging, MERGED_ROWS))


if __name__ == "__main__":
    main()
