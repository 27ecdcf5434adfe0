#!/usr/bin/env python3
"""Measures a grouped answer over 1,000,000 rows, 100 groups of them, and the lifting of as many rows through ten
changes: nanoseconds a row, and the memory beside the rows.

    bench/answers.py [PROGRAM]

PROGRAM is the built program, by default crates/mesa_bench/out/mesa_bench. The making of the rows, and of a list of
them, is measured by itself and taken off. Times are of the processor, the best of five runs."""
from measure import call, given_program, least, machine

ROWS = 1_000_000
RUNS = 5


def line(name, work, without):
    """A line of the table: what a measurement took beside another one."""
    nanoseconds = (work.busy - without.busy) / ROWS * 1e9
    return f"| {name} | {nanoseconds:.0f} | {work.peak - without.peak:.2f} |"


def main():
    program = given_program("mesa_bench")
    words = ["rows", "put", "hold", "answer", "copy", "lift"]
    runs = {word: least([call([program, word, str(ROWS)]) for _ in range(RUNS)]) for word in words}
    print(f"{machine()}; {ROWS:,} rows")
    print("| | ns a row | MB beside the rows |")
    print("|---|---|---|")
    print(line("Rows put into their groups as they are made", runs["put"], runs["rows"]))
    print(line("A query answered over a list of rows", runs["answer"], runs["hold"]))
    print(line("Rows of a list copied", runs["copy"], runs["hold"]))
    print(line("Rows of a list lifted through ten changes", runs["lift"], runs["hold"]))
    copied, lifted = (runs[word].busy - runs["hold"].busy for word in ("copy", "lift"))
    print(f"lifting takes {lifted / copied:.2f} times as long as copying")


if __name__ == "__main__":
    main()
