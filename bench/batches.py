#!/usr/bin/env python3
"""Measures how fast the files of a batch are prepared: a load of 1,000,000 rows into a table with two views.

    bench/batches.py [PROGRAM]

PROGRAM is the built program, by default crates/mesa_bench/out/mesa_bench. It is run on one processor and on four, the
best of three runs each. The making of the load is measured by itself and taken off. `batch` is the reading of the load
as a batch, which one thread does; the files are written side by side."""
import os

from measure import call, given_program, least, machine

ROWS = 1_000_000
RUNS = 3


def best(program, word, processors):
    """The best of some calls on so many processors."""
    allowed = sorted(os.sched_getaffinity(0))[:processors]
    command, allow = [program, word, str(ROWS)], lambda: os.sched_setaffinity(0, allowed)
    return least([call(command, preexec_fn=allow) for _ in range(RUNS)])


def main():
    program = given_program("mesa_bench")
    print(f"{machine()}; {ROWS:,} rows, two views")
    print("| processors | | s | processor s | rows a second | MB beside the load |")
    print("|---|---|---|---|---|---|")
    for processors in (1, 4):
        made = best(program, "load", processors)
        for word in ("batch", "prepare"):
            found = best(program, word, processors)
            seconds, busy = found.beyond(made)
            print(f"| {processors} | {word} | {seconds:.2f} | {busy:.2f} | {ROWS / seconds:,.0f} | {found.peak - made.peak:.0f} |")


if __name__ == "__main__":
    main()
