#!/usr/bin/env python3
"""Measures the program: seconds, processor seconds and peak memory of loads, and the time of each kind of query.

    bench/run.py [PROGRAM]

PROGRAM is the built program, by default crates/mesa/out/mesa, which `rt run` leaves there.
Each run begins with no store, in a folder of its own below the current one, so that the syncs are those of its device.
Each number is the best of three runs."""
from loads import QUERIES, script
from measure import given_program, least, machine, new_folder, run

SIZES = [10_000, 100_000, 1_000_000]
QUERIES_A_RUN = 4000
RUNS = 3


def measured(program, lines):
    """The best of some runs over a script."""
    lines, found = list(lines), []
    for _ in range(RUNS):
        with new_folder() as folder:
            found.append(run(program, folder, lines))
    return least(found)


def per_query(seconds):
    """A query's time in words. Two runs of the greatest load differ by more than what is less than this."""
    return f"{seconds * 1000:.1f} ms" if seconds >= 0.0001 else "< 0.1 ms"


def main():
    program = given_program()
    print(f"{machine()}; the best of {RUNS} runs; a query's processor time over {QUERIES_A_RUN} of them")
    print("| Rows loaded | Seconds | Processor seconds | Peak MB | " + " | ".join(QUERIES) + " |")
    print("|---|---|---|---|" + "---|" * len(QUERIES))
    for rows in SIZES:
        load = measured(program, script(rows))
        cells = [f"{rows:,}", f"{load.seconds:.2f}", f"{load.busy:.2f}", f"{load.peak:.0f}"]
        for kind in QUERIES:
            asked = measured(program, script(rows, kind, QUERIES_A_RUN))
            cells.append(per_query((asked.busy - load.busy) / QUERIES_A_RUN))
        print("| " + " | ".join(cells) + " |", flush=True)


if __name__ == "__main__":
    main()
