#!/usr/bin/env python3
"""Measures how long loads wait for a disk whose syncs take 3 ms: 100 batches of ten rows into a table with two views.

    bench/waits.py [PROGRAM]

PROGRAM is the built program, by default crates/mesa/out/mesa, which `rt run` leaves there. It is begun with a library,
built here by gcc, whose fsync and fdatasync sync and then wait until 3 ms have gone by; a sync that the disk takes
longer for takes so long. Told is what a run of the batches takes beyond one of none, and how many syncs of 3 ms, one after
the other, that would be a batch: two of a batch's syncs that go on beside each other count as one. Best of three."""
import os
import subprocess
import sys
import tempfile

from measure import given_program, least, machine, new_folder, run

BATCHES = 100
ROWS = 10
MILLISECONDS = 3
RUNS = 3
TABLES = ["table,sales,day int;shop int,units sum", "view,days,sales,day,units", "view,shops,sales,shop,units"]
SLOW = """
#define _GNU_SOURCE
#include <sys/syscall.h>
#include <time.h>
#include <unistd.h>

static int slow(long call, int file) {
    struct timespec until;
    clock_gettime(CLOCK_MONOTONIC, &until);
    until.tv_nsec += %d * 1000000;
    until.tv_sec += until.tv_nsec / 1000000000;
    until.tv_nsec %%= 1000000000;
    int result = syscall(call, file);
    clock_nanosleep(CLOCK_MONOTONIC, TIMER_ABSTIME, &until, 0);
    return result;
}
int fsync(int file) { return slow(SYS_fsync, file); }
int fdatasync(int file) { return slow(SYS_fdatasync, file); }
"""


def slow_syncs(place):
    """A library whose syncs are slow."""
    source, library = f"{place}/slow.c", f"{place}/slow.so"
    with open(source, "w") as it:
        it.write(SLOW % MILLISECONDS)
    subprocess.run(["gcc", "-O2", "-shared", "-fPIC", "-o", library, source], check=True)
    return library


def loads():
    """The batches as a script."""
    for batch in range(BATCHES):
        for row in range(ROWS):
            yield f"row,sales,{20260101 + batch},{row},1"
        yield "commit"


def measured(program, before, lines):
    """The best of some runs, each over a new store with the tables."""
    found = []
    for _ in range(RUNS):
        with new_folder() as folder:
            run(program, folder, TABLES)
            found.append(run(program, folder, lines, before))
    return least(found)


def main():
    program, lines = given_program(), list(loads())
    with tempfile.TemporaryDirectory() as place:
        slowed = ["env", f"LD_PRELOAD={slow_syncs(place)}"]
        print(f"{machine()}; {BATCHES} batches of {ROWS} rows into a table with two views, the best of {RUNS}")
        print("| syncs | s | ms a batch | syncs of 3 ms a batch |")
        print("|---|---|---|---|")
        for name, before in (("the disk's own", []), (f"{MILLISECONDS} ms", slowed)):
            seconds, _ = measured(program, before, lines).beyond(measured(program, before, []))
            each = seconds * 1000 / BATCHES
            print(f"| {name} | {seconds:.2f} | {each:.1f} | {each / MILLISECONDS:.1f} |")


if __name__ == "__main__":
    sys.exit(main())
