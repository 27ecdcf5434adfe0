#!/usr/bin/env python3
"""Measures a query's first turn, in which the files of its plan are opened under the lock: the first time in a run, and again.

    bench/turns.py [PROGRAM [FILES..]]

PROGRAM is the built program, by default crates/mesa/out/mesa, which `rt run` leaves there; FILES are 1, 100 and 1,000 by
default. A table gets so many batches of one row, of which none is merged, and a run asks one query several times, whose
filter allows no block, so that nothing but the files' tails is read. The program is begun with a library, built here by gcc,
that notes when a file of rows is opened. Told is the time by the clock from a query's first opening to its last, and to the
first one of the next query, which is the whole query, with the closing of its files: the best of several runs. The files
are in the system's page cache."""
import array
import subprocess
import sys
import tempfile

from measure import allow_open_files, given_program, machine, new_folder, run

SIZES = [1, 100, 1_000]
QUERY = "query,t,,k<0"
ASKED = 20
RUNS = 9
NOTED = """
#define _GNU_SOURCE
#include <fcntl.h>
#include <stdarg.h>
#include <stdlib.h>
#include <string.h>
#include <sys/mman.h>
#include <sys/syscall.h>
#include <time.h>
#include <unistd.h>

#define MOST (1 << 20)
static long long *noted;  /* how many, and then each, in a file, since the program ends without a last word */

int open(const char *path, int flags, ...) {
    va_list rest;
    va_start(rest, flags);
    int mode = flags & O_CREAT ? va_arg(rest, int) : 0;
    va_end(rest);
    size_t length = strlen(path);
    if (noted && noted[0] < MOST && length > 5 && !strcmp(path + length - 5, ".mesa")) {
        struct timespec now;
        clock_gettime(CLOCK_MONOTONIC, &now);
        noted[++noted[0]] = now.tv_sec * 1000000000LL + now.tv_nsec;
    }
    return syscall(SYS_openat, AT_FDCWD, path, flags, mode);
}

__attribute__((constructor)) static void begin(void) {
    int file = open(getenv("OPENINGS"), O_RDWR | O_CREAT | O_TRUNC, 0600);
    size_t size = (MOST + 1) * sizeof *noted;
    if (file < 0 || ftruncate(file, size)) return;
    long long *mapped = mmap(0, size, PROT_READ | PROT_WRITE, MAP_SHARED, file, 0);
    close(file);
    if (mapped != MAP_FAILED) noted = mapped;
}
"""


def noting(place):
    """The words that begin a program with a library that notes openings, and the file in which it does."""
    source, library, told = f"{place}/noting.c", f"{place}/noting.so", f"{place}/openings"
    with open(source, "w") as it:
        it.write(NOTED)
    subprocess.run(["gcc", "-O2", "-shared", "-fPIC", "-o", library, source], check=True)
    return ["env", f"LD_PRELOAD={library}", f"OPENINGS={told}"], told


def loads(files):
    """So many batches of one row, as a script."""
    yield "table,t,k int,n sum"
    for i in range(files):
        yield from (f"row,t,{i},1", "commit")


def queries(program, folder, files):
    """The milliseconds in which each query opened its files, and those up to the next query's first opening: the best of some
    runs."""
    opened, whole = [], []
    with tempfile.TemporaryDirectory() as place:
        before, told = noting(place)
        for _ in range(RUNS):
            run(program, folder, [QUERY] * ASKED, before)
            times = array.array("q")
            with open(told, "rb") as it:
                count, = array.array("q", it.read(8))
                times.fromfile(it, count)
            # (the store's own opening comes first, and opens files too)
            firsts, lasts = times[-ASKED * files::files], times[files - 1 - ASKED * files::files]
            opened.append([(last - first) / 1e6 for first, last in zip(firsts, lasts)])
            whole.append([(after - first) / 1e6 for first, after in zip(firsts, firsts[1:])])
    return [min(runs) for runs in zip(*opened)], [min(runs) for runs in zip(*whole)]


def main():
    program = given_program()
    allow_open_files()
    print(f"{machine()}; the best of {RUNS}")
    print("| files | opened the first time, ms | again, ms | whole query the first time, ms | again, ms |")
    print("|---|---|---|---|---|")
    for files in [int(it) for it in sys.argv[2:]] or SIZES:
        with new_folder() as folder:
            run(program, folder, loads(files))
            told = [number for first, *further in queries(program, folder, files) for number in (first, min(further))]
        print(f"| {files:,} | " + " | ".join(f"{it:.3f}" for it in told) + " |", flush=True)


if __name__ == "__main__":
    main()
