#!/usr/bin/env python3
"""Measures a batch of two files of 2 KB and its record in a folder: milliseconds, beside the same number of bare
syncs on the same folder, and beside sqlite3.

    bench/syncs.py [PROGRAM [BATCHES]]

PROGRAM is the built program, by default crates/mesa_dir_bench/out/mesa_dir_bench; BATCHES is 100 by default. A batch
takes five syncs: of two files, then of the journal by its data and of the folder's names beside each other, and of the
journal once more. The bare syncs do the same writes and names and nothing else. sqlite3 stores as many bytes a transaction, in WAL mode with full
syncing. The three take turns, and the median of five rounds counts."""
import os
import pathlib
import sqlite3
import statistics
import subprocess
import sys
import tempfile
import threading
import time

ROOT = pathlib.Path(__file__).resolve().parent.parent
ROUNDS = 5
FILE = bytes(2_048)
RECORD = bytes(14)


def batches(program, folder, count):
    """Seconds in which the program stores so many batches, from its first line on, which it prints when it has opened."""
    with subprocess.Popen([program, "anew", str(count)], cwd=folder, stdout=subprocess.PIPE) as child:
        child.stdout.readline()
        begun = time.perf_counter()
        child.stdout.read()
        seconds = time.perf_counter() - begun
    if child.returncode != 0:
        sys.exit(f"syncs: the program ended with status {child.returncode}")
    return seconds


def bare(folder, count):
    """Seconds of the same syncs, with nothing but the writes and the names that they need."""
    place = os.path.join(folder, "bare")
    os.makedirs(place, exist_ok=True)
    names = os.open(place, os.O_RDONLY)
    journal = os.open(os.path.join(place, "journal"), os.O_RDWR | os.O_CREAT | os.O_TRUNC)
    begun = time.perf_counter()
    for batch in range(count):
        for file in (0, 1):
            path = os.path.join(place, f"draft{file}")
            draft = os.open(path, os.O_WRONLY | os.O_CREAT | os.O_EXCL)
            os.write(draft, FILE)
            os.fsync(draft)
            os.close(draft)
        for file in (0, 1):
            os.rename(os.path.join(place, f"draft{file}"), os.path.join(place, f"{batch}.{file}"))
        os.pwrite(journal, RECORD, batch * len(RECORD))
        beside = threading.Thread(target=os.fsync, args=(names,))
        beside.start()
        os.fdatasync(journal)
        beside.join()
        os.pwrite(journal, b"\1", batch * len(RECORD))
        os.fdatasync(journal)
    seconds = time.perf_counter() - begun
    os.close(journal)
    os.close(names)
    subprocess.run(["rm", "-r", place], check=True)
    return seconds


def transactions(folder, count):
    """Seconds of as many transactions of sqlite3, each of two blobs and a record."""
    path = os.path.join(folder, "sqlite.db")
    base = sqlite3.connect(path, isolation_level=None)
    base.execute("pragma journal_mode = wal")
    base.execute("pragma synchronous = full")
    base.execute("create table files (id integer primary key, bytes blob)")
    base.execute("create table records (id integer primary key)")
    begun = time.perf_counter()
    for batch in range(count):
        base.execute("begin")
        base.execute("insert into files values (?, ?)", (2 * batch, FILE))
        base.execute("insert into files values (?, ?)", (2 * batch + 1, FILE))
        base.execute("insert into records values (?)", (batch,))
        base.execute("commit")
    seconds = time.perf_counter() - begun
    base.close()
    for end in ("", "-wal", "-shm"):
        if os.path.exists(path + end):
            os.remove(path + end)
    return seconds


def main():
    program = os.path.abspath(sys.argv[1] if len(sys.argv) > 1 else ROOT / "crates/mesa_dir_bench/out/mesa_dir_bench")
    count = int(sys.argv[2]) if len(sys.argv) > 2 else 100
    with tempfile.TemporaryDirectory(dir=os.getcwd()) as folder:
        rounds = [(batches(program, folder, count), bare(folder, count), transactions(folder, count)) for _ in range(ROUNDS)]
    ours, syncs, sqlite = (statistics.median(column) * 1000 / count for column in zip(*rounds))
    print(f"processors: {os.cpu_count()}; load: {os.getloadavg()[0]:.1f}; {count} batches, median of {ROUNDS} rounds")
    print("| | ms a batch | against bare syncs |")
    print("|---|---|---|")
    print(f"| two files of 2 KB and a record | {ours:.2f} | {ours / syncs:.2f} |")
    print(f"| five bare syncs | {syncs:.2f} | 1 |")
    print(f"| sqlite3, WAL, full syncing | {sqlite:.2f} | {sqlite / syncs:.2f} |")


if __name__ == "__main__":
    main()
