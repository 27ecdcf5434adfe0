#!/usr/bin/env python3
"""Kills a program at random moments while it stores batches in a folder, and looks for what is lost.

    bench/kills.py [PROGRAM [KILLS]]

PROGRAM is the built program, by default crates/mesa_dir_bench/out/mesa_dir_bench. It is started, killed by SIGKILL up
to 60 ms later, and started again, KILLS times, by default 200. Each start checks all that is there; a batch that was
acknowledged before a kill has to be among it. The first start has its standard streams closed: what it prints must
not get into a file. Now and then a second program is started beside the first: it must fail, and the first go on."""
import os
import pathlib
import random
import signal
import subprocess
import sys
import tempfile
import time

ROOT = pathlib.Path(__file__).resolve().parent.parent
MANY = 1_000_000_000
LONGEST = 0.06


def stop(reason):
    """Ends with what went wrong."""
    sys.exit(f"kills: {reason}")


def without_streams(program, folder):
    """A run of two batches with its standard streams closed. It fails when it prints, and nothing else happens."""
    command = f'exec "{program}" anew 2 <&- >&- 2>&-'
    subprocess.run(["sh", "-c", command], cwd=folder, timeout=60)
    journal = pathlib.Path(folder, "mesa-bench-store", "journal0").read_bytes()
    if b"found" in journal:
        stop("what was printed is in the journal")


def found_in(line):
    """The number of batches that a start found."""
    word, number = line.split()
    if word != "found":
        stop(f"a start printed {line!r}")
    return int(number)


def second(program, folder):
    """A second program over the same folder, which must fail."""
    run = subprocess.run([program, "on", str(MANY)], cwd=folder, capture_output=True, timeout=60)
    if run.returncode == 0 or run.stdout:
        stop("a second program opened the folder")


def killed(program, folder, word, beside):
    """One start that is killed: how many batches it found, and how many were acknowledged in all."""
    child = subprocess.Popen([program, word, str(MANY)], cwd=folder, stdout=subprocess.PIPE, stderr=subprocess.PIPE, text=True)
    first = child.stdout.readline()
    if not first:
        stop(f"a start failed: {child.stderr.read()}")
    if beside:
        second(program, folder)
    time.sleep(random.uniform(0, LONGEST))
    child.send_signal(signal.SIGKILL)
    # (communicate would leave out what readline has read beyond the first line)
    rest = child.stdout.read()
    child.stderr.close()
    child.stdout.close()
    child.wait()
    if child.returncode != -signal.SIGKILL:
        stop(f"a run ended by itself with status {child.returncode}")
    found = found_in(first)
    whole = [int(line) for line in rest.split("\n")[:-1]]
    if whole != list(range(found, found + len(whole))):
        stop("the numbers that were acknowledged don't follow each other")
    return found, found + len(whole)


def main():
    program = os.path.abspath(sys.argv[1] if len(sys.argv) > 1 else ROOT / "crates/mesa_dir_bench/out/mesa_dir_bench")
    kills = int(sys.argv[2]) if len(sys.argv) > 2 else 200
    with tempfile.TemporaryDirectory(dir=os.getcwd()) as folder:
        without_streams(program, folder)
        acknowledged = 0
        unacknowledged = 0
        for number in range(kills):
            found, now = killed(program, folder, "on" if number else "anew", number % 20 == 10)
            if not acknowledged <= found <= acknowledged + 1:
                stop(f"{acknowledged} batches were acknowledged, and a start found {found}")
            unacknowledged += found - acknowledged
            acknowledged = now
        run = subprocess.run([program, "on", "0"], cwd=folder, capture_output=True, text=True, timeout=60)
        last = found_in(run.stdout) if run.returncode == 0 else stop(run.stderr)
        if last < acknowledged:
            stop(f"{acknowledged} batches were acknowledged, and the last start found {last}")
    print(f"kills: {kills}; batches acknowledged: {acknowledged}, none lost; found though not acknowledged: {unacknowledged}")


if __name__ == "__main__":
    main()
