"""What the measurements of programs have in common: a call with what it took, a run over a store, and the part of its time
that SHA-256 takes."""
import os
import pathlib
import re
import resource
import shutil
import subprocess
import sys
import tempfile
import time
import typing

ROOT = pathlib.Path(__file__).resolve().parent.parent


class Run(typing.NamedTuple):
    """A call's seconds by the clock and of the processors, its peak memory in MB, and what it printed."""

    seconds: float
    busy: float
    peak: float
    printed: str

    def beyond(self, other):
        """The seconds, by the clock and of the processors, that it took longer than another run."""
        return self.seconds - other.seconds, self.busy - other.busy


def given_program(name="mesa"):
    """The program that the command line names, or the one of a crate that `rt run` leaves."""
    return os.path.abspath(sys.argv[1] if len(sys.argv) > 1 else ROOT / f"crates/{name}/out/{name}")


def allow_open_files():
    """Lets the program have as many files open as it may: a query holds each file that it reads."""
    _, most = resource.getrlimit(resource.RLIMIT_NOFILE)
    resource.setrlimit(resource.RLIMIT_NOFILE, (most, most))


def machine():
    """What a table is printed under."""
    return f"processors: {os.cpu_count()}; load: {os.getloadavg()[0]:.1f}"


def new_folder():
    """A folder below the current one, so that the syncs are those of its device."""
    return tempfile.TemporaryDirectory(dir=os.getcwd())


def call(command, **how):
    """Calls a program, which has to end with status 0. `how` is what Popen is given.

    The peak is the one that GNU time tells, and nan where that is missing: what Python is told of a program that it
    starts itself is at least Python's own."""
    timer = shutil.which("time")
    with tempfile.NamedTemporaryFile("r") as told, tempfile.TemporaryFile("w+") as printed:
        before = [timer, "-q", "-f", "%M", "-o", told.name] if timer else []
        start = time.monotonic()
        child = subprocess.Popen([*before, *command], stdout=printed, **how)
        _, status, used = os.wait4(child.pid, 0)
        seconds = time.monotonic() - start
        child.returncode = os.waitstatus_to_exitcode(status)
        printed.seek(0)
        text = printed.read()
        peak = int(told.read()) * 1024 / 1e6 if timer else float("nan")
    if child.returncode != 0:
        sys.exit(f"{' '.join(command)}: ended with status {child.returncode}: {text[:200]}")
    return Run(seconds, used.ru_utime + used.ru_stime, peak, text)


def run(program, folder, lines, before=(), words=("run",)):
    """One call of the program over the store in a folder, by default a run of a script, in which every reply has to be Ok.
    `before` starts the program."""
    with tempfile.TemporaryFile("w+") as script:
        script.writelines(line + "\n" for line in lines)
        script.seek(0)
        return call([*before, program, *words], cwd=folder, stdin=script)


def least(runs):
    """What is least of each number of some runs, with what the last one printed."""
    *_, last = runs
    return Run(*(min(numbers) for numbers in zip(*(it[:3] for it in runs))), last.printed)


def again(program, folder, lines, runs=3):
    """The best of some runs of a script that leaves the store's files as they are."""
    lines = list(lines)
    return least([run(program, folder, lines) for _ in range(runs)])


def anew(program, folder, lines, runs=3):
    """The best of some runs of a script that changes the store: each but the last is made on a copy."""
    lines, found = list(lines), []
    for _ in range(runs - 1):
        with new_folder() as copy:
            if os.path.exists(f"{folder}/mesa-store"):
                shutil.copytree(f"{folder}/mesa-store", f"{copy}/mesa-store")
            found.append(run(program, copy, lines))
    return least([*found, run(program, folder, lines)])


def digest_part(program, folder, lines, words=("run",)):
    """The part of a call's processor time that SHA-256 takes, by perf's samples, in words. The store is left as it is."""
    if shutil.which("perf") is None:
        return "perf is missing"
    with new_folder() as copy:
        if os.path.exists(f"{folder}/mesa-store"):
            shutil.copytree(f"{folder}/mesa-store", f"{copy}/mesa-store")
        samples = f"{copy}/samples"
        run(program, copy, lines, ["perf", "record", "-q", "-e", "cpu-clock", "-F", "997", "-o", samples], words)
        asked = ["perf", "report", "-i", samples, "--stdio", "--sort", "symbol", "-g", "none"]
        told = subprocess.run(asked, capture_output=True, text=True).stdout
    parts = re.findall(r"^ *([0-9.]+)% .*\bsha2::", told, re.M)
    return f"{sum(map(float, parts)):.0f}%"


def stored(folder, ending):
    """The bytes of a store's files whose names end so."""
    return sum(it.stat().st_size for it in pathlib.Path(folder, "mesa-store").glob(f"*{ending}"))
