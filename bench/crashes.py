#!/usr/bin/env python3
"""Kills the program at random moments of its runs, and looks for what is lost of its store.

    bench/crashes.py [PROGRAM [KILLS]]

PROGRAM is the built program, by default crates/mesa/out/mesa, which `rt run` leaves there. It is run over one store
again and again, and killed by SIGKILL up to a second later, KILLS times, by default 200; and as often over a second store.
In the first one's runs a session works alone: it loads a table with a view, lets versions go, of all tables and of
this one by turns, and merges the table's files. In the second one's seven sessions work beside each other: five load a
table with a view, one of them into a second table by the same batches; one of the five lets versions go and merges the
table's files, and another one merges those of the other tables; one adds a column to a third table, loads, drops it,
and loads; one asks and pins, once there is a version.

The next run has to find of each session as many batches, in its order, as were told, or one more, which was on its way;
each batch whole, in both tables and the view; as many batches as the newest version says; and the column where one of the
changes that were on their way leaves it. No reply is a refusal. Told is what stood in the file that the run printed to."""
import collections
import os
import pathlib
import random
import re
import signal
import subprocess
import sys
import tempfile
import time

ROOT = pathlib.Path(__file__).resolve().parent.parent
KEYS = 7
LOADS = 400
WITH_COLUMN = 10
LONGEST = 1.0
LOADERS, TO_BOTH, EXPIRES, CHANGES, MERGES, ASKS = (1, 2, 3, 4, 6), 3, 4, 5, 6, 7
ALONE, BESIDE = (EXPIRES,), (1, 2, 3, 4, 5, 6, 7)
TABLES = ["table,t,session int;key int,n sum", "view,sessions,t,session,n", "table,w,key int,n sum", "table,u,key int,n sum"]
QUERIES = ["query,t", "query,sessions", "query,w", "query,u,,,,n"]
REPLY = re.compile(r"(\d)\.\d+@\d+ (\w+)")


class Found(collections.namedtuple("Found", "newest loads column")):
    """What a store has: its newest version, the batches of each work, and what the third table's added column
    sums to, or None where there is no such column."""


def stop(reason):
    sys.exit(f"crashes: {reason}")


def load(table, *fields):
    return "row," + ",".join(map(str, (table, *fields)))


def loading(work, first, behind):
    """Batches of a work whose first is its `first`, and after each the commands of `behind`."""
    for number in range(first, first + LOADS):
        yield load("t", work, number % KEYS, 1)
        if work == TO_BOTH:
            yield load("w", number % KEYS, 1)
        yield "commit"
        yield from behind(number - first)


def changing(before):
    """Some batches with the column, which is added where it isn't there, and many without it."""
    first = before.loads[CHANGES]
    if before.column is None:
        yield "alter,u,add_value,x sum,0"
    for number in range(first, first + WITH_COLUMN):
        yield from (load("u", number % KEYS, 1, 1), "commit")
    yield "alter,u,drop_value,x"
    for number in range(first + WITH_COLUMN, first + LOADS):
        yield from (load("u", number % KEYS, 1), "commit")


def asking():
    for token in range(1, LOADS + 1):
        yield from ("query,t", "query,sessions", "pin,", f"query,t,pin:{token}", f"release,{token}")


def commands(before, works):
    """A run's script over the store that was found: each work is a session's."""
    behind = {
        EXPIRES: lambda i: [f"expire,{'t,' if i % 2 else ''}{before.newest + 1 + i}", "work,t", "work,t"],
        MERGES: lambda i: ["work,u", "work,w"],
    }
    for session, work in enumerate(works):
        if session > 0:
            yield "session"
        if work in LOADERS:
            yield from loading(work, before.loads[work], behind.get(work, lambda i: []))
        elif work == CHANGES:
            yield from changing(before)
        elif before.newest >= 0:
            yield from asking()


def run(program, folder, lines):
    """A whole run, and the lines that it printed."""
    text = "".join(line + "\n" for line in lines)
    done = subprocess.run([program, "run"], cwd=folder, input=text, capture_output=True, text=True, timeout=600)
    if done.returncode > 1:
        stop(f"a run ended with status {done.returncode}: {done.stdout}")
    return done.stdout.splitlines()


def killed(program, folder, script, works):
    """A run that is killed: how many replies of each kind each work was told."""
    with open(script) as source, open(os.path.join(folder, "printed"), "w+") as printed:
        child = subprocess.Popen([program, "run"], cwd=folder, stdin=source, stdout=printed)
        time.sleep(random.uniform(0, LONGEST))
        child.send_signal(signal.SIGKILL)
        child.wait()
        printed.seek(0)
        text = printed.read()
    told = collections.Counter()
    for line in text[: text.rfind("\n") + 1].splitlines():
        reply = REPLY.match(line)
        if reply and reply[2] == "refused":
            stop(f"a command was refused: {line}")
        if reply:
            told[works[int(reply[1])], reply[2]] += 1
    return told


def answers(printed):
    """The replies of a run, each with its rows."""
    found = []
    for line in printed:
        if "@" in line:
            found.append((line.split(" ", 1)[1], []))
        else:
            found[-1][1].append(tuple(map(int, line.split(","))))
    return found


def spread(count):
    """What so many batches of a work add to its keys."""
    return {key: (count - key - 1) // KEYS + 1 for key in range(KEYS) if key < count}


def found(program, folder):
    """What a store has, once each answer is the fold of whole batches."""
    told = answers(run(program, folder, [*QUERIES, "query,u,,,-,x"]))
    if told[0][0].startswith("refused future"):
        return Found(-1, collections.Counter(), None if told[4][0] == "refused no_column" else 0)
    newest = int(re.fullmatch(r"rows \d+ version=(\d+)", told[0][0])[1])
    table, view, second, third, column = (rows for _, rows in told)
    loads = collections.Counter()
    for work, _, count in table:
        loads[work] += count
    loads[CHANGES] = sum(count for _, count in third)
    want = {(work, key): count for work in LOADERS for key, count in spread(loads[work]).items()}
    if {it[:2]: it[2] for it in table} != want:
        stop(f"at version {newest} the table has {table}")
    if dict(view) != {work: loads[work] for work in LOADERS if loads[work]}:
        stop(f"at version {newest} the view has {view}, and the table {table}")
    if dict(second) != spread(loads[TO_BOTH]) or dict(third) != spread(loads[CHANGES]):
        stop(f"at version {newest} the other tables have {second} and {third}, and the table {table}")
    if sum(loads.values()) != newest + 1:
        stop(f"the newest version is {newest}, and there are {loads}")
    if told[4][0] == "refused no_column":
        return Found(newest, loads, None)
    return Found(newest, loads, column[0][0] if column else 0)


def compare(before, told, now, added_at):
    """Holds what was found to what was there before and what was told since. Gives where the column was added."""
    for work in BESIDE:
        least = before.loads[work] + told[work, "loaded"]
        if not least <= now.loads[work] <= least + 1:
            stop(f"work {work} was told {told[work, 'loaded']} loads after {before}, and there are {now}")
    changes = told[CHANGES, "altered"]
    had, has = before.column is not None, now.column is not None
    if has and changes > (0 if had else 1) or not has and not had and changes == 1 and now.loads[CHANGES] < before.loads[CHANGES] + WITH_COLUMN:
        stop(f"{changes} changes were told after {before}, and there is {now}")
    if had and not has and now.loads[CHANGES] < before.loads[CHANGES] + WITH_COLUMN:
        stop(f"the column was dropped before its batches: after {before} there is {now}")
    if has and not had:
        added_at = before.loads[CHANGES]
    if has and now.column != now.loads[CHANGES] - added_at:
        stop(f"the column was added behind {added_at} batches, and there is {now}")
    return added_at


def kill_runs(program, kills, works):
    """Kills so many runs over one store, in which these works are done beside each other."""
    with tempfile.TemporaryDirectory(dir=os.getcwd()) as folder:
        script = os.path.join(folder, "script")
        run(program, folder, TABLES)
        before, added_at, replies = found(program, folder), 0, collections.Counter()
        for _ in range(kills):
            pathlib.Path(script).write_text("".join(line + "\n" for line in commands(before, works)))
            told = killed(program, folder, script, works)
            now = found(program, folder)
            added_at = compare(before, told, now, added_at)
            for (_, reply), count in told.items():
                replies[reply] += count
            before = now
        files = len(list(pathlib.Path(folder, "mesa-store").glob("*.mesa")))
    untold = before.newest + 1 - replies["loaded"]
    print(f"sessions: {len(works)}; kills: {kills}; batches told, and none lost: {replies['loaded']}; found though not told: {untold}")
    print(f"told besides: {replies['swapped']} merges, {replies['expired']} expiries, {replies['altered']} changes, {replies['rows']} answers; files in the end: {files}", flush=True)


def main():
    program = os.path.abspath(sys.argv[1] if len(sys.argv) > 1 else ROOT / "crates/mesa/out/mesa")
    kills = int(sys.argv[2]) if len(sys.argv) > 2 else 200
    for works in (ALONE, BESIDE):
        kill_runs(program, kills, works)


if __name__ == "__main__":
    main()
