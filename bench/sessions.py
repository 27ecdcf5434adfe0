#!/usr/bin/env python3
"""Measures sessions beside each other: queries a second of one session, of seven, and of six while one loads; and what
commands take whose turns sync nothing.

    bench/sessions.py [PROGRAM]

PROGRAM is the built program, by default crates/mesa/out/mesa, which `rt run` leaves there. Of a script's eight sessions
the first runs alone, so seven run beside each other. A query reads one file of 100,000 rows, and another one of 2,000
rows, whole, and groups them. Times are beyond an empty run, the best of three. The session that loads commits as many
batches of 10 rows as it can in about the time that the queries take, so that there are loads from the first query to
nearly the last. A command's time is that of 50 to 2,000 in one run, divided: it is more than any of its turns takes, as it
has one turn or several, and what is done between them. A query opens the files of its plan in its first turn, as a work does
those that it merges."""
from measure import again, anew, allow_open_files, given_program, machine, new_folder, run

GROUPS = 10
SIZES = {"wide": 100_000, "small": 2_000}
ASKED = {"wide": 60, "small": 1_200}
MANY = 2_000
FILES = [1, 10, 100, 1_000]
SIDE_BY_SIDE = 7


def rows(table, count):
    """A batch of so many rows for a table."""
    yield from (f"row,{table},{i},{i % GROUPS},{i * 7 % 1000}" for i in range(count))
    yield "commit"


def tables():
    """The tables: two that are asked, one that is loaded, and one for each number of files, which no work has merged."""
    for name, count in SIZES.items():
        yield f"table,{name},k int;part int,n sum"
        yield from rows(name, count)
    yield "table,loaded,k int;part int,n sum"
    for files in FILES:
        yield f"table,files{files},k int;part int,n sum"
        for _ in range(files):
            yield from rows(f"files{files}", 10)


def asking(name, count):
    """So many queries that read a table whole."""
    return [f"query,{name},,,part"] * count


def loading(count):
    """So many small batches."""
    return [line for _ in range(count) for line in rows("loaded", 10)]


def side_by_side(*sessions):
    """A script whose sessions run beside each other, behind a first one that does nothing."""
    return [line for session in sessions for line in ["session", *session]]


def at_once(program, folder, name):
    """Prints the queries a second of one session, of seven, and of six while the seventh loads."""
    count, empty = ASKED[name], again(program, folder, [])
    alone, _ = again(program, folder, asking(name, count)).beyond(empty)
    together, _ = again(program, folder, side_by_side(*[asking(name, count)] * SIDE_BY_SIDE)).beyond(empty)
    load, _ = anew(program, folder, loading(100), 1).beyond(empty)
    # (loads take longer beside queries than alone)
    asked, batches = [asking(name, count)] * (SIDE_BY_SIDE - 1), max(1, int(together * 0.8 / load * 100))
    beside, _ = again(program, folder, side_by_side(*asked, loading(batches))).beyond(empty)
    one, seven, six = count / alone, SIDE_BY_SIDE * count / together, (SIDE_BY_SIDE - 1) * count / beside
    print(f"| {SIZES[name]:,} rows | {one:.0f} | {seven:.0f} | {seven / one:.2f} | {six:.0f} | {six / one:.2f} | {batches} in {beside:.2f} s |", flush=True)


def do_all_work(program, folder, table):
    """Works on a table until it has no work left."""
    while not run(program, folder, [f"work,{table}"] * 20).printed.endswith(" idle\n"):
        pass


def a_command(program, folder, name, lines):
    """Prints what one of many commands takes."""
    empty, many = again(program, folder, []), again(program, folder, lines)
    seconds, busy = many.beyond(empty)
    print(f"| {name} | {seconds / len(lines) * 1000:.3f} | {busy / len(lines) * 1000:.3f} |", flush=True)


def main():
    program = given_program()
    allow_open_files()
    with new_folder() as folder:
        run(program, folder, tables())
        print(machine())
        print("| a command | ms | processor ms |")
        print("|---|---|---|")
        a_command(program, folder, "explain", ["explain,small"] * MANY)
        a_command(program, folder, "pin, release", [it for i in range(MANY // 2) for it in ("pin,", f"release,{i + 1}")])
        do_all_work(program, folder, "loaded")
        a_command(program, folder, "work, with nothing to do", ["work,loaded"] * MANY)
        for files in FILES:
            a_command(program, folder, f"query of no block, {files} files", [f"query,files{files},,k<0"] * max(50, MANY // files))
        # (behind the commands, since a quick machine loads many batches, each of which is a version of every table)
        print("queries a second")
        print("| a table of | one session | seven | times one | six beside a load | times one | loads |")
        print("|---|---|---|---|---|---|---|")
        for name in SIZES:
            at_once(program, folder, name)


if __name__ == "__main__":
    main()
