#!/usr/bin/env python3
"""Measures 100 versions of 2,000 rows beside sqlite3: the load, and 60 queries at versions, grouped and filtered,
before and after the versions are merged.

    bench/versions.py [PROGRAM]

PROGRAM is the built program, by default crates/mesa/out/mesa, which `rt run` leaves there. sqlite3 (python's module, in
WAL mode with full syncing) keeps the rows of each batch with the batch's version, a transaction a batch, and answers a
query at a version from the rows up to it. The answers of both are compared. A query's time is what a run of all 60 takes
beyond a run of none. Best of three."""
import os
import random
import sqlite3
import time

from measure import again, allow_open_files, anew, digest_part, given_program, machine, new_folder, stored

VERSIONS = 100
ROWS = 2_000
KEYS = 50_000
ASKED = 20
RUNS = 3
TABLE = "table,sales,day int;shop int;product int,units sum;cents sum;dearest max"
SALES = """create table sales (version integer, day integer, shop integer, product integer, units integer, cents integer,
    dearest integer, primary key (version, day, shop, product)) without rowid"""
VALUES = "sum(units), sum(cents), max(dearest)"


def batches():
    """The rows of each version: 2,000 of 50,000 keys, drawn at random with a fixed seed."""
    draw = random.Random(1)
    for _ in range(VERSIONS):
        yield [row(draw, key) for key in draw.sample(range(KEYS), ROWS)]


def row(draw, key):
    units, price = draw.randint(1, 20), draw.randint(99, 9999)
    return 20260101 + key // 1000, key // 100 % 10, key % 100, units, units * price, price


def loads():
    """The load as a script."""
    yield TABLE
    for batch in batches():
        for it in batch:
            yield "row,sales," + ",".join(map(str, it))
        yield "commit"


def merging():
    """Lets the older half of the versions go, and does all work that there is then."""
    yield f"expire,{VERSIONS // 2}"
    for _ in range(VERSIONS // 20 + 1):
        yield "work,sales"


def queries():
    """Each query as a command and in SQL, at versions of the newer half."""
    for i in range(ASKED):
        version = VERSIONS // 2 + i * 7 % (VERSIONS // 2)
        upto, day, product = f"version <= {version}", 20260101 + i * 11 % 50, i * 37 % 100
        yield f"query,sales,{version},,shop", f"select shop, {VALUES} from sales where {upto} group by shop order by shop"
        yield (
            f"query,sales,{version},day={day},product",
            f"select product, {VALUES} from sales where {upto} and day = {day} group by product order by product",
        )
        yield (
            f"query,sales,{version},product={product},day",
            f"select day, {VALUES} from sales where {upto} and product = {product} group by day order by day",
        )


def commands():
    return [command for command, _ in queries()]


def peer_load(folder):
    """Seconds in which sqlite3 loads the batches, and the database."""
    path = os.path.join(folder, "peer.db")
    whole = list(batches())
    start = time.monotonic()
    base = sqlite3.connect(path, isolation_level=None)
    base.execute("pragma journal_mode = wal")
    base.execute("pragma synchronous = full")
    base.execute(SALES)
    for version, batch in enumerate(whole):
        base.execute("begin")
        base.executemany(f"insert into sales values ({version}, ?, ?, ?, ?, ?, ?)", batch)
        base.execute("commit")
    return time.monotonic() - start, base


def peer_queries(base):
    """Seconds in which sqlite3 answers all queries, and the answers' rows."""
    start = time.monotonic()
    rows = [",".join(map(str, it)) for _, asked in queries() for it in base.execute(asked)]
    return time.monotonic() - start, rows


def peer():
    """The best seconds of sqlite3's load and queries, and the rows."""
    found = []
    for _ in range(RUNS):
        with new_folder() as folder:
            load, base = peer_load(folder)
            found.append((load, *peer_queries(base)))
            base.close()
    return min(it[0] for it in found), min(it[1] for it in found), found[0][2]


def answered(program, folder, rows):
    """The seconds of all queries beyond an empty run, once the answers are those of the other side; and both runs."""
    empty, asked = again(program, folder, []), again(program, folder, commands())
    if [it for it in asked.printed.splitlines() if "@" not in it] != rows:
        raise SystemExit("the answers differ")
    return asked.beyond(empty), empty, asked


def line(name, pair, other, part, rows=None):
    """A line of the table. Beside SHA-256's part, what the rest costs for each row that is read or written."""
    seconds, busy = pair
    rest = "" if rows is None else f"{busy * (1 - float(part.rstrip('%')) / 100) / rows * 1e9:.0f}" if "%" in part else "?"
    beside = f"{other:.2f} | {seconds / other:.2f}" if other else " | "
    return f"| {name} | {seconds:.2f} | {busy:.2f} | {beside} | {part} | {rest} |"


def main():
    program = given_program()
    allow_open_files()
    peer_loads, peer_asks, rows = peer()
    print(f"{machine()}; {VERSIONS} versions of {ROWS:,} rows; {3 * ASKED} queries")
    print("| | s | processor s | sqlite3, s | times sqlite3's | SHA-256 | the rest, ns a row |")
    print("|---|---|---|---|---|---|---|")
    with new_folder() as folder:
        loaded = anew(program, folder, loads(), RUNS)
        with new_folder() as other:
            part = digest_part(program, other, loads())
        script = sum(len(it) + 1 for it in loads()) / 1e6
        print(line("load", loaded[:2], peer_loads, part, VERSIONS * ROWS), flush=True)
        beyond, empty, asked = answered(program, folder, rows)
        # (a query of one day reads one of the two blocks of each version's file, the others read both)
        read = sum((VERSIONS // 2 + i * 7 % (VERSIONS // 2) + 1) * ROWS for i in range(ASKED))
        part = digest_part(program, folder, commands())
        print(line("queries, nothing merged", beyond, peer_asks, part, 2.5 * read), flush=True)
        merged = anew(program, folder, merging(), RUNS)
        print(line("merging", merged.beyond(empty), None, ""), flush=True)
        beyond, after, _ = answered(program, folder, rows)
        part = digest_part(program, folder, commands())
        print(line("queries, merged", beyond, peer_asks, part), flush=True)
        print(f"opening {empty.seconds * 1000:.0f} ms with {VERSIONS} files, merged {after.seconds * 1000:.0f} ms;", end=" ")
        print(f"peak MB: load {loaded.peak:.0f} with a script of {script:.0f}, queries {asked.peak:.0f}, merging {merged.peak:.0f};", end=" ")
        print(f"files {stored(folder, '.mesa'):,} bytes, journal {stored(folder, 'journal0'):,}")


if __name__ == "__main__":
    main()
