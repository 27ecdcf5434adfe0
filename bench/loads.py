#!/usr/bin/env python3
"""Prints a script of loads and queries: bench/loads.py ROWS [KIND QUERIES].

The table has 10,000 keys. Each load has 1,000 rows of different keys, drawn at random
with a fixed seed; every tenth load is followed by an expiry of all versions but the newest, and by the work
that makes these versions the table's base. Behind the loads stand QUERIES queries of one KIND: grouped, range or row."""
import random
import sys

KEYS = 10_000
BATCH = 1_000
KEPT = 10
TABLE = "table,sales,day int;shop int;product int,units sum;cents sum;dearest max"
QUERIES = {
    # all rows, grouped by shop
    "grouped": "query,sales,,,shop",
    # the rows of one of ten days
    "range": "query,sales,,day>=20260104&day<20260105",
    # one row
    "row": "query,sales,,day=20260104&shop=7&product=42",
}


def row(draw, key):
    day, shop, product = 20260101 + key // 1000, key // 100 % 10, key % 100
    units, price = draw.randint(1, 20), draw.randint(99, 9999)
    return f"row,sales,{day},{shop},{product},{units},{units * price},{price}"


def script(rows, kind=None, queries=0):
    draw = random.Random(rows)
    yield TABLE
    for version in range(rows // BATCH):
        for key in draw.sample(range(KEYS), BATCH):
            yield row(draw, key)
        yield "commit"
        if version % KEPT == KEPT - 1:
            yield f"expire,{version}"
            yield "work,sales"
    for _ in range(queries):
        yield QUERIES[kind]


if __name__ == "__main__":
    if len(sys.argv) not in (2, 4) or (len(sys.argv) == 4 and sys.argv[2] not in QUERIES):
        sys.exit(__doc__)
    words = [int(sys.argv[1])] + ([sys.argv[2], int(sys.argv[3])] if len(sys.argv) == 4 else [])
    for line in script(*words):
        print(line)
