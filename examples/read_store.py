#!/usr/bin/env python3
"""Reads a store without the program, as docs/STORE.md and docs/FORMATS.md tell.

    python3 examples/read_store.py STORE                       lists the tables and views, the floor and the newest version
    python3 examples/read_store.py STORE RELATION [VERSION]    prints a table or view at a version (the newest) as csv

STORE is the store's folder. The list has each table and view as the command that would make it with its present columns,
and each table's oldest version above the floor as its expiry. The csv has all rows, as `query,RELATION,VERSION` prints them: key columns, then value columns, by rising key, no head.
Rows are folded in memory. Nothing is written and no lock is taken, so read a store that no program has open, or a copy.
What is wrong is told in one line, with status 1: of what is asked for, and by the list of every file's length and tail."""
import argparse
import hashlib
import itertools
import pathlib
import signal
import sys

from catalogue import AGGREGATIONS, KEY_TYPES, Bytes, Catalogue, Fault, live

COMBINE = {"sum": int.__add__, "min": min, "max": max, "replace": lambda older, newer: newer}
MAGICS = {1: b"MESADLT1", 2: b"MESADLT2"}
BLOCK_ENTRY, FOOT = 60, 22


# FORMATS, "Delta file" and "Row block"


def blocks(file, told, columns):
    """The offset, length and digest of each block of a file, out of its tail, once that is the recorded one."""
    length = BLOCK_ENTRY * told.blocks + len(columns.keys) + len(columns.values) + FOOT
    file.seek(max(0, told.length - length))
    tail = file.read()
    if len(tail) != length or hashlib.sha256(tail).digest() != told.digest:
        raise Fault(f"{told.file} is damaged: its tail isn't the one that was written")
    b = Bytes(tail, f"the tail of {told.file}")
    found = [block(b) for _ in range(told.blocks)]
    words = [b.one_of(KEY_TYPES) for _ in columns.keys] + [b.one_of(AGGREGATIONS) for _ in columns.values]
    foot = b.number(8), b.number(4), b.number(1), b.number(1), b.take(8)
    if words != [it.word for it in (*columns.keys, *columns.values)]:
        raise b.fault("its columns are others than the journal's")
    if foot != (told.rows, told.blocks, len(columns.keys), len(columns.values), MAGICS[told.format]):
        raise b.fault("its counts or its format are others than the journal's")
    return found


def block(b):
    """A block's offset, length and digest, behind the short key of its first key."""
    b.take(16)
    return b.number(8), b.number(4), b.take(32)


def block_rows(b, columns, file_format):
    """The rows of a block: its columns one after the other. A sum takes 16 bytes from format 2 on, other values 8."""
    if b.number(1) != 0:
        raise b.fault("its flag isn't 0")
    count = b.number(2)
    keys = [key_column(b, it.word, count) for it in columns.keys]
    sizes = [16 if it.word == "sum" and file_format == 2 else 8 for it in columns.values]
    values = [[b.value(size) for _ in range(count)] for size in sizes]
    b.end()
    return zip(zip(*keys), zip(*values))


def key_column(b, word, count):
    """FORMATS, "Key bytes": an int has its sign bit flipped. In a block a text has its length before all texts."""
    if word == "int":
        return [b.number(8) - 2**63 for _ in range(count)]
    lengths = [b.number(1) for _ in range(count)]
    return [b.take(it) for it in lengths]


class Store:
    """A store's folder, and the catalogue that its journal makes."""

    def __init__(self, folder):
        self.folder, self.catalogue = pathlib.Path(folder), Catalogue()
        if not self.folder.is_dir():
            raise Fault(f"{folder}: there is no such folder")
        area, records = live([self.journal(number) for number in (0, 1)])
        if not records:
            raise Fault(f"{folder}: the journal has no record, so this is no store, or an empty one")
        self.catalogue.apply_all(area, records)

    def journal(self, number):
        """The bytes of a journal area; one that isn't there is empty."""
        path = self.folder / f"journal{number}"
        return path.read_bytes() if path.exists() else b""

    @property
    def newest(self):
        """The newest version, or None where there is none."""
        return self.catalogue.next - 1 if self.catalogue.next else None

    def table(self, name):
        for it in self.catalogue.tables:
            if it.name == name:
                return it
        raise Fault(f"there is no table {name}")

    def relation(self, name):
        """A table, and the number of its view or None."""
        for table in self.catalogue.tables:
            names = [it.name for it in table.views]
            if name in (table.name, *names):
                return table, None if name == table.name else names.index(name)
        raise Fault(f"there is no table or view {name}")

    def version(self, table, asked):
        """The version that is asked of a table, the newest where none is."""
        newest = self.newest
        if newest is None:
            raise Fault("there is no version yet")
        version = newest if asked is None else asked
        if not table.oldest <= version <= newest:
            raise Fault(f"{table.name} has no version {version}: its oldest is {table.oldest}, the newest {newest}")
        return version

    def rows(self, name, asked=None):
        """The columns of a table or view, and its rows at a version, folded, by rising key. STORE, "From the catalogue to rows"."""
        table, view = self.relation(name)
        version = self.version(table, asked)
        columns = table.columns if view is None else table.views[view].columns(table.columns)
        rows = itertools.chain.from_iterable(self.delta_rows(table, view, it) for it in table.plan(version))
        return columns, fold(rows, columns)

    def delta_rows(self, table, view, delta):
        """The rows of a delta, lifted to the present: those of a view by its own file where there is one."""
        if view in delta.files.views:
            return self.file_rows(delta.files.views[view], table.views[view].columns(table.columns))
        rows = table.lifted(delta.epoch, self.file_rows(delta.files.table, table.columns_at(delta.epoch)))
        return rows if view is None else table.views[view].derived(table.columns, rows)

    def file_rows(self, told, columns):
        """The rows of a file: its blocks one after the other, each with the digest that the tail has of it."""
        with self.opened(told) as file:
            for offset, length, digest in blocks(file, told, columns):
                file.seek(offset)
                data = file.read(length)
                source = f"the block at {offset} of {told.file}"
                if hashlib.sha256(data).digest() != digest:
                    raise Fault(f"{source} is damaged: it isn't what was written")
                yield from block_rows(Bytes(data, source), columns, told.format)

    def opened(self, told):
        path = self.folder / told.file
        if not path.is_file():
            raise Fault(f"{told.file} is not there, and the journal names it")
        found = path.stat().st_size
        if found != told.length:
            raise Fault(f"{told.file} is damaged: it has {found} bytes, and {told.length} were written")
        return path.open("rb")

    def test_files(self, table):
        """Tests that each file of a table is there, with the length and the tail that were recorded."""
        for delta in table.deltas():
            self.test_file(delta.files.table, table.columns_at(delta.epoch))
            for view, told in delta.files.views.items():
                self.test_file(told, table.views[view].columns(table.columns))

    def test_file(self, told, columns):
        with self.opened(told) as file:
            blocks(file, told, columns)


def fold(rows, columns):
    """Rows of the same key combined column by column, the older first, by rising key."""
    ways, found = [COMBINE[it.word] for it in columns.values], {}
    for key, row in rows:
        older = found.get(key)
        found[key] = row if older is None else tuple(way(a, b) for way, a, b in zip(ways, older, row))
    return sorted(found.items())


def print_rows(rows):
    for key, values in rows:
        print(*map(field, key), *values, sep=",")


def field(key):
    """A key column as a field of csv: quoted where it has to be."""
    if isinstance(key, int):
        return key
    try:
        text = key.decode()
    except UnicodeDecodeError:
        raise Fault(f"a text key isn't UTF-8: {key.hex()}") from None
    return '"' + text.replace('"', '""') + '"' if any(it in text for it in ',"\r\n') else text


def print_list(store):
    catalogue = store.catalogue
    print(f"floor {catalogue.floor}, newest {'none' if store.newest is None else store.newest}")
    for table in catalogue.tables:
        keys, values = table.columns
        print(f"table,{table.name},{';'.join(map(str, keys))},{';'.join(map(str, values))}")
        for view in table.views:
            print(f"view,{view.name},{table.name},{';'.join(view.keys)},{';'.join(view.values)}")
    for table in catalogue.tables:
        if table.oldest > catalogue.floor:
            print(f"expire,{table.name},{table.oldest}")


def run(program):
    """Runs a program over a store: what is wrong is told in one line, with status 1."""
    signal.signal(signal.SIGPIPE, signal.SIG_DFL)
    sys.stdout.reconfigure(encoding="utf-8")
    try:
        program()
    except (Fault, OSError) as it:
        sys.stdout.flush()
        sys.exit(str(it))


def main():
    words = argparse.ArgumentParser(description="Reads a store without the program.")
    words.add_argument("store", help="the store's folder")
    words.add_argument("relation", nargs="?", help="a table or a view; without it, all of them are listed")
    words.add_argument("version", nargs="?", type=int, help="the newest where none is given")
    asked = words.parse_args()
    store = Store(asked.store)
    if asked.relation is not None:
        _, rows = store.rows(asked.relation, asked.version)
        return print_rows(rows)
    print_list(store)
    for table in store.catalogue.tables:
        store.test_files(table)


if __name__ == "__main__":
    run(main)
