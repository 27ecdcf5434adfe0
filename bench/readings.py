#!/usr/bin/env python3
"""Holds what examples/read_store.py reads from a store against what the program answers, row by row and byte for byte.

    bench/readings.py [PROGRAM [STORES [FIRST]]]

PROGRAM is the built program, by default crates/mesa/out/mesa, which `rt run` leaves there. STORES stores are made, by
default 50, with the numbers from FIRST on, by default 0: every second one begins with `gen SEED VERSIONS`, and each goes on
with runs of scripts that bench/stories.py draws by its number. Then each table and view is read at several versions: by the
reader, and by one more run's queries. The list of the store's tables is held against the refusals of versions that aren't
there, and makes the same tables in an empty store. Each view's rows are held against its table's, grouped; and each table is
drawn, and the drawing is XML. The reader is called as a program once a store, and else as a module."""
import collections
import contextlib
import io
import random
import re
import subprocess
import sys
import xml.etree.ElementTree

from measure import ROOT, given_program, new_folder
from stories import Story, Table

EXAMPLES = ROOT / "examples"
sys.path.append(str(EXAMPLES))
from read_store import Store, fold, print_rows

HEAD = re.compile(rb"0\.(\d+)@\d+ rows (\d+) version=(\d+)\n")
NO_VERSION = 4294967295
GENERATED = [("day", "int"), ("site", "int")], [("clicks", "sum"), ("low", "min"), ("last", "replace")]


def stop(reason):
    sys.exit(f"readings: {reason}")


def printed(command, status=0, **how):
    """What a command prints, as bytes. It has to end with this status."""
    done = subprocess.run(command, capture_output=True, **how)
    if done.returncode != status or done.stderr:
        stop(f"{command} ended with status {done.returncode}: {done.stderr.decode()}{done.stdout[-300:].decode()}")
    return done.stdout


def told(program, folder, lines, status=0):
    """What a run of a script prints over the store in a folder."""
    return printed([program, "run"], status, cwd=folder, input="".join(it + "\n" for it in lines).encode())


def read(*words):
    return printed([sys.executable, EXAMPLES / "read_store.py", *map(str, words)])


def csv_of(store, name, version):
    """What the reader prints of a table or view at a version."""
    out = io.StringIO()
    with contextlib.redirect_stdout(out):
        _, rows = store.rows(name, version)
        print_rows(rows)
    return out.getvalue().encode()


def generated(program, folder, draw):
    """A story that begins with a generated script: an expiry stands behind every twenty-fifth version."""
    versions = draw.randint(1, 50)
    printed([program, "gen", str(draw.randrange(65537)), str(versions)], cwd=folder)
    floor = max(0, versions // 25 * 25 - 11)
    facts = Table("facts", *map(list, GENERATED), floor)
    facts.views, facts.used = 1, {"clicks", "low"}
    return Story(draw, [facts], versions, floor)


def make(program, folder, number):
    """The store of a number, by several runs."""
    draw = random.Random(number)
    story = generated(program, folder, draw) if number % 2 else Story(draw)
    for _ in range(draw.randint(1, 4)):
        told(program, folder, story.run())
    return draw


def some_versions(draw, store, table):
    oldest, newest = table.oldest, store.newest
    return sorted({oldest, newest, *(draw.randint(oldest, newest) for _ in range(3))})


def questions(draw, store):
    """Each relation at some versions."""
    for table in store.catalogue.tables:
        for name in (table.name, *(it.name for it in table.views)):
            for version in some_versions(draw, store, table):
                yield name, version


def compare(program, folder, store, asked):
    """The reader's csv against the rows that the program prints. Gives how many rows these were."""
    rows, at = 0, 0
    answers = told(program, folder, [f"query,{name},{version},,,,10000" for name, version in asked])
    for number, (name, version) in enumerate(asked, 1):
        text, head = csv_of(store, name, version), HEAD.match(answers, at)
        if not head or (int(head[1]), int(head[3])) != (number, version) or not answers.startswith(text, head.end()):
            stop(f"of {name} at {version} the reader has {text[:300]}, and the program {answers[at:at + 300]}")
        rows, at = rows + int(head[2]), head.end() + len(text)
    if at != len(answers):
        stop(f"behind the last answer the program has {answers[at:at + 300]}")
    return rows


def compare_list(program, folder, store):
    """The list's versions against the program's refusals, and its tables against those that they make in an empty store."""
    path, catalogue = folder + "/mesa-store", store.catalogue
    name, oldest, newest = catalogue.tables[0].name, catalogue.tables[0].oldest, store.newest
    if read(path, name) != csv_of(store, name, None):
        stop(f"as a program the reader has {read(path, name)}")
    first, *commands = read(path).decode().splitlines()
    if first != f"floor {catalogue.floor}, newest {newest}":
        stop(f"the list begins with {first}")
    wanted = {NO_VERSION: f"future asked={NO_VERSION} newest={newest}"}
    if oldest > 0:
        wanted[oldest - 1] = f"stale asked={oldest - 1} oldest={oldest}"
    refused = told(program, folder, [f"query,{name},{it}" for it in wanted], 1)
    if [it.split(" refused ")[1] for it in refused.decode().splitlines()] != list(wanted.values()):
        stop(f"the list begins with {first}, and the program says {refused}")
    made = [it for it in commands if not it.startswith("expire,")]
    with new_folder() as other:
        told(program, other, made)
        if read(other + "/mesa-store").decode().splitlines()[1:] != made:
            stop(f"other tables are made by {made}")


def compare_views(store, version):
    """Each view's rows, by its own files where it has some, against its table's rows, grouped."""
    for table in store.catalogue.tables:
        columns, rows = store.rows(table.name, version)
        for view in table.views:
            own, found = store.rows(view.name, version)
            if found != fold(view.derived(columns, rows), own):
                stop(f"the view {view.name} isn't its table's rows at {version}")


def draw_tables(path, store):
    for table in store.catalogue.tables:
        picture = printed([sys.executable, EXAMPLES / "draw_store.py", path, table.name])
        xml.etree.ElementTree.fromstring(picture)


def try_store(program, number):
    """Makes a store and reads it. Gives what it has, counted."""
    with new_folder() as folder:
        draw = make(program, folder, number)
        path = folder + "/mesa-store"
        store = Store(path)
        asked = list(questions(draw, store)) if store.newest is not None else []
        rows = compare(program, folder, store, asked)
        if asked:
            compare_list(program, folder, store)
            compare_views(store, store.newest)
            draw_tables(path, store)
        tables = store.catalogue.tables
        return collections.Counter(
            tables=len(tables),
            views=sum(len(it.views) for it in tables),
            changes=sum(len(it.changes) for it in tables),
            versions=store.catalogue.next,
            bases=sum(bool(it.base and it.base.files) for it in tables),
            cumulatives=sum(len(it.cumulatives) for it in tables),
            answers=len(asked),
            rows=rows,
        )


def main():
    program = given_program()
    stores = int(sys.argv[2]) if len(sys.argv) > 2 else 50
    first = int(sys.argv[3]) if len(sys.argv) > 3 else 0
    counts = collections.Counter()
    for number in range(first, first + stores):
        counts += try_store(program, number)
        print(f"store {number}: {counts['answers']} answers so far", file=sys.stderr, flush=True)
    has = ", ".join(f"{count:,} {word}" for word, count in counts.items())
    print(f"{stores} stores: {has}; all are the same")


if __name__ == "__main__":
    main()
