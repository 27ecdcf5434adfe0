"""What a store's journal says: the tables with their columns, views and deltas, and the versions.

Each part is written after the page and the heading that its comment names, in docs/STORE.md or docs/FORMATS.md."""
import re
import typing

KEY_TYPES = ("int", "text")
AGGREGATIONS = ("sum", "min", "max", "replace")
NAME = re.compile(rb"[a-z][a-z0-9_]{0,31}")


class Fault(Exception):
    """What is wrong, in one line."""


class Bytes:
    """Bytes that are taken from the front. `source` says whose they are."""

    def __init__(self, data, source):
        self.data, self.source, self.at = data, source, 0

    def fault(self, reason):
        return Fault(f"{self.source} is damaged at {self.at}: {reason}")

    def take(self, count):
        if self.at + count > len(self.data):
            raise self.fault("the bytes end within a field")
        self.at += count
        return self.data[self.at - count : self.at]

    def number(self, size):
        return int.from_bytes(self.take(size), "big")

    def value(self, size=8):
        return int.from_bytes(self.take(size), "big", signed=True)

    def one_of(self, words):
        number = self.number(1)
        if number >= len(words):
            raise self.fault(f"{number} has no meaning here")
        return words[number]

    def text(self):
        return self.take(self.number(1))

    def key(self):
        return self.take(self.number(2))

    def name(self):
        name = self.text()
        if not NAME.fullmatch(name):
            raise self.fault("a name is none")
        return name.decode()

    def many(self, size, item):
        return [item() for _ in range(self.number(size))]

    def end(self):
        if self.at < len(self.data):
            raise self.fault("bytes stand behind the last field")


# FORMATS, "Journal"


def bodies(area, source):
    """The place and the body of each record of a journal area. `source` is the area's name."""
    at = 0
    while len(area) > 1 and area[at] == 1:
        length = int.from_bytes(area[at + 1 : at + 5], "big")
        begin, end = at + 5, at + 5 + length
        # (the next gate is there too)
        if end >= len(area):
            raise Fault(f"{source} is damaged at {at}: it ends within a record")
        yield begin, area[begin:end]
        at = end


# the kinds of checkpoints, with their editions
CHECKPOINTS = {8: 1, 11: 2, 13: 3, 15: 4}


def rank(found):
    """0 of an area without a record, else one more than the number of its first: that of a checkpoint, and 0 of another."""
    if not found:
        return 0
    body = found[0][1]
    return 1 + (int.from_bytes(body[1:5], "big") if len(body) >= 5 and body[0] in CHECKPOINTS else 0)


def live(areas):
    """The number of the live area and its bodies, out of the bytes of both."""
    zero, one = [list(bodies(area, f"journal{number}")) for number, area in enumerate(areas)]
    return (1, one) if rank(one) > rank(zero) else (0, zero)


# FORMATS, "Records": what columns, file references and the files of a range are. In the first edition (kinds 5, 6 and 8) a
# file has format 1, and what was added up takes 8 bytes; in the second (kinds 9, 10 and 11) the format is told, and it takes
# 16. The third differs in checkpoints alone (kind 13), which tell each table's oldest version. The fourth has recasts (kind 14),
# and its checkpoints (kind 15) tell each table's first epoch too.


class Column(typing.NamedTuple):
    name: str
    word: str

    def __str__(self):
        return f"{self.name} {self.word}"


class Columns(typing.NamedTuple):
    keys: list
    values: list

    def key_place(self, name):
        return [it.name for it in self.keys].index(name)

    def value_place(self, name):
        return [it.name for it in self.values].index(name)


class Reference(typing.NamedTuple):
    """A file as the journal tells of it."""

    format: int
    id: int
    length: int
    rows: int
    blocks: int
    first: bytes
    last: bytes
    aggregates: list
    digest: bytes

    @classmethod
    def read(cls, b, edition):
        told = b.one_of((None, 1, 2)) if edition == 2 else 1
        if told is None:
            raise b.fault("there is no format 0")
        numbers = b.number(8), b.number(8), b.number(8), b.number(4)
        return cls(told, *numbers, b.key(), b.key(), b.many(1, lambda: b.value(8 * edition)), b.take(32))

    @property
    def file(self):
        return f"{self.id:016x}.mesa"


class Files(typing.NamedTuple):
    """The files of a range of versions: the table's, and those of views by their numbers."""

    table: Reference
    views: dict

    @classmethod
    def read(cls, b, edition):
        return cls(Reference.read(b, edition), dict(b.many(1, lambda: (b.number(1), Reference.read(b, edition)))))

    def all(self):
        return [self.table, *self.views.values()]


class Delta(typing.NamedTuple):
    """The rows that the versions of a range brought, under the columns of an epoch."""

    first: int
    last: int
    epoch: int
    files: typing.Optional[Files]


# FORMATS, "Records", kind 4; what each change makes of columns and of a row: STORE, "From the catalogue to rows", 2


class AddValue(typing.NamedTuple):
    """A value column at the end, with its default in the rows that are there."""

    column: Column
    default: int

    @classmethod
    def read(cls, b):
        return cls(Column(b.name(), b.one_of(AGGREGATIONS)), b.value())

    def columns(self, before):
        return Columns(before.keys, [*before.values, self.column])

    def lift(self, before, key, values):
        return key, (*values, self.default)


class DropValue(typing.NamedTuple):
    """A value column less."""

    name: str

    @classmethod
    def read(cls, b):
        return cls(b.name())

    def columns(self, before):
        return Columns(before.keys, without(before.values, before.value_place(self.name)))

    def lift(self, before, key, values):
        return key, without(values, before.value_place(self.name))


class AddKey(typing.NamedTuple):
    """A key column at the end, with its default in the rows that are there."""

    column: Column
    default: typing.Union[int, bytes]

    @classmethod
    def read(cls, b):
        column = Column(b.name(), b.one_of(KEY_TYPES))
        return cls(column, b.value() if column.word == "int" else b.text())

    def columns(self, before):
        return Columns([*before.keys, self.column], before.values)

    def lift(self, before, key, values):
        return (*key, self.default), values


def without(items, place):
    return items[:place] + items[place + 1 :]


class View(typing.NamedTuple):
    """A view: the names of the key and value columns that it has of its table's."""

    name: str
    keys: list
    values: list

    @classmethod
    def read(cls, b):
        return cls(b.name(), b.many(1, b.name), b.many(1, b.name))

    def columns(self, table):
        """The view's own columns, out of its table's."""
        keys = [table.keys[table.key_place(it)] for it in self.keys]
        return Columns(keys, [table.values[table.value_place(it)] for it in self.values])

    def derived(self, table, rows):
        """Rows of the table as rows of the view, not yet folded."""
        keys = [table.key_place(it) for it in self.keys]
        values = [table.value_place(it) for it in self.values]
        for key, row in rows:
            yield tuple(key[it] for it in keys), tuple(row[it] for it in values)


# STORE, "From the journal to a catalogue"


class Table:
    """A table: its oldest version, its columns in each epoch since it was made or recast, its views by their numbers, and its deltas."""

    def __init__(self, name, columns, oldest):
        self.name, self.oldest, self.begins, self.epochs, self.changes, self.views = name, oldest, 0, [columns], [], []
        base = Delta(0, oldest - 1, 0, None) if oldest else None
        self.base, self.cumulatives, self.singletons = base, [], {}

    @classmethod
    def stated(cls, name, columns, oldest, begins):
        """A table of a checkpoint, whose base is told."""
        table = cls(name, columns, oldest)
        table.begins, table.base = begins, None
        return table

    @property
    def columns(self):
        return self.epochs[-1]

    @property
    def epoch(self):
        return self.begins + len(self.changes)

    def columns_at(self, epoch):
        """The columns of an epoch that the table has had since it was made or recast."""
        if epoch < self.begins:
            raise IndexError(epoch)
        return self.epochs[epoch - self.begins]

    @property
    def behind_base(self):
        return self.base.last + 1 if self.base else 0

    def change(self, change):
        self.epochs.append(change.columns(self.columns))
        self.changes.append(change)

    def publish(self, delta):
        self.singletons[delta.first] = delta

    def swap_base(self, delta):
        """Puts a base in the place of all deltas that begin within it: each cumulative does, right behind the base before."""
        self.base, self.cumulatives = delta, []
        self.singletons = {version: it for version, it in self.singletons.items() if version > delta.last}

    def recast(self, epoch, columns, base, singletons):
        """Puts columns in the place of all that there were, and deltas of them in the place of all deltas."""
        self.begins, self.epochs, self.changes = epoch, [columns], []
        self.base, self.cumulatives, self.singletons = base, [], {it.first: it for it in singletons}

    def swap_cumulative(self, delta):
        self.cumulatives.append(delta)

    def next_cumulative(self):
        """The end of the first cumulative that isn't there: they end with the tenth, twentieth, .. version behind the base."""
        return self.behind_base + 10 * (len(self.cumulatives) + 1) - 1

    def deltas(self):
        """All deltas that have rows: the base, the cumulatives by rising end, the singletons."""
        found = [*filter(None, [self.base]), *self.cumulatives, *self.singletons.values()]
        return [it for it in found if it.files]

    def plan(self, version):
        """The deltas that have the rows at a version. STORE, "From the catalogue to rows"."""
        front = [self.base] if self.base else []
        front += [it for it in self.cumulatives if it.last <= version][-1:]
        next_version = front[-1].last + 1 if front else 0
        behind = [it for it in self.singletons.values() if next_version <= it.first <= version]
        return [it for it in front + behind if it.files]

    def lifted(self, epoch, rows):
        """Rows of an epoch as rows of the present."""
        since = epoch - self.begins
        steps = list(zip(self.epochs[since:], self.changes[since:]))
        for key, values in rows:
            for before, change in steps:
                key, values = change.lift(before, key, values)
            yield key, values


def ranges(base, singletons):
    """The versions of a base and of singletons, each with its views' files, or None where there are no files."""
    return [(it.first, it.last, it.files and it.files.views) for it in (*filter(None, [base]), *singletons)]


class Catalogue:
    """What the journal's records make of an empty store. What reading rows rests on is tested of each; `check` tests all."""

    def __init__(self):
        self.tables, self.floor, self.next = [], 0, 0

    def apply_all(self, area, found):
        """Takes in the records of the live area, of which this is the number."""
        for place, (at, body) in enumerate(found):
            b = Bytes(body, f"the record at {at} of journal{area}")
            self.apply(b, area if place == 0 else None)

    def apply(self, b, area):
        """Takes in a record; `area` is the number of its area where it is the first there."""
        kind = b.number(1)
        readers = {1: self.run, 2: self.table, 3: self.view, 4: self.alter, 7: self.expire, 12: self.expire_table, 14: self.recast}
        readers |= {5: lambda b: self.publish(b, 1), 6: lambda b: self.swap(b, 1)}
        readers |= {9: lambda b: self.publish(b, 2), 10: lambda b: self.swap(b, 2)}
        readers |= {it: lambda b, edition=edition: self.checkpoint(b, edition, area) for it, edition in CHECKPOINTS.items()}
        if kind not in readers:
            raise b.fault(f"there is no record of kind {kind}")
        if area == 1 and kind not in CHECKPOINTS:
            raise b.fault("the first record of journal1 is no checkpoint")
        try:
            readers[kind](b)
        except (IndexError, ValueError):
            raise b.fault("the record names a table, a view, an epoch or a column that isn't there") from None
        b.end()

    def checkpoint(self, b, edition, area):
        """The catalogue that a checkpoint states, as the first record of its area."""
        number, _run, self.floor, self.next = [b.number(4) for _ in range(4)]
        if area is None or number % 2 != area or number == 0:
            raise b.fault(f"a checkpoint of the number {number} doesn't stand here")
        b.many(2, lambda: self.stated_table(b, edition))

    def stated_table(self, b, edition):
        name, oldest = b.name(), b.number(4) if edition >= 3 else self.floor
        begins = b.number(4) if edition >= 4 else 0
        if not (self.floor <= oldest and (oldest < self.next or oldest == self.next == 0)):
            raise b.fault(f"the oldest version of {name} is {oldest}")
        table = Table.stated(name, self.columns(b), oldest, begins)
        b.many(2, lambda: self.change(b, table))
        b.many(1, lambda: self.add_view(b, table))
        b.many(1, lambda: b.number(8 * min(edition, 2)))
        table.base = self.stated_range(b, edition, table, 0) if b.one_of((False, True)) else None
        if table.base and table.base.last > oldest:
            raise b.fault(f"the base of {name} ends at {table.base.last}")
        b.many(4, lambda: table.cumulatives.append(self.stated_cumulative(b, edition, table)))
        b.many(4, lambda: self.stated_singleton(b, edition, table))
        self.tables.append(table)

    def stated_range(self, b, edition, table, first):
        last, epoch = b.number(4), b.number(4)
        files = Files.read(b, min(edition, 2)) if b.one_of((False, True)) else None
        if last >= self.next:
            raise b.fault(f"a range ends at {last}")
        return self.tested(table, Delta(first, last, epoch, files))

    def stated_cumulative(self, b, edition, table):
        delta = self.stated_range(b, edition, table, table.behind_base)
        if delta.last != table.next_cumulative():
            raise b.fault(f"no work gives the range [{delta.first},{delta.last}]")
        return delta

    def stated_singleton(self, b, edition, table):
        version = b.number(4)
        least = max(table.behind_base, next(reversed(table.singletons), -1) + 1)
        if not least <= version < self.next:
            raise b.fault(f"version {version} doesn't stand here")
        self.singleton(b, version, min(edition, 2), table)

    def run(self, b):
        b.number(4)

    def columns(self, b):
        keys = b.many(1, lambda: Column(b.name(), b.one_of(KEY_TYPES)))
        return Columns(keys, b.many(1, lambda: Column(b.name(), b.one_of(AGGREGATIONS))))

    def table(self, b):
        name = b.name()
        self.tables.append(Table(name, self.columns(b), self.floor))

    def view(self, b):
        self.add_view(b, self.tables[b.number(2)])

    def add_view(self, b, table):
        view = View.read(b)
        # (a column that isn't there is found here)
        view.columns(table.columns)
        table.views.append(view)

    def alter(self, b):
        self.change(b, self.tables[b.number(2)])

    def change(self, b, table):
        kind = b.one_of((None, AddValue, DropValue, AddKey))
        if kind is None:
            raise b.fault("there is no change of kind 0")
        table.change(kind.read(b))

    def publish(self, b, edition):
        version = b.number(4)
        if version != self.next:
            raise b.fault(f"version {version} is published, and the next one is {self.next}")
        b.many(2, lambda: self.part(b, version, edition))
        self.next += 1

    def part(self, b, version, edition):
        self.singleton(b, version, edition, self.tables[b.number(2)])

    def singleton(self, b, version, edition, table):
        delta = Delta(version, version, b.number(4), Files.read(b, edition))
        b.many(1, lambda: b.number(8 * edition))
        table.publish(self.tested(table, delta))

    def swap(self, b, edition):
        table, is_base = self.tables[b.number(2)], b.one_of((False, True))
        first, last, epoch = b.number(4), b.number(4), b.number(4)
        files = Files.read(b, edition) if b.one_of((False, True)) else None
        delta = self.tested(table, Delta(first, last, epoch, files))
        if is_base and first == 0 and max(1, table.behind_base) <= last <= table.oldest:
            table.swap_base(delta)
        elif not is_base and (first, last) == (table.behind_base, table.next_cumulative()) and last < self.next:
            table.swap_cumulative(delta)
        else:
            raise b.fault(f"no work gives the range [{first},{last}]")

    def recast(self, b):
        table, epoch = self.tables[b.number(2)], b.number(4)
        if epoch != table.epoch + 1:
            raise b.fault(f"{table.name} is recast to the epoch {epoch}")
        columns = View(table.name, b.many(1, b.name), b.many(1, b.name)).columns(table.columns)
        # (a column of a view that isn't there any more is found here)
        for view in table.views:
            view.columns(columns)
        base = self.recast_base(b, epoch) if b.one_of((False, True)) else None
        singletons = b.many(4, lambda: self.recast_singleton(b, epoch))
        if ranges(base, singletons) != ranges(table.base, table.singletons.values()):
            raise b.fault(f"the ranges of {table.name} or files of its views are others")
        table.recast(epoch, columns, base, singletons)

    def recast_base(self, b, epoch):
        last = b.number(4)
        return Delta(0, last, epoch, Files.read(b, 2) if b.one_of((False, True)) else None)

    def recast_singleton(self, b, epoch):
        version, told = b.number(4), b.number(4)
        if told != epoch:
            raise b.fault(f"version {version} has the epoch {told}")
        delta = Delta(version, version, epoch, Files.read(b, 2))
        b.many(1, lambda: b.number(16))
        return delta

    def tested(self, table, delta):
        """The delta, whose epoch and views are there."""
        table.columns_at(delta.epoch)
        for view in delta.files.views if delta.files else ():
            table.views[view]
        return delta

    def expire(self, b):
        self.floor = self.later(b, self.floor)
        for table in self.tables:
            table.oldest = max(table.oldest, self.floor)

    def expire_table(self, b):
        table = self.tables[b.number(2)]
        table.oldest = self.later(b, table.oldest)

    def later(self, b, oldest):
        """The version that becomes the oldest one, from this one to the newest."""
        version = b.number(4)
        if not oldest <= version < self.next:
            raise b.fault(f"the oldest version becomes {version}")
        return version
