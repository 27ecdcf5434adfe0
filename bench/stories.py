"""Scripts of several runs, drawn at random by a seed, whose every command is accepted: tables and views are made, batches
are loaded into some of them (corrections of the same keys too, and batches of no rows), columns come and go, versions of
one table or of all are let go, and files are merged; now and then by sessions beside each other."""
import itertools

TEXTS = ("", "a,b", 'say "so"', "two\nlines", "\r", " x ", "é", "漢字", "a" * 40)
AGGREGATIONS = ("sum", "min", "max", "replace")
EDGES = (-(2**63), 2**63 - 1)
# values of sums that have more than 64 bits; all rows of a story stay far within the bound
WIDE = (-(2**100), -(2**63) - 1, 2**63, 2**100)


def record(*fields):
    """A record of a script, without its line's end."""
    return ",".join(map(quoted, map(str, fields)))


def quoted(field):
    return '"' + field.replace('"', '""') + '"' if any(it in field for it in ',"\r\n') else field


def entries(columns):
    return ";".join(" ".join(it) for it in columns)


class Table:
    """A table as the story knows it. What views use stays."""

    def __init__(self, name, keys, values, oldest):
        self.name, self.keys, self.values, self.oldest, self.views, self.used = name, keys, values, oldest, 0, set()


class Story:
    """What a store has at some place of its story."""

    def __init__(self, draw, tables=(), versions=0, floor=0):
        self.draw, self.tables, self.versions, self.floor = draw, list(tables), versions, floor
        self.numbers = itertools.count()
        # one batch of more rows than a block has, in every second story
        self.long_batches = draw.randrange(2)

    def name(self, front):
        return f"{front}{next(self.numbers)}"

    def key_column(self):
        return self.name("k"), self.draw.choice(("int", "text"))

    def value_column(self):
        return self.name("v"), self.draw.choice(AGGREGATIONS)

    def table(self):
        keys = [self.key_column() for _ in range(self.draw.randint(1, 3))]
        made = Table(self.name("t"), keys, [self.value_column() for _ in range(self.draw.randint(1, 4))], self.floor)
        self.tables.append(made)
        yield record("table", made.name, entries(made.keys), entries(made.values))

    def view(self):
        table = self.draw.choice(self.tables)
        values = [name for name, word in table.values if word != "replace"]
        if values and table.views < 8:
            keys = self.some([name for name, _ in table.keys])
            values = self.some(values)
            table.views += 1
            table.used.update(values)
            yield record("view", self.name("w"), table.name, ";".join(keys), ";".join(values))

    def some(self, names):
        return self.draw.sample(names, self.draw.randint(1, len(names)))

    def change(self):
        table = self.draw.choice(self.tables)
        unused = [name for name, _ in table.values if name not in table.used]
        kind = self.draw.randrange(3)
        if kind == 0 and len(table.values) < 16:
            table.values.append(self.value_column())
            default = 0 if table.values[-1][1] == "sum" else self.draw.randint(-9, 9)
            yield record("alter", table.name, "add_value", " ".join(table.values[-1]), default)
        elif kind == 1 and unused and len(table.values) > 1:
            dropped = self.draw.choice(unused)
            table.values = [it for it in table.values if it[0] != dropped]
            yield record("alter", table.name, "drop_value", dropped)
        elif kind == 2 and len(table.keys) < 16:
            table.keys.append(self.key_column())
            yield record("alter", table.name, "add_key", " ".join(table.keys[-1]), self.key(table.keys[-1][1]))

    def key(self, word):
        if word == "text":
            return self.draw.choice(TEXTS)
        return self.draw.choice(EDGES) if self.draw.random() < 0.05 else self.draw.randint(-4, 4)

    def value(self, word):
        far = self.draw.random() < 0.05
        return self.draw.choice(WIDE if word == "sum" else EDGES) if far else self.draw.randint(-1000, 1000)

    def rows(self, table, count):
        """Rows of different keys."""
        keys = {tuple(self.key(word) for _, word in table.keys) for _ in range(count)}
        for key in sorted(keys, key=str):
            yield record("row", table.name, *key, *(self.value(word) for _, word in table.values))

    def long_rows(self, table):
        """Rows of more than one block."""
        self.long_batches -= 1
        rest = [self.key(word) for _, word in table.keys[1:]]
        for number in range(1200):
            yield record("row", table.name, 7 * number, *rest, *(self.value(word) for _, word in table.values))

    def load(self):
        for table in self.draw.sample(self.tables, self.draw.randint(0, min(2, len(self.tables)))):
            is_long = self.long_batches and table.keys[0][1] == "int"
            yield from self.long_rows(table) if is_long else self.rows(table, self.draw.randint(1, 12))
        self.versions += 1
        yield "commit"

    def loads(self):
        for _ in range(self.draw.randint(1, 6)):
            yield from self.load()

    def expire(self):
        if self.versions:
            self.floor = self.draw.randint(self.floor, self.versions - 1)
            for table in self.tables:
                table.oldest = max(table.oldest, self.floor)
            yield record("expire", self.floor)

    def expire_table(self):
        table = self.draw.choice(self.tables)
        if self.versions:
            table.oldest = self.draw.randint(table.oldest, self.versions - 1)
            yield record("expire", table.name, table.oldest)

    def work(self):
        for _ in range(self.draw.randint(1, 3)):
            yield record("work", self.draw.choice(self.tables).name)

    def sessions(self):
        """Two sessions that load and merge beside each other."""
        for _ in range(2):
            yield "session"
            yield from self.loads()
            yield from self.work()

    def run(self):
        """The script of one run."""
        if not self.tables:
            yield from self.table()
        steps = (self.table, self.view, self.view, self.change, self.change, self.expire, self.expire_table, self.work, self.work)
        for step in self.draw.choices(steps + 8 * (self.loads,), k=self.draw.randint(3, 20)):
            yield from step() if step != self.table or len(self.tables) < 5 else ()
        if self.draw.random() < 0.3:
            yield from self.sessions()
