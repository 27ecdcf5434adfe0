#!/usr/bin/env python3
"""Refuses the growths of the program's memory one after the other, each in a run of its own, and looks at the store behind it.

    bench/growths.py [PROGRAM [FIRST]]

PROGRAM is the built program, by default crates/mesa/out/mesa, which `rt run` leaves there. Each of some scripts is run with
growth FIRST refused, by default the first, then with the next one, up to a run in which none is. Behind each run `check`
has to say `sound`, and the store to answer as one in which just the commands were done that weren't refused; where a fault
closed it, also as one in which the command that met the fault was done.

The growths are refused by a library that is loaded before the C library. It needs a C compiler."""
import collections
import os
import pathlib
import re
import subprocess
import sys
import tempfile
import typing

from measure import given_program

LIBRARY = r"""
#include <fcntl.h>
#include <stdatomic.h>
#include <stddef.h>
#include <stdlib.h>
#include <unistd.h>
void *__libc_malloc(size_t);
void *__libc_realloc(void *, size_t);
static atomic_long left;
static int is_set;
__attribute__((constructor)) static void start(void) {
    const char *number = getenv("GROWTH");
    if (number) { atomic_store(&left, atol(number)); is_set = 1; }
}
static int is_refused(void) {
    if (!is_set || atomic_fetch_sub(&left, 1) != 1) return 0;
    int told = open(getenv("GROWTH_TOLD"), O_CREAT | O_WRONLY, 0600);
    if (told >= 0) close(told);
    return 1;
}
void *malloc(size_t size) { return is_refused() ? 0 : __libc_malloc(size); }
void *realloc(void *at, size_t size) { return is_refused() ? 0 : __libc_realloc(at, size); }
"""

ASKED = "query,t,0\nquery,t,1\nquery,t,2\nexplain,t\ncommit\n"


class Script(typing.NamedTuple):
    """A script: the first session's commands, each with its records, those of further sessions, which change nothing, and
    what its store is asked."""

    commands: list
    sessions: str = ""
    asked: str = ASKED


SCRIPTS = {
    "sales and view": Script(
        [
            "table,a,day int;pub int;country text,clicks sum;cost sum\n",
            "table,b,day int;adv int;country text,clicks sum;cost sum\n",
            "view,c,b,adv;country,clicks;cost\n",
            "row,a,20131231,100,US,10,32\nrow,a,20140101,100,US,40,20\nrow,b,20131231,1,US,10,32\nrow,b,20140101,2,US,40,20\ncommit\n",
            "row,a,20140101,100,US,150,80\nrow,a,20140101,200,UK,40,20\nrow,b,20140101,2,US,150,80\nrow,b,20140101,2,UK,40,20\ncommit\n",
            "query,a,0\n",
            "query,a\n",
            "query,c,latest\n",
            "query,a,1,pub=100&day>=20140101,country,clicks\n",
        ],
        asked="query,a,0\nquery,a,1\nquery,b,0\nquery,b,1\nquery,c,0\nquery,c,1\nexplain,a\nexplain,b\ncommit\n",
    ),
    "replace across base": Script(
        [
            "table,t,k int,v replace\n",
            "row,t,1,5\ncommit\n",
            "row,t,1,6\ncommit\n",
            "row,t,1,4\ncommit\n",
            "expire,1\n",
            "work,t\n",
            "query,t,1\n",
            "query,t\n",
        ],
    ),
    "pin outlives change": Script(
        [
            "table,t,k int,v sum;w max\n",
            "row,t,1,5,8\ncommit\n",
            "row,t,1,6,3\ncommit\n",
            "pin,0\n",
            "row,t,2,1,1\ncommit\n",
            "expire,2\n",
            "work,t\n",
            "alter,t,drop_value,w\n",
            "query,t,pin:1\n",
            "query,t\n",
            "release,1\n",
            "query,t,pin:1\n",
        ],
    ),
    "pages across compaction": Script(
        [
            "table,t,k int,v sum\n",
            "row,t,1,10\nrow,t,2,20\nrow,t,3,30\nrow,t,4,40\nrow,t,5,50\ncommit\n",
            "commit\n",
            "query,t,1,,,,2\n",
            "expire,1\n",
            "work,t\n",
        ],
        sessions="session\nquery,t,1,,,,2,t/1/0/k/8000000000000002\nquery,t,1,,,,2,t/1/0/k/8000000000000004\nquery,t,1,,-,,2,t/1/0/k/8000000000000004\n",
    ),
    "expiry per table": Script(
        [
            "table,t,k int,v sum\n",
            "table,u,k int,v sum\n",
            "row,t,1,5\nrow,u,1,7\ncommit\n",
            "row,t,1,1\ncommit\n",
            "expire,t,1\n",
            "query,t,0\n",
            "query,u,0\n",
            "pin,0\n",
            "expire,0\n",
            "expire,t,0\n",
            "work,u\n",
            "work,t\n",
        ],
        asked=ASKED + "query,u,0\nquery,u,1\nexplain,u\n",
    ),
}


class Refusing(typing.NamedTuple):
    """The program, and the library that refuses it growths."""

    program: str
    library: str

    def call(self, folder, word, text="", growth=None):
        """A call over the store in a folder: its status, and what it printed."""
        env = dict(os.environ)
        if growth:
            env.update(LD_PRELOAD=self.library, GROWTH=str(growth), GROWTH_TOLD=told_in(folder))
        done = subprocess.run([self.program, word], input=text.encode(), cwd=folder, env=env, stdout=subprocess.PIPE, timeout=60)
        return done.returncode, done.stdout.decode()

    def answers(self, script, commands):
        """What a store answers in which just these commands were done."""
        with tempfile.TemporaryDirectory() as folder:
            self.call(folder, "run", "".join(script.commands[number - 1] for number in sorted(commands)))
            return self.call(folder, "run", script.asked)


def told_in(folder):
    """The file that says that a growth was refused."""
    return f"{folder}/told"


def done_by(printed):
    """Which of the first session's commands were done, and the one that closed the store, if one may have: a write fault
    whose position later replies name, or that is the last reply."""
    heads = [(int(head[1]), head[2], head[3]) for head in re.finditer(r"^0\.(\d+)@(\d+) (.*)$", printed, re.M)]
    closed = re.search(r"refused closed position=(\d+)", printed)
    closing = None
    for place, (number, position, reply) in enumerate(heads):
        if reply == "refused write_fault" and (position == closed[1] if closed else place == len(heads) - 1):
            closing = number
    return frozenset(number for number, _, reply in heads if not reply.startswith("refused")), closing


class Row:
    """A script whose growths are refused."""

    def __init__(self, refusing, name):
        self.refusing, self.name, self.script = refusing, name, SCRIPTS[name]
        self.kept, self.ends, self.wrong = {}, collections.Counter(), 0

    def wanted(self, commands):
        """What a store has to answer in which just these commands were done; each is asked once."""
        if commands not in self.kept:
            self.kept[commands] = self.refusing.answers(self.script, commands)
        return self.kept[commands]

    def is_refused(self, growth):
        """Whether a run came to the growth, which it is refused. The store behind it is looked at."""
        with tempfile.TemporaryDirectory() as folder:
            status, printed = self.refusing.call(folder, "run", "".join(self.script.commands) + self.script.sessions, growth)
            if not os.path.exists(told_in(folder)):
                return False
            refusals = re.findall(r"refused (memory|read_fault|write_fault|closed)", printed)
            self.ends[f"status {status}{' ' + refusals[0] if refusals else ''}"] += 1
            verdict = self.refusing.call(folder, "check")
            found = self.refusing.call(folder, "run", self.script.asked)
        commands, closing = done_by(printed)
        wanted = [self.wanted(commands)] + ([self.wanted(commands | {closing})] if closing else [])
        if verdict != (0, "sound\n") or found not in wanted:
            self.wrong += 1
            print(f"{self.name}: growth {growth}: status {status}, {printed!r}; then {verdict}, and {found}", flush=True)
        return True

    def run(self, first):
        """Refuses one growth after the other."""
        growth = first
        while self.is_refused(growth):
            growth += 1
        if growth == first:
            sys.exit(f"growths: {self.name}: no growth was refused")
        ends = ", ".join(f"{end}: {count}" for end, count in self.ends.most_common())
        print(f"{self.name}: growths refused: {growth - first}; other stores than wanted: {self.wrong}; {ends}", flush=True)


def main():
    first = int(sys.argv[2]) if len(sys.argv) > 2 else 1
    with tempfile.TemporaryDirectory() as room:
        source, library = pathlib.Path(room, "growths.c"), f"{room}/growths.so"
        source.write_text(LIBRARY)
        subprocess.run(["cc", "-O1", "-shared", "-fPIC", "-o", library, source], check=True)
        rows = [Row(Refusing(given_program(), library), name) for name in SCRIPTS]
        for row in rows:
            row.run(first)
    if any(row.wrong for row in rows):
        sys.exit("growths: a store isn't as it should be")


if __name__ == "__main__":
    main()
