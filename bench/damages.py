#!/usr/bin/env python3
"""Damages stores at random, and holds what examples/read_store.py and examples/draw_store.py make of them.

    bench/damages.py [PROGRAM [DAMAGES]]

PROGRAM is the built program, by default crates/mesa/out/mesa, which `rt run` leaves there. DAMAGES times, by default 300, a
file of a copy of a store is changed in a byte, cut, made longer, filled with noise or removed. The reader and the drawing
then end with status 0, or with status 1 and one line of what is wrong. Where a delta file was damaged, the reader doesn't
print other rows than before: it prints the same, or none. (A journal has no digest, so a byte of it may tell other rows.)"""
import pathlib
import random
import shutil
import subprocess
import sys

from measure import ROOT, given_program, new_folder
from stories import Story
from readings import Store, told

STORES = 5


def stop(reason):
    sys.exit(f"damages: {reason}")


def called(name, *words):
    """What a program prints, or None where it tells in one line what is wrong."""
    command = [sys.executable, ROOT / "examples" / name, *words]
    done = subprocess.run(command, capture_output=True, timeout=60)
    lines = done.stderr.decode().splitlines()
    if (done.returncode, len(lines)) not in ((0, 0), (1, 1)):
        stop(f"{command} ended with status {done.returncode}: {done.stderr.decode()}")
    return done.stdout if done.returncode == 0 else None


def damage(draw, path):
    """Damages a file, and says how."""
    data, kind = bytearray(path.read_bytes()), draw.randrange(5)
    place = draw.randrange(len(data)) if data else 0
    if kind == 0 and data:
        data[place] ^= draw.randint(1, 255)
    elif kind == 1:
        data = data[:place]
    elif kind == 2:
        data += draw.randbytes(draw.randint(1, 100))
    elif kind == 3:
        data[place:] = draw.randbytes(len(data) - place)
    path.unlink()
    if kind < 4:
        path.write_bytes(data)
    return f"{path.name}: {('a byte', 'cut', 'longer', 'noise', 'removed')[kind]} at {place}"


def readings(path, relations):
    return {name: called("read_store.py", path, name) for name in relations}


def relations(store):
    """The names of its tables and views."""
    return [name for it in Store(store).catalogue.tables for name in (it.name, *(view.name for view in it.views))]


def try_damage(draw, sound, folder, before):
    """Damages a copy, and reads it. Says whether anything was told."""
    copy = pathlib.Path(folder, "copy")
    shutil.rmtree(copy, ignore_errors=True)
    shutil.copytree(sound, copy)
    files = sorted(copy.glob("*.mesa"))
    damaged = draw.choice([copy / "journal0", *files]) if draw.random() < 0.7 else copy / "journal0"
    how = damage(draw, damaged)
    found = readings(copy, before)
    if damaged.name != "journal0" and any(it not in (None, before[name]) for name, it in found.items()):
        stop(f"{how}, and other rows are read")
    drawn = [called("draw_store.py", copy, it.name) for it in Store(sound).catalogue.tables]
    return None in (called("read_store.py", copy), *found.values(), *drawn)


def main():
    program = given_program()
    damages = int(sys.argv[2]) if len(sys.argv) > 2 else 300
    found = 0
    for number in range(STORES):
        draw = random.Random(1000 + number)
        with new_folder() as folder:
            story = Story(draw)
            for _ in range(2):
                told(program, folder, [*story.run(), *story.load()])
            sound = folder + "/mesa-store"
            before = readings(sound, relations(sound))
            found += sum(try_damage(draw, sound, folder, before) for _ in range(damages // STORES))
    print(f"{damages // STORES * STORES} damages: {found} told in one line, and in the others nothing but rows and pictures")


if __name__ == "__main__":
    main()
