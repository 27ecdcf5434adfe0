#!/usr/bin/env python3
"""Draws the deltas of a table, over its versions, as SVG:

    python3 examples/draw_store.py STORE TABLE > picture.svg

From the top: the base and the cumulatives, each a bar over its versions, and the singletons, each a column whose height
stands for its bytes (its table's file and its views'). Colours are epochs. Versions that are let go have a grey ground.
What a query at the newest version reads has a dark border. A picture of many versions draws every so many bars and puts
neighbouring columns together, and says so. What is wrong with the store is told in one line, with status 1."""
import argparse
import typing

from read_store import Store, run

WIDTH, LEFT, RIGHT, TOP = 960, 112, 24, 64
BAR, GAP, COLUMNS, LETTER = 22, 6, 96, 7
MOST_BARS, MOST_COLUMNS = 24, 200
# a light ground and a dark border for each epoch, in turn
COLOURS = [("#a6cee3", "#1f78b4"), ("#fdcf8a", "#d9700a"), ("#b7e0a0", "#33872c"), ("#d5c4e4", "#6a3d9a"), ("#f7b6b5", "#c5282a")]
STYLE = """text { font: 12px sans-serif; fill: #333 } .title { font-size: 18px; fill: #111 } .light { fill: #767676 }
.end { text-anchor: end } .middle { text-anchor: middle } .read { stroke: #111; stroke-width: 2 }"""


class Scale(typing.NamedTuple):
    """Where versions stand from left to right, from 0 to the last. `each` versions share a column."""

    last: int
    each: int

    def x(self, version):
        return LEFT + version / (self.last + 1) * (WIDTH - LEFT - RIGHT)


class Bin(typing.NamedTuple):
    """Neighbouring singletons in one column."""

    first: int
    last: int
    deltas: list


def size(deltas):
    return sum(it.length for delta in deltas if delta.files for it in delta.files.all())


def rows(deltas):
    return sum(it.files.table.rows for it in deltas if it.files)


def bytes_in_words(count):
    for unit in ("bytes", "KB", "MB"):
        if count < 999.5:
            return f"{count:.3g} {unit}"
        count /= 1000
    return f"{count:,.3g} GB"


def colours(epoch):
    """The ground and the border of an epoch, or of what has no rows."""
    return ("#fff", "#999") if epoch is None else COLOURS[epoch % len(COLOURS)]


def versions(first, last):
    return f"version {first}" if first == last else f"versions {first} to {last}"


def counts(deltas):
    return f"{rows(deltas):,} rows, {bytes_in_words(size(deltas))}" if rows(deltas) else "no rows"


def in_words(deltas, first, last):
    """What a shape tells under the mouse."""
    epochs = ", ".join(map(str, sorted({it.epoch for it in deltas})))
    return f"{versions(first, last)}, epoch {epochs}: {counts(deltas)}"


def text(x, y, words, of=""):
    return f'<text x="{x:.1f}" y="{y:.1f}" class="{of}">{words}</text>'


def box(left, right, top, bottom, epoch, is_read, words):
    light, dark = colours(epoch)
    place = f'x="{left:.1f}" y="{top:.1f}" width="{max(0.8, right - left):.1f}" height="{bottom - top:.1f}"'
    border = 'class="read"' if is_read else f'stroke="{dark}"'
    return f'<rect {place} fill="{light}" {border}><title>{words}</title></rect>'


def middle(scale, version):
    return (scale.x(version) + scale.x(version + 1)) / 2


def bar(scale, delta, top, read):
    """A base or a cumulative, and what it holds: within it, behind it or before it, where there is room."""
    left, right, foot = scale.x(delta.first), scale.x(delta.last + 1), top + BAR - 7
    epoch, words = delta.epoch if delta.files else None, in_words([delta], delta.first, delta.last)
    yield box(left + 1, right - 1, top, top + BAR, epoch, (delta.first, delta.last) in read, words)
    told = f"{delta.first} to {delta.last}: {counts([delta])}"
    length = len(told) * LETTER
    if length < right - left:
        yield text((left + right) / 2, foot, told, "middle")
    elif length < WIDTH - RIGHT - right:
        yield text(right + 6, foot, told)
    else:
        yield text(left - 6, foot, told, "end")


def one_of(bars):
    """Of so many bars one is drawn."""
    return max(1, -(-len(bars) // MOST_BARS))


def lane_height(bars):
    return max(1, -(-len(bars) // one_of(bars))) * (BAR + GAP) + 2 * GAP


def lane(scale, name, bars, top, read):
    """A lane of bars, the last of them always."""
    every, foot = one_of(bars), top + BAR - 7
    yield text(LEFT - 12, foot, name, "end")
    if every > 1:
        yield text(LEFT - 12, foot + 16, f"one of {every}", "end light")
    for number, delta in enumerate(bars[::-1][::every][::-1]):
        yield from bar(scale, delta, top + number * (BAR + GAP), read)
    if not bars:
        yield text(LEFT + 6, foot, "none", "light")


def bins(scale, singletons):
    found = {}
    for delta in singletons:
        found.setdefault(delta.first // scale.each, []).append(delta)
    for place, deltas in found.items():
        yield Bin(place * scale.each, min((place + 1) * scale.each - 1, scale.last), deltas)


def columns(scale, singletons, top, read):
    """The lane of singletons: a column for each that has rows, on a line."""
    found, foot = list(bins(scale, singletons)), top + COLUMNS
    tallest = max((size(it.deltas) for it in found), default=0)
    yield text(LEFT - 12, top + 12, "singletons", "end")
    yield text(LEFT - 12, top + 28, f"up to {bytes_in_words(tallest)}" if tallest else "none", "end light")
    if scale.each > 1:
        yield text(LEFT - 12, top + 44, f"{scale.each} a column", "end light")
    yield f'<line x1="{LEFT}" x2="{WIDTH - RIGHT}" y1="{foot}" y2="{foot}" stroke="#999"/>'
    for it in found:
        height = max(2, size(it.deltas) / tallest * COLUMNS)
        left, right = scale.x(it.first), scale.x(it.last + 1)
        gap = min(2, (right - left) / 6)
        is_read = any((delta.first, delta.last) in read for delta in it.deltas)
        words = in_words(it.deltas, it.first, it.last)
        yield box(left + gap, right - gap, foot - height, foot, it.deltas[-1].epoch, is_read, words)


def ticks(scale, top):
    """The numbers of versions, at most some fourteen of them."""
    yield text(LEFT - 12, top, "version", "end light")
    steps = (digit * 10**power for power in range(10) for digit in (1, 2, 5))
    step = next(it for it in steps if it * 14 > scale.last)
    for version in range(0, scale.last + 1, step):
        yield text(middle(scale, version), top, version, "middle light")


def let_go(scale, oldest, top, bottom):
    """The ground under versions that are no longer kept."""
    width = scale.x(oldest) - LEFT
    yield f'<rect x="{LEFT}" y="{top}" width="{width:.1f}" height="{bottom - top}" fill="#eee"/>'
    if width > 80:
        yield text(LEFT + width / 2, bottom - 10, "let go", "middle light")


def marks(scale, oldest, top, bottom):
    """The lines at the oldest and the newest version, with their names in one text where they are near each other."""
    left, right = middle(scale, oldest), middle(scale, scale.last)
    for place in (left, right):
        yield f'<line x1="{place:.1f}" x2="{place:.1f}" y1="{top}" y2="{bottom}" stroke="#767676" stroke-dasharray="3 3"/>'
    if right - left < 120:
        yield text(WIDTH - RIGHT, bottom + 36, f"oldest {oldest}, newest {scale.last}", "end")
    else:
        yield text(max(left, LEFT + 30), bottom + 36, f"oldest {oldest}", "middle")
        yield text(WIDTH - RIGHT, bottom + 36, f"newest {scale.last}", "end")


def legend(deltas, top):
    """The epochs that occur, the newest ones where there are many."""
    place = LEFT
    for epoch in sorted({it.epoch for it in deltas})[-7:]:
        yield box(place, place + 14, top - 11, top + 3, epoch, False, f"epoch {epoch}")
        yield text(place + 20, top, f"epoch {epoch}")
        place += 96
    yield f'<rect x="{place}" y="{top - 11}" width="14" height="14" fill="none" class="read"/>'
    yield text(place + 20, top, "read by a query at the newest version")


def picture(store, table):
    """The lines of the SVG."""
    newest, oldest, deltas = store.version(table, None), table.oldest, table.deltas()
    scale = Scale(newest, -(-(newest + 1) // MOST_COLUMNS))
    read = {(it.first, it.last) for it in table.plan(newest)}
    base = [table.base] if table.base else []
    below_base = TOP + lane_height(base)
    below_bars = below_base + lane_height(table.cumulatives)
    bottom = below_bars + COLUMNS
    files = sum(len(it.files.all()) for it in deltas)
    yield from head(table.name, f"{files:,} files, {bytes_in_words(size(deltas))}, of {versions(0, newest)}", bottom + 78)
    yield from let_go(scale, oldest, TOP - 16, bottom)
    yield from marks(scale, oldest, TOP - 16, bottom)
    yield from lane(scale, "base", base, TOP, read)
    yield from lane(scale, "cumulatives", table.cumulatives, below_base, read)
    yield from columns(scale, table.singletons.values(), below_bars, read)
    yield from ticks(scale, bottom + 16)
    yield from legend(deltas, bottom + 64)
    yield "</svg>"


def head(name, words, height):
    yield f'<svg xmlns="http://www.w3.org/2000/svg" width="{WIDTH}" height="{height}" viewBox="0 0 {WIDTH} {height}">'
    yield f"<style>{STYLE}</style>"
    yield f'<rect width="{WIDTH}" height="{height}" fill="#fff"/>'
    yield text(LEFT, 30, name, "title")
    yield text(WIDTH - RIGHT, 30, words, "end light")


def main():
    words = argparse.ArgumentParser(description="Draws the deltas of a table as SVG.")
    words.add_argument("store", help="the store's folder")
    words.add_argument("table", help="the name of a table; a view's files are drawn with its table's")
    asked = words.parse_args()
    store = Store(asked.store)
    table = store.table(asked.table)
    store.test_files(table)
    print("\n".join(picture(store, table)))


if __name__ == "__main__":
    run(main)
