#!/usr/bin/env python3
"""Makes docs/store.svg: the picture that examples/draw_store.py draws of a store of 42 batches, the older ones of which were
let go and merged, and whose table got a column on the way.

    bench/picture.py [PROGRAM]

PROGRAM is the built program, by default crates/mesa/out/mesa, which `rt run` leaves there."""
import pathlib
import random
import subprocess
import sys

from measure import ROOT, given_program, new_folder, run

BATCHES, WITH_ORDERS = 42, 28
CAMPAIGNS, COUNTRIES = ("boots", "coats", "hats", "scarves", "shoes", "socks"), ("DE", "FR", "IT", "PL")
BEHIND = {12: ["expire,11", "work,spend"], 24: ["work,spend"], 27: ["alter,spend,add_value,orders sum,0"], 34: ["work,spend"]}


def script():
    """A batch a day. On two days of seven most campaigns have a row in each country."""
    draw = random.Random(4)
    yield "table,spend,day int;campaign text;country text,clicks sum;cents sum;top_bid max"
    yield "view,by_campaign,spend,campaign,clicks;cents"
    for number in range(BATCHES):
        yield from batch(draw, number)
        yield from BEHIND.get(number, ())


def batch(draw, number):
    often = 0.9 if number % 7 in (4, 5) else 0.3
    for place in ((campaign, country) for campaign in CAMPAIGNS for country in COUNTRIES):
        if draw.random() < often:
            clicks = draw.randint(1, 200)
            values = [clicks, clicks * draw.randint(20, 60), draw.randint(40, 99)]
            orders = [clicks // 20] if number >= WITH_ORDERS else []
            yield ",".join(map(str, ("row", "spend", 20261101 + number, *place, *values, *orders)))
    yield "commit"


def main():
    with new_folder() as folder:
        run(given_program(), folder, script())
        drawing = [sys.executable, ROOT / "examples" / "draw_store.py", pathlib.Path(folder, "mesa-store"), "spend"]
        drawn = subprocess.run(drawing, check=True, capture_output=True, text=True)
    (ROOT / "docs" / "store.svg").write_text(drawn.stdout)


if __name__ == "__main__":
    main()
