#!/usr/bin/env python3
"""Prints of families of hard tasks whether what ./sas takes grows with the input and no faster, at full size.

    bench/families.py ./sas FOLDER [--only TEXT] [--scale F] [--at-once N]

The families are those of cases/hard.py, which says how each is made and what it could show; cases/growth.py tries them at small sizes. Each
is made in FOLDER in three sizes, each twice the one before. Growth is what a further byte costs from the second size to the third, over
what it costs from the first to the second: near 1 is linear, and a square shows as 2.

The exit status is 1 if one grows faster than it may, or an answer isn't right. N families are counted side by side (as many as there are
processors), which changes no count. It needs valgrind.
"""
import os
import sys
from concurrent.futures import ThreadPoolExecutor

import machine
from answers import digest
from count import answer_word, counted, further

sys.path.append(os.path.join(os.path.dirname(os.path.dirname(os.path.abspath(__file__))), "cases"))
from hard import FAMILIES, input_of

TIMES = (8, 16, 32)


def family_row(given, family):
    """Counts a family, and returns its row of the table, and whether it grows no faster than it may and is answered right."""
    inputs = [input_of(family, family.size * given.scale * times, given.folder) for times in TIMES]
    counts = [counted([given.sas, *made.words]) for made in inputs]
    words = [answer_word(count, digest([made.output]), made.status) for made, count in zip(inputs, counts)]
    word = next((word for word in words if word != "right"), "right")
    costs = further(inputs, [count.instructions for count in counts])
    growth = costs[1] / costs[0]
    is_well = growth <= family.most and word == "right"
    cells = [family.name, " · ".join("%.2f" % (made.bytes / 1e6) for made in inputs), *("%.2f" % cost for cost in costs),
             "%.2f" % growth + ("" if growth <= family.most else " MORE THAN %.2f" % family.most), word]
    return cells, is_well


def main():
    flags = {"only": "", "scale": 1, "at_once": os.cpu_count()}
    given = machine.arguments(__doc__, "sas", "folder", **flags)
    os.makedirs(given.folder, exist_ok=True)
    families = [family for family in FAMILIES if given.only in family.name]
    heads = ["Family", "MB", "instructions a further byte", "and from there on", "growth", "answer"]
    machine.print_head(heads, given.sas)
    with ThreadPoolExecutor(given.at_once) as pool:
        machine.print_rows(pool.map(lambda family: family_row(given, family), families))


if __name__ == "__main__":
    main()
