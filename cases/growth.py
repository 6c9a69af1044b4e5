#!/usr/bin/env python3
"""Tries the families of hard tasks that hard.py has: the answers, and that instructions grow with the input and no faster.

    python3 cases/growth.py SAS

Each family is made in three sizes, each twice the one before. The answers are compared, and at a size that is smaller still with what the
oracles compute. Growth is what a further byte costs from the second size to the third, over what it costs from the first to the second.
Near 1 is linear, and a square shows as 2. Instructions are counted by valgrind, so the load of the machine and its speed don't count.
Without valgrind only the answers are tried.

No proof is about time.
"""
import functools
import os
import sys

import harness
from hard import FAMILIES, compare_small, input_of
from harness import is_there
from texts import TOP

sys.path.append(os.path.join(TOP, "bench"))
from answers import digest
from count import counted, further

TIMES = (1, 2, 4)


def wrong_answer(made, status, output):
    return harness.differs((status, output), (made.status, digest([made.output])))


def answer_tests(sas, family, inputs):
    for times, made in zip(TIMES, inputs):
        ran = harness.ended(sas, *made.words)
        yield f"{family.name} of {times * family.size}", wrong_answer(made, ran.returncode, digest([ran.stdout]))


def counted_tests(sas, family, inputs):
    counts = [counted([sas, *made.words]) for made in inputs]
    for times, made, count in zip(TIMES, inputs, counts):
        yield f"{family.name} of {times * family.size}", wrong_answer(made, count.status, count.output)
    first, second = further(inputs, [count.instructions for count in counts])
    growth = second / first
    yield f"{family.name}, its growth", [] if growth <= family.most else [f"{growth:.2f}, which could show {family.shows}"]


def judged(sas, folder, family):
    compare_small(family)
    inputs = [input_of(family, times * family.size, folder) for times in TIMES]
    return list((counted_tests if is_there("valgrind") else answer_tests)(sas, family, inputs))


def tests(sas, place):
    for _, found in harness.side_by_side(functools.partial(judged, sas, place), FAMILIES):
        yield from found


if __name__ == "__main__":
    harness.main(tests)
