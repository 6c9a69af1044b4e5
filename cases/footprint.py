#!/usr/bin/env python3
"""Measures how much memory the program takes for what its inputs hold, and compares it with the table of docs/GUIDE.md.

    python3 cases/footprint.py SAS

Each input has much of one thing, such as operators, in two sizes. From one to the other, the peak memory of a run may grow by what the
table says for what was added, and by the bytes of its names, but by no more than a twentieth beyond that. It has to grow by half of that,
too: a table that says far more than is taken is wrong. The inputs are so large that the peak is above that of the process that starts the
program, which the system counts, too.

No proof is about memory. A program that stores something twice, or keeps what it no longer needs,
would be found here alone.
"""
import os
import sys
from collections import Counter, namedtuple

import harness
from texts import TOP, put, text_of

sys.path.insert(0, os.path.join(TOP, "bench"))
from run import measured

GUIDE, HEAD = f"{TOP}/docs/GUIDE.md", "| For each |"
# what a run may grow by, and what it has to grow by at least, as parts of what the table says; by how many bytes two runs may differ
MOST, LEAST, SPREAD = 1.05, 0.5, 300_000
SECONDS = 60
# about how many bytes a task or a plan has in its first size, how many items a list has, and how many bytes a name
SIZE, EACH, NAME = 8_000_000, 1000, 7
# the columns of the table whose requests have a plan, too
OVER_PLANS = ("plan", "trace", "plans")

# A part of a task: how many items it has, their text, and how much they hold of what the table names, and of bytes of names
Part = namedtuple("Part", "count text holds", defaults=(0, b"", Counter()))
Input = namedtuple("Input", "task plan holds")
# an input: its name, how it is made for a number of items, and the requests that it is given to, or all of the table
Made = namedtuple("Made", "name input requests", defaults=(None,))


def table():
    """Returns the table of the guide: for each request, how many bytes it takes for each thing."""
    lines = iter(text_of(GUIDE).splitlines())
    head = next(line for line in lines if line.startswith(HEAD))
    columns = [cell.replace("`", "").strip().split(", ") for cell in head.split("|")[2:-1]]
    found = {name: Counter(name=1) for names in columns for name in names}
    next(lines)
    for line in lines:
        if not line.startswith("|"):
            break
        things, *figures = [cell.strip() for cell in line.split("|")[1:-1]]
        for names, figure in zip(columns, figures):
            for name in names:
                found[name].update({thing: int(figure) for thing in things.split(", ")})
    return found


def names(count):
    return [b"%0*d" % (NAME, place) for place in range(count)]


def variables(count, values=2, layer=-1):
    text = b"begin_variable\nv\n%d\n%d\n%send_variable\n" % (layer, values, b"a\n" * values)
    return Part(count, text * count, Counter({"variable": count, "value of a variable": count * values, "name": count * (1 + values)}))


def groups(count, each):
    """Returns so many mutex groups, each with a fact of each of so many variables. None of these holds at first."""
    facts = b"".join(b"%d 1\n" % var for var in range(each))
    text = b"begin_mutex_group\n%d\n%send_mutex_group\n" % (each, facts)
    return Part(count, text * count, Counter({"mutex group": count, "fact of a group": count * each}))


def goal(count):
    return Part(count, b"0 1\n" * count, Counter({"goal fact": count}))


def operators(count, prevail=0, effects=0, conditions=0):
    """Returns so many operators, each with so many prevail conditions and effects, and each of these with so many conditions."""
    effect = (b"%d %s0 -1 0\n" % (conditions, b"0 0 " * conditions)) * effects
    rest = b"%d\n%s%d\n%s0\nend_operator\n" % (prevail, b"0 0\n" * prevail, effects, effect)
    text = b"".join(b"begin_operator\n%s\n%s" % (name, rest) for name in names(count))
    lists = count * effects if conditions else 0
    held = {"operator": count, "condition": count * prevail + lists * conditions, "effect": count * effects, "name": count * NAME}
    return Part(count, text, Counter({**held, "list of conditions of an effect": lists}))


def rules(count, conditions=0):
    """Returns so many rules of the second variable, which is derived, each with so many conditions. They can fire."""
    text = b"begin_rule\n%d\n%s1 0 1\nend_rule\n" % (conditions, b"0 0\n" * conditions)
    return Part(count, text * count, Counter({"rule": count, "condition of a rule": count * conditions}))


def steps(count):
    return Part(count, b"".join(b"(%s)\n" % name for name in names(count)), Counter({"step of a plan": count, "name": count * NAME}))


def input_of(plan=Part(), **parts):
    """Returns the input with these parts of a task, and the steps of this plan. It has a group, or `mutex` would have nothing to do."""
    held = {"variables": variables(1), "groups": groups(1, 1), "goal": Part(), "operators": Part(), "rules": Part(), **parts}
    counted = {name: b"%d\n%s" % (part.count, part.text) for name, part in held.items()}
    values = b"0\n" * held["variables"].count
    state = b"begin_state\n%send_state\nbegin_goal\n%send_goal\n" % (values, counted["goal"])
    head = b"begin_version\n3\nend_version\nbegin_metric\n0\nend_metric\n"
    task = [head, counted["variables"], counted["groups"], state, counted["operators"], counted["rules"]]
    end = b"; cost = %d (unit cost)\n" % plan.count
    return Input(b"".join(task), plan.text + end, sum((part.holds for part in [*held.values(), plan]), Counter()))


def with_rules(part):
    basic, derived = variables(1), variables(1, layer=0)
    return input_of(variables=Part(2, basic.text + derived.text, basic.holds + derived.holds), rules=part)


def long_section(values):
    """Returns the input with a section longer than what is read at once, which is stored twice."""
    part = variables(1, values)
    return input_of(variables=part._replace(holds=part.holds + part.holds))


def with_reasons(count):
    """Returns the input in which each goal fact has four lines of reasons."""
    made = input_of(goal=goal(count))
    return made._replace(holds=made.holds + Counter({"line of reasons": 4 * count}))


INPUTS = (
    Made("values", lambda size: input_of(variables=variables(size // (2 * EACH), EACH))),
    Made("values of one variable", lambda size: long_section(size // 2), ["check", "plan", "plans"]),
    Made("variables", lambda size: input_of(variables=variables(size // 39))),
    Made("groups", lambda size: input_of(variables=variables(2), groups=groups(size // 44, 2))),
    Made("facts of groups", lambda size: input_of(variables=variables(50), groups=groups(size // 270, 50))),
    Made("goal facts", lambda size: input_of(goal=goal(size // 4))),
    Made("goal facts with reasons", lambda size: with_reasons(size // 8), ["plan --why"]),
    Made("operators", lambda size: input_of(operators=operators(size // 42))),
    Made("prevail conditions", lambda size: input_of(operators=operators(size // (4 * EACH), EACH))),
    Made("effects", lambda size: input_of(operators=operators(size // (9 * EACH), 0, EACH))),
    Made("effects with conditions", lambda size: input_of(operators=operators(size // (13 * EACH), 0, EACH, 1))),
    Made("rules", lambda size: with_rules(rules(size // 28))),
    Made("conditions of rules", lambda size: with_rules(rules(size // (4 * EACH), EACH))),
    Made("steps", lambda size: input_of(steps(size // 40), operators=operators(size // 19)), OVER_PLANS),
)


def peak_of(program, request, made, folder):
    """Returns the most memory that a run over an input had, in bytes."""
    paths = [put(f"{folder}/task", made.task), put(f"{folder}/plan", made.plan)]
    words = request.split()
    return measured([program, *words, *paths[: 2 if words[0] in OVER_PLANS else 1]], SECONDS).peak * 1e6


def stored(figures, holds):
    """Returns how many bytes the table says for what an input holds."""
    return sum(figures[thing] * count for thing, count in holds.items())


def grown(program, request, figures, sizes, folder):
    """Returns what is wrong with how a run grows between two sizes of an input."""
    first, second = (peak_of(program, request, made, folder) for made in sizes)
    said = stored(figures, sizes[1].holds) - stored(figures, sizes[0].holds)
    if LEAST * said - SPREAD <= second - first <= MOST * said + SPREAD:
        return []
    return [f"it grows by {(second - first) / 1e6:.1f} MB, not by {said / 1e6:.1f}, as the guide says"]


def tests(sas, place):
    figures = table()
    for made in INPUTS:
        sizes = [made.input(SIZE), made.input(2 * SIZE)]
        for request in made.requests or figures:
            wrong = grown(sas, request, figures[request.split()[0]], sizes, place)
            yield f"{made.name}, {request}", wrong


if __name__ == "__main__":
    harness.main(tests)
