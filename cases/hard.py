"""The catalogue of hard tasks: families of one shape in any size, each with one thing in great number that might make a cost a square.

No proof speaks of time, so a program that takes the square is proved, too. growth.py tries each family at small sizes: the answer, and
that instructions grow as the input does. bench/families.py measures them at larger sizes.
"""
import functools
import os
from collections import namedtuple

import crowded
import idle
import lengthy
import plenty
from large import plan_text, task_with
from oracles.families import line_of, verdicts
from oracles.reasons import reasons
from oracles.tasks import text_of, with_ends
from oracles.traces import traced
from texts import as_bytes, put

# A family: what it could show, the words of its request, and how it is made: a maker returns for a
# number of things a task and what `whole` takes beside it. How many things it has at its first
# size, and how many times as much a further byte may cost where the size is twice as large; of a
# square it costs twice as much.
Family = namedtuple("Family", "name shows words make whole size most", defaults=[1.15])
# an input in a folder: the words of the request, how many bytes its files have, what is printed, and the exit status
Input = namedtuple("Input", "words bytes output status")
SQUARE = 2.3
# the size at which answers are compared with what the oracles compute, and the most groups for that, as these try each set of groups
SMALL, MOST_GROUPS = 7, 8

# What a family has, made of what its maker returns: the task, the names of a plan's steps and its
# cost, or None where no plan is read, and the lines that are printed.


def of_groups(task, said):
    return task, None, None, [line_of(*it).removesuffix("\n") for it in enumerate(said)]


def of_steps(task, names):
    return task, names, len(names), [plenty.valid_line(names)]


def of_trace(task, names, lines):
    return task, names, len(names), lines


def as_made(*made):
    return made


def conditions(size):
    """An operator whose effects have so many conditions, each effect as many as there are effects."""
    each = round(size**0.5)
    effect = [(1, 0)] * each, 0, -1, 1
    return task_with([2, 2], operators=[("go", [], [effect] * each, 1)]), None, None, ["task layered"]


def still(size):
    return plenty.still_trace(size, size)


def storms(size):
    return plenty.storm_trace(size, 10, size // 2)


def family(words, whole, make, shows, size, **more):
    """Returns the family of a maker, which is named after it."""
    name = f"{' '.join(words)}, {make.__name__.replace('_', ' ')}"
    return Family(name, shows, words, make, whole, size, **more)


def why_families(size, *makers, **more):
    return [family(["plan", "--why"], as_made, make, EACH_CAUSE, size, **more) for make in makers]


group_family = functools.partial(family, ["mutex"], of_groups)
plan_family = functools.partial(family, ["plan"], of_steps)
EACH_FACT = "going through the facts of a group as they are listed, at each effect"
EACH_GROUP = "going through all groups of a fact for each operator that requires it, or as each of them falls"
EACH_EFFECT = "noting anew for each effect what is known"
EACH_STEP = "going through all derived variables, layers or rules at each step"
EACH_NAME = "comparing a name with all others"
EACH_CAUSE = "looking for each cause through all steps, all rules or what was said"
EACH_LINE = "going through all variables for each line of a trace"

FAMILIES = [
    group_family(crowded.listed_often, EACH_FACT, 1500),
    group_family(crowded.listed_by_turns, EACH_FACT, 1500),
    group_family(crowded.variables_by_turns, EACH_FACT, 1000),
    # when an effect fires all other facts of the group have to go, so that the square of them has to be looked at
    group_family(crowded.conditional, "looking at all effects for each pair of facts, which is the cube", 50, most=SQUARE),
    group_family(crowded.shared, EACH_GROUP, 600),
    group_family(crowded.spoiled, EACH_GROUP, 600),
    group_family(crowded.chained, EACH_GROUP, 600),
    group_family(crowded.resting, "looking at all operators as each group falls", 600),
    group_family(crowded.falling_pairs, "looking at all groups as each of them falls", 500),
    group_family(crowded.standing_pairs, "looking at all groups for each of them", 500),
    group_family(crowded.swapped, "looking at all operators as each group falls", 600),
    group_family(crowded.effects_beside, EACH_EFFECT, 2000),
    group_family(crowded.effects_alone, EACH_EFFECT, 2000),
    group_family(crowded.relying, EACH_GROUP, 200),
    group_family(crowded.single, EACH_GROUP, 1000),
    group_family(crowded.excluded, "looking at each fact of a group for each operator that sets one", 500),
    group_family(crowded.one_variable, "looking at all effects of an operator for each of them", 1000),
    group_family(crowded.left, "the same, where each operator sets another fact", 300),
    group_family(crowded.parted, "the same, before an operator that breaks the group", 500),
    plan_family(idle.unruled, EACH_STEP, 500),
    plan_family(idle.layered, EACH_STEP, 400),
    plan_family(idle.above, EACH_STEP, 400),
    plan_family(idle.ruled, EACH_STEP, 1000),
    plan_family(idle.turned, EACH_STEP, 400),
    plan_family(plenty.lamp, "going through all variables at each step", 3000),
    plan_family(plenty.lamp_unlit, "the same where no rule fires", 3000),
    plan_family(idle.nets, "going through all rules at each step, or at each one after a step that changed nearly all", 50),
    plan_family(idle.named_alike, EACH_NAME, 1000),
    plan_family(idle.named_the_same, "trying all operators of a name at each step", 1000),
    family(["check"], as_made, conditions, "going through all effects for each condition", 10_000),
    *why_families(5000, lengthy.long_blocked, lengthy.long_anyway, lengthy.long_missed, lengthy.long_unknown, lengthy.long_settled, lengthy.long_lit),
    *why_families(500, lengthy.long_changed, lengthy.beside, lengthy.chain_up, lengthy.chain_down),
    *why_families(500, lengthy.chain_again, lengthy.chain_of_layers),
    *why_families(511, lengthy.tree_down, lengthy.tree_up),
    *why_families(500, lengthy.chain_dark),
    *why_families(1000, lengthy.rules_again, lengthy.no_rules_again),
    *why_families(500, lengthy.many_blocked, lengthy.many_blocked_derived),
    *why_families(2000, lengthy.many_preconditions),
    *why_families(1000, lengthy.many_effects, lengthy.many_named),
    *why_families(500, lengthy.many_alike),
    family(["trace"], of_trace, still, EACH_LINE, 1500),
    family(["trace"], of_trace, storms, EACH_LINE, 400),
    family(["trace"], of_trace, plenty.lamp_trace, EACH_LINE, 1500),
]


def status_of(lines):
    """Returns the exit status with which these lines are printed."""
    return int(any(it.startswith("plan invalid: ") or " not shown: " in it for it in lines))


def compare_small(family):
    """Compares the answer at a small size with what the oracles compute."""
    task, names, cost, lines = family.whole(*family.make(SMALL))
    if family.words == ["plan", "--why"]:
        fault, after = reasons(task, names, cost)
        expected = [fault, *after]
    elif names is not None:
        expected = traced(task, names, cost)[-len(lines) :]
    elif family.words == ["mutex"] and len(task["groups"]) <= MOST_GROUPS:
        expected = of_groups(task, verdicts(task)[0])[-1]
    else:
        return
    assert expected == lines, (family.name, expected, lines)


def input_of(family, size, folder):
    """Writes the files of a family with so many things, and returns the input."""
    task, names, cost, lines = family.whole(*family.make(size))
    texts = [text_of(task), *([] if names is None else [plan_text(names, cost)])]
    front = os.path.join(folder, f"{family.name}, {size}")
    paths = [put(f"{front}.{kind}", as_bytes(text)) for kind, text in zip(("sas", "plan"), texts)]
    output = as_bytes(with_ends(lines))
    return Input([*family.words, *paths], sum(map(len, texts)), output, status_of(lines))
