"""What is measured: which request over which input.

A size is a number of a unit that the domain knows (its UNITS). A scale multiplies it, and the steps too where the case
has them scaled. So the bytes of the inputs grow with the scale, and what a case costs should grow as they do. Counting is
slow and takes a small scale; `enlarged` is by how much it takes more of a case whose inputs are small already.
"""
from collections import namedtuple

Case = namedtuple("Case", "name request domain size unit steps more_steps enlarged", defaults=[None, False, 1])

CASES = [
    Case("steps, 1M steps", "steps", "gripper", 100000, "operators", 1000000, True, 4),
    Case("print gripper, 200 MB", "print", "gripper", 200, "MB"),
    Case("show blocks, 200 MB", "show", "blocks", 200, "MB"),
    Case("check gripper, 200 MB", "check", "gripper", 200, "MB"),
    Case("check power, 30 MB", "check", "power", 30, "MB", enlarged=5),
    Case("plan gripper, 100k operators, 1M steps", "plan", "gripper", 100000, "operators", 1000000, True, 4),
    Case("plan blocks, 20k operators, 1M steps", "plan", "blocks", 20000, "operators", 1000000, True, 8),
    Case("plan lift, 10k operators, 1M steps", "plan", "lift", 10000, "operators", 1000000, True, 8),
    Case("plan wide, 10k effects, 200 steps", "plan", "wide", 10000, "effects", 200, enlarged=8),
    # a step may let nearly all fall and rise, and so cost what the rules cost: the steps stay as they are
    Case("plan power, 100k rules, 400 steps", "plan", "power", 100000, "rules", 400, enlarged=2),
    Case("plan tables, 100k rules, 20k steps", "plan", "tables", 100000, "rules", 20000, True, 4),
    Case("plan building, 100k rules, 20k steps", "plan", "building", 100000, "rules", 20000, True, 4),
    Case("mutex gripper, 2000 groups", "mutex", "gripper", 2000, "groups", enlarged=25),
    Case("mutex blocks, 20 MB", "mutex", "blocks", 20, "MB", enlarged=5),
]


def chosen(text):
    """Returns the cases with this text in their name."""
    return [case for case in CASES if text in case.name]


def wanted_size(case, scale):
    return case.size * scale


def wanted_steps(case, scale):
    """Returns how many steps the plan shall have; None where the request reads no plan."""
    return max(1, int(case.steps * scale)) if case.more_steps else case.steps


def files_of(case, made):
    """Returns the files that the request reads, in the order of its words."""
    reads = {"steps": [made.plan], "plan": [made.task, made.plan]}
    return reads.get(case.request, [made.task])
