"""Many plans of one task: what `plans` prints of them, computed from the meaning of a task.
A task here is as in tasks.py, and a plan is a pair of its label and of its file, as a string of which each character is a byte.

A label is the word that names a plan. For each plan, in the order of the words, there is a line: its label, `: `, and the line
that `plan` prints of it, also where the plan file is refused. Last there is

    N plans, V valid                        where none is valid
    N plans, V valid, best cost C: LABEL    where V are: C is the lowest cost of these, and LABEL names the first of that cost

A plan that is refused counts among the N. The exit status is 0 if all are valid. No plan changes what is said of another. Where
the task is refused, or isn't layered, all that is printed is the line that `plan` prints, and no plan is opened.

With `--why`, the lines that `plan --why` prints behind that line follow it here, too. The last line and the exit status are the same.
"""
import re

from oracles.reasons import reasons
from oracles.refusals import after_file, refusal
from oracles.steps import verdict
from oracles.tasks import plan_of


def judged(task, text):
    """Returns the line that `plan` prints of a plan file, and what the plan costs; None where it isn't valid."""
    refused = refusal("plan", text.encode("latin-1"))
    if refused:
        return refused[0], None
    names, cost = plan_of(text)
    said, _ = verdict(task, names, cost)
    return said, cost if said.startswith("plan valid: ") else None


def summary(costs):
    """Returns the last line about plans with these labels, each with its cost, or None where it isn't valid."""
    valid = [(cost, label) for label, cost in costs if cost is not None]
    line = f"{len(costs)} plans, {len(valid)} valid"
    if not valid:
        return line
    cost, label = min(valid, key=lambda it: it[0])
    return f"{line}, best cost {cost}: {label}"


def lines_of(task, plans, why=False):
    """Returns what is printed of plans of a layered task, with reasons or without."""
    verdicts = [(label, text, *judged(task, text)) for label, text in plans]
    lines = []
    for label, text, said, _ in verdicts:
        lines.append(f"{label}: {said}")
        if why:
            lines += after(task, text, said)
    return [*lines, summary([(label, cost) for label, _, _, cost in verdicts])]


def after(task, text, said):
    """Returns the lines of reasons for what is said of a plan file."""
    if said.startswith("plan refused: "):
        return after_file(said, text)
    return reasons(task, *plan_of(text))[1]


def status_of(lines):
    """Returns the exit status with which these lines are printed."""
    counts = re.match(r"(\d+) plans, (\d+) valid", lines[-1])
    return 0 if counts and counts[1] == counts[2] else 1
