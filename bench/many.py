#!/usr/bin/env python3
"""Times `plans` beside a run of `plan` for each plan, and `trace` beside `plan`.

    bench/many.py ./sas FOLDER [--scale F] [--plans N] [--rounds R]

The inputs are made in FOLDER if they aren't there: a task of gripper of 20 MB with N plans of 100 steps, the same ones under
as many names, and for traces the tasks of gripper and blocks with plans of a million steps. Of R rounds the best time counts,
and the most memory. What is written goes to /dev/null. The exit status is 1 if `plans` takes more than a fiftieth of the runs
of `plan`, or a trace more than 2.5 times its `plan` or more than 1.2 times its memory.
"""
import itertools
import os

import machine
from cases import Case
from make import case_input
from run import measured

STEPS = 100
LARGE = Case("plans gripper, 20 MB", "plan", "gripper", 20, "MB", 1)
TRACES = [
    Case("trace gripper, 100k operators, 1M steps", "plan", "gripper", 100000, "operators", 1000000, True),
    Case("trace blocks, 20k operators, 1M steps", "plan", "blocks", 20000, "operators", 1000000, True),
]
MOST, MOST_TIME, MOST_MEMORY = 1 / 50, 2.5, 1.2
# how long a command may take, in seconds
LIMIT = 600


def best(commands, rounds):
    """Returns how long the commands take in turn, in seconds, and the most memory that one had, in
    MB, of so many rounds."""
    runs = [[measured(command, LIMIT) for command in commands] for _ in range(rounds)]
    seconds = min(sum(run.seconds for run in ran) for ran in runs)
    return seconds, max(run.peak for ran in runs for run in ran)


def short_plans(made, count):
    """Returns so many plans, all the same: the first steps of the one that was made. They miss the goal."""
    with open(made.plan, encoding="utf-8") as file:
        steps = list(itertools.islice(file, STEPS))
    paths = [os.path.join(made.folder, f"plan.{number}") for number in range(1, count + 1)]
    for path in paths:
        with open(path, "w", encoding="utf-8") as file:
            file.writelines([*steps, f"; cost = {STEPS} (unit cost)\n"])
    return paths


def rows(given):
    """Yields the rows of the table, each with whether it is well."""
    made = case_input(given.folder, LARGE, given.scale)
    plans = short_plans(made, given.plans)
    together, memory = best([[given.sas, "plans", made.task, *plans]], given.rounds)
    each, most = best([[given.sas, "plan", made.task, plan] for plan in plans], 1)
    cells = [f"{LARGE.name}, {given.plans} plans of {STEPS} steps", "%.3f" % together, "%.1f" % memory, "%.3f" % each, "%.1f" % most]
    yield [*cells, "%.4f" % (together / each)], together / each <= MOST
    for case in TRACES:
        made = case_input(given.folder, case, given.scale)
        traced, memory = best([[given.sas, "trace", made.task, made.plan]], given.rounds)
        judged, most = best([[given.sas, "plan", made.task, made.plan]], given.rounds)
        cells = [case.name, "%.3f" % traced, "%.1f" % memory, "%.3f" % judged, "%.1f" % most, "%.2f" % (traced / judged)]
        yield cells, traced <= MOST_TIME * judged and memory <= MOST_MEMORY * most


def main():
    given = machine.arguments(__doc__, "sas", "folder", scale=1.0, plans=1000, rounds=5)
    given.sas = os.path.abspath(given.sas)
    heads = ["Case", "Time", "Memory, MB", "`plan`, in all", "Memory, MB", "Ratio of times"]
    machine.print_head(heads, given.sas)
    machine.print_rows(rows(given))


main()
