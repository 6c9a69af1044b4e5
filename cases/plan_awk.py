#!/usr/bin/env python3
"""Tests examples/plan.awk, which converts plans of other planners.

    python3 cases/plan_awk.py

Plans as planners write them have to give the plan of an example, and a text that isn't a plan a line on standard error and no plan. Each
plan is also cut off at each byte: what comes then is no plan, or, after a line's end, the steps of the lines before. The awks are mawk,
gawk, original-awk and that of busybox.

plan_awk.json: texts.

    forms    the plan of the example, as these planners write it
    texts    [TEXT, COMES]: how many of its steps come, or the steps, or how its refusal begins
    named    [OPERATORS, TEXT, STEPS, COST]: of a task with operators of these names and costs; in
             place of the steps stands why the text is refused

No proof reads the script. A step that it loses, a name that it changes, or half a plan that it makes look whole would be found here alone.
"""
import itertools
import os

import harness
from harness import is_there
from large import plan_text, task_with
from oracles.tasks import text_of
from texts import bytes_of_file, put, table

AWKS = (["mawk"], ["gawk"], ["original-awk"], ["busybox", "awk"])
LOCALES = ("C", "C.UTF-8")
TABLE = table("plan_awk.json")
SECONDS = 60
ELEVATOR, PLAN = "examples/elevator.sas", "examples/elevator.plan"
STEPS, COSTS = ("up f0 f1", "stop f1", "up f1 f2", "stop f2", "down f2 f0", "stop f0"), (1, 1, 1, 1, 2, 1)


def text_of_first(count):
    return plan_text(STEPS[:count], sum(COSTS[:count]))


def converted(awk, words, given="", locale="C.UTF-8"):
    """Returns what the script does with these arguments and this standard input: its status, and what it prints."""
    command, env = [*awk, "-f", "examples/plan.awk", *words], {**os.environ, "LC_ALL": locale}
    ran = harness.ended(*command, env=env, input=given.encode("latin-1"), timeout=SECONDS)
    return ran.returncode, ran.stdout.decode("latin-1"), ran.stderr.decode("latin-1")


def wrong(came, expected):
    """Returns what is wrong with what came: a plan was expected, or a refusal that begins with these words."""
    status, plan, said = came
    if expected.startswith("("):
        return [] if came == (0, expected, "") else [f"{came}, not {expected!r}"]
    is_right = status == 1 and plan == "" and said.startswith(f"plan.awk: {expected}") and said.count("\n") == 1
    return [] if is_right else [f"{came}, not {expected!r}"]


def text_cases():
    """Yields texts of plans of the example, each with the plan that it gives, or the first words of the refusal."""
    for name, text in TABLE["forms"].items():
        yield name, text, bytes_of_file(PLAN).decode()
    for text, expected in itertools.chain(*TABLE["texts"].values()):
        if isinstance(expected, int):
            expected = text_of_first(expected)
        elif isinstance(expected, list):
            known = [COSTS[STEPS.index(it)] for it in expected if it in STEPS]
            expected = plan_text(expected, sum(known))
        yield repr(text), text, expected


def cut_cases():
    """Yields the plans of `forms`, cut off at each byte, each with the plan of the steps that are
    left, or nothing where it has to be refused: where the last line has no end, in a list, and
    where no step is left."""
    for name, text in TABLE["forms"].items():
        for front in (text[:length] for length in range(len(text))):
            words = " ".join(front.lower().split())
            count = sum(it in words for it in STEPS)
            is_plan = front.endswith("\n") and count > 0 and not name.startswith("SHOP")
            yield f"{name}, cut to {front[-20:]!r}", front, text_of_first(count) if is_plan else ""


def named_cases(folder):
    """Yields the tasks of `named` and their plans, in files, each with the plan that comes."""
    for number, (operators, text, steps, cost) in enumerate(TABLE["named"]):
        goes = [(name, [], [([], 0, 0, 1)], cost) for name, cost in operators]
        task = text_of(task_with([2], metric=1, goal=[(0, 1)], operators=goes))
        paths = [os.path.join(folder, f"{kind}{number}") for kind in ("task ", "p=")]
        words = [put(path, held) for path, held in zip(paths, (task, text))]
        yield f"{operators}, {text!r}", words, steps if cost is None else plan_text(steps, cost)


def cases_of(awk, is_first, folder):
    """Yields the calls of an awk: name, arguments, standard input, locale, and what has to come. Only the first awk gets plans that were
    cut off."""
    for locale, (name, text, expected) in itertools.product(LOCALES, text_cases()):
        yield f"{name}, {locale}", [ELEVATOR, "-"], text, locale, expected
    for name, text, expected in cut_cases() if is_first else ():
        yield name, [ELEVATOR, "-"], text, LOCALES[-1], expected
    for name, words, expected in named_cases(folder):
        yield name, words, "", LOCALES[-1], expected
    whole, none = bytes_of_file(PLAN).decode(), os.path.join(folder, "none")
    for name, words, given, expected in (
        ("the task from standard input", ["-", PLAN], bytes_of_file(ELEVATOR).decode(), whole),
        ("lines of the task that end in CR LF", ["-", PLAN], bytes_of_file(ELEVATOR).decode().replace("\n", "\r\n"), whole),
        ("no task", [none, PLAN], "", "cannot read a task"),
        ("no plan", [ELEVATOR, none], "", "cannot read the plan"),
        ("task and plan exchanged", [PLAN, ELEVATOR], "", "cannot read a task"),
        ("no plan is named", [ELEVATOR], "", "usage"),
        ("two plans", [ELEVATOR, PLAN, PLAN], "", "usage"),
    ):
        yield name, words, given, LOCALES[-1], expected


def tests(place):
    for number, awk in enumerate(it for it in AWKS if is_there(it[0])):
        cases = cases_of(awk, number == 0, place)
        for case, came in harness.side_by_side(lambda it, awk=awk: converted(awk, *it[1:4]), cases):
            yield f"{awk[0]}: {case[0]}", wrong(came, case[4])


if __name__ == "__main__":
    harness.main(tests)
