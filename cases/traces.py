"""Traces: cases as in program.json, for run.py. oracles/traces.py computes what is printed.

traces.json: plans of tasks.

    shows        a mistake that this one could show
    task, plan   the files, as texts
    lines        what is printed of them

Those, and the random ones that are made here, are given to `plan` too, which prints the last line.
"""
import random

from following import long_runs
from oracles.reasons import reasons
from oracles.tasks import plan_of, plan_text, task_of, text_of, value_name
from oracles.traces import lines_of, traced
from texts import as_bytes, latin, made_by, table
from why import case_of, shared_plans, turned, walked_again

SEED = 77
# how many tasks are made as in walks.py, and as in following.py; why.py makes the same number of plans of each
WALKED, TURNED = 400, 120
# names of values: with spaces, of any bytes, and such as make a line look like another one
NAMES = (" ", "a b ", "  two  spaces", "0 1 1 x", "plan valid: 0 steps, cost 0", "\u0000\u00ff ", "-1")
TRACE = ("trace", "t.sas", "p.txt")


def twice(name, task, plan, lines):
    """Yields the case of a trace, and the case of `plan` over the same files, which prints its last line."""
    yield case_of(name, task, plan, lines[-1:], ("plan", *TRACE[1:]))
    yield case_of(name, task, plan, lines, TRACE)


def written_traces():
    """Yields the plans of traces.json: a name, the files, and the lines. Where both files are read, these stand there and are
    computed too."""
    for made in table("traces.json"):
        task, plan = as_bytes(made["task"]), as_bytes(made["plan"])
        if " refused: " not in made["lines"][-1]:
            computed = traced(task_of(task.decode("latin-1")), *plan_of(plan.decode("latin-1")))
            assert computed == made["lines"], (made["shows"], computed)
        yield made["shows"], task, plan, made["lines"]


def written_cases():
    """Yields the plans of traces.json, from files, with either end of lines, and each of the two from standard input. They
    could show a wrong definition of traces, and two inputs that are exchanged."""
    for name, task, plan, lines in written_traces():
        yield from twice(name, task, plan, lines)
        yield case_of(name, task, plan, lines, ("trace", "-", "p.txt"), input=task)
        yield case_of(name, task, plan, lines, ("trace", "t.sas", "-"), input=plan)
        ends = (text.replace(b"\n", b"\r\n") for text in (task, plan))
        yield case_of(f"{name}, with CR LF", *ends, lines, TRACE)


def shared_cases():
    """Yields the plans that why.py has of other tests. They could show a wrong definition of
    traces, another verdict than that of `plan`, and lines in front of the refusal of a file."""
    for name, task, plan, said in shared_plans():
        said = said.removesuffix("\n")
        is_refused = " refused: " in said
        lines = [said] if is_refused else traced(task_of(latin(task)), *plan_of(latin(plan)))
        assert lines[-1] == said
        yield case_of(name, task, plan, lines, TRACE)


def long_cases():
    """Yields the long plans of following.py, but for those that end as a valid one does and miss the goal. They could show a
    definition by which a variable need not be printed that rises or falls where the program goes on from the state before."""
    for made in long_runs():
        last = made["output"].removesuffix("\n")
        if "goal fact" not in last:
            lines = [*lines_of(made["run"]), last]
            yield case_of(made["name"], made["task"], made["plan"], lines, TRACE)


def named(chance, task):
    """Returns a task with other names of its values, some of which occur twice."""
    own = ([value_name(task, var, value) for value in range(size)] for var, size in enumerate(task["ranges"]))
    return {**task, "names": [[chance.choice((name, name, *NAMES)) for name in names] for names in own]}


def why(task, names, cost):
    """Returns the lines of `plan --why`."""
    verdict, after = reasons(task, names, cost)
    return [verdict, *after]


def random_cases():
    """Yields plans made at random, which fail in each way. They could show a wrong definition of traces, in a case that no
    one thought of, another verdict than that of `plan`, and other reasons behind it."""
    chance = random.Random(SEED)
    for number in range(WALKED + TURNED):
        made = walked_again(chance) if number < WALKED else turned(chance)
        for place, (task, names, cost) in enumerate(made):
            task = named(chance, task)
            name, files = f"traced plan {place} of task {number}", (text_of(task), plan_text(names, cost))
            lines, (verdict, *after) = traced(task, names, cost), why(task, names, cost)
            assert verdict == lines[-1]
            yield from twice(name, *files, lines)
            yield case_of(f"{name}, with reasons", *files, [*lines, *after], ("trace", "--why", *TRACE[1:]))


def trace_cases():
    return made_by(written_cases, shared_cases, long_cases, random_cases)
