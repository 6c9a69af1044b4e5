"""Why mutex groups aren't shown to be exclusive, computed from the file of a task and the verdicts on its groups: the lines that
`--why` prints after each of these. Two spaces stand in front of each line. A task here is as in tasks.py; `FACT` in a line
represents `VARIABLE VALUE NAME`, with the name of the value.

    derived                       fact FACT: the first one of the group on a derived variable
    not shown: initial state      holds FACT, holds FACT: the first fact of the state section with a later different one, and the
                                  first of these
    not shown: operator I         operator I line L NAME, effect E sets FACT, and how the operator fails to keep the group:
        effect F sets FACT        the two effects may fire together, and set facts of the group on different variables
        may remain FACT             the fact of the group may hold before a step in which effect E fires, and after it

The reason is the first such effect E, with the first effect F; where there is none, with the first fact of the group that may remain. Facts
contradict each other as in families.py, in the family of the groups that are exclusive and the group itself.
"""
from oracles.families import clash, gone
from oracles.layers import fact_said, operator_said, with_reasons
from oracles.steps import holds, preconditions
from oracles.tasks import task_of, with_ends
from texts import as_bytes


def sets(effect):
    return effect[1], effect[3]


def two_setters(operator, first, group, family):
    """Returns the first effect that sets a fact of the group together with this one, on another variable; None where none may."""
    known = [*preconditions(operator), *first[0]]
    others = ((at, other) for at, other in enumerate(operator[2]) if sets(other) in group and other[1] != first[1])
    return next((at for at, other in others if not clash([*known, *other[0]], family)), None)


def staying(operator, first, group, family):
    """Returns the first fact of the group on another variable that may remain where this effect fires; None where none may."""
    others = (fact for fact in group if fact[0] != first[1])
    return next((fact for fact in others if not gone(operator, fact, first, family)), None)


def broken_reasons(task, place, group, family):
    """Returns the lines of how an operator fails to keep a group."""
    operator = task["operators"][place]
    for at, effect in enumerate(operator[2]):
        if sets(effect) not in group:
            continue
        said = [operator_said(task, place), f"  effect {at} sets {fact_said(task, *sets(effect))}"]
        other = two_setters(operator, effect, group, family)
        if other is not None:
            return [*said, f"  effect {other} sets {fact_said(task, *sets(operator[2][other]))}"]
        fact = staying(operator, effect, group, family)
        if fact is not None:
            return [*said, f"  may remain {fact_said(task, *fact)}"]
    raise AssertionError("the operator keeps the group")


def group_reasons(task, group, verdict, family):
    """Returns the lines for this verdict on a group, in words."""
    if verdict == "exclusive":
        return []
    if verdict == "derived":
        return [f"  derived {fact_said(task, *next(fact for fact in group if task['layers'][fact[0]] is not None))}"]
    if verdict == "not shown: initial state":
        held = [fact for fact in group if holds(task["defaults"], [fact])]
        pair = next((f, g) for at, f in enumerate(held) for g in held[at + 1 :] if f != g)
        return [f"  holds {fact_said(task, *fact)}" for fact in pair]
    return broken_reasons(task, int(verdict.removeprefix("not shown: operator ")), group, [*family, group])


def after_groups(lines, text):
    """Returns these lines of verdicts on the groups of the file's task, with the reasons after each."""
    task = task_of(as_bytes(text).decode("latin-1"))
    verdicts = [line.split(" ", 2)[2] for line in lines]
    family = [group for group, verdict in zip(task["groups"], verdicts) if verdict == "exclusive"]
    answers = zip(lines, task["groups"], verdicts)
    return [said for line, group, verdict in answers for said in (line, *group_reasons(task, group, verdict, family))]


def with_all_reasons(output, text):
    """Returns the output about a file with the lines after it: those of its groups, why it isn't layered, or why it is refused."""
    said = as_bytes(output)
    if not said.startswith(b"group "):
        return with_reasons(output, text)
    lines = after_groups(said.decode("latin-1").removesuffix("\n").split("\n"), text)
    return with_ends(lines).encode("latin-1")
