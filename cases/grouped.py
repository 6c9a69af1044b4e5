"""Small tasks with mutex groups, made at random from a fixed seed. oracles/families.py computes the verdicts on the groups.
"""
import random
from itertools import chain

from layered import any_fact, other_value, random_task
from oracles.families import before_operators, is_invariant, line_of, reachable, verdicts
from oracles.group_reasons import with_all_reasons
from oracles.tasks import text_of
from texts import case
from walks import basic_task, random_facts, random_operator

SEED = 7
TASKS = 300


def random_group(chance, task):
    """Returns a group, most often of facts on several basic variables of which at most one is of the state section."""
    while True:
        group = [any_fact(chance, task) for _ in range(chance.choice((0, 1, 2, 2, 2, 2, 3, 3, 3, 4)))]
        if chance.random() < 0.1 or before_operators(task, group) is None and len({var for var, _ in group}) > 1:
            return group


def removing(chance, task, f, known):
    """Returns an effect that most often takes the fact f away, under f, one of the facts that are known, any fact or
    none."""
    var, value = f
    facts = chance.choice(([], [], [f], known[:1], known[-1:], [any_fact(chance, task)]))
    new = value if chance.random() < 0.1 else other_value(chance, task["ranges"][var], value)
    return facts, var, chance.choice((-1, -1, -1, value)), new


def excluding(chance, task, f, g):
    """Returns facts so that a step that sets g doesn't start where f holds: one on its variable, or another one of some
    group of it. Now and then there is none."""
    rivals = [fact for group in task["groups"] if f in group for fact in group if fact[0] not in (f[0], g[0])]
    if rivals and chance.random() < 0.7:
        return [chance.choice(rivals)]
    return [(f[0], other_value(chance, task["ranges"][f[0]], f[1]))] if chance.random() < 0.8 else []


def two_facts(chance, task):
    """Returns two facts of some group on basic variables; none where no such group has two."""
    groups = [group for group in task["groups"] if len(group) > 1]
    groups = [group for group in groups if all(task["layers"][var] is None for var, _ in group)]
    return chance.sample(chance.choice(groups), 2) if groups else None


def either_operator(chance, task, f, g):
    """Returns an operator with an effect for each of these two facts; it requires facts that may contradict each other."""
    on, value = any_fact(chance, task)
    changed = (on, other_value(chance, task["ranges"][on], value))
    other = chance.choice((changed, *chain.from_iterable(task["groups"])))
    first, second = [(on, value), *excluding(chance, task, g, f)], [other, *excluding(chance, task, f, g)]
    return "go", [], [(first, f[0], -1, f[1]), (second, g[0], -1, g[1])], 1


def careful_operator(chance, task, g):
    """Returns an operator that sets this fact, and most often keeps the groups that it is in."""
    prevail, conditions, others = random_facts(chance, task, (0, 0, 1)), random_facts(chance, task, (0, 0, 1)), []
    for f in sorted({f for group in task["groups"] if g in group for f in group if f[0] != g[0]}):
        if task["layers"][f[0]] is None and chance.random() < 0.35:
            others.append(removing(chance, task, f, [*prevail, *conditions]))
        else:
            chance.choice((prevail, conditions)).extend(excluding(chance, task, f, g))
    others.insert(chance.randrange(len(others) + 1), (conditions, g[0], -1, g[1]))
    return "go", prevail, others, 1


def group_operator(chance, task):
    facts = two_facts(chance, task)
    if facts is None or chance.random() < 0.15:
        return random_operator(chance, task)
    if chance.random() < 0.2:
        return either_operator(chance, task, *facts)
    return careful_operator(chance, task, facts[0])


def grouped_task(chance):
    while True:
        task = random_task(chance) if chance.random() < 0.3 else basic_task(chance)
        if len(task["ranges"]) <= 4:
            break
    task["groups"] = [random_group(chance, task) for _ in range(chance.choice((1, 2, 3, 4, 4, 5, 5)))]
    task["operators"] = [group_operator(chance, task) for _ in range(chance.choice((1, 2, 3, 4, 4, 4)))]
    return task


def judged(name, task, joint, alone):
    return {
        "name": name,
        "task": text_of(task),
        "output": "".join(line_of(place, verdict) for place, verdict in enumerate(joint)),
        "status": 0 if set(joint) <= {"Exclusive"} else 1,
        "call": "".join([*(f"joint {verdict}\n" for verdict in joint), *(f"alone {verdict}\n" for verdict in alone)]),
    }


def grouped_tasks():
    """Yields tasks with groups made at random, as texts, each with the verdicts on the groups. They could show a definition
    of kept groups by which too few are shown, in a case that no one thought of."""
    chance = random.Random(SEED)
    for number in range(TASKS):
        task = grouped_task(chance)
        joint, alone = verdicts(task)
        states = reachable(task)
        for group, said in zip(task["groups"], zip(joint, alone)):
            assert "Exclusive" not in said or is_invariant(states, group)
        yield judged(f"groups of random task {number}", task, joint, alone)


def reason_cases():
    """Yields the tasks that are made at random, with `--why`. They could show a wrong definition of the reasons, in a
    case that no one thought of."""
    for made in grouped_tasks():
        output, files = with_all_reasons(made["output"], made["task"]), {"t.sas": made["task"]}
        words = ["mutex", "--why", "t.sas"]
        yield case(f"{made['name']}, with reasons", words, output, made["status"], files=files)
