"""Small tasks with derived variables, made at random from a fixed seed: with states, with the values that these
settle to, and with layers that are spoiled. A task is as in oracles/tasks.py.
"""
import random

from oracles.axioms import layer_fault, settled
from oracles.layers import REFUSED, fault_said, with_reasons
from oracles.tasks import text_of
from texts import case

SEED = 20
TASKS = 200
STATES = 8
LAYERS = ((0,), (0, 1), (0, 1, 2), (3, 2147483647))


def other_value(chance, size, value):
    """Returns a value of such a range that isn't this one."""
    return chance.choice([other for other in range(size) if other != value])


def random_condition(chance, task, var, news):
    """Returns a condition that a rule of this variable may have: on a basic variable, on a lower layer, or on its own layer.
    On its own layer it isn't a default, and most often it is a value that the rules set."""
    ranges, layers, defaults = task["ranges"], task["layers"], task["defaults"]
    basic = [other for other, layer in enumerate(layers) if layer is None]
    lower = [other for other, layer in enumerate(layers) if layer is not None and layer < layers[var]]
    same = [other for other, layer in enumerate(layers) if layer == layers[var]]
    on = chance.choice(chance.choice([places for places in (basic, lower, same, same) if places]))
    if on not in same:
        return on, chance.randrange(ranges[on])
    if chance.random() < 0.9:
        return on, news[on]
    return on, other_value(chance, ranges[on], defaults[on])


def any_fact(chance, task):
    on = chance.randrange(len(task["ranges"]))
    return on, chance.randrange(task["ranges"][on])


def any_rule(chance, task, var):
    """Returns a rule of this variable with any conditions, any old value and any new value."""
    facts = [any_fact(chance, task) for _ in range(chance.randrange(3))]
    return facts, var, chance.randrange(-1, task["ranges"][var]), chance.randrange(task["ranges"][var])


def random_rule(chance, task, news):
    """Returns a rule of some derived variable, in a layered task whose rules set these new values. Some rules can't fire,
    and these have any old value and any conditions."""
    var = chance.choice(list(news))
    if chance.random() < 0.15:
        facts, _, old, _ = any_rule(chance, task, var)
        return facts, var, old, task["defaults"][var]
    facts = [random_condition(chance, task, var, news) for _ in range(chance.choice((0, 1, 1, 1, 2, 2, 3)))]
    if facts and chance.random() < 0.2:
        facts.append(chance.choice(facts))
    return facts, var, chance.choice((-1, task["defaults"][var])), news[var]


def random_task(chance):
    """Returns a layered task. It has a basic variable, and a variable on each of its layers."""
    layers = chance.choice(LAYERS)
    size = chance.randint(2 + len(layers), 7)
    task = {
        "ranges": [chance.choice((2, 2, 3)) for _ in range(size)],
        "layers": [None, *layers, *(chance.choice((None, *layers, *layers)) for _ in range(size - 1 - len(layers)))],
        "rules": [],
    }
    chance.shuffle(task["layers"])
    task["defaults"] = [chance.randrange(most) for most in task["ranges"]]
    derived = [var for var, layer in enumerate(task["layers"]) if layer is not None]
    news = {var: other_value(chance, task["ranges"][var], task["defaults"][var]) for var in derived}
    task["rules"] = [random_rule(chance, task, news) for _ in range(chance.randint(len(derived), 4 * len(derived)))]
    return task


def spoiled_rule(chance, task, rule):
    """Returns this rule with another old value, another new value or a condition more, or another rule."""
    facts, var, old, new = rule
    size, change = task["ranges"][var], chance.randrange(6)
    if change == 0:
        return any_rule(chance, task, chance.randrange(len(task["ranges"])))
    if change == 1:
        return facts, var, chance.randrange(size), new
    if change in (2, 3):
        return facts, var, old, chance.randrange(size)
    return [*facts, any_fact(chance, task)], var, old, new


def spoiled_task(chance):
    """Returns a task that was layered before some of its rules were changed."""
    task = random_task(chance)
    for place in chance.choices(range(len(task["rules"])), k=2):
        task["rules"][place] = spoiled_rule(chance, task, task["rules"][place])
    return task


def settled_tasks():
    """Yields layered tasks, as texts, each with states and what they settle to. They could show a wrong definition of
    settled states, in a case that no one thought of."""
    chance = random.Random(SEED)
    for _ in range(TASKS):
        task = random_task(chance)
        # a value for each variable, the derived ones too
        states = [[chance.randrange(most) for most in task["ranges"]] for _ in range(STATES)]
        yield {"task": text_of(task), "states": states, "settled": [settled(task, state) for state in states]}


def spoiled_tasks():
    """Yields tasks, as texts, each with the fault of its layers. They could show a wrong definition of layered tasks, in a
    case that no one thought of."""
    chance = random.Random(SEED)
    for _ in range(TASKS):
        task = spoiled_task(chance)
        yield {"task": text_of(task), "fault": layer_fault(task)}


def layer_cases():
    """Yields tasks made at random whose rules were changed, with `--why`. They could show a wrong definition of the reasons, in a case
    that no one thought of."""
    for number, made in enumerate(spoiled_tasks()):
        if made["fault"] is None:
            continue
        said = f"{REFUSED}{fault_said(made['fault'])}\n"
        files, why = {"t.sas": made["task"], "p.txt": ""}, with_reasons(said, made["task"])
        for words in (["check", "t.sas"], ["mutex", "t.sas"], ["plan", "t.sas", "p.txt"]):
            name = f"spoiled task {number}, {words[0]}"
            yield case(name, words, said, 1, files=files)
            yield case(f"{name} --why", [*words, "--why"], why, 1, files=files)
