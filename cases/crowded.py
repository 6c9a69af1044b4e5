"""Tasks with mutex groups, each with one thing in great number that the search for exclusive groups might go through for each of another.
For a number of these things each function returns a task, which is as in oracles/tasks.py, and the verdict on each of its groups. hard.py
names what each could show.
"""
from large import task_with


def broken(operator):
    return f"Broken {{ operator: {operator} }}"


def facts_task(count, **parts):
    """A task of so many variables of two values. A fact is value 0 of one: of all of these the first alone holds at first."""
    return task_with([2] * count, defaults=[0, *[1] * (count - 1)], **parts)


def setting(var, value=0):
    return [], var, -1, value


def listed_often(size):
    """A group that lists one fact again and again. Each operator sets another fact of it, and removes that one."""
    swap = "go", [], [([], 0, 1, 0), setting(1, 1)], 1
    return facts_task(2, groups=[[(0, 0)] * size + [(1, 0)]], operators=[swap] * size), ["Exclusive"]


def listed_by_turns(size):
    """A group that lists two facts by turns. Each operator sets a third fact of it, and removes these two."""
    swap = "go", [], [setting(0, 1), setting(1, 1), setting(2)], 1
    return facts_task(3, groups=[[(0, 0), (1, 0)] * (size // 2) + [(2, 0)]], operators=[swap] * size), ["Exclusive"]


def variables_by_turns(size):
    """A group that lists the values of two variables by turns. Each operator sets one of them where none of the other variable holds."""
    turns = [(var, value) for value in range(size) for var in range(2)]
    chosen = [("go", [(1, size)], [setting(0, value)], 1) for value in range(size)]
    return task_with([size + 1] * 2, defaults=[size] * 2, groups=[turns], operators=chosen), ["Exclusive"]


def conditional(size):
    """A group, and one operator whose effects set each fact of it under a condition of its own, and remove it where it holds."""
    chosen = [([(0, var - 1)], var, -1, 0) for var in range(1, size + 1)]
    removed = [([(var, 0)], var, -1, 1) for var in range(1, size + 1)]
    group, operator = [(var, 0) for var in range(1, size + 1)], ("go", [], [*chosen, *removed], 1)
    return task_with([size, *[2] * size], defaults=[0, *[1] * size], groups=[group], operators=[operator]), ["Exclusive"]


def sharing_task(count, effects, shared):
    """A task of so many groups, each of a fact that all share, 0, and one of its own. An operator of each sets the group's own
    fact, has these effects too, and requires fact 0 and the own facts of so many groups after it."""
    own = [(place, 0) for place in range(1, count + 1)]
    operators = [("go", [(0, 0), *own[place : place + shared]], [*effects, setting(place)], 1) for place in range(1, count + 1)]
    return facts_task(count + 1, groups=[[(0, 0), fact] for fact in own], operators=operators)


def shared(size):
    """Groups that share a fact, which each operator removes, so that all stay."""
    return sharing_task(size, [setting(0, 1)], 0), ["Exclusive"] * size


def spoiled(size):
    """Groups that share a fact, which no operator removes, so that all fall at once."""
    return sharing_task(size, [], 0), [broken(place) for place in range(size)]


def chained(size):
    """The same, where the operator of a group requires the own fact of the next one, so that it falls only after that."""
    return sharing_task(size, [], 1), [broken(place) for place in range(size)]


def resting(size):
    """Groups that share two facts and fall one after another, as each rests on the next. Operators, half as many, set such a fact, and rest
    on another group, which stays: they require two facts of it."""
    own, pair = [(place, 0) for place in range(2, size + 2)], [(size + 2, 0), (size + 3, 0)]
    rest = "rest", [(1, 0), *pair], [setting(0)], 1
    goes = [("go", own[place + 1 : place + 2], [setting(var)], 1) for place, (var, _) in enumerate(own)]
    groups = [*([(0, 0), (1, 0), fact] for fact in own), pair]
    task = facts_task(size + 4, groups=groups, operators=[*[rest] * (size // 2), *goes])
    return task, [*(broken(size // 2 + place) for place in range(size)), "Exclusive"]


def pairs_task(size, last):
    """A task of groups of two facts, each of which rests on the next: the operator that sets its second fact requires both facts of the
    next group. For the last of them it requires these facts."""
    facts = [[(2 * place, 0), (2 * place + 1, 0)] for place in range(size)]
    operators = [("go", needed, [setting(2 * place + 1)], 1) for place, needed in enumerate([*facts[1:], last])]
    return task_with([2] * (2 * size), defaults=[0, 1] * size, groups=facts, operators=operators)


def falling_pairs(size):
    """Such a task where the last group rests on nothing, so that all fall, one after another from the last one on."""
    return pairs_task(size, []), [broken(place) for place in range(size)]


def standing_pairs(size):
    """Such a task where the last group rests on the first one, so that all stay."""
    return pairs_task(size, [(0, 0), (1, 0)]), ["Exclusive"] * size


def swapped(size, swapping=40):
    """Groups of two facts that all share and one of their own. Operators, always so many, swap the shared ones, which keeps each group by
    itself. Then each group rests on the next, and the last one on nothing, so that all fall."""
    there, back = ([([], 0, old, 1 - old), ([], 1, 1 - old, old)] for old in (0, 1))
    own = [(2 + place, 0) for place in range(size)]
    swaps = [("swap", [], effects, 1) for effects in [there, back] * (swapping // 2)]
    goes = [("go", own[place + 1 : place + 2], [setting(var)], 1) for place, (var, _) in enumerate(own)]
    groups = [[(0, 0), (1, 0), fact] for fact in own]
    task = task_with([2] * (2 + size), defaults=[0, *[1] * (1 + size)], groups=groups, operators=[*swaps, *goes])
    return task, [broken(len(swaps) + place) for place in range(size)]


def effects_task(size, groups):
    """A task of one operator with so many effects, each with a condition and an old value, whose facts are in none of the groups."""
    effects = [([(size, 0)], var, 0, 1) for var in range(size)]
    return task_with([2] * (size + 2), groups=groups, operators=[("all", [], effects, 1)])


def effects_beside(size):
    """Effects that set no fact of a group, which stays."""
    return effects_task(size, [[(size, 0), (size + 1, 1)]]), ["Exclusive"]


def effects_alone(size):
    return effects_task(size, []), []


def relying(size, sharing=100):
    """Groups, always so many, that share a fact, which each operator sets. It requires a fact that is in one more group with all the own
    facts of the others, so that none of these holds beside it."""
    own, required = [(1 + place, 0) for place in range(sharing)], [(1 + sharing + place, 0) for place in range(size)]
    operators = [("go", [fact], [setting(0)], 1) for fact in required]
    groups = [*([(0, 0), fact] for fact in own), own + required]
    count = 1 + sharing + size
    return task_with([2] * count, defaults=[1] * count, groups=groups, operators=operators), ["Exclusive"] * (sharing + 1)


def single(size):
    """Groups of one and the same fact, and operators that set it."""
    return task_with([2], defaults=[1], groups=[[(0, 0)]] * size, operators=[("go", [], [setting(0)], 1)] * size), ["Exclusive"] * size


def excluded(size):
    """A large group, of which each operator sets one fact. Each of the others is in a group with the fact that all operators require, too,
    so that none of them holds when an operator is applied."""
    own = [(2 + place, 0) for place in range(size)]
    groups = [[(1, 0), *own], *([(0, 0), fact] for fact in own)]
    return facts_task(size + 2, groups=groups, operators=[("go", [(0, 0)], [setting(1)], 1)] * size), ["Exclusive"] * (size + 1)


def one_variable(size):
    """A group of the values of one variable, and an operator that sets each of them."""
    group = [(0, value) for value in range(size)]
    return task_with([size + 1], defaults=[size], groups=[group], operators=[("go", [], [setting(0, value) for _, value in group], 1)]), ["Exclusive"]


def left(size):
    """A large group, of which each operator sets one fact of its own. Each fact is in a group with the fact that all operators require as
    an old value and remove, so that none of the others holds when one is applied."""
    own = [(var, 0) for var in range(1, size + 1)]
    operators = [("go", [], [([], 0, 0, 1), setting(var)], 1) for var, _ in own]
    return facts_task(size + 1, groups=[own, *([(0, 0), fact] for fact in own)], operators=operators), ["Exclusive"] * (size + 1)


def parted(size):
    """The same, and one operator more, the last, which sets two facts of the large group."""
    task, verdicts = excluded(size)
    part = "part", [(0, 1)], [setting(1), setting(2)], 1
    return {**task, "operators": [*task["operators"], part]}, [broken(size), *verdicts[1:]]
