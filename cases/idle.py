"""Tasks with derived variables, and plans of which each step changes little or nothing; and names that make operators hard to find. For a
number of the things that are many each function returns a task, which is as in oracles/tasks.py, and the steps of a plan, which is valid.
hard.py names what each could show.

Each task with derived variables has a switch that no rule reads, 0, another variable that keeps its value, 1, and a main switch, which is
on, 2.
"""
from large import FACTOR, task_with
from lengthy import turning

# how many variables are in the ring of a net, and how often all nets rise and fall
RING, STORMS = 10, 5
MAIN, FIRST = 2, 3
LIT = [(MAIN, 1)], FIRST, -1, 1


def asking(name, var, value):
    return name, [(var, value)], [], 1


def lamps_task(layers, rules, operators, **parts):
    """A task with these three variables, and derived ones on these layers."""
    count = len(layers)
    layers, defaults = [None] * FIRST + list(layers), [0, 0, 1] + [0] * count
    return task_with([2] * len(layers), layers=layers, defaults=defaults, rules=rules, operators=operators, **parts)


def switch_of(net):
    """The switch of a net, which is on. The variables of its ring depend on it."""
    return FIRST + net * (1 + RING)


def rules_of_net(net):
    """The rules of a net: its first variable rises where its switch and the main one are on, and each where one beside it in the
    ring has risen."""
    switch = switch_of(net)
    ring = [switch + 1 + place for place in range(RING)]
    yield [(MAIN, 1), (switch, 1)], ring[0], -1, 1
    for place, var in enumerate(ring):
        yield [(ring[place - 1], 1)], var, -1, 1
        yield [(var, 1)], ring[place - 1], -1, 1


def nets_steps(size):
    """Yields steps that turn one net off and on again, and check each time whether it is dark or lit. At times the main switch is
    turned, by which all nets fall and rise: to go on from such a state takes more than to settle it anew."""
    for turn in range(5 * size):
        net = turn * 1009 % size
        yield from (f"turn {net}", f"dark {net}", f"turn {net}", f"lit {net}")
        if turn % size == 0:
            yield from ("main", f"dark {net}", "main")


def nets(size):
    """Many small nets, all of them on. Each step changes one net, and concerns twenty rules."""
    operators = [turning("main", MAIN)]
    for net in range(size):
        last = switch_of(net) + RING
        operators += [turning(f"turn {net}", switch_of(net)), asking(f"lit {net}", last, 1), asking(f"dark {net}", last, 0)]
    task = task_with(
        [2] * switch_of(size),
        layers=[*[None] * FIRST, *[None, *[0] * RING] * size],
        defaults=[0, 0, 1, *[1, *[0] * RING] * size],
        rules=[rule for net in range(size) for rule in rules_of_net(net)],
        goal=[(switch_of(net) + 1 + net % RING, 1) for net in range(size)],
        operators=operators,
    )
    return task, list(nets_steps(size))


def idle(layers, rules, steps):
    """Steps that change nothing which a rule reads, over a task with these derived variables: a switch is turned, a variable is set to the
    value that it has, and the last derived variable that a rule sets is seen to be on. Then the main switch is turned off and on, so that
    this one falls and rises."""
    last = rules[-1][1]
    operators = [turning("idle", 0), ("same", [], [([], 1, 0, 0)], 1), turning("main", MAIN)]
    operators += [asking("lit", last, 1), asking("dark", last, 0)]
    names = [*["idle", "same", "lit", "idle"] * (steps // 4), "main", "dark", "idle", "main", "lit"]
    return lamps_task(layers, rules, operators, goal=[(last, 1)]), names


def chain(size):
    """Rules by which a variable on each layer rises with the one below."""
    return [([(var - 1, 1)], var, -1, 1) for var in range(FIRST, FIRST + size)]


def unruled(size):
    return idle([0] * (1 + size), [LIT], 8 * size)


def layered(size):
    """Layers with one variable each."""
    return idle(range(size), chain(size), 8 * size)


def above(size):
    """Rules that look at a variable on a lower layer."""
    rules = [([(FIRST, 1), (MAIN, 1)], FIRST + 1 + place, -1, 1) for place in range(size)]
    return idle([0, *[1] * size], [LIT, *rules], 8 * size)


def ruled(size):
    """Rules of one variable, all of them alike."""
    return idle([0], [LIT] * size, size)


def turned(size):
    """Layers with one variable each, all of which rise and fall with each of a hundred steps."""
    last = FIRST + size - 1
    return lamps_task(range(size), chain(size), [turning("main", MAIN)], goal=[(last, 1)]), ["main"] * 100


def named_alike(size):
    """Names that have different fronts of eight bytes, and then the factor of the hasher."""
    names = [f"{place:07} {FACTOR}" for place in range(size)]
    return task_with([2], operators=[(name, [], [], 1) for name in names]), names


def named_the_same(size):
    """Operators of one name, of which one is applicable in each state: from each place in a ring to the next."""
    operators = [("go", [], [([], 0, place, (place + 1) % size)], 1) for place in range(size)]
    return task_with([size], operators=operators), ["go"] * size
