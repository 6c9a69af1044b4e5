"""Long runs over tasks with derived variables, made at random from a fixed seed. Each state of a run is computed from its basic
values alone, as oracles/axioms.py says, where the program goes on from the state before it.

A task is as in oracles/tasks.py. Its operators are

    turn K      several of each name, of which the first applicable one is meant. Most ask for derived facts, and the last one
                for nothing. So with a wrong value another operator is meant, which does something else at another cost
    ask F       requires the fact F, and changes nothing
    main, small K   see `storm_task`

A run is its steps: of each the operator, and the state after it. Where it has an `ask` that fact holds. So a wrong value shows
at that step, or soon after it: by an operator that isn't applicable, or by the cost.
"""
import functools
import random

from layered import other_value
from oracles.axioms import settled
from oracles.reasons import Run
from oracles.steps import changed, cost_of, initial, meant, state_line
from oracles.tasks import plan_text, text_of, with_ends

SEED = 31
# how many tasks, and of how many steps the runs over them are: those of the program, and those of calls, which print each state
TASKS, STEPS = 40, 2000
CALLED_TASKS, CALLED_STEPS = 80, 300
STORMS, STORM_STEPS = 4, 1500
LAYERS = ((0,), (0, 1), (0, 1, 2), (2, 3, 5, 2147483647))
TURNS = tuple(f"turn {place}" for place in range(6))
# how many conditions a rule has, most often one or two
COUNTS = (0, 1, 1, 1, 1, 1, 1, 2, 2, 2, 2, 3, 3)
# how many variables each rise and fall where `main` is turned, and how many are in a small net
CHAIN, SMALL, NETS = 30, 3, 6


class States(dict):
    """What states of a task settle to, by their basic values. What was settled before isn't settled again."""

    def __init__(self, task):
        super().__init__()
        self.task = task

    def __missing__(self, values):
        self[values] = settled(self.task, values)
        return self[values]

    def after(self, state, operator):
        basic = (layer is None for layer in self.task["layers"])
        return self[tuple(value if is_basic else 0 for value, is_basic in zip(changed(state, operator), basic))]


def variables_of(chance):
    """Returns a task that has variables, some of them derived, and nothing else."""
    layers = chance.choice(LAYERS)
    places = [*[None] * chance.randint(5, 9), *(layer for layer in layers for _ in range(chance.randint(5, 8)))]
    chance.shuffle(places)
    ranges = [chance.choice((2, 2, 3) if layer is not None else (2, 2, 3, 4)) for layer in places]
    defaults = [chance.randrange(size) for size in ranges]
    return {"metric": 1, "ranges": ranges, "layers": places, "defaults": defaults, "rules": []}


def on_layers(task, fits):
    """Returns the variables whose layer fits; None stands for the layer of a basic one."""
    return [var for var, layer in enumerate(task["layers"]) if fits(layer)]


def condition(chance, task, basic, news, layer):
    """Returns a condition of a rule on this layer: on one of the basic variables that conditions may be on, on a lower layer, where
    it may be a default, or on the layer itself."""
    lower = on_layers(task, lambda its: its is not None and its < layer)
    kind = chance.random()
    if kind < 0.4:
        on = chance.choice(on_layers(task, lambda its: its == layer))
        return on, news[on]
    if kind < 0.6 and lower:
        on = chance.choice(lower)
        return on, chance.choice((news[on], task["defaults"][on], chance.randrange(task["ranges"][on])))
    on = chance.choice(basic)
    return on, chance.randrange(task["ranges"][on])


def rules_of(chance, task, basic, news):
    """Yields rules of a layered task which set these new values. Some variables have none, some rules can't fire, and some ask
    for nothing, or for one fact twice."""
    for var in sorted(news):
        layer, default = task["layers"][var], task["defaults"][var]
        for _ in range(chance.choice((0, 1, 2, 2, 3, 3, 4))):
            facts = [condition(chance, task, basic, news, layer) for _ in range(chance.choice(COUNTS))]
            if facts and chance.random() < 0.1:
                facts.append(chance.choice(facts))
            yield facts, var, chance.choice((-1, -1, default)), default if chance.random() < 0.05 else news[var]


def rotation(task, var):
    """Returns effects that give a variable its next value, whichever it has."""
    size = task["ranges"][var]
    return [([(var, value)], var, -1, (value + 1) % size) for value in range(size)]


def effects_on(chance, task, var, derived):
    """Returns effects on a variable, of which no two that set it to different values fire in one step."""
    kind, on = chance.random(), chance.choice(derived)
    if kind < 0.6:
        return rotation(task, var)
    news = [chance.randrange(task["ranges"][var]) for _ in range(task["ranges"][on])]
    if kind < 0.8:
        return [([(on, value)], var, -1, new) for value, new in enumerate(news)]
    facts = [(on, chance.randrange(task["ranges"][on]))] if kind < 0.9 else []
    return [(facts, var, -1, news[0])] * chance.choice((1, 1, 2))


def turns_of(chance, task, news):
    basic, derived = on_layers(task, lambda layer: layer is None), sorted(news)
    for name in TURNS:
        for count in (2, 1, 1, 0):
            prevail = [(var, chance.choice((task["defaults"][var], news[var]))) for var in chance.sample(derived, count)]
            touched = chance.sample(basic, chance.choice((1, 1, 2, 3)))
            effects = [effect for var in touched for effect in effects_on(chance, task, var, derived)]
            yield name, prevail, effects, chance.randint(1, 1000)


def asks_of(task, derived):
    for var in derived:
        for value in range(task["ranges"][var]):
            yield f"ask {var} {value}", [(var, value)], [], 1


def turning_task(chance):
    """Returns a task of several layers, with rules in cycles, defaults that rules require, and basic variables that no
    rule reads."""
    task = variables_of(chance)
    derived = on_layers(task, lambda layer: layer is not None)
    basic = on_layers(task, lambda layer: layer is None)
    readable = chance.sample(basic, len(basic) - chance.choice((0, 1, 2)))
    news = {var: other_value(chance, task["ranges"][var], task["defaults"][var]) for var in derived}
    task["rules"] = list(rules_of(chance, task, readable, news))
    chance.shuffle(task["rules"])
    task["operators"] = [*turns_of(chance, task, news), *asks_of(task, derived)]
    return task, derived


def turning_names(chance, derived):
    """Yields names of steps without an end; of one that reads a variable, that variable."""
    while True:
        yield chance.choice(TURNS) if chance.random() < 0.5 else chance.choice(derived)


def storm_task():
    """Returns a task in which the operator `main` lets nearly all derived variables fall or rise, by rules that ask about two of
    them each, and `small K` those of a small net, in a ring. It is worth it to go on from the state before after the second
    alone."""
    nets = [[1 + CHAIN * 2 + net * SMALL + place for place in range(SMALL)] for net in range(NETS)]
    count = 1 + 2 * CHAIN + NETS * SMALL
    switches = range(count, count + NETS)
    chain = [([(0, 1)] if place < 3 else [(place - 1, 1), (place - 2, 1)], place, -1, 1) for place in range(1, CHAIN + 1)]
    above = [([(place, 1), (place + 1 if place < CHAIN else 1, 1)], CHAIN + place, -1, 1) for place in range(1, CHAIN + 1)]
    rings = [([(net[place - 1], 1)], var, -1, 1) for net in nets for place, var in enumerate(net)]
    fed = [([(switch, 1)], net[0], -1, 1) for switch, net in zip(switches, nets)]
    task = {
        "metric": 1,
        "ranges": [2] * (count + NETS),
        "layers": [None, *[0] * CHAIN, *[1] * CHAIN, *[0] * (SMALL * NETS), *[None] * NETS],
        "defaults": [0] * (count + NETS),
        "rules": [*reversed(chain), *above, *rings, *fed],
    }
    names = ["main", *(f"small {net}" for net in range(NETS))]
    derived = on_layers(task, lambda layer: layer is not None)
    turned = zip(names, (0, *switches))
    task["operators"] = [(name, [], rotation(task, var), 1) for name, var in turned]
    task["operators"] += asks_of(task, derived)
    return task, derived


def storm_names(chance, derived):
    """Yields names of steps without an end: now and then `main` several times in a row, up to more often than the program passes
    over states without a try to go on."""
    while True:
        yield from ["main"] * chance.choice((1, 1, 2, 3, 10, 40))
        for _ in range(chance.choice((1, 2, 5, 40))):
            yield chance.choice((f"small {chance.randrange(NETS)}", chance.choice(derived)))


def run_over(task, names, steps):
    """Returns so many steps with these names: of each its operator, and the state after it. A variable in place of a name means
    the operator that requires the value that it has."""
    states, state, run = States(task), initial(task), []
    for name, _ in zip(names, range(steps)):
        step = f"ask {name} {state[name]}" if isinstance(name, int) else name
        operator = meant(task, state, step)
        state = states.after(state, task["operators"][operator])
        run.append((operator, state))
    return run


def names_of(task, run):
    return [task["operators"][operator][0] for operator, _ in run]


def cost_of_run(task, run):
    return sum(cost_of(task, operator) for operator, _ in run)


def wrong_fact(chance, task, derived, state):
    var = chance.choice(derived)
    return var, other_value(chance, task["ranges"][var], state[var])


def said_of_run(chance, task, derived, run):
    """Yields plans, each with the goal, its steps, how much of the run they are before one fails, its cost and what is said of it:
    the run itself, whose goal is the last state; one that requires on its way a fact that doesn't hold; and one whose goal has a
    fact that doesn't hold in the end."""
    names, cost, last = names_of(task, run), cost_of_run(task, run), run[-1][1]
    goal = list(enumerate(last))
    yield goal, names, run, cost, f"plan valid: {len(run)} steps, cost {cost}"
    place = chance.randrange(1, len(run))
    var, value = wrong_fact(chance, task, derived, run[place - 1][1])
    spoiled = [*names[:place], f"ask {var} {value}", *names[place:]]
    yield goal, spoiled, run[:place], cost, f"plan invalid: step {place + 1}: not applicable"
    var, value = wrong_fact(chance, task, derived, last)
    yield [*goal[:var], (var, value), *goal[var + 1 :]], names, run, cost, f"plan invalid: goal fact {var} not reached"


def lively_task(chance):
    """Returns a task in which at least half of the derived variables change."""
    while True:
        task, derived = turning_task(chance)
        run = run_over(task, turning_names(chance, derived), 100)
        changing = [var for var in derived if len({state[var] for _, state in run}) > 1]
        if len(changing) * 2 >= len(derived):
            return task, derived


def made_runs(chance, tasks, steps):
    for _ in range(tasks):
        task, derived = lively_task(chance)
        yield task, derived, run_over(task, turning_names(chance, derived), steps)


def storm_runs(chance, steps):
    """Yields runs in which some steps change nearly all."""
    for _ in range(STORMS):
        task, derived = storm_task()
        yield task, derived, run_over(task, storm_names(chance, derived), steps)


@functools.lru_cache(None)
def long_runs():
    """Returns the long plans, which several scripts use: those of a run follow one another."""
    return tuple(long_plans())


def long_plans():
    """Yields long plans, as texts, each with what the program prints of it, and with the run of its steps. They could show a
    definition by which a state that is followed is called settled while rules hold one another up, or before all layers are
    looked at again."""
    chance = random.Random(SEED)
    made = (*made_runs(chance, TASKS, STEPS), *storm_runs(chance, STORM_STEPS))
    for number, (task, derived, run) in enumerate(made):
        for goal, names, through, cost, said in said_of_run(chance, task, derived, run):
            task = {**task, "goal": goal}
            states = [initial(task), *(state for _, state in through)]
            yield {
                "name": f"long run {number}, {said}",
                "task": text_of(task),
                "plan": plan_text(names, cost),
                "output": f"{said}\n",
                "status": 1 if "invalid" in said else 0,
                "run": Run(task, names, [operator for operator, _ in through], states),
            }


def walked(task, run):
    """Returns what the call `plan reporting` prints of a run: the initial state, which is settled twice, then the states that are
    settled, and then what `plan` prints."""
    first, chosen = state_line(initial(task)), " ".join(str(operator) for operator, _ in run)
    states = [state_line(state) for _, state in run]
    last = [f"operators {chosen}", f"cost {cost_of_run(task, run)}"]
    return with_ends([first, first, first, *states, *last])


def stepped(task, run):
    """Returns what the call `steps` prints of a run."""
    lines = [line for _, state in run for line in ("Ok(())", state_line(state))]
    return with_ends([state_line(initial(task)), *lines])


def called_runs():
    """Yields runs over tasks, as texts, each with what calls print of it, which print each state: of the plan, and of its steps one
    by one, where each state is settled by itself. They could show the same as the long runs."""
    chance = random.Random(SEED + 1)
    made = (*made_runs(chance, CALLED_TASKS, CALLED_STEPS), *storm_runs(chance, STORM_STEPS))
    for number, (task, _, run) in enumerate(made):
        steps = ";".join(f"step {operator}" for operator, _ in run)
        yield {
            "name": f"run {number}",
            "task": text_of(task),
            "calls": {
                "plan reporting": (plan_text(names_of(task, run), cost_of_run(task, run)), walked(task, run)),
                "steps rounds": (steps, stepped(task, run)),
                "steps worklist": (steps, stepped(task, run)),
            },
        }
