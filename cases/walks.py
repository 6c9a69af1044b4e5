"""Small tasks with operators, made at random from a fixed seed, with plans and with calls of a runner. oracles/steps.py computes the
answers to these. A task is one of layered.py, or one without derived variables.
"""
import random

from layered import any_fact, random_task
from oracles.steps import call_answer, conflict, cost_of, holds, initial, meant, next_state, state_line, verdict
from oracles.tasks import plan_text, text_of, with_ends

SEED = 60
TASKS = 150
PLANS = 4
ROUNDS = 4
NAMES = ("go", "go ", "go on", "turn")


def basic_task(chance):
    ranges = [chance.choice((2, 2, 3)) for _ in range(chance.randint(3, 5))]
    defaults = [chance.randrange(size) for size in ranges]
    return {"ranges": ranges, "layers": [None] * len(ranges), "defaults": defaults, "rules": []}


def random_fact(chance, task):
    """Returns a fact that exists, more often than not one of the state section."""
    var, value = any_fact(chance, task)
    return var, task["defaults"][var] if chance.random() < 0.5 else value


def random_facts(chance, task, counts):
    return [random_fact(chance, task) for _ in range(chance.choice(counts))]


def random_effect(chance, task):
    var = chance.choice([var for var, layer in enumerate(task["layers"]) if layer is None])
    size = task["ranges"][var]
    old = chance.choice((-1, -1, -1, task["defaults"][var], chance.randrange(size)))
    return random_facts(chance, task, (0, 0, 1, 1, 2)), var, old, chance.randrange(size)


def random_operator(chance, task):
    """Returns an operator; it may have the name of another one, and effects that conflict."""
    effects = [random_effect(chance, task) for _ in range(chance.choice((0, 1, 2, 2, 3, 4)))]
    return chance.choice(NAMES), random_facts(chance, task, (0, 0, 0, 1, 1, 2)), effects, chance.choice((0, 1, 2, 7))


def walk(chance, task):
    """Returns a plan that goes from state to state while there are applicable operators, its cost, and the last state. Where
    effects of one of these conflict, it ends with that one, now and then."""
    state, names, cost = initial(task), [], 0
    for _ in range(chance.choice((0, 1, 2, 3, 4, 6, 8))):
        named = {name: meant(task, state, name) for name in NAMES}
        able = {name: operator for name, operator in named.items() if not isinstance(operator, str)}
        agree = [name for name in able if conflict(state, task["operators"][able[name]]) is None]
        if len(agree) < len(able) and chance.random() < 0.3:
            return [*names, chance.choice([name for name in able if name not in agree])], cost, state
        if not agree:
            break
        names.append(chance.choice(agree))
        cost += cost_of(task, able[names[-1]])
        state = next_state(task, state, task["operators"][able[names[-1]]])
    return names, cost, state


def any_name(chance, task):
    """Returns the name of some operator, most often."""
    if chance.random() < 0.7:
        return chance.choice(task["operators"])[0]
    return chance.choice((*NAMES, "g", "Go", " go"))


def spoiled_plan(chance, task, names, cost):
    """Returns a plan with another cost, another step, or a step less or more."""
    change = chance.randrange(4)
    if change == 0 or not names:
        return names, max(0, cost + chance.choice((-1, 1)))
    place = chance.randrange(len(names))
    if change == 1:
        return [*names[:place], any_name(chance, task), *names[place + 1 :]], cost
    if change == 2:
        return [*names[:place], *names[place + 1 :]], cost
    return [*names[:place], any_name(chance, task), *names[place:]], cost


def operated_task(chance):
    """Returns a task with operators, and with no goal yet."""
    task = random_task(chance) if chance.random() < 0.5 else basic_task(chance)
    task["metric"] = chance.randrange(2)
    task["operators"] = [random_operator(chance, task) for _ in range(chance.randint(2, 5))]
    return task


def walked_task(chance):
    """Returns a task and plans of it with their costs. Its goal holds after the first of them, most often, and that has a
    step, most often."""
    while True:
        task = operated_task(chance)
        names, cost, state = walk(chance, task)
        if names or chance.random() < 0.1:
            break
    facts = random_facts(chance, task, range(7))
    task["goal"] = [fact for fact in facts if holds(state, [fact]) or chance.random() < 0.1]
    plans = [(names, cost)]
    for _ in range(PLANS - 1):
        names, cost = plans[0] if chance.random() < 0.3 else walk(chance, task)[:2]
        plans.append(spoiled_plan(chance, task, names, cost) if chance.random() < 0.6 else (names, cost))
    return task, plans


def walked_plans():
    """Yields plans of tasks, as texts, each with the initial state, what the program prints of it, and what `check_plan`
    answers. They could show a wrong definition of valid plans, in a case that no one thought of."""
    chance = random.Random(SEED)
    for number in range(TASKS):
        task, plans = walked_task(chance)
        for place, (names, cost) in enumerate(plans):
            line, answer = verdict(task, names, cost)
            yield {
                "name": f"plan {place} of random task {number}",
                "task": text_of(task),
                "plan": plan_text(names, cost),
                "initial": initial(task),
                "output": f"{line}\n",
                "call": f"{answer}\n",
                "status": 0 if line.startswith("plan valid") else 1,
            }


def random_calls(chance, task):
    """Yields rounds of calls of a runner, each about all operators, all names and the goal, and then a step of some
    operator."""
    operators = range(len(task["operators"]))
    for _ in range(ROUNDS):
        yield from (("applicable", operator) for operator in operators)
        yield from (("choose", name) for name in (*NAMES, "g"))
        yield "goal", ""
        yield "step", chance.choice(operators)


def walked_calls():
    """Yields tasks, as texts, each with calls of a runner, and what comes of them: the initial state, and after each call
    its answer and the state. They could show a wrong definition of steps, in a case that no one thought of."""
    chance = random.Random(SEED)
    for number in range(TASKS):
        task, _ = walked_task(chance)
        state, calls = initial(task), list(random_calls(chance, task))
        said = [state_line(state)]
        for call, word in calls:
            answer, state = call_answer(task, state, call, word)
            said += [answer, state_line(state)]
        yield {
            "name": f"random task {number}",
            "task": text_of(task),
            "calls": ";".join(f"{call} {word}" for call, word in calls),
            "answers": with_ends(said),
        }
