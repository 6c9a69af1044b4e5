"""Plans with `--why`: cases as in program.json, for run.py. oracles/reasons.py computes what is said of them.

why.json: small tasks, and plans of each.

    task     as in oracles/tasks.py; metric 0, no rules, no goal where that is left out, and what it is about
    plans    plans of it:

        shows    a mistake that this one could show
        steps    the names of its steps
        cost     its cost
        lines    what is printed of it with `--why`

Each of these is given to `plan` without `--why` too, and so are those that are made here at random. With it the first line is the
same, and so is the status; the lines after it begin with two spaces.
"""
import random

from following import cost_of_run, long_runs, names_of, run_over, turning_names, turning_task
from oracles.layers import REFUSED, after_refusal
from oracles.reasons import reasons, reasons_of
from oracles.steps import holds
from oracles.tasks import plan_of, plan_text, task_of, text_of, value_name, with_ends
from texts import case, changed_lines, latin, made_by, table
from walks import operated_task, random_facts, spoiled_plan, walk, walked_plans

SEED = 9
MINIMAL = {"file": "cases/tasks/minimal.sas"}
# how many tasks are made as in walks.py, and as in following.py, and how many plans of each
WALKED, TURNED, PLANS = 900, 350, 4
# the most steps of a plan as in following.py
TURNS = 12
# where the flag may stand
PLACES = (["--why", "t.sas", "p.txt"], ["t.sas", "--why", "p.txt"], ["t.sas", "p.txt", "--why"])


def case_of(name, task, plan, lines, words=("plan", *PLACES[0]), **inputs):
    """Returns the case of these words over a task and a plan, of which these lines are printed."""
    files = {word: text for word, text in (("t.sas", task), ("p.txt", plan)) if word in words}
    status = 0 if any(line.startswith("plan valid") for line in lines) else 1
    name = f"{name}, {' '.join(words)}"
    return case(name, [*words], with_ends(lines), status, files=files, **inputs)


def twice(name, task, plan, lines, words=PLACES[0]):
    """Yields the case of these words after `plan`, and the case without `--why`."""
    assert all(line.startswith("  ") for line in lines[1:]) and not lines[0].startswith(" ")
    yield case_of(name, task, plan, lines[:1], ("plan", "t.sas", "p.txt"))
    yield case_of(name, task, plan, lines, ("plan", *words))


def written_plans():
    """Yields the plans of why.json: a name, the files of the task and of the plan, and the lines. These stand there, and are
    computed too."""
    for group in table("why.json"):
        task = {"metric": 0, "rules": [], "goal": [], **group["task"]}
        task["goal"] = [tuple(fact) for fact in task["goal"]]
        for plan in group["plans"]:
            name, lines = f"{group['task']['about']}: {plan['shows']}", plan["lines"]
            fault, after = reasons(task, plan["steps"], plan["cost"])
            assert [fault, *after] == lines, name
            yield name, text_of(task), plan_text(plan["steps"], plan["cost"]), lines


def written_cases():
    """Yields the plans of why.json, with either end of lines, and with the flag in each place."""
    for name, task, plan, lines in written_plans():
        for words in PLACES:
            yield from twice(name, task, plan, lines, words)
        yield case_of(f"{name}, with CR LF", *(text.replace("\n", "\r\n") for text in (task, plan)), lines)


def shared_plans():
    """Yields plans of verdicts.json, files that are refused, and the plans of walks.py: a name, the
    files of the task and of the plan, and what `plan` prints."""
    for made in table("verdicts.json"):
        if "call" in made or " refused: " in made["output"]:
            yield made["name"], made["task"], made["plan"], made["output"]
    for made in table("plans.json"):
        if made["status"]:
            yield f"{made['name']}, of a task", MINIMAL, made["plan"], made["output"]
    for changed in changed_lines():
        fault = changed["fault"] or changed["layers"]
        if fault:
            yield changed["name"], changed["task"], "", f"task refused: {fault}\n"
    for made in walked_plans():
        yield made["name"], made["task"], made["plan"], made["output"]


def shared_cases():
    """Yields these plans with `--why`."""
    for name, task, plan, said in shared_plans():
        said = said.removesuffix("\n")
        if " refused: " in said:
            after = after_refusal(said, task if said.startswith(REFUSED) else plan)
        else:
            fault, after = reasons(task_of(latin(task)), *plan_of(latin(plan)))
            assert fault == said
        yield case_of(name, task, plan, [said, *after])


def long_cases():
    """Yields the long plans of following.py with `--why`. They could show a second pass over the steps that comes to other states
    than the first."""
    for made in long_runs():
        fault = made["output"].removesuffix("\n")
        after = [] if fault.startswith("plan valid") else reasons_of(made["run"], plan_of(made["plan"])[1])
        yield case_of(made["name"], made["task"], made["plan"], [fault, *after])


def alike(chance, name):
    """Returns a name that is like this one, or nearly."""
    changed = (
        name.upper(), name.swapcase(), name.rstrip(), f"{name} ", f" {name}", f"{name}n", name[:-1],
        name.replace(" ", "  "), name.replace(" ", ""), f"{name[:2]} {name[2:]}", f"   {name.replace(' ', '   ')}  ",
    )
    return chance.choice(changed)


def odd(chance, name):
    """Returns a name with this one in it that isn't shown as it is: for its bytes, its length or a space at its end; or nearly."""
    end = chance.choice(("", " ", "\x7f", "\\", "\xff", "  ", "x", "\t"))
    long = f"{name}{'x' * (chance.randint(254, 258) - len(name) - len(end))}{end}"
    return chance.choice((f"{name}\x1b[31m", f"\x00\x1f\x20\x7e\x7f\x80{name}", f"{name}{end}", f"  {name}  x", long, f"{long}{long}"))


def named_values(chance, task):
    """Returns names for the values of a task, some of them odd."""
    names = [[value_name(task, var, value) for value in range(size)] for var, size in enumerate(task["ranges"])]
    return [[odd(chance, name) if chance.random() < 0.3 else name for name in its] for its in names]


def failing_goal(chance, task, state):
    """Returns a goal that most often has facts that fail in a state, derived ones among them."""
    facts = random_facts(chance, task, range(1, 7))
    derived = [var for var, layer in enumerate(task["layers"]) if layer is not None]
    for var in chance.sample(derived, min(len(derived), chance.randrange(9))):
        value = chance.choice((task["defaults"][var], chance.randrange(task["ranges"][var])))
        facts.insert(chance.randrange(len(facts) + 1), (var, value))
    return facts if chance.random() < 0.9 else [fact for fact in facts if holds(state, [fact])]


def spoiled(chance, task, names, cost):
    """Returns a plan of which something is changed, most often: its cost, its steps, or the name of one."""
    kind = chance.random()
    if kind < 0.3 or not names:
        return names, cost
    if kind < 0.4:
        return spoiled_plan(chance, task, names, cost)
    place = chance.randrange(len(names) + 1)
    name = chance.choice(task["operators"])[0]
    if kind < 0.55:
        name = alike(chance, name)
    changed = [*names[:place], name, *names[place:]]
    # steps that fail before and behind the one that was put in, some of them without an operator
    for _ in range(chance.choice((0, 0, 1, 3))):
        changed.insert(chance.randrange(len(changed) + 1), chance.choice((*task["operators"], ("nothing",)))[0])
    return changed, cost


def walked_again(chance):
    """Yields tasks and plans as walks.py makes them, with other names, that fail in each way."""
    task = operated_task(chance)
    # some have capitals, which step names have too, and some are odd
    names = {
        name: chance.choice((name, name, name.upper(), name.title(), odd(chance, name)))
        for name in sorted({operator[0] for operator in task["operators"]})
    }
    for _ in range(PLANS):
        steps, cost, state = walk(chance, task)
        goal = [] if chance.random() < 0.4 else failing_goal(chance, task, state)
        steps, cost = spoiled(chance, task, steps, cost)
        operators = [(names[name], *parts) for name, *parts in task["operators"]]
        said = {"names": named_values(chance, task)} if chance.random() < 0.3 else {}
        yield {**task, **said, "goal": goal, "operators": operators}, [names.get(step, step) for step in steps], cost


def turned(chance):
    """Yields tasks and plans as following.py makes them, that fail in each way."""
    task, derived = turning_task(chance)
    for _ in range(PLANS):
        run = run_over(task, turning_names(chance, derived), chance.randrange(TURNS))
        steps, cost = names_of(task, run), cost_of_run(task, run)
        state = run[-1][1] if run else task["defaults"]
        if chance.random() < 0.4:
            var = chance.choice(derived)
            steps.append(f"ask {var} {chance.randrange(task['ranges'][var])}")
        yield {**task, "goal": failing_goal(chance, task, state)}, *spoiled(chance, task, steps, cost)


def random_cases():
    """Yields plans made at random, with and without `--why`. They could show a wrong definition of reasons, in a case that no one
    thought of."""
    chance = random.Random(SEED)
    for number in range(WALKED + TURNED):
        made = walked_again(chance) if number < WALKED else turned(chance)
        for place, (task, names, cost) in enumerate(made):
            fault, after = reasons(task, names, cost)
            name, words = f"plan {place} of task {number}", PLACES[(number + place) % len(PLACES)]
            yield from twice(name, text_of(task), plan_text(names, cost), [fault, *after], words)


def why_cases():
    return made_by(written_cases, shared_cases, long_cases, random_cases)
