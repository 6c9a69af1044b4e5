"""Many plans of one task: cases as in program.json, for run.py. oracles/plans.py computes what `plans` prints of them.

many.json: plans of tasks.

    shows    a mistake that this one could show
    task     the file, as a text
    plans    pairs [LABEL, TEXT]: the files, as texts; [LABEL] alone names a file that there is already
    lines    what is printed of them
"""
import os
import random

from following import cost_of_run, long_runs, names_of, run_over, turning_names, turning_task
from oracles.layers import after_refusal
from oracles.plans import judged, lines_of, status_of, summary
from oracles.refusals import refusal
from oracles.steps import holds, initial
from oracles.tasks import plan_of, plan_text, task_of, text_of, with_ends
from texts import as_bytes, case, changed_lines, latin, made_by, table
from walks import operated_task, random_facts, walk
from why import MINIMAL, TURNS, spoiled

SEED = 78
# how many tasks are made as in walks.py, and as in following.py, and the most plans of each
WALKED, TURNED, MOST = 450, 120, 12
# of one in so many of these each plan is given to `plan` too
EACH = 4
# what labels are made of, each with a number
LABELS = ("p.{}", "sas_plan.{}", "plan {}", " {} ", "{}: plan valid: 1 steps, cost 1", "./{}", "pl\u00c3\u00a4n {}", "(go)\t{}")


def case_of(name, words, files, lines, **inputs):
    """Returns the case of a request for plans with these words, of which these lines are printed."""
    name, words = f"{name}, plans {' '.join(words)[:200]}", ["plans", *words]
    return case(name, words, with_ends(lines), status_of(lines), files=files, **inputs)


def over_files(name, task, plans, lines, *words):
    """Returns the case of plans of which each is a file. The task is named by the last word."""
    words = words or ["t.sas"]
    files = {words[-1]: task, **dict(plans)}
    return case_of(name, [*words, *(label for label, _ in plans)], files, lines)


def explained(name, task, plans, lines, place):
    """Returns the case of plans of which each is a file, with the flag for reasons behind so many words."""
    words = ["t.sas", *(label for label, _ in plans)]
    words.insert(place, "--why")
    return case_of(name, words, {"t.sas": task, **dict(plans)}, lines)


def with_task_from_input(name, task, plans, lines):
    return case_of(name, ["-", *(label for label, _ in plans)], dict(plans), lines, input=task)


def with_plan_from_input(name, task, plans, place):
    """Returns the case of these plans with the one in this place from standard input."""
    given = [*plans[:place], ("-", plans[place][1]), *plans[place + 1 :]]
    words, files = [label for label, _ in given], {label: text for label, text in given if label != "-"}
    lines = lines_of(task, given)
    return case_of(name, ["t.sas", *words], {"t.sas": text_of(task), **files, "-": "x\n"}, lines, input=plans[place][1])


def each_alone(name, task, plans):
    """Yields the case of `plan` for each of these plans."""
    for label, text in dict(plans).items():
        said, cost = judged(task, text)
        words, files = ["plan", "t.sas", "p.txt"], {"t.sas": text_of(task), "p.txt": text}
        yield case(f"{name}, plan {label}", words, f"{said}\n", int(cost is None), files=files)


def written_plans():
    """Yields the plans of many.json: a name, the file of the task, the plans, and the lines. Where the task isn't refused,
    these stand there and are computed too."""
    for made in table("many.json"):
        task, files = latin(made["task"]), {}
        for label, *text in made["plans"]:
            files.update({os.path.normpath(label): latin(part) for part in text})
        plans = [(label, files[os.path.normpath(label)]) for label, *_ in made["plans"]]
        if not made["lines"][-1].startswith("task refused: "):
            computed = lines_of(task_of(task), plans)
            assert computed == made["lines"], (made["shows"], computed)
        yield made["shows"], task, plans, made["lines"]


def written_cases():
    """Yields the plans of many.json, from files, and the task and each plan from standard input. They could show a wrong
    definition of what is printed of many plans, and inputs that are exchanged."""
    for name, task, plans, lines in written_plans():
        yield over_files(name, task, plans, lines)
        yield with_task_from_input(name, task, plans, lines)
        said = lines[-1]
        if said.startswith("task refused: "):
            yield explained(f"{name}, with reasons", task, plans, [said, *after_refusal(said, task)], 0)
        else:
            for place in range(len(plans) + 2):
                yield explained(f"{name}, with reasons", task, plans, lines_of(task_of(task), plans, True), place)
        if not lines[-1].startswith("task refused: "):
            yield from each_alone(name, task_of(task), plans)
            for place in range(len(plans)):
                yield with_plan_from_input(name, task_of(task), plans, place)


def refused_cases():
    """Yields each plan file of plans.json between others, and all fronts of those that are cut off, beside one another. They
    could show a plan that is refused and spoils others, and bytes of a plan that are taken for those of the next one."""
    minimal = latin(MINIMAL)
    task, valid = task_of(minimal), ("valid", plan_text([], 0))
    for made in table("plans.json"):
        text = latin(made["plan"])
        refused = refusal("plan", text.encode("latin-1"))
        said = f"{refused[0]}\n" if refused else made["output"]
        assert as_bytes(said) == as_bytes(made["output"])
        plans = [valid, ("p.txt", text), valid]
        yield over_files(f"{made['name']}, between others", minimal, plans, lines_of(task, plans))
        if made.get("cut_off"):
            fronts = [(f"front {length}", text[:length]) for length in range(len(text) + 1)]
            yield over_files(f"{made['name']}, its fronts", minimal, fronts, lines_of(task, fronts))


def unopened_cases():
    """Yields tasks that are refused, with plans that there aren't, and one that is a folder. They could show a plan that is
    opened though there is no task for it."""
    for changed in changed_lines():
        fault, files = changed["fault"] or changed["layers"], {"t.sas": changed["task"]}
        if fault:
            words, lines = ["t.sas", "none", ".", "none"], [f"task refused: {fault}"]
            yield case_of(f"{changed['name']}, no plans", words, files, lines)


def piped_cases():
    """Yields the plans of many.json from named pipes, each of which can be opened once, in its turn. They could show a plan that is
    opened twice, or before its turn."""
    for name, task, plans, lines in written_plans():
        files, pipes = {"t.sas": task}, dict(plans)
        if len(pipes) == len(plans) and not any(os.path.dirname(label) for label in pipes):
            yield case_of(f"{name}, from named pipes", ["t.sas", *pipes], files, lines, pipes=pipes)


def plan_file(chance, names, cost):
    """Returns the file of a plan, with either kind of cost and either end of lines."""
    text = plan_text(names, cost)
    text = text.replace("unit", "general") if chance.random() < 0.5 else text
    return text.replace("\n", "\r\n") if chance.random() < 0.2 else text


def damaged(chance, text):
    """Returns a plan file that is cut off, or has a byte less or more."""
    place = chance.randrange(len(text))
    after = (text[place:], text[place + 1 :], chance.choice("\n\r(); 0a") + text[place:])
    change = chance.randrange(5)
    if change == 0:
        return text + chance.choice("\n\r( ;a")
    return text[:place] + ("" if change == 1 else after[change - 2])


def files_made(chance, task, make):
    """Returns plan files of a task, by what this makes: names, a cost and a state. Some are spoiled, some damaged, and some
    come again, so that they cost the same."""
    texts = []
    for _ in range(chance.randint(1, MOST)):
        kind = chance.random()
        if texts and kind < 0.2:
            texts.append(chance.choice(texts))
            continue
        names, cost, _ = make()
        if kind < 0.45:
            names, cost = spoiled(chance, task, names, cost)
        text = plan_file(chance, names, cost)
        texts.append(damaged(chance, text) if kind > 0.88 else text)
    return texts


def walked(chance):
    """Returns a task as in walks.py, and plan files of it."""
    task = operated_task(chance)
    _, _, state = walk(chance, task)
    facts = random_facts(chance, task, (0, 0, 1, 1, 2, 3))
    task["goal"] = [fact for fact in facts if holds(state, [fact]) or chance.random() < 0.1]
    return task, files_made(chance, task, lambda: walk(chance, task))


def turned(chance):
    """Returns a task as in following.py, and plan files of it."""
    task, derived = turning_task(chance)

    def make():
        run = run_over(task, turning_names(chance, derived), chance.randrange(TURNS))
        return names_of(task, run), cost_of_run(task, run), run[-1][1] if run else initial(task)

    _, _, state = make()
    task["goal"] = [(var, state[var]) for var in chance.sample(derived, chance.choice((0, 1, 1, 2)))]
    return task, files_made(chance, task, make)


def labelled(chance, texts, forms=LABELS):
    """Returns plans with these files, of which some are named twice."""
    plans = []
    for place, text in enumerate(texts):
        again = plans and chance.random() < 0.1
        plans.append(chance.choice(plans) if again else (chance.choice(forms).format(place), text))
    return plans


def random_cases():
    """Yields plans made at random, of tasks that are, too. They could show a wrong definition of what is printed of many
    plans, in a case that no one thought of, and another verdict than that of `plan`."""
    chance = random.Random(SEED)
    for number in range(WALKED + TURNED):
        task, texts = walked(chance) if number < WALKED else turned(chance)
        name, text, plans = f"many plans of task {number}", text_of(task), labelled(chance, texts)
        yield over_files(name, text, plans, lines_of(task, plans))
        yield explained(f"{name}, with reasons", text, plans, lines_of(task, plans, True), chance.randint(0, len(plans) + 1))
        if number % EACH == 0:
            yield from each_alone(name, task, plans)
        elif number % EACH == 1:
            yield with_plan_from_input(name, task, plans, chance.randrange(len(plans)))
        elif number % EACH == 2:
            plans = labelled(chance, texts, ("-{}", "--{}", "--why {}", "{}"))
            yield over_files(name, text, plans, lines_of(task, plans), "--", "-t")
        else:
            plans.reverse()
            yield with_task_from_input(name, text, plans, lines_of(task, plans))


def long_cases():
    """Yields the long plans of following.py that have their task in common: the run itself, the one that fails on its way,
    and the run again. They could show an evaluator that begins a plan with what it knows of the state in which another one
    ended."""
    made = long_runs()
    for whole, broken in zip(made[::3], made[1::3]):
        assert whole["task"] == broken["task"] and not whole["status"] and broken["status"]
        plans = [("whole", whole["plan"]), ("broken", broken["plan"]), ("again", whole["plan"])]
        _, cost = plan_of(whole["plan"])
        said = [f"{label}: {its['output']}".removesuffix("\n") for (label, _), its in zip(plans, (whole, broken, whole))]
        lines = [*said, summary([("whole", cost), ("broken", None), ("again", cost)])]
        yield over_files(whole["name"], whole["task"], plans, lines)


def plans_cases():
    makers = written_cases, refused_cases, unopened_cases, piped_cases, long_cases, random_cases
    return made_by(*makers)
