"""Large tasks and long plans that fail, with `--why`: cases as in program.json, for run.py.

A maker returns for a size the task, the names of a plan's steps, its cost, and what is printed, line by line. hard.py has the makers as
families, whose size doesn't matter. The cases here have a small stack, a file that is too small, or less memory than a text has bytes.
"""
from large import STACK, cut_short, plan_text, task_with
from oracles.tasks import operator_line, text_of, value_name, with_ends
from texts import case, made_by

# the length of a name, which is shown as a whole, that comes in each of so many causes, or in the line of each of so many rules, and what
# memory the program has then, in bytes
NAME, TIMES, RULES, MEMORY = 256, 100_000, 200_000, 40_000_000
# how many variables a chain has, and a tree, which is whole
MODEST, MODEST_TREE = 20_000, 2**14 - 1


def requires(var, value, other, when="the initial state"):
    """The first lines of a cause."""
    names = (f"{var} {its} {value_name({}, var, its)}" for its in (value, other))
    return [f"    {word} {name}" for word, name in zip(("requires", "actual"), names)] + [f"    since {when}"]


def derives(rule, var):
    return f"    rule {rule} derives {var} 1 {value_name({}, var, 1)}"


def held(rule, var, value):
    """The line of a rule that this fact holds back."""
    return f"    rule {rule} requires {var} {value} {value_name({}, var, value)}"


def blocked(step, name):
    """The first lines where a step isn't applicable."""
    return [f"plan invalid: step {step}: not applicable", f"  step {step} {name}"]


# what follows if the last step is made anyway, in a task without a goal
LAST = ["  if made anyway 0 of 0 later steps fail", "  if made anyway 0 of 0 goal facts fail"]


def at_operator(task, place):
    """The line of an operator, without its name."""
    return f"  operator {place} line {operator_line(task, place)}"


def at_operators(task, size, height):
    """The lines of the first so many operators, each of which has so many lines in the file."""
    first = operator_line(task, 0)
    return [f"  operator {place} line {first + place * height}" for place in range(size)]


def missed(*causes):
    """The lines where no goal fact holds, of which these are the causes."""
    facts = [line for place, cause in enumerate(causes) for line in (f"  goal fact {place}", *cause)]
    return ["plan invalid: goal fact 0 not reached", f"  {len(causes)} of {len(causes)} goal facts fail", *facts]


def turning(name, var):
    return name, [], [([(var, 0)], var, -1, 1), ([(var, 1)], var, -1, 0)], 1


def long_blocked(size):
    """So many steps, and one that isn't applicable. Each has a later operator of its name, which never is."""
    stay = "stay", [(0, 1), (1, 0), (2, 1)], [], 1
    operators = [("set", [], [([], 1, -1, 1)], 1), turning("turn", 0), stay, ("turn", [(2, 1)], [], 1)]
    turns = size - size % 2
    names = ["set", *["turn"] * turns, "stay"]
    first = [*requires(0, 1, 0, f"step {turns + 1} turn"), *requires(1, 0, 1, "step 1 set"), *requires(2, 1, 0)]
    task = task_with([2] * 3, operators=operators)
    return task, names, 0, [*blocked(turns + 2, "stay"), at_operator(task, 2), *first, *LAST]


def long_anyway(size):
    """So many steps behind one that isn't applicable, every other of which isn't either."""
    operators = [turning("turn", 0), ("stay", [(1, 1)], [], 1)]
    task = task_with([2, 2], goal=[(0, 1)], operators=operators)
    failing = range(2, size + 2, 2)
    lines = [*blocked(1, "stay"), at_operator(task, 1), *requires(1, 1, 0), f"  if made anyway {len(failing)} of {size} later steps fail"]
    lines += [f"    step {step} stay" for step in failing[:5]]
    lines.append(f"  if made anyway {1 - size // 2 % 2} of 1 goal facts fail")
    return task, ["stay", *(["stay", "turn"] * size)[:size]], 0, lines


def long_missed(size):
    """So many steps, of which only the last could also be another operator."""
    operators = [("wait", [], [], 1), ("set", [], [([], 0, -1, 1)], 1), ("wait", [(1, 1)], [], 1), ("wait", [(0, 1)], [], 1)]
    names = [*["wait"] * size, "set", "wait"]
    lines = [*missed(requires(1, 1, 0)), f"  step {size + 2} could also be operator 3"]
    return task_with([2, 2], goal=[(1, 1)], operators=operators), names, 0, lines


def long_unknown(size):
    """So many steps, and one of another name."""
    task = task_with([2], operators=[turning("turn", 0), turning("Turn  ", 0)])
    lines = [f"plan invalid: step {size + 1}: no operator of that name", f"  step {size + 1} Turn"]
    lines += [f"  similar operator 0 line {operator_line(task, 0)} turn", f"  1 of {size + 1} steps name no operator"]
    return task, [*["turn"] * size, "Turn"], 0, lines


def long_settled(size):
    """So many steps that change nothing which a rule reads, and a derived variable on each of many layers."""
    depth = max(1, size // 20)
    layers = [None, None, *range(depth)]
    rules = [([(var - 1, 1)], var, -1, 1) for var in range(2, depth + 2)]
    operators = [turning("idle", 0), turning("main", 1), ("dark", [(depth + 1, 0)], [], 1)]
    task = task_with([2] * (depth + 2), layers=layers, rules=rules, defaults=[0, 1, *[0] * depth], operators=operators)
    names = [*["idle"] * size, "main", "dark", "idle", "main", "idle", "dark"]
    given = [derives(rule, rule + 2) for rule in range(depth)]
    cause = requires(depth + 1, 0, 1, f"step {size + 4} main")
    return task, names, 0, [*blocked(size + 6, "dark"), at_operator(task, 2), *cause, *given, *LAST]


def long_lit(size):
    """So many steps that turn a switch and so a lamp, the only derived variable of as many variables."""
    turns = 2 * size
    operators = [turning("main", 1), ("lit", [(0, 1)], [], 1)]
    layers, rules = [0, *[None] * (size + 1)], [([(1, 1)], 0, -1, 1)]
    task = task_with([2] * (size + 2), layers=layers, rules=rules, operators=operators)
    cause = [*requires(0, 1, 0, f"step {turns} main"), held(0, 1, 1)]
    return task, [*["main"] * turns, "lit"], 0, [*blocked(turns + 1, "lit"), at_operator(task, 1), *cause, *LAST]


def long_changed(size):
    """So many steps, each of which changes another variable; then the goal fails on all of them."""
    operators = [(f"go {var}", [], [([], var, -1, 1)], 1) for var in range(size)]
    names = [f"go {size - place}" for place in range(1, size + 1)]
    causes = [requires(var, 0, 1, f"step {size - var} go {var}") for var in range(size)]
    return task_with([2] * size, goal=[(var, 0) for var in range(size)], operators=operators), names, 0, missed(*causes)


def derived_task(size, rules, goal, **parts):
    """A task of a switch, 0, which is off, and so many derived variables on one layer."""
    return {**task_with([2] * (size + 1), layers=[None, *[0] * size], rules=rules, goal=goal), **parts}


def beside(size):
    """A goal of so many derived variables beside one another."""
    rules = [([(0, 0)], var, -1, 1) for var in range(1, size + 1)]
    causes = [[*requires(var, 0, 1), derives(var - 1, var)] for var in range(1, size + 1)]
    return derived_task(size, rules, [(var, 0) for var in range(1, size + 1)]), [], 0, missed(*causes)


def chain_rules(size):
    """Rules by which each variable gives the next one, the last first: that of a variable is the size less its number."""
    return [([(var - 1, 1 if var > 1 else 0)], var, -1, 1) for var in range(size, 0, -1)]


def chain_up(size):
    """A goal of so many variables, each given by the one before it."""
    causes = [[*requires(var, 0, 1), derives(size - var, var)] for var in range(1, size + 1)]
    return derived_task(size, chain_rules(size), [(var, 0) for var in range(1, size + 1)]), [], 0, missed(*causes)


def chain_down(size):
    """The same goal the other way round, so that the first fact has all rules."""
    given = [derives(size - var, var) for var in range(1, size + 1)]
    causes = [[*requires(var, 0, 1), *(given if var == size else [])] for var in range(size, 0, -1)]
    return derived_task(size, chain_rules(size), [(var, 0) for var in range(size, 0, -1)]), [], 0, missed(*causes)


def chain_again(size):
    """A goal that has the last variable of a chain so many times."""
    given = [derives(size - var, var) for var in range(1, size + 1)]
    causes = [[*requires(size, 0, 1), *given], *[requires(size, 0, 1)] * (size - 1)]
    return derived_task(size, chain_rules(size), [(size, 0)] * size), [], 0, missed(*causes)


def chain_of_layers(size):
    """The same chain, each variable on a layer of its own."""
    task, names, cost, lines = chain_again(size)
    return {**task, "layers": [None, *range(size)]}, names, cost, lines


def whole(size):
    """Returns how many variables a whole tree has, at least so many."""
    return 2 ** size.bit_length() - 1


def tree_rules(size):
    """Rules by which two variables give the one above them, down from 1. That of a variable is its number less 1."""
    leaves = (size + 1) // 2
    return [([(2 * var, 1), (2 * var + 1, 1)] if var < leaves else [(0, 0)], var, -1, 1) for var in range(1, size + 1)]


def rising(var, size):
    """Yields a variable of a tree after those below it."""
    if var <= size:
        yield from rising(2 * var, size)
        yield from rising(2 * var + 1, size)
        yield var


def tree_down(size):
    """A goal of a tree of so many variables, from its top: the first fact has all rules, each as soon as those below it are there."""
    size = whole(size)
    given = [derives(var - 1, var) for var in rising(1, size)]
    causes = [[*requires(var, 0, 1), *(given if var == 1 else [])] for var in range(1, size + 1)]
    return derived_task(size, tree_rules(size), [(var, 0) for var in range(1, size + 1)]), [], 0, missed(*causes)


def tree_up(size):
    """The same goal the other way round."""
    size = whole(size)
    causes = [[*requires(var, 0, 1), derives(var - 1, var)] for var in range(size, 0, -1)]
    return derived_task(size, tree_rules(size), [(var, 0) for var in range(size, 0, -1)]), [], 0, missed(*causes)


def chain_dark(size):
    """A goal of a chain that the switch holds back: each rule requires the variable before."""
    goal = [(var, 1) for var in range(size, 0, -1)]
    causes = [[*requires(var, 1, 0), held(size - var, var - 1, 1 if var > 1 else 0)] for var in range(size, 0, -1)]
    return derived_task(size, chain_rules(size), goal, defaults=[1, *[0] * size]), [], 0, missed(*causes)


def rules_again(size):
    """A goal that has so many times a variable that so many rules would give."""
    rules = [([(0, 0), (1, 1)], 1, -1, 1)] * size
    causes = [[*requires(1, 1, 0), *(held(rule, 0, 0) for rule in range(size))], *[requires(1, 1, 0)] * (size - 1)]
    return derived_task(1, rules, [(1, 1)] * size, defaults=[1, 0]), [], 0, missed(*causes)


def no_rules_again(size):
    """A goal that has so many times a value that none of so many rules gives."""
    task = derived_task(1, [([], 1, -1, 1)] * size, [(1, 2)] * size, ranges=[2, 3])
    causes = [[*requires(1, 2, 1), *([derives(0, 1)] if place == 0 else []), "    no rule derives it"] for place in range(size)]
    return task, [], 0, missed(*causes)


def many_blocked(size):
    """A name that so many operators have, of which each requires two facts. None is applicable."""
    operators = [("go", [(var, 1), (0, 1)], [], 1) for var in range(1, size + 1)]
    task = task_with([2] * (size + 1), operators=operators)
    named = [(said, *requires(place + 1, 1, 0), *requires(0, 1, 0)) for place, said in enumerate(at_operators(task, size, 8))]
    return task, ["go"], 0, [*blocked(1, "go"), *(line for its in named for line in its), *LAST]


def many_blocked_derived(size):
    """A name that so many operators have, of which each requires a variable of a chain, the first for the last one."""
    operators = [("go", [(var, 0)], [], 1) for var in range(size, 0, -1)]
    task = derived_task(size, chain_rules(size), [], operators=operators)
    given = [derives(size - var, var) for var in range(1, size + 1)]
    lines = blocked(1, "go")
    for place, said in enumerate(at_operators(task, size, 7)):
        lines += [said, *requires(size - place, 0, 1), *(given if place == 0 else [])]
    return task, ["go"], 0, [*lines, *LAST]


def many_preconditions(size):
    """An operator that requires the last variable of a chain so many times, and for it again by the old values of its effects."""
    operators = [("go", [(size, 0)] * size, [([(0, 1)], 0, 1, 0)] * size, 1)]
    given = [derives(size - var, var) for var in range(1, size + 1)]
    again = [line for _ in range(size - 1) for line in requires(size, 0, 1)] + [line for _ in range(size) for line in requires(0, 1, 0)]
    task = derived_task(size, chain_rules(size), [], operators=operators)
    return task, ["go"], 0, [*blocked(1, "go"), at_operator(task, 0), *requires(size, 0, 1), *given, *again, *LAST]


def many_effects(size):
    """An operator with so many effects on each of two variables, of which the last contradicts those on the second one."""
    ones = [([], var, -1, 1) for var in (0, 1) for _ in range(size)]
    task = task_with([2, 2], operators=[("go", [], [*ones, ([], 1, -1, 0)], 1)])
    lines = ["plan invalid: step 1: conflicting effects", "  step 1 go", at_operator(task, 0)]
    pair = [(size, 1), (2 * size, 0)]
    lines += [f"    effect {effect} sets 1 {value} {value_name({}, 1, value)}" for effect, value in pair]
    return task, ["go"], 0, [*lines, *LAST]


def many_named(size):
    """A name that so many operators have, of which the last is applicable, too. No earlier step could also be it."""
    operators = [("go", [], [], 1), *[("go", [(0, 1)], [], 1)] * size, ("turn", [], [([], 1, -1, 1)], 1), ("go", [(1, 1)], [], 2)]
    lines = ["plan invalid: cost is 13, not 0", "  metric 0", "  steps 13", "  sum of cost lines 13"]
    lines.append(f"  step 12 could also be operator {size + 2}")
    return task_with([2, 2], operators=operators), [*["go"] * 10, "turn", "go", "go"], 0, lines


def many_alike(size):
    """So many operators whose names are nearly like that of a step, and two that are like it."""
    spaces = " " * 40
    operators = [(f"Go {place}{spaces}", [], [], 1) for place in range(1, size + 1)]
    operators += [(f"GO 0{spaces}", [], [], 1), ("go 0 ", [], [], 1)]
    task = task_with([2], operators=operators)
    lines = ["plan invalid: step 1: no operator of that name", "  step 1 go 0"]
    lines += [f"  similar operator {size} line {operator_line(task, size)} GO 0{spaces[1:]}\\x20", "  1 of 1 steps name no operator"]
    return task, ["go 0"], 0, lines


def made_case(maker, size, **limits):
    task, names, cost, lines = maker(size)
    inputs = {"files": {"t.sas": text_of(task)}, "input": plan_text(names, cost), **limits}
    name = f"{maker.__name__.replace('_', ' ')} of {size}, plan --why"
    return case(name, ["plan", "--why", "t.sas", "-"], with_ends(lines), 1, **inputs)


def long_texts():
    """Files whose reasons repeat long names very often: of values and of the step since which one is there, or of a value that rules
    require. They could show a text that is made before it is written, and lines that are kept so that they aren't printed again."""
    name, step, goal = "a" * NAME, "b" * NAME, [(0, 1)] * TIMES
    count = f"  {TIMES} of {TIMES} goal facts fail\n"
    facts = [f"  goal fact {place}\n    requires 0 1 {name}\n    actual 0 2 {name}\n    since step 1 {step}\n" for place in range(TIMES)]
    operators, names = [(step, [], [([], 0, -1, 2)], 1)], [["no", name, name]]
    task = task_with([3], goal=goal, operators=operators, names=names)
    yield long_text("names of values and of a step", task, [step], [count, *facts])
    task = derived_task(1, [([(0, 1)], 1, -1, 1)] * RULES, [(1, 1)] * 2, names=[["no", name], ["off", "on"]])
    cause = "    requires 1 1 on\n    actual 1 0 off\n    since the initial state\n"
    rules = [f"    rule {rule} requires 0 1 {name}\n" for rule in range(RULES)]
    reasons = ["  2 of 2 goal facts fail\n", f"  goal fact 0\n{cause}", *rules, f"  goal fact 1\n{cause}"]
    yield long_text("the name of a value that rules require", task, [], reasons)


def long_text(name, task, steps, reasons):
    """A case of such a text, of which these parts are printed after the verdict."""
    files = {"t.sas": text_of(task), "p.txt": plan_text(steps, 0)}
    reasons = [[part, 1] for part in ("plan invalid: goal fact 0 not reached\n", *reasons)]
    words = ["plan", "--why", "t.sas", "p.txt"]
    return case(f"{name} in a long text, plan --why", words, "", 1, files=files, front=reasons, memory=MEMORY)


def limited_cases():
    """Derivations with a small stack, and in a file that may have fewer bytes. They could show a call that goes as deep as a
    derivation is long, and bytes that are missing before those that went out."""
    for maker, size in ((chain_up, MODEST), (chain_down, MODEST), (chain_of_layers, MODEST), (tree_down, MODEST_TREE)):
        yield made_case(maker, size, stack=STACK)
    yield from cut_short(made_case(chain_up, MODEST), (512, 51_200, 1_024_000))


def lengthy_cases():
    return made_by(long_texts, limited_cases)
