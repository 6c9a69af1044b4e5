"""Tasks and plans as the oracles take them, and their files.

A task is a dictionary of

    ranges      how many values each variable has
    layers      its layer, None for a basic variable
    defaults    its value in the state section
    names       the names of its values; left out: made of numbers
    rules       (CONDITIONS, VARIABLE, OLD, NEW): facts (VARIABLE, VALUE), and what changes; -1 represents no old value
    metric      0 or 1; left out: 0
    goal        facts; left out: none
    operators   (NAME, PREVAIL, EFFECTS, COST), an effect as (CONDITIONS, VARIABLE, OLD, NEW); left out: none
    groups      mutex groups: lists of facts; left out: none

A plan is the names of its steps, and its cost.
"""


def with_ends(lines):
    """Returns these lines as a text."""
    return "".join(f"{line}\n" for line in lines)


def section(name, lines):
    return [f"begin_{name}", *lines, f"end_{name}"]


def facts_lines(facts):
    return [len(facts), *(f"{var} {value}" for var, value in facts)]


def effect_line(facts, var, old, new):
    return " ".join(map(str, [len(facts), *(number for fact in facts for number in fact), var, old, new]))


def value_name(task, var, value):
    return task["names"][var][value] if "names" in task else f"Atom v{var}({value})"


def text_of(task):
    """Returns the file of a task. Where the task has none of them: metric 0, no group, no goal and no operator, and names that
    are made of numbers."""
    operators = task.get("operators", [])
    lines = [*section("version", [3]), *section("metric", [task.get("metric", 0)]), len(task["ranges"])]
    for var, (size, layer) in enumerate(zip(task["ranges"], task["layers"])):
        values = [value_name(task, var, value) for value in range(size)]
        lines += section("variable", [f"var{var}", -1 if layer is None else layer, size, *values])
    groups = task.get("groups", [])
    lines.append(len(groups))
    for group in groups:
        lines += section("mutex_group", facts_lines(group))
    lines += [*section("state", task["defaults"]), *section("goal", facts_lines(task.get("goal", [])))]
    lines.append(len(operators))
    for name, prevail, effects, cost in operators:
        changes = [effect_line(*effect) for effect in effects]
        lines += section("operator", [name, *facts_lines(prevail), len(changes), *changes, cost])
    lines.append(len(task["rules"]))
    for facts, var, old, new in task["rules"]:
        lines += section("rule", [*facts_lines(facts), f"{var} {old} {new}"])
    return with_ends(lines)


def operator_line(task, place):
    """Returns the number of the line on which an operator begins in the file of a task."""
    variables = sum(5 + size for size in task["ranges"])
    groups = sum(3 + len(group) for group in task.get("groups", []))
    behind = sum(6 + len(prevail) + len(effects) for _, prevail, effects, _ in task.get("operators", [])[:place])
    # the version, the metric and the number of variables; that of groups; the state; the goal; the number of operators
    return 7 + variables + 1 + groups + 2 + len(task["ranges"]) + 3 + len(task.get("goal", [])) + 1 + behind + 1


def rule_line(task, place):
    count = operator_line(task, len(task.get("operators", [])))
    return count + sum(4 + len(facts) for facts, *_ in task["rules"][:place]) + 1


def facts_from(lines):
    return [tuple(map(int, next(lines).split(" "))) for _ in range(int(next(lines)))]


def effect_from(lines):
    count, *numbers = map(int, next(lines).split(" "))
    facts = list(zip(numbers[: 2 * count : 2], numbers[1 : 2 * count : 2]))
    return facts, *numbers[2 * count :]


def sections_from(lines, count, read):
    """Returns what is read in each of so many sections that come next in a file."""
    def section_from():
        next(lines)
        held = read()
        next(lines)
        return held

    return [section_from() for _ in range(count)]


def task_of(text):
    """Returns the task of which this is the file: where it has none of them, empty lists."""
    lines = iter(text.replace("\r\n", "\n").split("\n"))

    def number():
        return int(next(lines))

    def variable():
        next(lines)
        layer = number()
        return None if layer < 0 else layer, [next(lines) for _ in range(number())]

    def operator():
        return next(lines), facts_from(lines), [effect_from(lines) for _ in range(number())], number()

    def rule():
        facts = facts_from(lines)
        return facts, *map(int, next(lines).split(" "))

    _, metric = sections_from(lines, 2, number)
    variables = sections_from(lines, number(), variable)
    groups = sections_from(lines, number(), lambda: facts_from(lines))
    defaults = sections_from(lines, 1, lambda: [number() for _ in variables])[0]
    goal = sections_from(lines, 1, lambda: facts_from(lines))[0]
    return {
        "metric": metric,
        "ranges": [len(names) for _, names in variables],
        "layers": [layer for layer, _ in variables],
        "names": [names for _, names in variables],
        "groups": groups,
        "defaults": defaults,
        "goal": goal,
        "operators": sections_from(lines, number(), operator),
        "rules": sections_from(lines, number(), rule),
    }


def plan_text(names, cost):
    return with_ends([*(f"({name})" for name in names), f"; cost = {cost} (unit cost)"])


def plan_of(text):
    *steps, cost = text.replace("\r\n", "\n").removesuffix("\n").split("\n")
    return [step[1:-1] for step in steps], int(cost.split(" ")[3])
