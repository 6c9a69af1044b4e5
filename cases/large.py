"""Large tasks and plans, and what the program says of them: cases as in program.json, for run.py. No proof says when memory is
there, so a program that answers `out of memory` wherever something is large is proved, too; each of these is larger than
what another case has.

A task is wide that has so many of everything: values of a variable, facts of a group, goal facts, prevail conditions, effects
of an operator, conditions of an effect, rules, and conditions of a rule. The constants of the code that are lengths are 1,024
facts read at once, 65,536 bytes read and written at a time, and 8 digits read at once: some case has more of
each, and where it is a border, one has exactly as many.

Each answer is said here from how the task was made. For narrow tasks it is compared with what the meaning of a task gives.
"""
from oracles.families import line_of, verdicts
from oracles.steps import verdict
from oracles.summaries import summary
from oracles.tasks import text_of, with_ends
from texts import as_bytes, case, made_by, with_line

WIDTHS = (65, 130, 513, 1_024, 1_025)
# how many bytes are read at a time, and how many times a wide task is cut elsewhere by that
READ, CUTS = 65_536, 13
# how many bytes a file may have that an output goes into
ROOMS = (512, 51_200, 102_400)
MANY = 10_001
# a plan of many a task: the names of its steps, its cost, and what is said of it
GOES = ["go"], 1, "plan valid: 1 steps, cost 1"
LINES = 1_000_000
STEPS = 200_001
# the most bytes that are read, and the length of the names of operators that fill them
LIMIT, NAME = 4_294_967_296, 65_536
PIECE = 65_536
# names that end in the factor of the hasher
ALIKE, FACTOR = 100_000, (0x9E3779B97F4A7C15).to_bytes(8, "little").decode("latin-1")
# the stack that docs/GUIDE.md promises to be enough; with 48 kB some runs fail, as the place of the stack varies
STACK = 65_536
MINIMAL = "cases/tasks/minimal.sas"
WRITE_FAILED = {"status": 3, "error": "sas: write failed\n"}


def over_input(name, request, text, output, status=0):
    return case(f"{name}, {request}", [request, "-"], output, status, input=text)


def over_plan(name, task, names, cost, said):
    inputs = {"files": {"t.sas": task}, "input": plan_text(names, cost)}
    status, words = int("invalid" in said), ["plan", "t.sas", "-"]
    return case(f"{name}, plan", words, f"{said}\n", status, **inputs)


def plan_text(names, cost):
    return with_ends([*(f"({name})" for name in names), f"; cost = {cost} (general cost)"])


def cut_short(made, rooms):
    """A case whose output goes into files that may have fewer bytes."""
    for room in rooms:
        name, output = f"{made['name']}, into {room} bytes", made["output"][:room]
        yield {**made, "name": name, "file": room, "output": output, **WRITE_FAILED}


def task_with(ranges, **parts):
    """A task of basic variables of these ranges, with these parts, and value 0 for each in the state section."""
    least = {"metric": 0, "layers": [None] * len(ranges), "defaults": [0] * len(ranges), "rules": [], "groups": [], "goal": []}
    return {"ranges": ranges, "operators": [], **least, **parts}


def named_value(name, has_goal):
    """The file of a task of one variable whose initial value has this name, with that value as goal, or with no goal."""
    return {**with_line(MINIMAL, 12, name), **({} if has_goal else {"line 20": "0", "line 21": None})}


# how many bytes the summary of the latter has beside the name
BESIDE = len(as_bytes({"summary": named_value("", False)}))


def read_cases(name, task, text):
    """The cases of what a task says by itself, of which this is the text. They could show `out of memory` where no allocation was refused,
    in any of the three ways to read a task."""
    yield over_input(name, "show", text, summary(task))
    yield over_input(name, "check", text, "task layered\n")
    yield over_input(name, "print", text, text)


def each_case(name, task, *plans, groups=None):
    """The cases of a task, of its groups where these lines are given, and of plans: the names of
    their steps, their cost, and what is said of them."""
    text = text_of(task)
    yield from read_cases(name, task, text)
    if groups:
        yield over_input(name, "mutex", text, groups, int("not shown" in groups))
    for plan in plans:
        yield over_plan(name, text, *plan)


def wide_operators(width):
    """The operators of a wide task: those that go through the values of variable 0, one that turns all switches on, one that
    turns them off, and one whose last effect conflicts with all others. Of the second one's effects the last doesn't fire, by the
    last of its conditions."""
    off, on = ([(var, value) for var in range(1, width + 1)] for value in (0, 1))
    turns = [([], var, 0, 1) for var in range(1, width)]
    return [
        *((f"next {place}", [], [([], 0, place, (place + 1) % width)], place) for place in range(width)),
        ("turn", off, [*turns, (off, width, 0, 1), ([*off[1:], on[-1]], 0, -1, 1)], 1),
        ("back", on, [([], var, -1, 0) for var in range(1, width + 1)], 1),
        ("clash", [on[1]], [*[([], 1, -1, 1)] * width, ([], 1, -1, 0)], 1),
    ]


def wide_groups(width):
    """The groups of a wide task, with the verdict on each. What decides is mostly the last of many facts."""
    first_on, first_off, second_off = (1, 1), (1, 0), (2, 0)
    return [
        ([(0, value) for value in range(width)], "Exclusive"),
        ([(var, 1) for var in range(1, width + 1)], f"Broken {{ operator: {width} }}"),
        ([*[(0, 0)] * (width - 1), first_on], f"Broken {{ operator: {width - 1} }}"),
        ([*[first_on] * (width - 1), second_off], "Exclusive"),
        ([*[first_on] * (width - 1), (width + 1, 0)], "Derived"),
        ([*[first_off] * (width - 1), second_off], "Initial"),
    ]


def groups_said(width):
    return "".join(line_of(place, said) for place, (_, said) in enumerate(wide_groups(width)))


def wide_task(width):
    """A wide task: variable 0 has so many values, there are so many switches, which are off, and so many lamps, which are
    derived. Each lamp has a rule, by which it is lit where its switch is on; the last is lit where all are."""
    on = [(var, 1) for var in range(1, width + 1)]
    lit = [(width + var, 0) for var, _ in on]
    return {
        "metric": 1,
        "ranges": [width, *[2] * (2 * width)],
        "layers": [*[None] * (width + 1), *[0] * width],
        "defaults": [*[0] * (width + 1), *[1] * width],
        "rules": [*(([fact], lamp, 1, 0) for fact, (lamp, _) in zip(on[:-1], lit)), (on, 2 * width, 1, 0)],
        "groups": [group for group, _ in wide_groups(width)],
        "goal": [*on, *lit],
        "operators": wide_operators(width),
    }


def wide_plans(width):
    """Plans of a wide task: steps, the cost that is printed, and what is said of it."""
    around = [f"next {place}" for place in range(width)]
    cost = sum(range(width)) + 3
    return [
        ([*around, "turn", "back", "turn"], cost, f"plan valid: {width + 3} steps, cost {cost}"),
        ([*around, "turn", "back", "turn"], cost + 1, f"plan invalid: cost is {cost}, not {cost + 1}"),
        ([*around, "turn", "turn"], cost, f"plan invalid: step {width + 2}: not applicable"),
        ([*around, "turn", f"next {width}"], cost, f"plan invalid: step {width + 2}: no operator of that name"),
        ([*around, "turn", "clash"], cost, f"plan invalid: step {width + 2}: conflicting effects"),
        ([*around, "turn", "back"], cost, "plan invalid: goal fact 0 not reached"),
    ]


def compare_narrow(width):
    task = wide_task(width)
    assert verdicts(task) == ([said for _, said in wide_groups(width)],) * 2
    assert all(verdict(task, names, cost)[0] == said for names, cost, said in wide_plans(width))


def wide_cases():
    """Each request over wide tasks. They could show `out of memory` where no allocation was refused, and a list of which only the front
    counts."""
    compare_narrow(4)
    for width in WIDTHS:
        task = wide_task(width)
        name, text = f"{width} of everything", text_of(task)
        yield from read_cases(name, task, text)
        yield over_input(name, "mutex", text, groups_said(width), 1)
        for names, cost, said in wide_plans(width):
            yield over_plan(f"{name}, {said}", text, names, cost, said)
            for ends, plan in ended(plan_text(names, cost)):
                yield over_input(f"{name}, {ends}", "steps", plan, plan_text(names, cost))


def turning_files(width, length, steps, blocked):
    """A small task, and a plan whose answers are large. So many variables have names of values of this length. So many steps turn them all,
    each with a line in a trace. Of the last step's name there are so many operators, each with reasons for all variables."""
    on = [(var, 1) for var in range(width)]
    turns = [(name, [], [([], var, -1, value) for var in range(width)], 1) for name, value in (("on", 1), ("off", 0))]
    names = [[word.ljust(length, "x") for word in ("no", "yes")]] * width
    task = task_with([2] * width, names=names, operators=[*turns, *[("go", on, [], 1)] * blocked])
    return text_of(task).encode(), plan_text([*["on", "off"] * (steps // 2), "go"], 0).encode()


def ended(text):
    """Yields a text with other line ends: how they are called, and what the file holds."""
    yield "LF", text
    yield "CR LF", text.replace("\n", "\r\n")
    lines = text.splitlines(keepends=True)
    lines[::3] = [line.replace("\n", "\r\n") for line in lines[::3]]
    yield "CR LF in each third line", "".join(lines)


def cut_cases():
    """Wide tasks, of files in which reads of 65,536 bytes cut other lists each time. They could show an operator, a rule or a
    group that is read twice, or not at all, where a piece ends in it, or a line end that counts as part of a line."""
    for width in WIDTHS[:2]:
        task = wide_task(width)
        groups, length = groups_said(width), len(text_of(task))
        # by how many bytes a text, shorter than a read, is shifted to be cut elsewhere each time
        for shift in (READ - length * part // (CUTS + 1) for part in range(1, CUTS + 1)):
            text = text_of(task).replace("var0\n", f"var0{'-' * shift}\n", 1)
            answers = {"print": (text, 0), "show": (summary(task), 0), "check": ("task layered\n", 0), "mutex": (groups, 1)}
            for ends, file in ended(text):
                for request, (output, status) in answers.items():
                    name = f"{width} of everything, {shift} bytes further, {ends}, {request}"
                    yield case(name, [request, "t.sas"], output, status, files={"t.sas": file})


def stack_cases():
    """Each request over a wide task with a small stack. They could show a call that goes as deep as a list is long, or a large
    buffer on the stack."""
    task = wide_task(130)
    text, (names, cost, said) = text_of(task), wide_plans(130)[0]
    plan = plan_text(names, cost)
    for request, output, status in (
        ("show", summary(task), 0),
        ("check", "task layered\n", 0),
        ("print", text, 0),
        ("mutex", groups_said(130), 1),
        ("plan", f"{said}\n", 0),
        ("steps", plan, 0),
    ):
        files = {"plan": ["t.sas", "p.txt"], "steps": ["p.txt"]}.get(request, ["t.sas"])
        inputs = {"files": {"t.sas": text, "p.txt": plan}, "stack": STACK}
        yield case(f"a stack of {STACK} bytes, {request}", [request, *files], output, status, **inputs)


def full_file_cases():
    """Outputs into files that may have fewer bytes, so that a write stops early and the next one fails; and one into a file that
    is just full then. They could show bytes that are missing before those that went out, and a further write after the last."""
    task = wide_task(1001)
    text = text_of(task)
    for request, output in (("show", summary(task)), ("print", text)):
        yield from cut_short(over_input("1001 of everything", request, text, output), ROOMS)
    for length in (1024, 1025):
        task = named_value("a" * (length - BESIDE), False)
        status, said = (0, "") if length == 1024 else (3, "sas: write failed\n")
        inputs = {"input": task, "file": 1024, "error": said}
        yield case(f"a file that may have 1024 bytes, of {length}", ["show", "-"], as_bytes({"summary": task})[:1024], status, **inputs)


def late_changes(width, lines):
    """Changes of the last item of each list of a wide task: its place among the lines, what it then says, the fault, and how many
    lines after it that is reported."""
    turn, rule = lines.index("turn"), len(lines) - 3
    effect = turn + 3 + 2 * width
    return [
        (lines.index("end_variable") - 1, "a\rb", "name", 0),
        (lines.index("end_mutex_group") - 1, f"0 {width}", "value", 0),
        (lines.index("end_state") - 1, "2", "value", 0),
        (lines.index("end_goal") - 1, "0 0 0", "shape", 0),
        (turn + 1 + width, f"{width} 2", "value", 0),
        (turn + 2 + width, str(width + 2), "shape", width + 2),
        (effect - 1, f"{lines[effect - 1]} 0", "shape", 0),
        (effect, lines[effect].replace(f" {width} 1 0 -1 1", f" {width} 2 0 -1 1"), "value", 0),
        (rule, f"{width} 2", "value", 0),
        (rule + 1, f"{2 * width} 1", "shape", 0),
        (rule + 2, "end_rules", "keyword", 0),
    ]


def late_cases():
    """Wide tasks with a fault at the last item of a list. They could show a list of which only the front is judged, or a
    fault that is reported of another line."""
    for width in WIDTHS[:2]:
        lines = text_of(wide_task(width)).splitlines()
        for place, changed, word, after in late_changes(width, lines):
            text = with_ends([*lines[:place], changed, *lines[place + 1 :]])
            said = f"line {place + 1 + after}: {word}"
            for request in ("print", "show", "check"):
                yield over_input(f"{width} of everything, {said}", request, text, f"task refused: {said}\n", 1)


def late_layer_cases():
    """Wide tasks that aren't layered, by the last condition or the last effect. They could show one that isn't judged."""
    for width in WIDTHS[:2]:
        ordered, derived = wide_task(width), wide_task(width)
        facts, var, old, new = ordered["rules"][-1]
        ordered["rules"][-1] = ([*facts[:-1], (width + 1, 1)], var, old, new)
        derived["operators"][width][2].append(([], width + 1, -1, 0))
        effect = f"operator {width}: effect on derived variable"
        for task, said in ((ordered, f"rule {width - 1}: layer order"), (derived, effect)):
            for request in ("check", "mutex"):
                yield over_input(f"{width} of everything, {said}", request, text_of(task), f"task refused: {said}\n", 1)


def digit_cases():
    """A task whose costs and layers have each number of digits. It could show a number that is read in other parts than it is
    written in, as one of 8 digits, or 32 bits in which the costs are added."""
    numbers = [0, *(int(first * size) for size in range(1, 10) for first in ("1", "9")), 1_000_000_000, 2_147_483_647]
    task = task_with([2, *[2] * len(numbers)], layers=[None, *numbers], metric=1)
    task["operators"] = [(f"go {number}", [], [([], 0, -1, 1)], number) for number in numbers]
    cost, names = sum(numbers), [f"go {number}" for number in numbers]
    valid = names, cost, f"plan valid: {len(names)} steps, cost {cost}"
    invalid = names, 0, f"plan invalid: cost is {cost}, not 0"
    yield from each_case("numbers of each length", task, valid, invalid)


def long_name_cases():
    """A task with operators of long names, and plans of it. They could show `out of memory` where no allocation was refused, and names of
    which only the front is compared."""
    long = "a" * PIECE
    operators = [(f"{long}b", [], [([], 0, -1, 1)], 1), (f"{long}c", [(0, 1)], [], 1)]
    name, names = f"names of {PIECE + 1} bytes", [f"{long}b", f"{long}c"]
    yield from each_case(
        name,
        task_with([2], goal=[(0, 1)], operators=operators),
        (names, 2, "plan valid: 2 steps, cost 2"),
        (names[1:], 1, "plan invalid: step 1: not applicable"),
        ([long], 1, "plan invalid: step 1: no operator of that name"),
    )
    yield over_input(name, "steps", plan_text(names, 2), plan_text(names, 2))


def alike_names():
    """Names that have different fronts of eight bytes, and then the factor of the hasher, which forgets all in front of that: so
    all have one digest."""
    return [f"{place:07} {FACTOR}" for place in range(ALIKE)]


def alike_task():
    """A task with two operators of each of these names: first come those that are never applicable."""
    blocked = [(name, [(0, 1)], [], 1) for name in alike_names()]
    return task_with([2], operators=[*blocked, *((name, [], [], 1) for name in alike_names())])


def alike_name_cases():
    """Plans by such names: of as many steps as there are names, of few, and with a name that no operator has. They could show a
    table of names in which each name of a digest is compared with all others, which takes minutes, and the operator of another
    name of the digest."""
    names, text = alike_names(), text_of(alike_task())
    for name, steps in (("names of one digest", names), ("few names of one digest", names[:: ALIKE // 1000])):
        cost = len(steps)
        yield over_plan(name, text, steps, cost, f"plan valid: {cost} steps, cost {cost}")
    said = "plan invalid: step 2: no operator of that name"
    yield over_plan("no name of the digest", text, [names[-1], f"{ALIKE:07} {FACTOR}"], 2, said)


def piece_cases():
    """Summaries of about as many bytes as are written at a time, and with a name of so many. They could show a byte that is lost,
    or comes twice, where a piece is just full."""
    for beyond in (-1, 0, 1):
        for length in (PIECE + beyond, PIECE + beyond - BESIDE):
            for more, has_goal in (("", True), (", and no goal", False)):
                task = named_value("a" * length, has_goal)
                yield over_input(f"a name of {length} bytes{more}", "show", task, {"summary": task})


def late_line_cases():
    """Files whose fault comes after very many lines. They could show a line that is counted in too few bits, and `out of memory`
    where no allocation was refused."""
    facts = "0 0\n" * LINES
    task = as_bytes(with_line(MINIMAL, 20, f"{LINES}\n{facts}0 2"))
    said = f"task refused: line {20 + LINES + 1}: keyword\n"
    for request in ("print", "show", "check", "mutex"):
        yield over_input("a fault after very many lines", request, task, said, 1)
    plan, said = "(a)\n" * LINES + "()\n", f"plan refused: line {LINES + 1}: name\n"
    yield over_input("a fault after very many steps", "steps", plan, said, 1)
    yield case("a fault after very many steps, plan", ["plan", MINIMAL, "-"], said, 1, input=plan)


def longest_cases():
    """A front of a task, of a byte more than may be read. It could show another line on standard error, or another status, where
    no other input leads; and a summary that keeps the operators in memory."""
    lines = as_bytes({"file": MINIMAL}).splitlines(keepends=True)
    operator = b"begin_operator\n" + b"a" * NAME + b"\n0\n0\n1\nend_operator\n"
    count = LIMIT // len(operator) + 1
    front = b"".join([*lines[:22], b"%d\n" % count])
    whole, rest = divmod(LIMIT + 1 - len(front), len(operator))
    inputs = {"streamed": [(front, 1), (operator, whole)], "input": operator[:rest], "memory": 100_000_000}
    yield case("a byte more than may be read", ["show", "--why", "-"], "", 3, error="sas: input too long\n  -\n", **inputs)


def longest_plan_cases():
    """Plans of which the second has a byte more than may be read, all of them steps: a plan keeps its steps in memory, so that it takes
    that much. It could show a plan that is too long and has a line, or is reported by another name."""
    step = b"(" + b"a" * (NAME - 3) + b")\n"
    whole, rest = divmod(LIMIT + 1, len(step))
    inputs = {"streamed": [(step, whole)], "input": step[:rest], "memory": 5_000_000_000}
    files = {"t.sas": as_bytes({"file": MINIMAL}), "p.txt": plan_text([], 0)}
    words = ["plans", "t.sas", "p.txt", "-", "none"]
    yield case("a byte of a plan more than may be read", words, "", 3, error="sas: input too long: -\n", files=files, **inputs)


def long_plan_cases():
    """Plans with very many steps. They could show a step that is counted in too few bits, and want of memory that no one was
    refused."""
    turn = [([(0, 0)], 0, -1, 1), ([(0, 1)], 0, -1, 0)]
    both = [([], 0, -1, 1), ([], 0, -1, 0)]
    operators = [("turn", [], turn, 1), ("stay", [(0, 1)], [], 1), ("both", [], both, 1)]
    task = text_of(task_with([2], goal=[(0, 1)], operators=operators))
    turns, cost = ["turn"] * STEPS, STEPS
    said = f"plan valid: {STEPS} steps, cost {STEPS}"
    yield over_plan("very many steps", task, turns, cost, said)
    yield over_input("very many steps", "steps", plan_text(turns, cost), plan_text(turns, cost))
    for names, said in (
        (turns[1:], "goal fact 0 not reached"),
        ([*turns[:1000], "both", "none"], "step 1001: conflicting effects"),
        ([*turns[:100_000], "stay", "none"], "step 100001: not applicable"),
        ([*turns[:100_000], "none", "stay"], "step 100001: no operator of that name"),
    ):
        yield over_plan(f"very many steps, {said}", task, names, cost, f"plan invalid: {said}")


# Tasks with very many of one thing, of which the last one decides. They could show `out of memory`
# where no allocation was refused, and one that isn't looked at.


def many_groups():
    """Very many groups: the last one has two facts of the state section."""
    task = task_with([2, 2], groups=[*[[(0, 0), (0, 1)]] * (MANY - 1), [(0, 0), (1, 0)]])
    said = "".join(line_of(*it) for it in enumerate([*["Exclusive"] * (MANY - 1), "Initial"]))
    yield from each_case(f"{MANY} groups", task, groups=said)


def many_goals():
    """Very many goal facts: the last one doesn't hold."""
    task = task_with([2], goal=[*[(0, 0)] * (MANY - 1), (0, 1)])
    missed = [], 0, f"plan invalid: goal fact {MANY - 1} not reached"
    yield from each_case(f"{MANY} goal facts", task, missed)


def many_operators():
    """Very many operators: the last one reaches the goal, and breaks a group."""
    operators = [(f"go {place}", [(0, 1)], [], 1) for place in range(MANY - 1)]
    operators.append(("go", [(0, 0)], [([], 1, 0, 1)], 1))
    task = task_with([2, 2], groups=[[(0, 0), (1, 1)]], goal=[(1, 1)], operators=operators)
    blocked, said = ["go 9999"], f"group 0 not shown: operator {MANY - 1}\n"
    plans = GOES, (blocked, 1, "plan invalid: step 1: not applicable")
    yield from each_case(f"{MANY} operators", task, *plans, groups=said)
    text = text_of({**task, "operators": [("go", *parts) for _, *parts in operators]})
    for plan in (GOES, (["go", "go"], 2, "plan invalid: step 2: not applicable")):
        yield over_plan(f"{MANY} operators of one name", text, *plan)


def many_variables():
    """Very many variables: an operator sets the last one, by the last but one."""
    last = MANY - 1
    task = task_with([2] * MANY, groups=[[(last - 1, 1), (last, 1)]], goal=[(last, 1)])
    task["operators"] = [("go", [(last - 1, 0)], [([], last, 0, 1)], 1)]
    yield from each_case(f"{MANY} variables", task, GOES, groups="group 0 exclusive\n")


def many_rules():
    """Very many derived variables, each with a rule that requires the one before it, in a file whose rules stand the other way
    round."""
    layers, rules = [None, *[0] * MANY], [([(var - 1, 1)], var, 0, 1) for var in range(MANY, 0, -1)]
    task = task_with([2] * (MANY + 1), layers=layers, rules=rules, goal=[(MANY, 0), (MANY, 1)])
    task["operators"] = [("go", [], [([], 0, -1, 1)], 1)]
    missed = "plan invalid: goal fact {} not reached".format
    yield from each_case(f"{MANY} rules", task, ([], 0, missed(1)), (["go"], 1, missed(0)))


def large_cases():
    # the slowest one first
    yield from made_by(longest_cases, longest_plan_cases, wide_cases, cut_cases, late_cases)
    yield from made_by(late_layer_cases, digit_cases, long_name_cases, alike_name_cases)
    yield from made_by(piece_cases, stack_cases, full_file_cases, late_line_cases, long_plan_cases)
    yield from made_by(many_groups, many_goals, many_operators, many_variables, many_rules)
