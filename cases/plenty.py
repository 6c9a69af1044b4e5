"""Long traces, and plans by the thousand: cases as in program.json, for run.py.

No proof speaks of files that are open, or of when memory is there. A program that keeps each file open, or what each plan held, is proved,
too. The larger cases here are of a size at which such a program has no file or no memory left. hard.py has two traces as families.

A trace here is a task, the names of a plan's steps, which cost 1 each, and what is printed, line by line. For a small size that
is compared with what the meaning of traces gives, and so is what is printed of plans.
"""
from large import ALIKE, MINIMAL, PIECE, ROOMS, STACK, WIDTHS, WRITE_FAILED, alike_names, alike_task
from large import cut_short, plan_text, task_with, wide_plans, wide_task
from lengthy import turning
from oracles.plans import lines_of, summary
from oracles.tasks import text_of, value_name, with_ends
from oracles.traces import traced
from texts import case, made_by

# the length of a name that comes in the line of each of so many steps, and what memory the program has then, in bytes
NAME, TIMES, MEMORY = 20_000, 5_000, 40_000_000
# how many plans there are, and how many operators, whose names are looked up in one table; how many prices they have
PLANS, OPERATORS, PRICES = 10_000, 100_000, 97
# how many files the program may have open: three streams and one more; and some more
ONE, FEW = 4, 16
# how many steps a plan has that is named so often, what memory the program has then, and how often other plans are named
LONG, AGAIN, LEAN, OFTEN = 100_000, 80, 20_000_000, 150
TRACE = ["trace", "t.sas", "p.txt"]


def failing_writes(made):
    """A case whose output goes into files that may have fewer bytes, and to devices that fail."""
    yield from cut_short(made, ROOMS)
    for device in ("full device", "closed pipe"):
        yield {**made, "name": f"{made['name']}, {device}", "output_to": device, **WRITE_FAILED}


def initial_lines(count):
    """The lines of an initial state of so many variables, which all have value 0."""
    return [f"initial {var} 0 {value_name({}, var, 0)}" for var in range(count)]


def change_line(var, value):
    return f"change {var} {1 - value} {value} {value_name({}, var, value)}"


def valid_line(names):
    return f"plan valid: {len(names)} steps, cost {len(names)}"


def still_trace(steps, variables):
    """So many steps, of which each tenth turns the last variable; all others change nothing."""
    task = task_with([2] * variables, operators=[("stay", [], [([], 0, -1, 0)], 1), turning("turn", variables - 1)])
    names, lines = [], initial_lines(variables)
    for step in range(1, steps + 1):
        turns = step % 10 == 0
        names.append("turn" if turns else "stay")
        lines.append(f"step {step} {int(turns)} 1 {names[-1]}")
        lines += [change_line(variables - 1, step // 10 % 2)] * turns
    return task, names, [*lines, valid_line(names)]


def lamp_task(size, conditions, **parts):
    """A task of a lamp, 0, which is derived under these conditions, a switch, 1, and so many other variables."""
    layers, rules = [0, *[None] * (size + 1)], [(conditions, 0, -1, 1)]
    return task_with([2] * (size + 2), layers=layers, rules=rules, operators=[turning("main", 1)], **parts)


def lamp(size):
    """As many steps as variables, each of which turns the switch and so the lamp."""
    return lamp_task(size, [(1, 1)], goal=[(0, 0)]), ["main"] * (2 * size)


def lamp_unlit(size):
    """The same where the lamp stays dark, since its rule requires another variable, too."""
    return lamp_task(size, [(1, 1), (2, 1)], goal=[(0, 0)]), ["main"] * (2 * size)


def lamp_trace(size):
    task, names = lamp(size)
    lines = initial_lines(size + 2)
    for step in range(1, 2 * size + 1):
        lines += [f"step {step} 0 1 main", change_line(0, step % 2), change_line(1, step % 2)]
    return task, names, [*lines, valid_line(names)]


def storm_task(size):
    """A task of two switches, so many derived variables, each of which rises with the one before it, the second half of them
    on a higher layer, and three more in a ring. These three rise with the second switch, and the others with the first
    one."""
    first, ring = range(2, size + 2), range(size + 2, size + 5)
    layers = [None, None, *(int(2 * place >= size) for place in range(size)), 0, 0, 0]
    rules = [([(var - 1, 1)], var, -1, 1) for var in reversed(first[1:])]
    rules += [([(before, 1)], var, -1, 1) for before, var in zip((ring[-1], *ring), ring)]
    rules += [([(0, 1)], first[0], -1, 1), ([(1, 1)], ring[0], -1, 1)]
    operators = [turning("storm", 0), turning("breeze", 1)]
    return task_with([2] * (size + 5), layers=layers, rules=rules, operators=operators)


def storm_trace(size, storms, breezes):
    """So often the step that turns the first switch of that task, and after each so many that turn the second one."""
    names, values = (["storm"] + ["breeze"] * breezes) * storms, {"storm": 0, "breeze": 0}
    touched = {"storm": [0, *range(2, size + 2)], "breeze": [1, *range(size + 2, size + 5)]}
    lines = initial_lines(size + 5)
    for step, name in enumerate(names, 1):
        values[name] = 1 - values[name]
        lines.append(f"step {step} {int(name == 'breeze')} 1 {name}")
        lines += [change_line(var, values[name]) for var in touched[name]]
    return storm_task(size), names, [*lines, valid_line(names)]


def over_trace(name, trace, **inputs):
    task, names, lines = trace
    files = {"t.sas": text_of(task), "p.txt": plan_text(names, len(names))}
    return case(f"{name}, trace", TRACE, with_ends(lines), 0, files=files, **inputs)


def limited_traces():
    """Traces with a small stack, into files that may have fewer bytes, and to devices that fail. They could show a call that
    goes as deep as a trace is long, bytes that are missing before those that went out, and a write that fails unseen."""
    made = over_trace("a storm", storm_trace(1000, 6, 20))
    assert len(made["output"]) > 2 * PIECE
    yield {**made, "name": f"{made['name']}, a small stack", "stack": STACK}
    yield from failing_writes(made)


def late_faults():
    """Plans of which each step goes through, and that are refused for their last line, or whose last line memory doesn't
    hold. They could show a trace that is written before the plan is read."""
    files, turns = {"t.sas": text_of(task_with([2], operators=[turning("turn", 0)]))}, ["(turn)\n", LONG]
    refusal, words = f"plan refused: line {LONG + 1}: name\n", ["trace", "t.sas", "-"]
    yield case("a fault after very many steps, trace", words, refusal, 1, files=files, input=[turns, "()\n"])
    inputs = {"input": [turns, "(", ["a", 2 * MEMORY]], "memory": MEMORY, "error": "sas: out of memory\n"}
    yield case("a name that memory doesn't hold after very many steps, trace", words, "", 3, files=files, **inputs)


def wide_traces():
    """Traces of tasks that have so many of everything, as in large.py. They could show `out of memory` where no allocation
    was refused, and a list of which only the front counts."""
    for width in WIDTHS[:2]:
        task = wide_task(width)
        text = text_of(task)
        for names, cost, said in wide_plans(width):
            lines = traced(task, names, cost)
            assert lines[-1] == said
            files, status = {"t.sas": text, "p.txt": plan_text(names, cost)}, int("invalid" in said)
            name = f"{width} of everything, {said}, trace"
            yield case(name, TRACE, with_ends(lines), status, files=files)


def piece_traces():
    """Traces of about as many bytes as are written at a time, with the verdict and without it. They could show a byte that is
    lost, or comes twice, where a piece is just full, or a verdict for which there is no room."""
    around = "initial 0 0 \n"
    verdict = "plan valid: 0 steps, cost 0\n"
    for beyond in (-1, 0, 1):
        for length in (PIECE + beyond - len(around), PIECE + beyond - len(around) - len(verdict)):
            name = "a" * length
            inputs = {"files": {"t.sas": {"file": MINIMAL, "line 12": name}, "p.txt": plan_text([], 0)}}
            yield case(f"a name of {length} bytes, trace", TRACE, f"initial 0 0 {name}\n{verdict}", 0, **inputs)


def named_trace():
    """A trace that repeats a long name at each step, with less memory than its text has bytes. It could show a text that is
    made before it is written."""
    name = "a" * NAME
    task = task_with([2], operators=[turning("turn", 0)], names=[["off", name]])
    front = [["initial 0 0 off\n", 1]]
    for step in range(1, TIMES + 1):
        change = ["change 0 0 1 ", name, "\n"] if step % 2 else "change 0 1 0 off\n"
        front.append([[f"step {step} 0 1 turn\n", change], 1])
    files = {"t.sas": text_of(task), "p.txt": plan_text(["turn"] * TIMES, TIMES)}
    inputs = {"files": files, "front": front, "memory": MEMORY}
    said = f"{valid_line(['turn'] * TIMES)}\n"
    yield case("a name in a long text, trace", TRACE, said, 0, **inputs)


def priced_task(count):
    """A task of so many operators, each of which reaches the goal from the start at a cost of its own."""
    operators = [(f"go {place}", [], [([], 0, 0, 1)], price(place)) for place in range(count)]
    return task_with([2], metric=1, goal=[(0, 1)], operators=operators)


def price(place):
    return 2 + place * 31 % PRICES


def priced_plan(number, operators):
    """A plan of that task: its label, its file, what is said of it, and what it costs where it is valid."""
    place = number * 61 % operators
    label, name, cost = f"plan.{number}", f"go {place}", price(place)
    if number % 10 == 3:
        return label, plan_text([name], cost - 1), f"plan invalid: cost is {cost}, not {cost - 1}", None
    if number % 10 == 5:
        return label, plan_text([], 0), "plan invalid: goal fact 0 not reached", None
    if number % 10 == 6:
        return label, plan_text([name, name], cost), "plan invalid: step 2: not applicable", None
    if number % 10 == 8:
        return label, plan_text([name], cost)[:-1], "plan refused: line 2: end", None
    return label, plan_text([name], cost), f"plan valid: 1 steps, cost {cost}", cost


def priced_plans(count, operators):
    return [priced_plan(number, operators) for number in range(count)]


def lines_about(plans):
    """What is printed of them."""
    lines = [f"{label}: {said}" for label, _, said, _ in plans]
    return [*lines, summary([(label, cost) for label, _, _, cost in plans])]


def over_plans(name, task, plans, lines, status=1, **inputs):
    words = ["plans", "t.sas", *(label for label, *_ in plans)]
    files = {"t.sas": text_of(task), **{label: text for label, text, *_ in plans}}
    return case(f"{name}, plans", words, with_ends(lines), status, files=files, **inputs)


def compare_small():
    """Compares what is printed of small traces, and of few plans, with what their meaning gives."""
    storms = storm_trace(1, 3, 2), storm_trace(6, 2, 5), storm_trace(7, 3, 4)
    for task, names, lines in (still_trace(45, 3), *storms):
        assert traced(task, names, len(names)) == lines
    plans = priced_plans(50, 20)
    given = [(label, text) for label, text, *_ in plans]
    assert lines_of(priced_task(20), given) == lines_about(plans)


def thousands_of_plans():
    """Thousands of plans of a task with very many operators, where few files may be open, and some where no two may be. They
    could show a file that stays open, and a task that is read, or whose names are put into a table, for each plan again."""
    plans = priced_plans(PLANS, OPERATORS)
    yield over_plans(f"{PLANS} files", priced_task(OPERATORS), plans, lines_about(plans), open=FEW)
    plans = priced_plans(20, 20)
    yield over_plans("one open file", priced_task(20), plans, lines_about(plans), open=ONE)


def alike_plans():
    """Plans by names of one digest, of a task that is read once. They could show a table of names in which each such name is
    compared with all others."""
    names = alike_names()
    plans = [("long", plan_text(names, ALIKE), f"plan valid: {ALIKE} steps, cost {ALIKE}", ALIKE)]
    plans += [("short", plan_text(names[-1:], 1), "plan valid: 1 steps, cost 1", 1)]
    yield over_plans("names of one digest", alike_task(), plans, lines_about(plans), 0)


def limited_plans():
    """Plans whose lines are longer than what is written at a time, into files that may have fewer bytes, and to devices that
    fail; and plans with a small stack. They could show lines that are lost, or come twice, where the text goes out in pieces,
    bytes that are missing before those that went out, a write that fails unseen, and a call that goes as deep as there are
    plans."""
    plans = priced_plans(20, 20) * OFTEN
    made = over_plans("plans named again", priced_task(20), plans, lines_about(plans))
    assert len(made["output"]) > PIECE
    yield made
    yield from failing_writes(made)
    plans = priced_plans(200, 20)
    yield over_plans("a small stack", priced_task(20), plans, lines_about(plans), stack=STACK)


def wide_files():
    """The plans of tasks that have so many of everything, as in large.py, one after the other and the other way round. They
    could show `out of memory` where no allocation was refused, and something of a plan that the next one finds."""
    for width in WIDTHS:
        made = enumerate(wide_plans(width))
        plans = [(str(place), plan_text(names, cost), said, None if place else cost) for place, (names, cost, said) in made]
        for way, turned in (("in order", plans), ("the other way round", plans[::-1])):
            yield over_plans(f"{width} of everything, {way}", wide_task(width), turned, lines_about(turned))


def long_files():
    """A long plan that is named very often, with less memory than all of these would take; and a long label. They could show
    memory that a plan took and that isn't given back, and a label for which there is no room."""
    task, names = task_with([2], operators=[turning("turn", 0)]), ["turn"] * LONG
    plans = [("p", plan_text(names, LONG), valid_line(names), LONG)] * AGAIN
    yield over_plans("a long plan named very often", task, plans, lines_about(plans), 0, memory=LEAN)
    plans = [("./" * 2000 + "p", plan_text([], 0), "plan valid: 0 steps, cost 0", 0)]
    yield over_plans("a long label", task, plans, lines_about(plans), 0)


def plenty_cases():
    compare_small()
    yield from made_by(thousands_of_plans, long_files, named_trace, limited_traces, alike_plans)
    yield from made_by(limited_plans, late_faults, wide_traces, wide_files, piece_traces)
