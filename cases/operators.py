#!/usr/bin/env python3
"""Tests plans by operator numbers: the calls sas_task_plan_operators, and from any state sas_task_run, sas_task_run_trace and sas_task_run_state, of the
library.

    python3 cases/operators.py LIBRARY

LIBRARY is the folder that library/build.py made. What the first call is to answer, the library says of a plan by names: each operator of
the task is given a name of its own first, so that a name means one number. What the others are to answer, oracles/steps.py computes. The
proofs say what is answered. They know no pointer of a caller's, and no header.
"""
import ctypes
import glob
import os
import random
import re
from types import SimpleNamespace

import harness
import walks
from harness import differs
from large import plan_text, wide_plans, wide_task
from library import GUARD, NO, NO_TASK, ROOM_TOO_SHORT, YES, Held, Library
from oracles.axioms import layer_fault
from oracles.steps import cost_of, holds, preconditions, run_by_numbers, run_verdict, start_fault
from oracles.tasks import text_of
from oracles.traces import lines_of
from texts import TOP, as_bytes, bytes_of, bytes_of_file, table

# the room of a line
ROOM = 128
# walks by which a task is tried, the most steps of each, and how often a number is drawn for a step
WALKS, STEPS, DRAWS = 20, 12, 12
LARGEST, LARGEST_COST = (1 << 32) - 1, (1 << 64) - 1
# an operator of the largest cost so often that the sum isn't a number of `double`
OFTEN, LARGEST_LINE = (1 << 22) + 1, (1 << 31) - 1


class Run(ctypes.Structure):
    """What is called sas_run in sas.h."""

    _fields_ = [
        ("operators", ctypes.c_void_p),
        ("count", ctypes.c_size_t),
        ("cost", ctypes.c_uint64),
        ("start", ctypes.c_void_p),
        ("start_length", ctypes.c_size_t),
    ]


def words_of(numbers):
    """Returns numbers as C has them, with one behind them that would be wrong."""
    return (ctypes.c_uint32 * (len(numbers) + 1))(*numbers, LARGEST)


class Calls(Library):
    """The calls that these tests make."""

    def read(self, task):
        """Returns what holds a task."""
        held = Held()
        number, size, room, _ = self.call("sas_task_read", [held, task], ROOM)
        assert number == YES, (number, room[:size])
        return held

    def free(self, held):
        self.calls.sas_task_free(ctypes.byref(held))

    def plan(self, held, plan):
        """Returns the answer about a plan by names: its number and its line."""
        number, size, room, _ = self.call("sas_task_plan", [held, plan], ROOM)
        return number, room[:size]

    def whole(self, held, operators, cost, length=ROOM):
        """Makes a call by numbers with a room of so many bytes, and returns what `call` does: the
        last is whether the bytes around the room, and the numbers, are as before."""
        # a number that would be wrong stands behind those that are given
        numbers = [*operators, LARGEST]
        given = (ctypes.c_uint32 * len(numbers))(*numbers)
        words = given, ctypes.c_size_t(len(operators)), ctypes.c_uint64(cost)
        *came, is_kept = self.call("sas_task_plan_operators", [held, words], length)
        return *came, is_kept and [*given] == numbers

    def by_numbers(self, held, operators, cost):
        """Returns the answer about a plan by numbers: its number and its line."""
        number, size, room, is_kept = self.whole(held, operators, cost)
        if not is_kept or room[size:] != GUARD * (ROOM - size):
            return number, b"more was written: " + room
        return number, room[:size]


def run_given(start, operators, cost):
    """Returns a run as C has it, and what it points to, which has to stay."""
    given = words_of(operators), words_of(start)
    at = [ctypes.addressof(it) for it in given]
    return Run(at[0], len(operators), cost, at[1], len(start)), given


def run_answer(calls, held, run, length=ROOM, name="sas_task_run"):
    """Returns what `call` does of the call sas_task_run, or another one, in a room of so many bytes."""
    (it, given), before = run_given(*run), [*map(list, run_given(*run)[1])]
    *came, is_kept = calls.call(name, [held, (ctypes.byref(it),)], length)
    return *came, is_kept and [*map(list, given)] == before


def state_answer(calls, held, run, length):
    """Returns the number of the call sas_task_run_state, in a room of so many values, its size, and what is in the room."""
    it, _given = run_given(*run)
    room, size = (ctypes.c_uint32 * (length + 2))(*[LARGEST] * (length + 2)), ctypes.c_size_t(LARGEST)
    at = ctypes.byref(room, ctypes.sizeof(ctypes.c_uint32))
    number = calls.calls.sas_task_run_state(ctypes.byref(held), ctypes.byref(it), at, ctypes.c_size_t(length), ctypes.byref(size))
    held_by = [*room]
    assert held_by[0] == held_by[-1] == LARGEST, "a value was written beside the room"
    return number, size.value, held_by[1:-1]


def with_own_names(task):
    """Returns the task with a name for each operator that no other has, and how many there are."""
    parts = re.split(rb"(?<=\n)begin_operator\r?\n.*\n", task)
    front = (b"begin_operator\n%d\n" % place for place in range(len(parts) - 1))
    return parts[0] + b"".join(its + part for its, part in zip(front, parts[1:])), len(parts) - 1


def expected_of(calls, named, operators, cost):
    """Returns the answer to expect: that about a plan by names, of the task whose operators have names of their own."""
    number, line = calls.plan(named, plan_text(map(str, operators), cost).encode())
    return number, line.replace(b"no operator of that name", b"no operator of that number")


def walk(calls, held, count, chance):
    """Returns the numbers of operators of which most go through one after another, and the sum of their costs or another cost."""
    operators = []
    for _ in range(chance.randrange(STEPS)):
        drawn = [chance.randrange(count) for _ in range(DRAWS)] if count else []
        going = [it for it in drawn if b": step " not in calls.by_numbers(held, [*operators, it], 0)[1]]
        operators += going[:1]
    if chance.random() < 0.3:
        operators.insert(chance.randrange(len(operators) + 1), chance.choice([count, chance.randrange(count + 1), LARGEST]))
    found = re.search(rb"cost is (\d+), not", calls.by_numbers(held, operators, LARGEST_COST)[1])
    return operators, int(found[1]) if found and chance.random() < 0.7 else chance.randrange(4)


def tasks():
    """Yields tasks that are layered, each with a name."""
    for path in sorted((*glob.glob(f"{TOP}/cases/tasks/*.sas"), *glob.glob(f"{TOP}/examples/*.sas"))):
        yield os.path.basename(path), bytes_of(path)
    for case in table("verdicts.json"):
        yield case["name"], as_bytes(case["task"])
    for width in (2, 65):
        yield f"{width} wide", text_of(wide_task(width)).encode()


def walk_tests(calls):
    """Yields walks through each task: the answer is that of the names. They could show numbers that are read at another place or in another
    order, another count, a cost that is cut off, and a number that means another operator of its name."""
    for name, task in tasks():
        named_task, count = with_own_names(task)
        try:
            held, named = calls.read(task), calls.read(named_task)
        except AssertionError:
            continue
        chance = random.Random(name)
        for number in range(WALKS):
            operators, cost = walk(calls, held, count, chance)
            got, expected = calls.by_numbers(held, operators, cost), expected_of(calls, named, operators, cost)
            yield f"{name}, walk {number}, {operators}, cost {cost}", differs(got, expected)
        calls.free(held)
        calls.free(named)


# a task whose two operators of one name lead elsewhere, one whose operators conflict, and one whose goal holds from the start
TWO_MOVES, DISAGREEING, MINIMAL = "two_moves", "disagreeing", "minimal"
LINES = (
    (TWO_MOVES, "the second operator of a name", [1], 1, YES, "plan valid: 1 steps, cost 1"),
    (TWO_MOVES, "the first operator of a name", [0], 1, NO, "plan invalid: goal fact 0 not reached"),
    (TWO_MOVES, "the second behind the first", [0, 1], 2, NO, "plan invalid: step 2: not applicable"),
    (TWO_MOVES, "a number behind the last", [1, 2], 2, NO, "plan invalid: step 2: no operator of that number"),
    (TWO_MOVES, "the largest number", [LARGEST, 1], 2, NO, "plan invalid: step 1: no operator of that number"),
    (TWO_MOVES, "another cost", [1], 2, NO, "plan invalid: cost is 1, not 2"),
    (TWO_MOVES, "the largest cost", [1], LARGEST_COST, NO, f"plan invalid: cost is 1, not {LARGEST_COST}"),
    (TWO_MOVES, "a cost that is 1 in 32 bits", [1], (1 << 32) + 1, NO, f"plan invalid: cost is 1, not {(1 << 32) + 1}"),
    (TWO_MOVES, "no number", [], 0, NO, "plan invalid: goal fact 0 not reached"),
    (DISAGREEING, "effects that conflict", [0], 1, NO, "plan invalid: step 1: conflicting effects"),
    (MINIMAL, "no number, and the goal holds", [], 0, YES, "plan valid: 0 steps, cost 0"),
    (MINIMAL, "no number, and a cost", [], 1, NO, "plan invalid: cost is 0, not 1"),
    (MINIMAL, "no operator", [0], 1, NO, "plan invalid: step 1: no operator of that number"),
)


def line_tests(calls):
    """Yields each line of an answer. They could show an operator that is chosen by its name, and numbers of other types than the header
    says."""
    for task, name, operators, cost, number, line in LINES:
        held = calls.read(bytes_of_file(f"cases/tasks/{task}.sas"))
        yield f"{task}: {name}", differs(calls.by_numbers(held, operators, cost), (number, f"{line}\n".encode()))
        calls.free(held)
    width = 65
    held, numbers = calls.read(text_of(wide_task(width)).encode()), {}
    for place, operator in enumerate(wide_task(width)["operators"]):
        numbers.setdefault(operator[0], place)
    for names, cost, line in wide_plans(width):
        operators = [numbers.get(name, len(wide_task(width)["operators"])) for name in names]
        yield f"wide: {line}", differs(calls.by_numbers(held, operators, cost)[1], f"{line}\n".replace("that name", "that number").encode())
    calls.free(held)


def large_tests(calls):
    """Yields a sum of costs that no floating-point number is, of very many steps. They could show a sum or a count of fewer bits."""
    operator = ("stay", [], [], LARGEST_LINE)
    task = {"metric": 1, "ranges": [2], "layers": [None], "defaults": [0], "rules": [], "operators": [operator]}
    held, total = calls.read(text_of(task).encode()), OFTEN * LARGEST_LINE
    for cost, number, line in (
        (total, YES, f"plan valid: {OFTEN} steps, cost {total}\n"),
        (total + 1, NO, f"plan invalid: cost is {total}, not {total + 1}\n"),
    ):
        yield f"a sum of {total}, cost {cost}", differs(calls.by_numbers(held, [0] * OFTEN, cost), (number, line.encode()))
    calls.free(held)


def room_tests(calls):
    """Yields each answer in rooms of each length. They could show a byte that is written after the room or in front of it, a wrong length,
    and a room that is just long enough and is reported as too short."""
    for task, name, operators, cost, number, line in LINES:
        held, text = calls.read(bytes_of_file(f"cases/tasks/{task}.sas")), f"{line}\n".encode()
        wrong = []
        for length in range(len(text) + 3):
            due = (ROOM_TOO_SHORT, b"") if length < len(text) else (number, text)
            got = calls.whole(held, operators, cost, length)
            if (got[0], got[1], got[3]) != (due[0], len(text), True) or got[2] != due[1] + GUARD * (length - len(due[1])):
                wrong.append(f"{length} bytes: {got}")
        yield f"{task}: {name}, each room", wrong[:1]
        calls.free(held)


def held_tests(calls):
    """Yields calls of one task in any order, by names and by numbers, and of none. They could show a call that leaves something of a plan
    for the next, a task that is lost, and an answer where there is no task."""
    held, chance = Held(), random.Random(1)
    none = NO_TASK, GUARD * ROOM
    number, _, room, is_kept = calls.whole(held, [0], 1)
    yield "no task", differs((number, room, is_kept), (*none, True))
    held = calls.read(bytes_of_file(f"cases/tasks/{TWO_MOVES}.sas"))
    asked = [it for it in LINES if it[0] == TWO_MOVES]
    by_name = (NO, b"plan invalid: goal fact 0 not reached\n")
    for place, (_, name, operators, cost, number, line) in enumerate(chance.choices(asked, k=200)):
        yield f"call {place} of one task: {name}", differs(calls.by_numbers(held, operators, cost), (number, f"{line}\n".encode()))
        yield f"by name after call {place}", differs(calls.plan(held, b"(move)\n; cost = 1 (unit cost)\n"), by_name)
    calls.free(held)
    number, _, room, is_kept = calls.whole(held, [1], 1)
    yield "a task that was freed", differs((number, room, is_kept), (*none, True))


# runs of each task, and the most steps of one
RUNS, MOST = 12, 8


def random_start(task, chance):
    """Returns the values of a start, derived ones at random: none, those of a state, too many or too few, or one that is out of range."""
    values, kind = [chance.randrange(size) for size in task["ranges"]], chance.random()
    if kind < 0.2:
        return []
    if kind < 0.3:
        return chance.choice((values[:-1] or [0, 0], [*values, 0], [*values, *values]))
    if kind < 0.45:
        var = chance.randrange(len(values))
        values[var] = chance.choice((task["ranges"][var], LARGEST))
    return values


def random_run(task, chance):
    """Returns a start, the numbers of operators of which most go through from there, and the sum of their costs or another cost."""
    start, operators = random_start(task, chance), []
    going = [] if start_fault(task, start) else start
    for _ in range(chance.randrange(MOST)):
        states, fault = run_by_numbers(task, going, operators)
        able = [it for it, operator in enumerate(task["operators"]) if holds(states[-1], preconditions(operator))]
        if fault or not able:
            break
        operators.append(chance.choice(able))
    if chance.random() < 0.3:
        number = chance.choice([len(task["operators"]), chance.randrange(len(task["operators"]) + 1), LARGEST])
        operators.insert(chance.randrange(len(operators) + 1), number)
    total = sum(cost_of(task, it) for it in operators if it < len(task["operators"]))
    return start, operators, total if chance.random() < 0.8 else chance.randrange(4)


def traced(task, start, operators):
    """Returns the trace of a run, which is none where the start is refused."""
    if start_fault(task, start):
        return ""
    states, _ = run_by_numbers(task, start, operators)
    run = SimpleNamespace(task=task, operators=operators, states=states)
    return "".join(f"{line}\n" for line in lines_of(run))


def wrong_of_run(calls, held, task, run):
    """Returns what is wrong with the answers about a run: its line, its trace and its state, each in rooms of some lengths."""
    start, operators, cost = run
    line = f"{run_verdict(task, start, operators, cost)}\n"
    number, wrong = YES if line.startswith("plan valid") else NO, []
    for name, text in (("sas_task_run", line.encode()), ("sas_task_run_trace", (traced(task, start, operators) + line).encode())):
        for length in (0, len(text) - 1, len(text), len(text) + 9):
            due = (ROOM_TOO_SHORT, b"") if length < len(text) else (number, text)
            expected = due[0], len(text), due[1] + GUARD * (length - len(due[1])), True
            wrong += differs(run_answer(calls, held, run, length, name), expected)
    if start_fault(task, start):
        return wrong + differs(state_answer(calls, held, run, len(start)), (NO, 0, [LARGEST] * len(start)))
    states, fault = run_by_numbers(task, start, operators)
    many = len(task["ranges"])
    for length in (0, many - 1, many, many + 3):
        values = [] if length < many else [*states[-1]]
        due = ROOM_TOO_SHORT if length < many else NO if fault else YES
        wrong += differs(state_answer(calls, held, run, length), (due, many, values + [LARGEST] * (length - len(values))))
    return wrong


def run_tests(calls):
    """Yields runs from random starts through small random tasks, with axioms, conditional effects and effects that conflict. They could show
    a start whose derived values are kept, another start, a state that isn't the one before the step that fails, and values that are
    written where there is no room."""
    for place, task in enumerate(random_tasks()):
        held, chance = calls.read(text_of(task).encode()), random.Random(place)
        for number in range(RUNS):
            run = random_run(task, chance)
            yield f"task {place}, run {number}: {run}", wrong_of_run(calls, held, task, run)
        calls.free(held)


def monitor_tests(calls):
    """Yields plans of random tasks that are carried out, step by step: from each state on the way the rest is valid exactly if the whole is.
    They could show a state behind some steps from which the rest isn't judged as it is in the whole."""
    for place, task in enumerate(random_tasks()):
        held, chance = calls.read(text_of(task).encode()), random.Random(-place)
        for number in range(RUNS // 3):
            _, operators, _ = random_run(task, chance)
            total = sum(cost_of(task, it) for it in operators if it < len(task["operators"]))
            whole = run_answer(calls, held, ([], operators, total))[0]
            for made in range(len(run_by_numbers(task, [], operators)[0])):
                reached, size, state = state_answer(calls, held, ([], operators[:made], 0), len(task["ranges"]))
                left = sum(cost_of(task, it) for it in operators[made:] if it < len(task["operators"]))
                rest = run_answer(calls, held, (state, operators[made:], left))[0]
                yield f"task {place}, plan {number}, {made} steps made", differs((reached, size, rest), (YES, len(state), whole))
        calls.free(held)


def random_tasks():
    """Yields small tasks at random, with operators."""
    chance = random.Random(walks.SEED)
    for _ in range(walks.TASKS):
        task, _ = walks.walked_task(chance)
        if layer_fault(task) is None:
            yield task


def no_task_tests(calls):
    """Yields calls without a task. They could show a room that is written."""
    run = ([], [0], 1)
    yield "run, no task", differs(run_answer(calls, Held(), run)[::2], (NO_TASK, GUARD * ROOM))
    number, _, values = state_answer(calls, Held(), run, 3)
    yield "state, no task", differs((number, values), (NO_TASK, [LARGEST] * 3))


def tests(folder):
    calls = Calls(folder)
    for make in (line_tests, walk_tests, large_tests, room_tests, held_tests, run_tests, monitor_tests, no_task_tests):
        yield from harness.named(make, calls)


if __name__ == "__main__":
    harness.main(tests)
