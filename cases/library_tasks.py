#!/usr/bin/env python3
"""Tests the tasks that a program holds between two calls of the library: in any order of calls, in threads and processes, and where
memory is refused.

    python3 cases/library_tasks.py SAS LIBRARY

SAS is the program, and LIBRARY the folder that library/build.py made. Each function of this script that makes tests says which mistake
they could show that no proof does: no proof is about two calls at once, about how much memory there is, or about Python.

library.c makes the calls in C, and is built by $CC or cc.
"""
import array
import contextlib
import copy
import ctypes
import functools
import mmap
import os
import pathlib
import pickle
import random
import re
import sys
from concurrent.futures import ThreadPoolExecutor

import harness
from harness import c_compiler, differs, ended
from large import plan_text, wide_plans, wide_task
from library import DOORWAY, FUSES, LAMPS, LIMIT, NO, NO_TASK, OVER_BOTH, OVER_HELD, REQUESTS
from library import ROOM_TOO_SHORT, YES, Held, answer_of, fault_of, read, tests_by
from oracles.tasks import text_of
from texts import TOP, put

# the most that memory may grow over many plans, in kB
MOST_MORE = 256
MANY, IN_THREADS = 100_000, 4000


class Guarded(ctypes.Structure):
    """The same between other bytes."""

    _fields_ = [("before", ctypes.c_uint64), ("held", Held), ("after", ctypes.c_uint64)]


def held_tests(_, library, __):
    """Yields what may come of a task that is held. They could show one that is held though it was refused or dropped, one that
    doesn't replace the one before, one that a plan spoils, and one that takes more bytes than the header declares."""
    fuses, doorway = read(f"{FUSES}.sas"), read(f"{DOORWAY}.sas")
    plan, other = read(f"{FUSES}.plan"), read(f"{DOORWAY}.plan")
    guarded, none = Guarded(LIMIT, Held(), LIMIT), [NO_TASK]
    held = guarded.held

    def number(*given, room=128):
        return library.call("sas_task_plan" if len(given) == 1 else "sas_task_read", [held, given[-1]], room)[0]

    def each(*plans, room=4096):
        return [library.call(f"sas_{name}", [held, it], room)[0] for it in plans for name in OVER_HELD]

    def free():
        library.calls.sas_task_free(ctypes.byref(held))
        return bool(held.is_there)

    for name, calls, expected in (
        ("none at first", lambda: [number(plan), *each(plan)], none * 4),
        ("none dropped", lambda: [free(), number(plan), *each(plan)], [False, *none * 4]),
        ("held", lambda: [number("read", fuses), number(plan), number(other), number(plan)], [YES, YES, NO, YES]),
        ("dropped", lambda: [number("read", fuses), free(), number(plan), *each(plan), free()], [YES, False, *none * 4, False]),
        ("each call", lambda: [number("read", fuses), *each(plan, other, plan)], [YES] * 4 + [NO] * 3 + [YES] * 3),
        ("plans that each refuses", lambda: [number("read", fuses), *each(b"", b"\xff\n", plan)], [YES] + [NO] * 6 + [YES] * 3),
        ("no room", lambda: [number("read", fuses), *each(other, room=3), *each(plan)], [YES] + [ROOM_TOO_SHORT] * 3 + [YES] * 3),
        ("another over it", lambda: [number("read", fuses), number("read", doorway), number(other), number(plan)], [YES, YES, YES, NO]),
        ("no task over it", lambda: [number("read", fuses), number("read", plan), number(plan)], [YES, NO, *none]),
        ("not layered", lambda: [number("read", fuses), number("read", read(f"{LAMPS}.sas")), number(plan)], [YES, NO, *none]),
        ("nothing over it", lambda: [number("read", fuses), number("read", b""), number(plan)], [YES, NO, *none]),
        ("no room", lambda: [number("read", fuses), number("read", fuses, room=12), number(plan)], [YES, ROOM_TOO_SHORT, *none]),
        ("just room", lambda: [number("read", fuses, room=13), number(plan)], [YES, YES]),
        ("no room for a plan", lambda: [number("read", fuses), number(plan, room=3), number(plan)], [YES, ROOM_TOO_SHORT, YES]),
        ("a plan without its cost line", lambda: [number("read", fuses), *each(b"(take f1)\n", plan)], [YES] + [NO] * 3 + [YES] * 3),
        ("plans that are refused", lambda: [number("read", fuses), number(b""), number(b"\xff\n"), number(plan)], [YES, NO, NO, YES]),
    ):
        yield f"a task that is held: {name}", differs(calls(), expected)
        free()
    yield "the bytes around a task that is held", differs([guarded.before, guarded.after], [LIMIT] * 2)


def typed_tests(sas, task, plan, path):
    """Yields the answers of the wrapper in Python about inputs of other types."""
    expected, empty = sas.plan(task, plan), sas.plan(b"", b"")
    with open(path, "wb+") as file:
        file.write(task)
        file.flush()
        with mmap.mmap(file.fileno(), 0) as writable, mmap.mmap(file.fileno(), 0, access=mmap.ACCESS_READ) as readable:
            for name, view in (
                ("bytearray", bytearray(task)),
                ("memoryview", memoryview(task)),
                ("a part", memoryview(bytearray(b"x" + task + b"x"))[1:-1]),
                ("array", array.array("B", task)),
                ("mmap", writable),
                ("mmap that is read-only", readable),
            ):
                with sas.Task(view) as held:
                    answers = sas.plan(view, bytearray(plan)), held.plan(memoryview(plan))
                yield f"Python, {name}", [it for answer in answers for it in differs(answer, expected)]
    yield "Python, nothing", [it for view in (bytearray(), memoryview(b"")) for it in differs(sas.plan(view, view), empty)]
    for name, given in (("a text", task.decode()), ("a path", pathlib.Path(path)), ("a path as a text", path)):
        calls = functools.partial(sas.check, given), functools.partial(sas.Task(task).plan, given)
        said = [repr(fault_of(call)) for call in calls]
        expected = repr(TypeError('give the bytes: open(path, "rb").read()'))
        yield f"Python, {name}", differs(said, [expected] * 2)


def raising_tests(sas, task, plan):
    """Yields the exceptions of the wrapper in Python."""
    for name, exception, call in (
        ("numbers of operators that are bytes", TypeError, lambda: sas.Task(task).plan_operators(b"abcd", 0)),
        ("numbers of operators that are text", TypeError, lambda: sas.Task(task).plan_operators("abcd", 0)),
        ("a number of an operator below 0", OverflowError, lambda: sas.Task(task).plan_operators([-1], 0)),
        ("a number of an operator with 33 bits", OverflowError, lambda: sas.Task(task).plan_operators([1 << 32], 0)),
        ("a cost below 0", OverflowError, lambda: sas.Task(task).plan_operators([], -1)),
        ("a cost with 65 bits", OverflowError, lambda: sas.Task(task).plan_operators([], 1 << 64)),
        ("numbers of operators of a task that was closed", sas.NoTask, lambda: closed(sas, task).plan_operators([], 0)),
        ("each second byte", TypeError, lambda: sas.check(memoryview(task)[::2])),
        ("a task that is refused", sas.Refused, lambda: sas.Task(plan)),
        ("a task that isn't layered", sas.Refused, lambda: sas.Task(read(f"{LAMPS}.sas"))),
        *((f"{it} of a task that was closed", sas.NoTask, lambda it=it: getattr(closed(sas, task), it)(plan)) for it in OVER_BOTH),
        ("a task that is pickled", TypeError, lambda: pickle.dumps(sas.Task(task))),
        ("a task that is copied", TypeError, lambda: copy.copy(sas.Task(task))),
        ("a task that is copied deeply", TypeError, lambda: copy.deepcopy(sas.Task(task))),
    ):
        yield f"Python, {name}", differs(type(fault_of(call)), exception)


def python_tests(_, library, folder):
    """Yields the answers of the wrapper in Python about inputs of other types, tasks that are refused and tasks that are closed. They
    could show bytes that aren't those of the caller, and an answer where there is none."""
    sas, task, plan = library.sas, read(f"{FUSES}.sas"), read(f"{FUSES}.plan")
    expected = sas.plan(task, plan)
    yield from typed_tests(sas, task, plan, os.path.join(folder, "task"))
    yield from raising_tests(sas, task, plan)
    with contextlib.suppress(sas.Refused):
        closed(sas, task).close()
    with ThreadPoolExecutor(4) as pool, sas.Task(task) as held:
        answers = list(pool.map(held.plan, [plan] * 1000))
    yield "Python, one task in four threads", [it for answer in answers for it in differs(answer, expected)][:1]


# plans of FUSES, of which the file is refused or not
PLANS_OF_FUSES = (
    b"(take f1)\n(put f1 link)\n(take f2)\n(put f2 feed)\n; cost = 4 (unit cost)\n",
    b"(take f1)\n(put f1 link)\n(take f2)\n(put f2 feed)\n; cost = 5 (unit cost)\n",
    b"(take f1)\n(take f2)\n; cost = 2 (unit cost)\n",
    b"(take f9)\n; cost = 1 (unit cost)\n",
    b"; cost = 0 (unit cost)\n",
    b"(take f1)\n",
    b"take f1\n; cost = 1 (unit cost)\n",
    b"; cost = 0 (unit cost)\nx",
    b"\xff" * 100,
    b"",
)


def mixed_tests(_, library, __):
    """Yields calls about many plans of one task that is held, in any order: each answer is that over both files. They could show a call
    that leaves something of a plan for the next."""
    sas, task, chance = library.sas, read(f"{FUSES}.sas"), random.Random(1)
    calls = [(request, plan) for request in OVER_BOTH for plan in PLANS_OF_FUSES]
    expected_answers = [answer_of(sas, request, task, plan) for request, plan in calls]
    with sas.Task(task) as held:
        for number, place in enumerate(chance.choices(range(len(calls)), k=1000)):
            request, plan = calls[place]
            yield f"call {number} of one task, {request}, {plan[:40]!r}", differs(getattr(held, request)(plan), expected_answers[place])


# programs in Python that end with status 0, and print nothing
PROCESSES = {
    "an exit while threads make calls": """
import sys, threading, sas
task, plan = (open(it, "rb").read() for it in sys.argv[1:])
def run(held):
    while True:
        held.plan(plan)
for _ in range(16):
    threading.Thread(target=run, args=[sas.Task(task)], daemon=True).start()
""",
    "a fork while a thread is inside a call": """
import os, sys, threading, sas
task, plan = (open(it, "rb").read() for it in sys.argv[1:])
busy, idle = sas.Task(task), sas.Task(task)
threading.Thread(target=busy._one_call.acquire).start()
child = os.fork()
if child == 0:
    try:
        busy.plan(plan)
    except sas.NoTask:
        busy.close()
        os._exit(0 if idle.plan(plan) else 1)
    os._exit(2)
busy._one_call.release()
sys.exit(os.waitstatus_to_exitcode(os.waitpid(child, 0)[1]) or not busy.plan(plan))
""",
    "a pool over tasks of which some are refused": """
import multiprocessing, sys, sas
task, plan = (open(it, "rb").read() for it in sys.argv[1:])
def is_valid(text):
    with sas.Task(text) as held:
        return held.plan(plan).steps
def result(pool, text):
    try:
        return pool.apply(is_valid, (text,))
    except sas.Refused as refusal:
        return str(refusal)
if __name__ == "__main__":
    with multiprocessing.Pool(2) as pool:
        came = [result(pool, text) for text in [task, plan] * 20]
        try:
            pool.map(is_valid, [task, plan] * 20)
        except sas.Refused as refusal:
            came.append(str(refusal))
    refused = "task refused: line 1: keyword"
    sys.exit(came != [4, refused] * 20 + [refused])
""",
}


def process_tests(_, library, folder):
    """Yields programs in Python with threads and processes. They could show a task that is freed while a thread is inside a call, a lock
    that nobody releases, and an exception that doesn't come back from another process."""
    env = {**os.environ, "PYTHONPATH": library.folder}
    files = [os.path.join(TOP, f"{FUSES}.{it}") for it in ("sas", "plan")]
    for name, code in PROCESSES.items():
        path = put(os.path.join(folder, "program.py"), code)
        # later versions warn of each fork of a process with threads
        ran = ended(sys.executable, "-W", "ignore", path, *files, env=env)
        yield f"Python, {name}", [] if (ran.returncode, ran.stdout, ran.stderr) == (0, b"", b"") else [f"{ran}"]


def closed(sas, task):
    held = sas.Task(task)
    held.close()
    return held


def built_driver(library, folder):
    path = os.path.join(folder, "library")
    source, archive = os.path.join(TOP, "cases/library.c"), os.path.join(library.folder, "libsas.a")
    command = [*c_compiler(), "-O1", "-I", library.folder, source, archive, "-pthread", "-o", path]
    ran = ended(*command)
    assert ran.returncode == 0, ran.stderr
    return path


def several(folder):
    """Returns the files of a task that has several of everything and of plans of it, of which the first one is valid."""
    plans = enumerate(plan_text(names, cost) for names, cost, _ in wide_plans(65))
    paths = [put(f"{folder}/several.{number}", plan) for number, plan in plans]
    return put(f"{folder}/several.sas", text_of(wide_task(65))), *paths


def driver_tests(_, library, folder):
    """Yields each call with each of its allocations refused, very many plans of one task, and threads. They could show a call that
    goes on without the memory that it was refused, loses some or spoils what is held; memory that grows from plan to plan; and
    calls that share what the proofs, which know no threads, don't look at."""
    driver = built_driver(library, folder)
    examples = [(os.path.join(TOP, f"{it}.sas"), os.path.join(TOP, f"{FUSES}.plan")) for it in (FUSES, DOORWAY)]
    task, *plans = several(folder)
    for files in (*examples, *((task, plan) for plan in plans)):
        ran = ended(driver, "refused", *files)
        lines = dict(line.split(": ") for line in ran.stdout.decode().splitlines())
        wrong = [f"status {ran.returncode}"] * (ran.returncode != 0)
        for name in (*REQUESTS, "task_read", *OVER_HELD, "task_plan_operators", "task_run", "task_run_trace", "task_run_state"):
            well = re.fullmatch(r"[1-9]\d* refused, 0 wrong", lines.get(f"sas_{name}", ""))
            yield f"sas_{name}, memory refused, {os.path.basename(files[1])}", wrong if well else [*wrong, f"{lines}"]
    for files, count in ((examples[0], MANY), ((task, plans[0]), MANY // 100)):
        said = ended(driver, "many", *files, str(count)).stdout.decode()
        grown = re.fullmatch(rf"{count} plans, 0 wrong, (\d+) kB more, 0 blocks left\n", said)
        yield f"{count} plans of one task", [] if grown and int(grown[1]) <= MOST_MORE else [said]
    for files in (*examples, (task, plans[0])):
        count = IN_THREADS if files in examples else IN_THREADS // 10
        said = ended(driver, "threads", *files, str(count)).stdout.decode()
        yield f"{count} plans in each of four threads", [] if said == f"{count} plans in each of 4 threads, 0 wrong\n" else [said]


TESTS = (held_tests, python_tests, mixed_tests, process_tests, driver_tests)


def tests(program, folder):
    yield from tests_by(TESTS, program, folder)


if __name__ == "__main__":
    harness.main(tests)
