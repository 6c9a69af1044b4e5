#!/usr/bin/env python3
"""Measures what the calls of the library about a task that is held take, and compares it with the table of docs/LIBRARY.md: their stack,
how many blocks they allocate, and how many bytes they have allocated at once. Looks for what a call must not do: ask the system, read a
clock, or wait. Runs the example with an arena.

    python3 cases/library_costs.py LIBRARY

LIBRARY is the folder that library/build.py made. costs.c makes the calls, and is built by $CC or cc; `strace` and `objdump` are used where
they are there. No proof is about a stack, or about how much memory is taken.
"""
import glob
import os
import re

import harness
from harness import c_compiler, ended, is_there
from large import plan_text, wide_plans, wide_task
from library import C_WARNINGS, DOORWAY, FUSES, REQUESTS, Library, failed, read
from oracles.tasks import text_of
from texts import TOP, put
from texts import text_of as text_of_file

# behind the others, since it looks for modules in bench/, too, which has a library.py of its own
from footprint import goal, input_of, names, operators, rules, variables, with_rules

PAGE, HEAD = f"{TOP}/docs/LIBRARY.md", "| At most |"
# what the table may say is at most so many times what some call takes
SLACK = 3
SIZES = (1, 1 << 12, (1 << 14) + 1)
STACK, ANY, BYTES = "kB of stack", "bytes allocated at once, in any case", "bytes"
BLOCKS = f"blocks allocated, if the task and the plan have at most {SIZES[-1]:,} of each thing"
# the stack of all calls without a held task, in bytes
WHOLE_STACK = 28_000
# instructions that ask the system, read a clock, or wait for another thread
ASKING = re.compile(r"\t(?:rep |lock )?(syscall|sysenter|int|rdtscp?|rdpmc|rdrand|rdseed|pause|xchg|cmpxchg\w*|xadd|svc|mrs|wfe|wfi|ldaxr|stlxr)\b")


# the calls without a held task
WHOLE = [f"sas_{it}" for it in REQUESTS]


def table():
    """Returns the table of the page: for the calls of each column, what they take at most of what."""
    lines = iter(text_of_file(PAGE).splitlines())
    head = next(line for line in lines if line.startswith(HEAD))
    calls = [tuple(re.findall(r"`(\w+)`", cell)) for cell in head.split("|")[2:-1]]
    found = {call: {} for call in calls}
    next(lines)
    for line in lines:
        if not line.startswith("|"):
            return found
        thing, *figures = [cell.strip() for cell in line.split("|")[1:-1]]
        for call, figure in zip(calls, figures):
            found[call][thing] = int(figure.replace(",", ""))
    return found


def families():
    """Yields inputs that have much of one thing: a name, and what makes the task and the names of the plan's steps for a size."""
    yield "variables", lambda size: (input_of(variables=variables(size)).task, [])
    yield "operators", lambda size: (input_of(operators=operators(size)).task, names(1))
    yield "goal facts", lambda size: (input_of(goal=goal(size)).task, [])
    yield "rules", lambda size: (with_rules(rules(size)).task, [])
    yield "steps", lambda size: (input_of(operators=operators(size, 0, 1)).task, names(size))
    yield "steps of one operator", lambda size: (input_of(operators=operators(1, 0, 1)).task, names(1) * size)
    yield "steps of a long name", lambda size: (input_of(operators=operators(1, 0, 1)).task.replace(names(1)[0], LONG), [LONG] * size)
    yield "steps that name no operator", lambda size: (input_of(operators=operators(size, 0, 1)).task, [b"none"] * size)


LONG = b"a" * 100


def inputs():
    """Yields tasks and plans, each with a name and whether it is a large one."""
    for name, made in families():
        for size in SIZES:
            task, steps = made(size)
            yield f"{size} {name}", task, plan_text((it.decode() for it in steps), len(steps)).encode(), size == SIZES[-1]
    for size in (3, 65, 1025):
        for steps, cost, line in wide_plans(size)[: 3 if size > 65 else None]:
            yield f"{size} wide, {line}", text_of(wide_task(size)).encode(), plan_text(steps, cost).encode(), False
    for path in sorted((*glob.glob(f"{TOP}/cases/tasks/*.sas"), *glob.glob(f"{TOP}/examples/*.sas"))):
        for plan in (FUSES, DOORWAY):
            yield f"{os.path.basename(path)}, {plan}", read(path), read(f"{plan}.plan"), False


def measured(program, folder, task, plan):
    """Returns what each call takes: its number, stack, blocks, bytes at once, and the length of its answer."""
    ran = ended(program, put(f"{folder}/task", task), put(f"{folder}/plan", plan))
    assert ran.returncode == 0, ran
    lines = (line.split() for line in ran.stdout.decode().splitlines())
    return {name: tuple(map(int, figures)) for name, *figures in lines}


def things_of(task, plan, why):
    """Returns how much there is of what the table names, but for the answer."""
    names = re.findall(rb"^\((.*)\)$", plan, re.MULTILINE)
    return {
        ANY: 1,
        "for each variable": int(task.split(b"\n")[6]),
        "for each step of the plan": len(names),
        "for each byte of its name": sum(map(len, names)),
        "for each line of reasons": why.count(b"\n  "),
    }


def cost_tests(library, program, folder):
    """Yields what the calls take of each input. They could show a buffer on the stack, a call that goes as deep as a list is long, and
    memory that isn't in the table; and a table that says far more than is taken."""
    said, least = table(), {}
    for name, task, plan, is_large in inputs():
        if not library.sas.check(task):
            continue
        taken, why = measured(program, folder, task, plan), library.sas.Task(task).plan_why(plan).text
        things = things_of(task, plan, why)
        for call in ("sas_task_read", *WHOLE):
            yield f"{call}, {name}", [f"{taken[call][1]} bytes of stack"] * (taken[call][1] > WHOLE_STACK)
        for call, calls, figures in ((call, calls, figures) for calls, figures in said.items() for call in calls):
            _, stack, blocks, held, size = taken[call]
            counts = {**things, "for each byte of the answer": size}
            most = sum(figures[thing] * count for thing, count in counts.items())
            wrong = [f"{stack} bytes of stack"] * (stack > 1000 * figures[STACK])
            wrong += [f"{blocks} blocks"] * (blocks > figures[BLOCKS])
            wrong += [f"{held} bytes at once, not {most}"] * (held > most)
            yield f"{call}, {name}", wrong
            for thing, part in ((STACK, 1000 * figures[STACK] / (stack + 1)), (BLOCKS, figures[BLOCKS] / (blocks + 1))):
                least[calls, thing] = min(least.get((calls, thing), part), part)
            if is_large:
                least[calls, BYTES] = min(least.get((calls, BYTES), SLACK + 1), most / (held + 1))
    for (calls, thing), part in least.items():
        is_none = thing in (BLOCKS, BYTES) and said[calls][BLOCKS] == 0
        yield f"{calls}, the table says too much of {thing}", [] if part <= SLACK or is_none else [f"{part:.1f} times"]


def quiet_tests(library, program, folder):
    """Yields what a call asks of the system, by strace, and which instructions the library has. They could show a call that waits, starts
    a thread or reads the clock."""
    files = [put(f"{folder}/task", text_of(wide_task(65))), put(f"{folder}/plan", plan_text(*wide_plans(65)[0][:2]))]
    if is_there("strace"):
        log = f"{folder}/strace"
        ended("strace", "-o", log, program, *files)
        lines = text_of_file(log).splitlines()
        marks = [place for place, line in enumerate(lines) if line.startswith("write(-1,")]
        between = [lines[first + 1 : last] for first, last in zip(marks[::2], marks[1::2])]
        yield "what calls ask of the system", [] if len(between) == 10 + len(WHOLE) and not any(between) else [f"{between}"]
    if is_there("objdump"):
        said = ended("objdump", "-d", "--no-show-raw-insn", f"{library.folder}/libsas.a").stdout.decode()
        found = sorted({it[1] for it in ASKING.finditer(said) if it[1] != "xchg"})
        yield "instructions that ask the system", found if "ret" in said else ["no code"]


def arena_tests(library, _, folder):
    """Yields the example with an arena, of each size up to one that is enough. They could show a call that can't go on after it found the
    arena full, and one that takes memory elsewhere."""
    path, files = os.path.join(folder, "arena"), [os.path.join(TOP, f"{FUSES}.{it}") for it in ("sas", "plan")]
    source = os.path.join(TOP, "library/examples/arena.c")
    wrong = failed(*c_compiler(), "-std=c99", *C_WARNINGS, "-I", library.folder, source, f"{library.folder}/libsas.a", "-o", path)
    yield "arena.c", wrong
    said = {given: ended(path, *files, str(given)).stdout.decode() for given in (*range(0, 800, 8), 1 << 20)}
    enough = min(given for given, text in said.items() if text == ARENA_PRINTS)
    for given, text in said.items():
        expected, left = "", given
        while left < enough - 8 or f"an arena of {left} bytes is full\n" in text:
            expected, left = f"{expected}an arena of {left} bytes is full\n", 2 * left + 1
        yield f"an arena of {given} bytes", [] if text == f"{expected}{ARENA_PRINTS}" and left < 2 * enough or given >= enough else [text]
    yield "arenas", [] if enough > 100 else [f"{enough} bytes are enough"]


ARENA_PRINTS = "plan valid: 4 steps, cost 4\n"


def tests(place, library):
    """Yields all tests over the library in a folder."""
    loaded, program = Library(library), os.path.join(place, "costs")
    flags = ["-O2", *C_WARNINGS, "-I", library, os.path.join(TOP, "cases/costs.c"), os.path.join(library, "libsas.a"), "-lpthread"]
    wrong = failed(*c_compiler(), *flags, "-o", program)
    assert not wrong, wrong
    for make in (cost_tests, quiet_tests, arena_tests):
        yield from make(loaded, program, place)


if __name__ == "__main__":
    harness.main(tests)
