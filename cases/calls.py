#!/usr/bin/env python3
"""Runs calls of the libraries over the programs that make them.

    python3 cases/calls.py PROGRAM .. [WORD ..]

The programs are those that the crates `test_core`, `test_files`, `test_verdicts` and `test_requests` are built to, and have
their names, or end in `-unproved`. Only the calls of the programs given are made, and of these, where words are given, only those whose
names contain one.

calls.json: for each program what its calls print, in groups of the same call.

    call         its name, and for some calls a word that names its kind
    about        what is shown
    refused      true, or left out: memory.py refuses each allocation of the program in turn
    inputs       how many inputs the call reads at most, for memory.py; left out: two
    rows         [INPUT, ANSWER]: the bytes that the call is about, and what the program prints

The calls of `run` and `judge` are made once more with writers of each room up to the length of the answer, and with plans that can't
be opened or that fail after each of their bytes.

The calls over the files of tasks.json, lines.json, plans.json, verdicts.json and groups.json are
made here, and those over the tasks of layered.py, walks.py, following.py, grouped.py and large.py,
and over devices that go on after a failure. texts.py defines what a text is.
"""
import functools
import itertools
import os
import re
import subprocess

import harness
from following import called_runs
from grouped import grouped_tasks
from large import plan_text, wide_groups, wide_plans, wide_task
from layered import settled_tasks, spoiled_tasks
from oracles.refusals import answer_of_call
from oracles.steps import initial, state_line, verdict
from oracles.tasks import text_of, with_ends
from texts import as_bytes, changed_lines, early_end, made_by, table
from walks import walked_calls, walked_plans
from why import written_plans

SECONDS = 60
# what a program is given at once: fewer bytes than it reads
MOST = 65_000
# the byte that separates calls and ends answers, and those that a script for a device or a list of pieces has a meaning for
SEPARATOR, MEANT = b"\x1e", b"\x1e#|"
# longer files are left to run.py: what tries each front of a file takes a time that grows as its square
LONGEST, SMALL = 8000, 600
# the length of an answer of which each front is tried, and how many are tried around the ends of the pieces of a longer one
SHORT, NEAR = 2000, 20
# where the pieces of a long answer end
PIECES = (0, 60_089, 65_536)
FILES, VERDICTS, REQUESTS = "test_files", "test_verdicts", "test_requests"
EVALUATORS = ("rounds", "worklist")
# the ways to read a file; the last two keep no text of it
TASK_WAYS, TASK_REQUESTS = ("task", "task-text", "outline", "flat-task"), ("print", "show", "check", "mutex")
PLAN_WAYS, PLAN_REQUESTS = ("plan", "plan-text", "flat-plan"), ("steps",)
TEXT_WAYS = ("task", "task-text", "plan", "plan-text")
# the requests over a plan and its task; the second one adds reasons, the third one traces the plan
PLAN_OF_TASK = ("plan", "plan-why", "trace")
MINIMAL, EMPTY = as_bytes({"file": "cases/tasks/minimal.sas"}), b"; cost = 0 (unit cost)\n"
# what a trace prints first of the task of minimal.sas
INITIAL = b"initial 0 0 Atom dummy(val1)\n"
# an answer: the plans that were opened, the status, and the text
ANSWER = re.compile(rb"((?:open \d+\n)*)Ok\((?:Yes|No)\)\n(.*)\n", re.DOTALL)


def case(program, call, given, answer, about=""):
    return {
        "program": program,
        "name": f"{call}, {about}",
        "input": b"%s\n%s" % (call.encode(), as_bytes(given)),
        "answer": as_bytes(answer),
    }


def written_cases():
    """Yields the calls of calls.json. The comment at each call, in the program that makes it, names the mistake that it
    could show."""
    for program, groups in table("calls.json").items():
        for group in groups:
            for given, answer in group["rows"]:
                call, given = group["call"], as_bytes(given)
                answer = as_bytes(answer_of_call(call, given, answer))
                about = f"{group.get('about', '')} {given[:60]!r}"
                yield case(program, call, given, answer, about)
                parts = ANSWER.fullmatch(answer)
                if parts and call.startswith(("run", "judge")) and call != "judge-slices":
                    yield from narrow_cases(call, given, answer, *parts.groups())
                    yield from broken_cases(call, given, answer)


def narrow_cases(call, given, answer, opened, text):
    """Yields a call with writers that take few bytes at a time, and so many in all, and then fail, or take none. They could show
    bytes that go out twice or not at all, and a piece of a long answer that isn't counted."""
    length = len(text)
    rooms = range(length + 1) if length < SHORT else [end + more for end in (*PIECES, length - NEAR) for more in range(NEAR + 1)]
    fault = b"Err(Tool(Write { written: %d }))\n" if call == "judge" else b"Err(Write { written: %d })\n"
    for room, piece, end in itertools.product(rooms, (1, 1000), (b"fails", b"stops")):
        said = answer if room >= length else opened + fault % room + text[:room] + b"\n"
        yield case(REQUESTS, call, b"%d,%d,%s%s" % (piece, room, end, given), said, f"room for {room}, {given[:60]!r}")


def failing(held):
    """Yields scripts for devices that fail once after each front of a file, and then go on: how many lines come before, and the
    script."""
    for length, failure in itertools.product(range(len(held) + 1), (b"!", b"~")):
        front, rest = held[:length], held[length:]
        yield 1 + front.count(b"\n"), b"#".join(filter(None, [front, failure, rest]))


def broken_cases(call, given, answer):
    """Yields a call with plans that can't be opened, or that fail after each front, unless a file is refused before. They could
    show a failure that is ignored since the verdict is known before, or that is reported of another plan, and lines that are written
    before all plans are read."""
    _, plans, task = given.split(b"|", 2)
    if b" refused: " in answer or b"#" in plans or not call.endswith((*PLAN_OF_TASK, "judge")):
        return
    if call != "judge":
        for _, script in failing(plans):
            yield case(REQUESTS, call, b"|%s|%s" % (script, task), "Err(Read)\n\n", repr(script))
        return
    plans = plans.split(b"&") if plans else []
    for number, plan in enumerate(plans):
        label, held = plan.split(b":", 1)
        faults = [("NotOpened", b"?"), *(("Read", script) for _, script in failing(held))]
        for fault, script in faults:
            listed_plans = b"&".join([*plans[:number], label + b":" + script, *plans[number + 1 :]])
            said = "".join(f"open {it}\n" for it in range(number + 1)) + f"Err(Plan {{ number: {number}, fault: {fault} }})\n\n"
            yield case(REQUESTS, call, b"|%s|%s" % (listed_plans, task), said, f"plan {number}: {script!r}")


def answer_of_fault(said):
    place, word = said.split(": ")
    return f"{place}: {word.title().replace(' ', '')}\n"


def read_as(way, text):
    """Returns what a way to read a file prints of a whole one: its text, where the way keeps it."""
    return ["whole\n", text, "\n"] if way in TEXT_WAYS else "read\n"


def over(request, file):
    return [b"|", file, b"|"] if request in PLAN_REQUESTS else [b"||", file]


def task_cases():
    """Yields each task file, as it stands and with CR LF: read in any way, in any pieces, and from a device that fails. They could
    show a line that is judged otherwise where a piece ends in it, and parts that don't make a task again."""
    for task in table("tasks.json"):
        name, held = task["file"], as_bytes({"file": task["file"]})
        if task["check"] == "task layered":
            yield case(VERDICTS, "layered", [b"|", held], "layered\n", name)
        for given in (held, held.replace(b"\n", b"\r\n")):
            for way in TASK_WAYS:
                yield case(FILES, f"read {way}", given, read_as(way, held), name)
            if len(held) < SMALL:
                yield from cut_cases("feed-task", given, held, name)
        if len(held) < SMALL:
            yield from device_cases(TASK_WAYS, TASK_REQUESTS, name, held)
            for request, (_, script) in itertools.product(PLAN_OF_TASK, failing(held)):
                yield case(REQUESTS, f"run {request}", [b"||", script], "Err(Read)\n\n", name)
            for _, script in failing(held):
                yield case(REQUESTS, "judge", [b"|none:?|", script], "Err(Tool(Read))\n\n", name)
    yield from after_cases("feed-task", MINIMAL)


def cut_cases(call, given, held, about):
    """Yields a file that is cut in two at each place, with and without an empty piece between, and in single bytes. They could
    show a line that is judged otherwise where a piece ends in it."""
    pieces = [(given[:place], *between, given[place:]) for place in range(len(given) + 1) for between in ((), (b"",))]
    for cut in (*pieces, [given[place : place + 1] for place in range(len(given))]):
        yield case(FILES, call, b"|".join(cut), ["read\n" * len(cut), "whole\n", held, "\n"], about)


def after_cases(call, held):
    """Yields a whole file that a byte follows. They could show a byte that is taken there, such as a space or a CR."""
    said = f"line {1 + held.count(10)}: Trailing\n"
    for byte in (bytes([it]) for it in range(256) if it not in MEANT):
        yield case(FILES, call, b"%s|%s" % (held, byte), f"read\n{said}{said}", repr(byte))


def device_cases(ways, requests, name, held):
    """Yields devices that fail after each front of a file. They could show a failure that is taken for the end, and a read that
    is tried again after it, which goes well then."""
    for line, script in failing(held):
        for way in ways:
            yield case(FILES, f"read {way}", script, f"line {line}: Read\nfailed\n", name)
        for request in requests:
            yield case(REQUESTS, f"run {request}", over(request, script), "Err(Read)\n\n", name)


def script_cases():
    """Yields files of devices that end, and go on then. They could show a read that is made after the end."""
    plan = b"(go )\n(open door)\n; cost = 2 (unit cost)\n"
    for what, ways, requests, held in (("task", TASK_WAYS, TASK_REQUESTS, MINIMAL), ("plan", PLAN_WAYS, PLAN_REQUESTS, plan)):
        for length in (0, 1, len(held) // 2, len(held) - 1):
            front, about = held[:length], f"{length} bytes of a {what}"
            said, script = early_end(front), b"#".join([*filter(None, [front]), b"", b"!", held[length:]])
            for way in ways:
                yield case(FILES, f"read {way}", script, answer_of_fault(said), about)
            for request in requests:
                yield case(REQUESTS, f"run {request}", over(request, script), f"Ok(No)\n{what} refused: {said}\n\n", about)


def answer_by(request, answer):
    """Returns this answer as a request about a plan gives it: a trace begins with the initial state, and `plan-why` reports why a task
    is refused, the one that a byte follows."""
    if request == "trace":
        return answer.replace(b"Ok(Yes)\n", b"Ok(Yes)\n" + INITIAL)
    return answer_of_call(request, [b"||", MINIMAL, b"x"], answer)


def cut_plan_cases():
    """Yields the same for `run` with a plan and its task. They could show a plan that is read before its task, too: the
    task's device comes to its end or fails before that."""
    valid = b"Ok(Yes)\nplan valid: 0 steps, cost 0\n\n"
    for plan, task, answer in (
        (b"~#" + EMPTY, MINIMAL, b"Err(Read)\n\n"),
        (EMPTY + b"#!", MINIMAL, b"Err(Read)\n\n"),
        (EMPTY + b"##!", MINIMAL, valid),
        (EMPTY, b"~#" + MINIMAL, b"Err(Read)\n\n"),
        (b"!", MINIMAL + b"#~", b"Err(Read)\n\n"),
        (EMPTY + b"#", MINIMAL + b"##!", valid),
        (b"!", MINIMAL + b"#x#~", b"Ok(No)\ntask refused: line 25: trailing\n\n"),
    ):
        for request in PLAN_OF_TASK:
            yield case(REQUESTS, f"run {request}", b"|%s|%s" % (plan, task), answer_by(request, answer), f"{plan!r}")


def wide_cases():
    """Yields wide tasks, through the calls that take a task or a plan as it is. They could show `out of memory` where no allocation
    was refused, and a buffer that reads more at a time than is documented."""
    for width in (65, 130):
        task, about = wide_task(width), f"{width} of everything"
        text, plans = text_of(task), wide_plans(width)
        for ways, file in ((TASK_WAYS, text), (PLAN_WAYS, plan_text(plans[0][0], 0))):
            yield case(FILES, f"feed-{ways[0]}", file, ["read\n", *read_as(ways[0], file)], about)
            for way in ways:
                yield case(FILES, f"read {way}", file, read_as(way, file), about)
        yield from judged_cases(text, plans, about)
        yield case(REQUESTS, "run print", over("print", text), f"Ok(Yes)\n{text}\n", about)
        yield case(REQUESTS, "run check", over("check", text), "Ok(Yes)\ntask layered\n\n", about)
        yield case(VERDICTS, "layered", f"|{text}", "layered\n", about)
        joint = [said for _, said in wide_groups(width)]
        said = "".join(f"{word} {it}\n" for word in ("joint", "alone") for it in joint)
        yield case(VERDICTS, "check-groups", f"|{text}", said, about)
        for names, cost, _ in plans:
            answer = f"{state_line(initial(task))}\n{verdict(task, names, cost)[1]}\n"
            for way in EVALUATORS:
                yield case(VERDICTS, f"plan {way}", [plan_text(names, cost), "|", text], answer, about)


def listed(plans):
    return "&".join(f"{number}:{plan}" for number, plan in enumerate(plans))


def judged_cases(task, plans, about):
    """Yields the plans of a wide task in one list, of which the first one alone is valid, and each by itself. They could show `out
    of memory` where no allocation was refused, and a plan for which those before it count."""
    opened = "".join(f"open {number}\n" for number in range(len(plans)))
    said = "".join(f"{number}: {verdict}\n" for number, (_, _, verdict) in enumerate(plans))
    summary = f"{len(plans)} plans, 1 valid, best cost {plans[0][1]}: 0\n"
    files = listed(plan_text(names, cost) for names, cost, _ in plans)
    yield case(REQUESTS, "judge", ["|", files, "|", task], f"{opened}Ok(No)\n{said}{summary}\n", about)
    for number, (names, cost, said) in enumerate(plans):
        status = "No" if number else "Yes"
        yield case(REQUESTS, "run plan", ["|", plan_text(names, cost), "|", task], f"Ok({status})\n{said}\n\n", about)


def line_cases():
    """Yields each changed line of a task file that isn't too long. They could show two ways to read a task that don't
    agree."""
    for changed in changed_lines():
        held = as_bytes(changed["task"])
        if len(held) > LONGEST or any(it in held for it in MEANT):
            continue
        for way in ("task", "outline"):
            answer = read_as(way, held) if changed["fault"] is None else answer_of_fault(changed["fault"])
            yield case(FILES, f"read {way}", held, answer, changed["name"])


def plan_cases():
    """Yields each plan file that isn't too long: read in any way, and in pieces. They could show two ways to read a plan
    that don't agree."""
    for plan in table("plans.json"):
        held, output, name = as_bytes(plan["plan"]), as_bytes(plan["output"]), plan["name"]
        if len(held) > LONGEST or any(it in held for it in MEANT):
            continue
        for way in PLAN_WAYS:
            answer = answer_of_fault(plan["output"].strip().removeprefix("plan refused: ")) if plan["status"] else read_as(way, output)
            yield case(FILES, f"read {way}", held, answer, name)
        if plan["status"] == 0 and len(held) < SMALL:
            yield from cut_cases("feed-plan", held, output, name)
            yield from device_cases(PLAN_WAYS, PLAN_REQUESTS, name, held)
    yield from after_cases("feed-plan", EMPTY)


def verdict_cases():
    """Yields each plan that isn't too long, of a task of verdicts.json or one made at random, through each evaluator: the
    initial state, and the verdict on the plan. Where a file is refused there is none of that. They could show a wrong
    definition of valid plans, and evaluators that don't agree."""
    for made in (*table("verdicts.json"), *walked_plans()):
        if "call" not in made:
            continue
        answer = f"{state_line(made['initial'])}\n{made['call']}"
        for way in EVALUATORS:
            yield case(VERDICTS, f"plan {way}", [made["plan"], "|", made["task"]], answer, made["name"])


def why_cases():
    """Yields the plans of why.json, with reasons, alone and as one of many. They could show a text that isn't that of the program."""
    for name, task, plan, lines in written_plans():
        valid = lines[0].startswith("plan valid")
        status = "Yes" if valid else "No"
        answer = with_ends([f"Ok({status})", *lines, ""])
        yield case(REQUESTS, "run plan-why", ["|", plan, "|", task], answer, name)
        best = f", best cost {lines[0].rpartition(' ')[2]}: p" if valid else ""
        said = [f"Ok({status})", f"p: {lines[0]}", *lines[1:], f"1 plans, {int(valid)} valid{best}", ""]
        yield case(REQUESTS, "judge why", ["|p:", plan, "|", task], with_ends(["open 0", *said]), name)
        yield case(REQUESTS, "judge-slices why", ["p:", plan, "|", task], with_ends(said), name)


def random_calls():
    """Yields calls over tasks made at random, and over those of groups.json: what has the task, the
    call, what it is given beside it, what the program prints, and a name. They could show a wrong
    definition of settled states, layered tasks, steps or kept groups, a state that rests on the one
    before it, and faults in another order."""
    for number, made in enumerate(settled_tasks()):
        states = ";".join(" ".join(map(str, values)) for values in made["states"])
        answer = with_ends(map(state_line, made["settled"]))
        for way in EVALUATORS:
            yield made, f"settle {way}", states, answer, f"random task {number}"
    for number, made in enumerate(spoiled_tasks()):
        yield made, "layered", "", f"{made['fault'] or 'layered'}\n", f"random task {number}"
    for made in walked_calls():
        for way in EVALUATORS:
            yield made, f"steps {way}", made["calls"], made["answers"], made["name"]
    for made in called_runs():
        yield from ((made, call, *given, made["name"]) for call, given in made["calls"].items())
    for made in (*table("groups.json"), *grouped_tasks()):
        if len(as_bytes(made["task"])) <= LONGEST:
            yield made, "check-groups", "", made["call"], made["name"]


def random_cases():
    for made, call, given, answer, name in random_calls():
        yield case(VERDICTS, call, [given, "|", made["task"]], answer, name)


def cases():
    files = task_cases, line_cases, plan_cases, verdict_cases, why_cases
    devices = script_cases, cut_plan_cases, wide_cases
    return list(made_by(written_cases, *files, *devices, random_cases))


def batches(calls):
    """Yields the calls in order, as many of one program together as it can be given at once."""
    batch, size = [], 0
    for call in calls:
        size += len(call["input"]) + 1
        if batch and (size > MOST or call["program"] != batch[0]["program"]):
            yield batch
            batch, size = [], len(call["input"]) + 1
        batch.append(call)
    yield batch


def answers(programs, batch):
    """Returns what a program prints of each call of a batch, or what is wrong with its run."""
    program = programs[batch[0]["program"]]
    given = SEPARATOR.join(call["input"] for call in batch)
    try:
        ran = harness.ended(program, input=given, timeout=SECONDS)
    except subprocess.TimeoutExpired:
        return f"no end within {SECONDS} seconds"
    *printed, last = ran.stdout.split(SEPARATOR)
    if ran.returncode or ran.stderr or last or len(printed) != len(batch):
        return f"status {ran.returncode}, {len(printed)} answers for {len(batch)} calls, and on standard error {ran.stderr[:200]!r}"
    return printed


def faults(programs, batch):
    printed = answers(programs, batch)
    if isinstance(printed, str):
        return [[printed] for _ in batch]
    pairs = zip(printed, batch, strict=True)
    return [[] if said == call["answer"] else [f"{said[:300]!r}, not {call['answer'][:300]!r}"] for said, call in pairs]


def tests(program, *words):
    """Yields the calls of this program and of those among the words, but those alone whose names contain one of the other words."""
    programs = {os.path.basename(it).removesuffix("-unproved"): os.path.abspath(it) for it in (program, *filter(os.path.isfile, words))}
    calls = (call for call in cases() if call["program"] in programs)
    calls = harness.chosen(calls, [it for it in words if not os.path.isfile(it)])
    calls = sorted(calls, key=lambda call: call["program"])
    for batch, found in harness.side_by_side(functools.partial(faults, programs), batches(calls)):
        yield from zip((call["name"] for call in batch), found, strict=True)


if __name__ == "__main__":
    harness.main(tests)
