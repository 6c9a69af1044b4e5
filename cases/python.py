#!/usr/bin/env python3
"""Tests the package of Python beyond its calls, which library_tasks.py tests: the values of answers, numbers of operators, files, the
commands of `python -m sas`, its tables, types and help.

    python3 cases/python.py SAS LIBRARY

SAS is the program, and LIBRARY the folder that library/build.py made. Each function of this script that makes tests says which mistake
they could show that no proof does: the proofs know no Python. What isn't there of mypy, numpy and other versions of Python is named in a
line that begins with `without`.
"""
import array
import bz2
import copy
import csv
import gzip
import importlib
import io
import itertools
import json
import lzma
import os
import pathlib
import pickle
import pydoc
import random
import re
import shutil
import signal
import subprocess
import sys
import tempfile
import threading
import time
import types
from functools import partial

import harness
import run
from harness import differs, ended, is_there
from large import turning_files, wide_task
from library import FUSES, INPUT_TOO_LONG, LAMPS, OUT_OF_MEMORY, fault_of, package_in, read
from library import stub_library, tests_by
from oracles.tasks import text_of
from shown import section_of, shown, transcripts
from texts import TOP, as_bytes, put, table

SECONDS = 60
# cases that limit the program itself, or end before their input does; a call of the library gets its input as a whole
OF_PROGRAM = ("memory", "stack", "file", "open", "input_ends", "streamed", "front", "pipes")
OF_STREAMS = ("closed", "output_to")
# of the cases that are made at random, the part that is given to a command: one in so many
EVERY = 25
VERSIONS = [f"python3.{number}" for number in range(8, 16)]
FUSES_FILES = [os.path.join(TOP, f"{FUSES}.{it}") for it in ("sas", "plan")]
LATER = (b"  later\n", b"  later 1 of 2\n", b"    later 1 requires 0 0 x\n", b"  \n", b"    \n")
VALID, NO_ANSWER = b"plan valid: 4 steps, cost 4\n", "no answer"
COLUMNS = "task,plan,verdict,refused_file,steps,cost,sum,bytes,modified,reason"
# what a table has of the file of a plan, as CSV and as JSON
OF_FILE = re.compile(rb'(,|"bytes": )\d+(, "modified": "|,)\d{4}-\d\d-\d\dT[\d:]{8}\.\d{6}Z(?:"|(?=,))')
# what is said of the rows of a valid plan and of what has no answer
IS_VALID, HAS_NO_ANSWER = "valid,,4,4,,,,", f"{NO_ANSWER},,,,,,,"
TRUSTING = b"python -m sas table: warning: each task is the one beside its plans, which the planner may have written; --tasks names yours\n"


def value_cases():
    cases = (*run.verdict_cases(), *run.why_cases(), *run.trace_cases(), *run.layer_cases(), *run.refusal_cases())
    cases += (*run.group_cases(), *map(run.with_why, run.group_cases()), *run.whole_cases())
    # of a trace the library has no call with reasons
    requests = ("plan", "trace", "check", "mutex", "show")
    cases = (case for case in cases if case["words"] and case["words"][0] in requests and not {"trace", "--why"} <= set(case["words"]))
    return (case for case in cases if case["status"] in (0, 1) and not case.get("front"))


def verdict_line(answer):
    """Returns the line of the verdict, made of values."""
    if answer.verdict == "valid":
        return f"plan valid: {answer.steps} steps, cost {answer.cost}"
    if answer.verdict == "refused":
        refusal = answer.refusal
        place = f"line {refusal.line}" if answer.reason.startswith("line ") else refusal.place
        return f"{answer.refused_file} refused: {place}: {refusal.word}"
    if answer.verdict == "yes":
        return "task layered"
    if answer.failing_step is not None:
        return f"plan invalid: step {answer.failing_step}: {answer.reason.partition(': ')[2]}"
    if answer.goal_fact is not None:
        return f"plan invalid: goal fact {answer.goal_fact} not reached"
    return f"plan invalid: cost is {answer.sum}, not {answer.cost}"


def named(value):
    """Returns a value with a name, without whether that is shown otherwise than it is, once that is compared."""
    assert value.shown == (b"\\" in value.name or len(value.name) > 256), value
    return value._replace(shown=False)


def fact_line(fact):
    return b"%d %d %s" % fact[:3]


def trace_lines(answer):
    for fact in answer.initial:
        yield b"initial " + fact_line(fact)
    for number, step in enumerate(answer.trace_steps, 1):
        yield b"step %d %d %d %s" % (number, step.operator, step.cost, step.name)
        yield from (b"change %d %d %d %s" % change for change in step.changes)


def cause_lines(cause):
    yield b"requires " + fact_line(named(cause.required))
    yield b"actual " + fact_line(named(cause.actual))
    yield b"since step %d %s" % named(cause.since)[:2] if cause.since else b"since the initial state"
    for rule in cause.rules:
        yield b"rule %d %s " % (rule.number, b"derives" if rule.is_firing else b"requires") + fact_line(named(rule.fact))
    if cause.no_rule:
        yield b"no rule derives it"


def reason_lines(reasons):
    """Yields the reasons why a plan isn't valid, made of values."""
    if reasons.step:
        yield b"step %d %s" % named(reasons.step)[:2]
    if reasons.similar_operator:
        yield b"similar operator %d line %d %s" % named(reasons.similar_operator)[:3]
    for step in reasons.further_steps:
        yield b"step %d %s" % named(step)[:2]
        if step.similar_operator:
            yield b"similar operator %d line %d %s" % named(step.similar_operator)[:3]
    if reasons.total is not None:
        what = "steps name no operator" if reasons.step else "goal facts fail"
        yield b"%d of %d %s" % (reasons.failing, reasons.total, what.encode())
    for operator in reasons.operators:
        yield b"operator %d line %d" % operator[:2]
        yield from (b"  " + line for cause in operator.causes for line in cause_lines(cause))
    if reasons.conflict:
        yield b"operator %d line %d" % reasons.conflict[:2]
        yield from (b"  effect %d sets %s" % (effect.number, fact_line(named(effect.fact))) for effect in reasons.conflict.effects)
    if reasons.if_made:
        yield b"if made anyway %d of %d later steps fail" % reasons.if_made[:2]
        yield from (b"  step %d %s" % named(step)[:2] for step in reasons.if_made.first_failing)
        yield b"if made anyway %d of %d goal facts fail" % reasons.if_made[3:]
    for goal_fact in reasons.goal_facts:
        yield b"goal fact %d" % goal_fact.index
        yield from (b"  " + line for line in cause_lines(goal_fact.cause))
    if reasons.cost:
        yield from (b"metric %d,steps %d,sum of cost lines %d" % reasons.cost).split(b",")
    if reasons.hint:
        yield b"hint " + reasons.hint.encode()
    if reasons.could_also_be:
        yield b"step %d could also be operator %d" % reasons.could_also_be


def refusal_lines(refusal):
    """Yields the reasons why a file is refused, made of values."""
    if refusal.place:
        yield f"at {refusal.place}"
    if refusal.expected:
        yield f"expected {refusal.expected}"
    if refusal.wrong_number:
        yield "number %d must be %d to %d" % refusal.wrong_number
    if refusal.list_count:
        yield "line %d counts %d" % refusal.list_count
    if refusal.found:
        yield f"{refusal.found} {refusal.text}" if refusal.text is not None else f"{refusal.found}"
    if refusal.hint:
        yield f"hint {refusal.hint}"


def group_lines(answer):
    """Yields the verdicts on groups, with their reasons, made of values."""
    for group in answer.groups:
        yield b"group %d %s%s" % (group.number, group.verdict.encode(), b"" if group.operator is None else b" %d" % group.operator)
        if group.name is not None:
            yield b"  operator %d line %d %s" % (group.operator, group.line, named(group).name)
        yield from (b"  effect %d sets %s" % (effect.number, fact_line(named(effect.fact))) for effect in group.effects)
        word = b"derived" if group.verdict is type(group.verdict).DERIVED else b"holds"
        yield from (b"  %s %s" % (word, fact_line(named(fact))) for fact in group.facts)
        if group.may_remain:
            yield b"  may remain " + fact_line(named(group.may_remain))


def summary_lines(summary):
    words = ("metric", "variables", "derived", "groups", "operators", "rules")
    yield from (b"%s %d" % (word.encode(), getattr(summary, word)) for word in words)
    yield from (b"initial " + fact_line(fact) for fact in summary.initial)
    yield from (b"goal " + fact_line(fact) for fact in summary.goal)


def rebuilt(answer):
    """Returns the text of an answer, made of its values alone, but for the reasons why a task isn't layered."""
    if answer.summary:
        lines = list(summary_lines(answer.summary))
    elif answer.text.startswith(b"group ") or not answer.text:
        lines = list(group_lines(answer))
    else:
        lines = [*trace_lines(answer), verdict_line(answer).encode(), *reasons_of(answer)]
    return b"".join(line + b"\n" for line in lines)


def reasons_of(answer):
    """Returns the lines of reasons in an answer about a plan, or about a file that is refused."""
    if answer.verdict == "invalid" and answer.reasons:
        return [b"  " + line for line in reason_lines(answer.reasons)]
    if answer.verdict != "refused":
        return []
    if answer.reason.startswith("line "):
        return [f"  {line}".encode() for line in refusal_lines(answer.refusal)]
    held = answer.reasons.text.splitlines() if answer.reasons else []
    at = [int(line.split(b" line ")[1].split()[0]) for line in held[:1]]
    assert [answer.refusal.line] == (at or [None]), answer
    return held


def value_tests(_, sas, __):
    """Yields answers of the cases: their values make up the text. They could show a value that is lost, is another line's, or is taken
    from a name that looks like a line; and a text that has values of another request."""
    for case in value_cases():
        answer = sas.Answer(case["status"] == 0, as_bytes(case["output"]))
        yield f"values, {case['name']}", differs((True, rebuilt(answer)), (True, answer.text))
        hints = [line[7:] for line in answer.text.split(b"\n") if line.startswith(b"  hint ")]
        hint = answer.reasons and answer.reasons.hint or answer.refusal and answer.refusal.hint
        yield f"hint, {case['name']}", [] if [hint] == ([it.decode() for it in hints] or [None]) else [f"{hint}, not {hints}"]
    name = b"could also be operator 4"
    text = b"plan invalid: step 1: no operator of that name\n  step 1 %s\n  1 of 1 steps name no operator\n" % name
    reasons = sas.Answer(False, text).reasons
    got = reasons.step.name, reasons.could_also_be
    yield "a step whose name looks like a reason", [] if got == (name, None) else [f"{got}"]
    steps = sas.trace(*map(read, (f"{FUSES}.sas", f"{FUSES}.plan"))).trace_steps
    yield "steps come one by one", [] if next(steps).name == b"take f1" and next(steps).name == b"put f1 link" else ["others"]


def later_tests(_, sas, __):
    """Yields reasons with lines that a later version may add. They could show values that are lost with a line that isn't known, and an
    exception in place of reasons."""
    chance = random.Random(3)
    for case in list(run.why_cases())[::EVERY]:
        answer = sas.Answer(case["status"] == 0, as_bytes(case["output"]))
        if answer.reasons:
            for later in LATER:
                reasons = sas.Answer(False, answer.text + later).reasons
                same = reasons._replace(text=answer.reasons.text) == answer.reasons
                yield f"{later}, {case['name']}", [] if same else [f"{reasons}"]
                lines = answer.text.splitlines(keepends=True)
                lines.insert(chance.randint(1, len(lines)), later)
                reasons = fault_of(lambda lines=lines: sas.Answer(False, b"".join(lines)).reasons)
                yield f"{later} inside, {case['name']}", [] if isinstance(reasons, sas.Reasons) else [f"{reasons!r}"]


def none_tests(_, sas, __):
    """Yields answers that have no steps, no facts and no reasons. They could show values that are taken from the names of a task."""
    task, plan = read(f"{FUSES}.sas"), read(f"{FUSES}.plan")
    task = task.replace(b"\nAtom handempty()\n", b"\nstep 1 2 3 x\n").replace(b"\nNegatedAtom handempty()\n", b"\ninitial 1 2 x\n")
    for name, answer in (
        ("printed", sas.print_task(task)),
        ("shown", sas.show(task)),
        ("valid", sas.plan_why(task, plan)),
        ("groups", sas.mutex_why(read("examples/doorway.sas"))),
        ("no reasons", sas.plan(task, b"; cost = 0 (unit cost)\n")),
    ):
        got = answer.initial, list(answer.trace_steps), answer.reasons, answer.refusal
        yield f"no values, {name}", [] if got == ((), [], None, None) else [f"{got}"]
        others = bool(answer.groups), bool(answer.summary)
        yield f"no other values, {name}", [] if others == (name == "groups", name == "shown") else [f"{others}"]


def number_tests(_, sas, __):
    """Yields plans by the numbers of operators, in each form that they may have. They could show numbers that are read as others, of
    another length, or from memory that isn't theirs; and a task that says of itself what isn't so."""
    task, plan = read(f"{FUSES}.sas"), read(f"{FUSES}.plan")
    numbers = [step.operator for step in sas.trace(task, plan).trace_steps]
    packed = array.array("I", numbers)
    moved = bytearray(1) + packed.tobytes()
    odd = memoryview(moved)[1:].cast("I")
    backwards = memoryview(array.array("I", numbers[::-1]))[::-1]
    forms = {"a list": numbers, "a tuple": tuple(numbers), "an iterator": iter(numbers), "an array": packed, "a view": memoryview(packed)}
    forms.update({"read-only": memoryview(packed.tobytes()).cast("I"), "an odd place": odd, "backwards": backwards})
    forms.update({"64 bits": array.array("Q", numbers), "8 bits": array.array("B", numbers), "other bytes": memoryview(bytes(numbers))})
    forms.update(numpy_arrays(numbers))
    is_ready = importlib.import_module("sas._library")._is_ready
    with sas.Task(task) as held:
        for name, form in forms.items():
            yield f"numbers, {name}", differs(held.plan_operators(form, 4), (True, VALID))
            stays = name in ("an array", "a view", "numpy, uint32")
            yield f"numbers, {name}, copied or not", [] if is_ready(form) == stays else [f"ready is {not stays}"]
        for name, given, cost, line in (
            ("another cost", packed, 5, b"plan invalid: cost is 4, not 5\n"),
            ("the largest cost", packed, (1 << 64) - 1, b"plan invalid: cost is 4, not 18446744073709551615\n"),
            ("the first step", packed[1:], 3, b"plan invalid: step 1: not applicable\n"),
            ("no steps", [], 0, b"plan invalid: goal fact 0 not reached\n"),
            ("no steps, an array", packed[:0], 0, b"plan invalid: goal fact 0 not reached\n"),
            ("no operator", [*numbers[:2], 10], 3, b"plan invalid: step 3: no operator of that number\n"),
            ("no operator of 32 bits", [(1 << 32) - 1], 1, b"plan invalid: step 1: no operator of that number\n"),
        ):
            answer = held.plan_operators(given, cost)
            yield f"numbers, {name}", differs(answer, (False, line)) + differs((False, rebuilt(answer)), (False, line))
        own = array.array("I", numbers)
        held.plan_operators(own, 4)
        yield "numbers, an array that can grow after the call", [] if fault_of(lambda: own.append(1)) is None else ["it can't"]
    with sas.Task(read("cases/tasks/two_moves.sas")) as held:
        answers = [held.plan_operators([number], 1).text for number in (0, 1)] + [held.plan(b"(move)\n; cost = 1 (unit cost)\n").text]
        lines = [b"plan invalid: goal fact 0 not reached\n", b"plan valid: 1 steps, cost 1\n", b"plan invalid: goal fact 0 not reached\n"]
        yield "numbers, operators of one name", [] if answers == lines else [f"{answers}"]
    for path in ("examples/fuses.sas", "examples/elevator.sas", "cases/tasks/minimal.sas", "examples/blocks-4-0.sas"):
        counts = dict(re.findall(rb"^(variables|operators) (\d+)$", sas.show(read(path)).text, re.MULTILINE))
        said = f"{int(counts[b'variables'])} variables, {int(counts[b'operators'])} operators, "
        said += f"{sas.show(read(path)).text.count(b'%sgoal ' % bytes([10]))} goal facts>"
        with sas.Task(read(path)) as held:
            yield f"what a task says, {path}", [] if repr(held) == f"<sas.Task: {said}" else [repr(held)]
        yield f"what a closed task says, {path}", [] if repr(held) == "<sas.Task: closed>" else [repr(held)]
        of_file = repr(sas.Task.from_file(pathlib.Path(path)))
        yield f"what a task of a file says, {path}", [] if of_file == f"<sas.Task of '{path}': {said}" else [of_file]


def run_tests(_, sas, __):
    """Yields runs by numbers from states on. They could show a start that is lost, is read as other numbers or as the initial state, values of
    another state, and reasons that are another step's. That a run from the state behind some steps is the rest of the plan, the proofs say."""
    task, plan = read(f"{FUSES}.sas"), read(f"{FUSES}.plan")
    numbers = [step.operator for step in sas.trace(task, plan).trace_steps]
    with sas.Task(task) as held:
        for given in (numbers, numbers[:2], [*numbers[:2], numbers[0]], [*numbers, 10], []):
            yield f"a run of {given}", differs(held.run(given, 4), tuple(held.plan_operators(given, 4)))
        states = [held.run_state(numbers[:count]) for count in range(len(numbers) + 1)]
        facts = held.trace(b"; cost = 0 (unit cost)\n").initial
        yield "the initial state", [] if list(states[0].values) == [fact.value for fact in facts] else [f"{states[0]}"]
        for count, state in enumerate(states):
            rest, cost = numbers[count:], len(numbers) - count
            yield f"a state behind {count} steps", [] if state and len(state.values) == held.variables else [f"{state}"]
            line = f"plan valid: {cost} steps, cost {cost}\n".encode()
            for name, start in (("an array", state.values), ("a list", list(state.values)), *numpy_arrays(state.values).items()):
                yield f"a run from behind {count} steps, {name}", differs(held.run(rest, cost, start), (True, line))
            trace = held.run_trace(rest, cost, state.values)
            yield f"a trace from behind {count} steps", [] if [it.value for it in trace.initial] == list(state.values) else [f"{trace}"]
            yield f"a trace from behind {count} steps, its text", differs((True, rebuilt(trace)), (True, trace.text))
            yield f"a trace from behind {count} steps, its sum", [] if (trace.sum, trace.steps) == (cost, cost) else [f"{trace.sum}"]
            came = held.run_state(rest, state.values)
            yield f"a state from behind {count} steps", [] if came == states[-1] else [f"{came}"]
        stopped = held.run_state([numbers[0], numbers[0]])
        yield "a state before a step that fails", [] if (stopped.is_yes, stopped.values) == (False, states[1].values) else [f"{stopped}"]
        for name, start, reason in (("of another task", [0] * 3, "3 values, not 8"), ("of no value", [0] * 7 + [2], "variable 7")):
            answers = held.run(numbers, 4, start), held.run_trace(numbers, 4, start)
            expected = False, "refused", "state", None, reason
            got = [(bool(it), it.verdict, it.failure, it.refused_file, it.reason) for it in answers]
            yield f"a start {name}", [] if got == [expected] * 2 else [f"{got}"]
            yield f"a start {name}, no state", [] if held.run_state(numbers, start) == (False, array.array("I")) else ["there is one"]
        for name, call, kind in (
            ("a negative value", lambda: held.run(numbers, 4, [-1] * 8), OverflowError),
            ("text", lambda: held.run(numbers, 4, b"00000000"), TypeError),
            ("a limit", lambda: held.run_trace(numbers, 4, max_answer_bytes=9), sas.AnswerTooLong),
        ):
            yield f"a run, {name}", [] if type(fault_of(call)) is kind else [f"{fault_of(call)!r}"]
    calls = (lambda: held.run(numbers, 4), lambda: held.run_trace(numbers, 4), lambda: held.run_state(numbers))
    faults = [type(fault_of(call)) for call in calls]
    yield "runs of a closed task", [] if faults == [sas.NoTask] * 3 else [f"{faults}"]


def cost_tests(_, sas, __):
    """Yields how often the library is called, and what is read of a text once. They could show a trace that is computed twice, an attribute
    that reads the whole text at each access, and a task that waits for another call before it says what it is."""
    task, plan = text_of(wide_task(WIDE)).encode(), b"; cost = 0 (unit cost)\n"
    held, calls, module = sas.Task(task), [], importlib.import_module("sas._library")
    for name, call in (("TASK_TRACE", partial(held.trace, plan)), ("TRACE", partial(sas.trace, task, plan))):
        real = getattr(module, name)
        setattr(module, name, lambda *given, real=real: calls.append(0) or real(*given))
        sizes = [len(call().text) for _ in range(2)]
        setattr(module, name, real)
        yield f"{name}, how often it is called", [] if len(calls) == 2 and sizes[0] == sizes[1] > LONG else [f"{len(calls)}, {sizes}"]
        calls.clear()
    summary = sas.show(task).summary
    for word in ("metric", "variables", "derived", "groups", "operators", "rules"):
        yield f"a task's {word}", [] if getattr(held, word) == getattr(summary, word) else [f"{getattr(held, word)}"]
    yield "a task's goal_facts", [] if held.goal_facts == len(summary.goal) else [f"{held.goal_facts}"]
    with held._one_call:
        came = []
        thread = threading.Thread(target=lambda: came.append(repr(held)), daemon=True)
        thread.start()
        thread.join(SECONDS)
    yield "what a task says while it is in a call", [] if came and f"{summary.variables} variables" in came[0] else [f"{came}"]
    of_both, plans = partial(sas.plan_why, read(f"{FUSES}.sas")), (b"(take f1)\n(take f2)\n; cost = 2 (unit cost)\n", b"junk\n")
    answers = held.trace(plan), of_both(plans[0]), of_both(plans[1]), sas.mutex(read("examples/doorway.sas")), sas.show(task)
    for answer, word in zip(answers, ("initial", "reasons", "refusal", "groups", "summary")):
        first = getattr(answer, word)
        yield f"{word}, read once", [] if first and getattr(answer, word) is first else [f"{first}"]
        copies = pickle.loads(pickle.dumps(answer)), copy.copy(answer)
        same = all((it, type(it), getattr(it, word)) == (answer, type(answer), first) for it in copies)
        yield f"{word}, of a copy", [] if same and len(pickle.dumps(answer)) < len(answer.text) + 200 else [f"{copies}"]


# variables of a task whose initial state is longer than the room of most answers, and that room
WIDE, LONG = 5000, 65536


def numpy_arrays(numbers):
    """Returns arrays of numpy with these numbers, by their types; none where it isn't there."""
    try:
        array_of = importlib.import_module("numpy").array
    except ImportError:
        print("without numpy")
        return {}
    return {f"numpy, {it}": array_of(numbers, dtype=it) for it in ("uint32", "int64", ">u4")}


def by_zstd(held):
    return subprocess.run(["zstd", "-cq"], input=held, stdout=subprocess.PIPE, check=True).stdout


COMPRESS = {".gz": gzip.compress, ".bz2": bz2.compress, ".xz": lzma.compress, **({".zst": by_zstd} if is_there("zstd") else {})}


def compressed_files(folder):
    """Makes the files of FUSES in a folder, as they are and compressed. Returns pairs of paths."""
    pairs = []
    for suffix, compress in {"": bytes, **COMPRESS, ".other": gzip.compress}.items():
        pair = [os.path.join(folder, f"{name}{suffix}") for name in ("output.sas", "sas_plan")]
        for path, source in zip(pair, FUSES_FILES):
            put(path, compress(read(source)))
        pairs.append(pair)
    return pairs


def file_tests(_, sas, folder):
    """Yields files, compressed and damaged. They could show one that is judged by its front alone, or as it is compressed."""
    for task, plan in compressed_files(folder):
        name = os.path.basename(task)
        yield f"files, {name}", differs(sas.plan_files(task, pathlib.Path(plan)), (True, VALID))
        with sas.Task.from_file(os.fsencode(task)) as held:
            yield f"a task of a file, {name}", differs(held.plan(read(f"{FUSES}.plan")), (True, VALID))
    for suffix, compress in COMPRESS.items():
        packed = put(os.path.join(folder, f"piped{suffix}"), compress(read(f"{FUSES}.plan")))
        words = f"{sys.executable} -m sas table {FUSES_FILES[0]} <(cat {packed})"
        ran = ended("bash", "-c", words, env=environment(sas))
        yield f"files, a pipe, {suffix}", [] if ran.returncode == 0 and b",valid,,4,4," in ran.stdout else [f"{ran}"]
    fault = os.path.join(folder, "sas_plan.zst")
    ran = ended(sys.executable, "-m", "sas", "table", *FUSES_FILES, fault, env={**environment(sas), "PATH": folder})
    rows = without_files(ran.stdout).splitlines()[1:]
    lines = [f"{FUSES_FILES[0]},{FUSES_FILES[1]},{IS_VALID}", f"{FUSES_FILES[0]},{fault},{HAS_NO_ANSWER}plan: there is no program zstd"]
    yield "files, no program zstd", differs(rows, [line.encode() for line in lines]) if ".zst" in COMPRESS else []
    parts = (gzip.compress(line) for line in read(f"{FUSES}.plan").splitlines(keepends=True))
    several = put(os.path.join(folder, "several.gz"), b"".join(parts))
    yield "files, several parts", differs(sas.plan_files(FUSES_FILES[0], several), (True, VALID))
    for suffix, compress in COMPRESS.items():
        held = compress(read(f"{FUSES}.sas"))
        for name, damaged in (("cut off", held[:-3]), ("changed", held[:-12] + b"\x55" * 12), ("begun", held[:6])):
            path = put(os.path.join(folder, f"damaged{suffix}"), damaged)
            fault = fault_of(lambda path=path: sas.Task.from_file(path))
            well = isinstance(fault, OSError) and fault.filename == path and "damaged" in str(fault)
            yield f"a file that is {name}, {suffix}", [] if well else [f"{fault!r}"]
    for name, call, kind in (
        ("no file", lambda: sas.Task.from_file(os.path.join(folder, "none")), FileNotFoundError),
        ("a folder", lambda: sas.plan_files(FUSES_FILES[0], folder), IsADirectoryError),
        ("a task that isn't layered", lambda: sas.Task.from_file(os.path.join(TOP, f"{LAMPS}.sas")), sas.Refused),
    ):
        yield f"files, {name}", [] if type(fault_of(call)) is kind else [f"{fault_of(call)!r}"]
    fault = fault_of(lambda: sas.Task(read(f"{LAMPS}.sas")))
    got = fault.answer.verdict, fault.answer.refused_file, fault.answer.reason
    yield "the answer of a task that is refused", [] if got == ("refused", "task", "rule 0: layer order") else [f"{got}"]
    with sas.Task.from_file(FUSES_FILES[0]) as held:
        plans = [read(f"{FUSES}.plan"), b"", read(f"{FUSES}.plan")]
        answers = [*held.plans(plans), *held.plans(iter(plans[:1])), *held.plans([])]
        yield "many plans", [] if [it.text for it in answers] == [VALID, b"plan refused: line 1: end\n", VALID, VALID] else [f"{answers}"]


def limit_tests(_, sas, folder):
    """Yields files with limits of their size. They could show one that is too long and isn't refused, one of just the length that is, and
    memory that is taken for all that a small file holds when it is decompressed."""
    for task, plan in compressed_files(folder):
        name, size = os.path.basename(task), len(read(FUSES_FILES[0]))
        yield f"max_bytes, {name}", differs(sas.plan_files(task, plan, max_bytes=size), (True, VALID))
        sas.Task.from_file(task, max_bytes=size).close()
        for call in (lambda: sas.Task.from_file(task, max_bytes=size - 1), lambda: sas.plan_files(task, plan, max_bytes=0)):
            fault = fault_of(call)
            yield f"max_bytes, {name}, longer", [] if f"{fault!r}" == "InputTooLong('sas: input too long')" else [f"{fault!r}"]
        ran = tables(sas, FUSES_FILES[0], task, plan, "--max-bytes", str(size - 1))
        rows = ran.stdout.decode().splitlines()
        yield f"--max-bytes, {name}", [] if rows[1].endswith("task: input too long") and ran.returncode == 3 else [f"{ran}"]
    ran = tables(sas, FUSES_FILES[0], task, FUSES_FILES[1], "--max-bytes", str(size))
    rows = [line.split(",", 2)[2] for line in ran.stdout.decode().splitlines()[1:]]
    expected = ["refused,plan,,,,,,line 1: keyword", IS_VALID]
    yield "--max-bytes, just the length", [] if rows == expected else [f"{rows}"]
    for word in ("", "x", "-1", "1e9"):
        yield f"--max-bytes {word}", [] if tables(sas, *FUSES_FILES, f"--max-bytes={word}").returncode == 2 else ["it isn't refused"]
    for suffix, compress in COMPRESS.items():
        parts = compress(bytes(PART)) * (GIGABYTES * (1 << 30) // PART)
        held = put(os.path.join(folder, f"gigabytes{suffix}"), parts)
        ran = limited(sas, 150, "-m", "sas", "table", FUSES_FILES[0], held, "--max-bytes", str(PART))
        well = ran.stdout.endswith(b"plan: input too long\n") and os.path.getsize(held) < LARGEST_PACKED
        yield f"gigabytes in a file, {suffix}", [] if well else [f"{ran}, {os.path.getsize(held)}"]


# how many gigabytes a packed file holds, how many bytes of these are packed together, and how long it may be
GIGABYTES, PART, LARGEST_PACKED = 2, 1 << 24, 3_000_000


def limited(sas, megabytes, *words):
    return ended("sh", "-c", f'ulimit -v {megabytes}000; exec "$@"', "", sys.executable, *words, env=environment(sas))


def answer_tests(_, sas, folder):
    """Yields the calls that take a limit of the answer's size. They could show an answer that is too long and isn't refused, one of just
    the length that is, a wrong size, and a copy of the text that is refused. The library holds it once, in up to 360 MB."""
    task, plan = read(f"{FUSES}.sas"), b"(take f1)\n(take f2)\n; cost = 2 (unit cost)\n"
    held = sas.Task(task)
    calls = {it: partial(getattr(sas, it), task) for it in ("check_why", "mutex", "mutex_why", "show", "print_task")}
    calls.update({it: partial(getattr(sas, it), task, plan) for it in ("plan_why", "trace")})
    calls.update({f"task.{it}": partial(getattr(held, it), plan) for it in ("plan_why", "trace")})
    for name, call in {**calls, "steps": partial(sas.steps, plan)}.items():
        answer, size = call(), len(call().text)
        for most in (size, size + 1, None):
            yield f"max_answer_bytes={most}, {name}", differs(call(max_answer_bytes=most), answer)
        for most in (size - 1, 1, 0):
            fault = fault_of(partial(call, max_answer_bytes=most))
            well = repr(fault) == f"AnswerTooLong({size})" and str(fault) == f"sas: answer too long: {size} bytes" and fault.size == size
            yield f"max_answer_bytes={most}, {name}", [] if well else [f"{fault!r}"]
        fault = fault_of(partial(call, max_answer_bytes=-1))
        yield f"max_answer_bytes=-1, {name}", [] if type(fault) is ValueError else [f"{fault!r}"]
    files = zip(("t.sas", "p"), turning_files(1000, 240, 700, 350))
    paths = [put(os.path.join(folder, name), file) for name, file in files]
    for request in ("trace", "plan_why"):
        ran, size = limited(sas, 420, "-c", LIMITED_CALL, request, *paths), len(getattr(sas, request)(*map(read, paths)).text)
        well = ran.stdout == b"%d %d\n" % (size, size) and size > 170_000_000
        yield f"a large answer of a small task, {request}", [] if well else [f"{ran}, {size}"]


# prints how long an answer is that is refused, of a call and of a task that is held
LIMITED_CALL = """
import sas, sys
def size_of(call, *files):
    try:
        call(*files, max_answer_bytes=1000)
    except sas.AnswerTooLong as fault:
        return fault.size
task, plan = (open(path, "rb").read() for path in sys.argv[2:])
print(size_of(getattr(sas, sys.argv[1]), task, plan), size_of(getattr(sas.Task(task), sys.argv[1]), plan))
"""

def forked(main, case, place):
    """Returns how a command ends in a process of its own: its status, standard output and standard error."""
    streams = [tempfile.TemporaryFile() for _ in range(3)]
    streams[0].write(as_bytes(case.get("input", "")))
    streams[0].seek(0)
    child = os.fork()
    if child == 0:
        status = 99
        try:
            os.chdir(place)
            for number, stream in enumerate(streams):
                os.dup2(stream.fileno(), number)
            status = main([os.fsdecode(as_bytes(word)) for word in case["words"]])
        finally:
            os._exit(status)
    status = os.waitstatus_to_exitcode(os.waitpid(child, 0)[1])
    ends = [os.pread(stream.fileno(), os.fstat(stream.fileno()).st_size, 0) for stream in streams[1:]]
    for stream in streams:
        stream.close()
    return status, *ends


def wrong_command(main, case, folder):
    """Returns what is wrong with a command about a case of run.py."""
    for name in os.listdir(folder):
        os.remove(os.path.join(folder, name))
    for name, text in case.get("files", {}).items():
        put(os.path.join(os.fsencode(folder), as_bytes(name)), as_bytes(text))
    return list(run.differences(case, forked(main, case, folder if "files" in case else TOP)))


def command_tests(_, sas, folder):
    """Yields the cases of run.py by `python -m sas`, those that are made at random in part. They could show a command that answers
    otherwise than the program, or with another status."""
    main = importlib.import_module("sas.__main__").main
    place = tempfile.mkdtemp(dir=folder)
    whole = [*run.whole_cases(), *run.plan_cases(folder), *run.group_cases(), *table_cases(run.verdict_cases(), "verdicts.json")]
    made = [*run.line_cases(), *run.verdict_cases(), *run.why_cases(), *run.trace_cases(), *run.plans_cases()]
    made += [*run.refusal_cases(), *run.layer_cases(), *run.reason_cases()]
    for case in (*whole, *made[::EVERY], *with_folder(table("program.json"), tempfile.mkdtemp(dir=folder))):
        inputs = [as_bytes(it) for it in (case.get("input", ""), *case.get("files", {}).values())]
        if case["words"] and not any(word in case for word in (*OF_PROGRAM, *OF_STREAMS)) and not any(it.startswith(PACKED) for it in inputs):
            yield f"python -m sas, {case['name']}", wrong_command(main, case, place)


def with_folder(cases, empty):
    """Yields the cases with the name of an empty folder."""
    for case in cases:
        error = {"error": case["error"].replace("FOLDER", empty)} if case.get("error") else {}
        yield {**case, **error, "words": [word.replace("FOLDER", empty) for word in case["words"]]}


# how a file begins that `python -m sas` decompresses, and the program refuses
PACKED = (b"\x1f\x8b", b"BZh", b"\xfd7zXZ\0", b"\x28\xb5\x2f\xfd")


def packed_tests(program, sas, folder):
    """Yields `python -m sas` over files that are compressed, whole and damaged, and over words that it doesn't know. They could show a file
    that is judged as it is compressed, a damaged one that has an answer, and a mistake of which nothing is said."""
    for task, plan in compressed_files(folder):
        for words in (["plan", task, plan], ["trace", "--why", task, plan], ["plans", task, plan], ["show", task], ["steps", plan]):
            ran = ended(sys.executable, "-m", "sas", *words, env=environment(sas))
            plain = [{task: FUSES_FILES[0], plan: FUSES_FILES[1]}.get(it, it) for it in words]
            expected = ended(program, *plain)
            output = expected.stdout.replace(plain[-1].encode(), words[-1].encode())
            yield f"python -m sas {words}", [] if (ran.returncode, ran.stdout) == (0, output) else [f"{ran}"]
    for suffix, compress in COMPRESS.items():
        plan = put(os.path.join(folder, f"damaged{suffix}"), compress(read(FUSES_FILES[1]))[:-4])
        ran = ended(sys.executable, "-m", "sas", "plan", "--why", FUSES_FILES[0], plan, env=environment(sas))
        lines = ran.stderr.decode().splitlines()
        well = ran.returncode == 3 and not ran.stdout and lines[0].startswith("sas: the compressed file is damaged: ") and lines[1:] == [f"  {plan}"]
        yield f"python -m sas, a damaged file, {suffix}", [] if well else [f"{ran}"]
    behind = put(os.path.join(folder, "behind"), b"a line\n" + gzip.compress(read(FUSES_FILES[1])))
    command = f"{{ dd bs=1 count=7 status=none >/dev/null; '{sys.executable}' -m sas plan {FUSES_FILES[0]} -; }} < {behind}"
    ran = ended("sh", "-c", command, env=environment(sas))
    yield "python -m sas, what of standard input is left", [] if (ran.returncode, ran.stdout) == (0, VALID) else [f"{ran}"]
    for words, said in (
        (["bogus"], "python -m sas: there is no command bogus; these are there:"),
        (["\x1b[31m", "x"], "python -m sas: there is no command \\x1b[31m; these are there:"),
        ([], "python -m sas: what the library offers on the command line."),
        (["--help"], "python -m sas: what the library offers on the command line."),
    ):
        ran = ended(sys.executable, "-m", "sas", *words, env=environment(sas))
        lines = ran.stderr.decode().splitlines()
        well = ran.returncode == 2 and not ran.stdout and lines[0] == said and any("python -m sas table FOLDER.." in it for it in lines)
        yield f"python -m sas {words}, what is wrong", [] if well else [f"{ran}"]


def table_cases(cases, name):
    names = {made["name"] for made in table(name)}
    return [case for case in cases if case["name"].rpartition(", plan ")[0] in names]


def stream_tests(_, sas, folder):
    """Yields the cases of program.json about streams by `python -m sas`, each in a process that begins with these. They could show one that
    is closed or full and isn't noticed, and a file that takes its place."""
    command = [sys.executable, "-B", "-I", "-c", BY_PATH, os.path.dirname(os.path.dirname(sas.__file__))]
    empty = tempfile.mkdtemp(dir=folder)
    for case in table("program.json"):
        if case["words"] and any(word in case for word in OF_STREAMS) and not any(word in case for word in OF_PROGRAM):
            yield f"python -m sas, {case['name']}", run.faults(command, case, empty)


# `python -m sas`, without what else the environment of Python may have
BY_PATH = "import runpy, sys; sys.path.insert(0, sys.argv.pop(1)); runpy.run_module(\"sas\", run_name=\"__main__\", alter_sys=True)"


def environment(sas):
    return {**os.environ, "PYTHONPATH": os.path.dirname(os.path.dirname(sas.__file__))}


def tables(sas, *words, **more):
    """Returns how a table ended, without what it has of the files of plans."""
    ran = ended(sys.executable, "-m", "sas", "table", *words, env=environment(sas), **more)
    return ran._replace(stdout=without_files(ran.stdout))


def without_files(table):
    """Returns a table without what it has of the files of plans."""
    return OF_FILE.sub(lambda it: b",," if it[1] == b"," else b'"bytes": null, "modified": null', table)


def make_runs(folder):
    """Makes folders as an experiment leaves them, some with files that can't be read. Returns the rows that their table has."""
    fuses, plan = map(read, (f"{FUSES}.sas", f"{FUSES}.plan"))
    valid, cut, dear = ("valid", "", "4", "4", "", ""), ("refused", "plan", "", "", "", "line 2: end"), plan.replace(b"= 4", b"= 5")
    none = (NO_ANSWER, "", "", "", "")
    runs = {
        "a": {"output.sas": fuses, "other.sas": b"", "sas_plan.10": plan[:20], "sas_plan.2": plan, "sas_plan.1": dear},
        "b": {"output.sas.gz": gzip.compress(fuses), "sas_plan.bz2": bz2.compress(plan), "sas_plan_2.xz": lzma.compress(plan)[:-4]},
        "c": {"task.sas": read(f"{LAMPS}.sas"), "sas_plan.1": plan, "sas_plan.2": plan},
        "d": {"output.sas": fuses, "planner.log": b""},
        "e": {"sas_plan": plan},
        "f": {"one.sas": fuses, "two.sas": fuses, "sas_plan": plan},
        "g": {"output.sas": b"junk\n"},
        "h/i": {"output.sas": fuses, "sas_plan": plan, "a, \"quoted\"\nname": b""},
        "j": {"output.sas": None, "sas_plan.1": plan, "sas_plan.2": plan},
        "k": {"output.sas": fuses, "sas_plan": None},
        "l": {"planner.log": b""},
        "m": {"output.sas": fuses, "sas_plan\n": plan, "sas_plan\r": plan, "sas_plan\r\n, \"quoted\"": plan},
    }
    for place, files in runs.items():
        os.makedirs(os.path.join(folder, place))
        for name, held in files.items():
            path = os.path.join(folder, place, name)
            os.symlink("none", path) if held is None else put(path, held)
    layers, damaged = ("refused", "task", "", "", "", "rule 0: layer order"), "plan: the compressed file is damaged"
    return [
        ("a/output.sas", "a/sas_plan.1", "invalid", "", "", "", "4", "cost is 4, not 5"),
        ("a/output.sas", "a/sas_plan.2", *valid),
        ("a/output.sas", "a/sas_plan.10", *cut),
        ("b/output.sas.gz", "b/sas_plan.bz2", *valid),
        ("b/output.sas.gz", "b/sas_plan_2.xz", *none, damaged),
        *(("c/task.sas", f"c/sas_plan.{number}", *layers) for number in (1, 2)),
        ("d/output.sas", "", *none, "no plan"),
        ("", "e/sas_plan", *none, "no task"),
        ("", "f/sas_plan", *none, "2 tasks, and none is output.sas"),
        ("g/output.sas", "", "refused", "task", "", "", "", "line 1: keyword"),
        ("h/i/output.sas", "h/i/sas_plan", *valid),
        *(("j/output.sas", f"j/sas_plan.{number}", *none, "task: No such file or directory") for number in (1, 2)),
        ("k/output.sas", "k/sas_plan", *none, "plan: No such file or directory"),
        ("", "l", "passed over", "", "", "", "", "no task, and no plan"),
        *(("m/output.sas", f"m/sas_plan{end}", *valid) for end in ("\n", "\r", "\r\n, \"quoted\"")),
    ]


def table_tests(_, sas, folder):
    """Yields tables over folders with files that can't be read, over one task, and in other forms. They could show a row that is lost,
    one of another plan, a run that ends at the first such file, and rows that depend on the number of processes."""
    place = os.path.join(folder, "runs")
    expected = make_runs(place)
    ran = tables(sas, "runs", cwd=folder)
    rows = [tuple(row) for row in csv.reader(io.StringIO(ran.stdout.decode(), newline=""))]
    got = [(*(it.replace("runs/", "") for it in row[:2]), *row[2:7], re.sub("(?<= damaged).*", "", row[-1])) for row in rows[1:]]
    yield "a table of folders", [f"{one}, not {other}" for one, other in itertools.zip_longest(got, expected) if one != other]
    yield "the names of columns", differs((True, ",".join(rows[0]).encode()), (True, COLUMNS.encode()))
    said = TRUSTING + b"19 rows of 9 tasks: 6 valid, 1 invalid, 4 refused, 7 without an answer, 1 passed over\n"
    yield "the summary", [] if (ran.returncode, ran.stderr) == (3, said) else [f"{ran.returncode}, {ran.stderr}"]
    for words in (["--jobs", "2"], ["--jobs", "4"], ["--jobs=40"]):
        again = tables(sas, *words, "runs", cwd=folder)
        same = (again.returncode, again.stdout, again.stderr) == (ran.returncode, ran.stdout, ran.stderr)
        yield f"the same by {words}", [] if same else [f"{again}"]
    yield from form_tests(sas, folder, rows)
    yield from many_tests(sas, folder)


def many_tests(sas, folder):
    """Yields tables of more plans than a process judges at a time, of a task that is a file, and of one that can be read only once."""
    many = [os.path.join(folder, f"plan.{number}") for number in range(450)]
    for path in many:
        put(path, read(f"{FUSES}.plan") if path[-1] != "7" else b"")
    for jobs in ("1", "3"):
        ran = tables(sas, FUSES_FILES[0], *many, "--jobs", jobs)
        lines = [f"{FUSES_FILES[0]},{path}," + ("refused,plan,,,,,,line 1: end" if path[-1] == "7" else IS_VALID) for path in many]
        expected = True, "\n".join([COLUMNS, *lines, ""]).encode()
        yield f"many plans of one task, --jobs {jobs}", differs((ran.returncode == 1, ran.stdout), expected)
        ran = tables(sas, "/dev/stdin", *many, "--jobs", jobs, input=read(FUSES_FILES[0]))
        expected = True, expected[1].replace(FUSES_FILES[0].encode(), b"/dev/stdin")
        yield f"many plans of standard input, --jobs {jobs}", differs((ran.returncode == 1, ran.stdout), expected)


def form_tests(sas, folder, rows):
    """Yields JSON lines, reasons, and words that aren't understood."""
    ran = tables(sas, "runs", "--json", cwd=folder)
    held = [json.loads(line) for line in ran.stdout.decode().splitlines()]
    same = [tuple("" if value is None else str(value) for value in row.values()) for row in held] == rows[1:]
    yield "JSON lines", [] if same and tuple(held[0]) == rows[0] and held[1]["cost"] == 4 else [f"{held}"]
    ran = tables(sas, "--why", "runs", cwd=folder)
    explained = list(csv.reader(io.StringIO(ran.stdout.decode(), newline="")))
    yield "reasons, the same rows", [] if [tuple(row[:-1]) for row in explained] == rows else [f"{explained}"]
    for *row, reasons in explained[1:]:
        expected = b""
        if row[2] in ("invalid", "refused"):
            task, plan = (os.path.join(folder, it) for it in row[:2])
            answer = sas.plan_why(read(task), read(plan)) if row[1] else sas.check_why(read(task))
            expected = answer.text.partition(b"\n")[2].removesuffix(b"\n")
        yield f"reasons, {row[:2]}", differs((True, reasons.encode()), (True, expected))
    task = FUSES_FILES[0]
    for words in ("", "none", task, f"runs {task}", "runs --jobs 0", "runs --job 2", "--else runs"):
        ran = tables(sas, *words.split(), cwd=folder)
        well = ran.returncode == 2 and ran.stderr and not ran.stdout and b"Traceback" not in ran.stderr
        yield f"table {words}", [] if well else [f"{ran}"]
    ran = tables(sas, "none.sas", "none", cwd=folder)
    line = f"{COLUMNS}\nnone.sas,none,{HAS_NO_ANSWER}task: No such file or directory\n".encode()
    yield "table of no file", differs((ran.returncode == 3, ran.stdout), (True, line))


def fault_tests(_, sas, folder):
    """Yields commands over a library that only returns a number. They could show a lack of memory that ends a table, and an exit status of
    an answer where there is none."""
    stub = stub_library(types.SimpleNamespace(folder=os.path.dirname(os.path.dirname(sas.__file__))), folder)
    for number, fault in ((OUT_OF_MEMORY, "out of memory"), (INPUT_TOO_LONG, "input too long")):
        env = {**environment(sas), "LIBSAS": os.path.join(stub, "libsas.so"), "STUB": str(number)}
        ran = ended(sys.executable, "-m", "sas", "table", *FUSES_FILES, env=env)
        line = f"{COLUMNS}\n{','.join(FUSES_FILES)},{HAS_NO_ANSWER}task: {fault}\n".encode()
        yield f"a table, {fault}", [] if (ran.returncode, ran.stdout) == (3, line) else [f"{ran}"]
        for words in (["plan", *FUSES_FILES], ["check", FUSES_FILES[0]], ["steps", FUSES_FILES[1]], ["plans", *FUSES_FILES]):
            ran = ended(sys.executable, "-m", "sas", *words, env=env)
            yield f"{words[0]}, {fault}", [] if (ran.returncode, ran.stderr) == (3, f"sas: {fault}\n".encode()) else [f"{ran}"]


def crash_tests(_, sas, folder):
    """Yields commands that can't go on, and folders deeper than calls may be nested. They could show a traceback, and status 1, which is
    a no; and the exception of another program that ends as if it were one of these commands."""
    package, without = os.path.dirname(os.path.dirname(sas.__file__)), {**environment(sas), "LIBSAS": "none"}
    for words in (["plan", *FUSES_FILES], ["table", *FUSES_FILES], ["report", *FUSES_FILES], []):
        ran = ended(sys.executable, "-m", "sas", *words, env=without)
        yield f"no library, {words[:1]}", [] if is_line(ran, "sas: the library isn't found: none: ") else [f"{ran}"]
    for name, code, said in (
        ("another program", "import sas", "ImportError: sas: the library isn't found: none: "),
        ("one that does without", "try:\n    import sas\nexcept ImportError:\n    raise KeyError(1) from None", "KeyError: 1"),
    ):
        os.mkdir(os.path.join(folder, name.partition(" ")[0]))
        put(os.path.join(folder, name.partition(" ")[0], "__init__.py"), code.encode())
        ran = ended(sys.executable, "-m", name.partition(" ")[0], env=without, cwd=folder)
        last = ran.stderr.decode().splitlines()[-1]
        yield f"no library, {name}", [] if ran.returncode == 1 and last.startswith(said) else [f"{ran}"]
    for name, (code, said) in CRASHES.items():
        ran = ended(sys.executable, "-c", f"{code}\n{BY_PATH}", package, "table", *FUSES_FILES, env=environment(sas))
        yield f"a crash, {name}", [] if is_line(ran, f"sas: {said}\n") else [f"{ran}"]
    code = f"{RAISE}LookupError\nsas._judging._columns_of = crash\n{BY_PATH}"
    ran = ended(sys.executable, "-c", code, package, "table", *FUSES_FILES, env=environment(sas))
    row = f"{COLUMNS}\n{','.join(FUSES_FILES)},{HAS_NO_ANSWER}plan: the process ended with status 3\n".encode()
    said = b"sas: LookupError\n1 rows of 1 tasks: 0 valid, 0 invalid, 0 refused, 1 without an answer\n"
    yield "a crash of a process that judges", [] if (ran.returncode, ran.stdout, ran.stderr) == (3, row, said) else [f"{ran}"]
    ran = ended("env", "--ignore-signal=CHLD", sys.executable, "-m", "sas", "table", *FUSES_FILES, env=environment(sas))
    row = f"{COLUMNS}\n{','.join(FUSES_FILES)},{IS_VALID}\n".encode()
    yield "where ends of processes are ignored", differs((ran.returncode == 0, without_files(ran.stdout)), (True, row))
    yield from deep_tests(sas, folder)


def is_line(ran, front):
    """Whether a command ended without an answer, and with one line on standard error that begins so."""
    return ran.returncode == 3 and ran.stderr.startswith(front.encode()) and ran.stderr.count(b"\n") == 1


RAISE = "import errno, os, sas._judging, sas._table as it, sas._workers\ndef crash(*_): raise "
# what goes wrong in a process, and the line about it
CRASHES = {
    "no files": (f"{RAISE}0\nimport resource; resource.setrlimit(resource.RLIMIT_NOFILE, (5, 5))", "Too many open files"),
    "no processes": (
        f"{RAISE}OSError(errno.EAGAIN, os.strerror(errno.EAGAIN))\nos.fork = crash",
        "cannot start a process: Resource temporarily unavailable",
    ),
    "no memory": (f"{RAISE}MemoryError\nit.works_of = crash", "out of memory"),
    "nested calls": (f"{RAISE}RecursionError('too deep')\nit.works_of = crash", "too deep"),
    "two lines": (f"{RAISE}ValueError('one\\n  two')\nit.works_of = crash", "one two"),
    "no words": (f"{RAISE}LookupError\nit.works_of = crash", "LookupError"),
}
# how many folders are in each other
DEEP = 1500


def deep_tests(sas, folder):
    """Yields a table of a folder that is deep inside others."""
    deep = os.path.join(folder, "deep")
    os.mkdir(deep)
    for _ in range(DEEP):
        deep += "/d"
        os.mkdir(deep)
    for name, source in zip(("output.sas", "sas_plan"), FUSES_FILES):
        put(os.path.join(deep, name), read(source))
    ran = tables(sas, os.path.join(folder, "deep"))
    row = f"{COLUMNS}\n{deep}/output.sas,{deep}/sas_plan,{IS_VALID}\n".encode()
    yield "deep folders", differs((ran.returncode == 0, ran.stdout), (True, row))
    # shutil goes less deep in some versions of Python
    subprocess.run(["rm", "-r", os.path.join(folder, "deep")], check=True)


def interrupt_tests(_, sas, folder):
    """Yields runs that are interrupted, lose a process, or have a reader that ends early, and one on a terminal. They could show a run
    that hangs or leaves processes behind, rows that are lost with others, a traceback, and progress among the rows."""
    plans = [os.path.join(folder, f"plan.{number}") for number in range(450)]
    for path in plans:
        put(path, read(f"{FUSES}.plan"))
    # it waits at this plan, which is a pipe that nobody writes
    os.remove(plans[WAITS])
    os.mkfifo(plans[WAITS])
    for jobs in ("1", "3"):
        yield f"an interrupt, --jobs {jobs}", wrong_interrupted(sas, plans, jobs)
        yield f"a process that is killed, --jobs {jobs}", wrong_killed(sas, plans, jobs)
        for number in (signal.SIGKILL, signal.SIGTERM, signal.SIGHUP):
            yield f"a command that is ended by {number}, --jobs {jobs}", wrong_ended(sas, plans, jobs, number)
    command = f"'{sys.executable}' -m sas table {FUSES_FILES[0]} {plans[0]} {plans[1]}"
    env = environment(sas)
    ran = ended("bash", "-c", f"{{ sleep 1; {command}; echo $? >&2; }} | true", env=env)
    yield "a reader that ends early", [] if ran.stderr == b"sas: write failed\n3\n" else [f"{ran}"]
    if is_there("script"):
        ran = ended("script", "-qec", f"{command} > {folder}/table.csv", "/dev/null", env=env, stdin=subprocess.DEVNULL)
        last = b"2 rows of 1 tasks: 2 valid, 0 invalid, 0 refused, 0 without an answer\r\n"
        well = b"1 rows" in ran.stdout and ran.stdout.endswith(last) and read(f"{folder}/table.csv").count(b"\n") == 3
        yield "progress on a terminal", [] if well else [f"{ran}"]


# the plan at which a run waits
WAITS = 250


def begun(sas, plans, jobs):
    """Begins a table of these plans, and returns the process once it waits at the one that is a pipe: it has printed the rows before it."""
    words = [sys.executable, "-m", "sas", "table", "--jobs", jobs, FUSES_FILES[0], *plans]
    pipe = subprocess.PIPE
    process = subprocess.Popen(words, stdout=pipe, stderr=pipe, env=environment(sas), start_new_session=True)
    late = threading.Timer(SECONDS, process.kill)
    late.start()
    rows = [process.stdout.readline() for _ in range(WAITS + 1)]
    late.cancel()
    last = f"{FUSES_FILES[0]},{plans[WAITS - 1]},{IS_VALID}\n"
    assert rows[0].decode() == f"{COLUMNS}\n" and without_files(rows[-1]).decode() == last
    deadline = time.monotonic() + SECONDS
    while len(children_of(process)) > 1 and time.monotonic() < deadline:
        time.sleep(0.02)
    return process


def children_of(process):
    return list(map(int, read(f"/proc/{process.pid}/task/{process.pid}/children").split()))


def rest_of(process):
    """Returns how a run ends: its status, the rows that were left, standard error, and whether a process of it is left."""
    try:
        output, errors = process.communicate(timeout=SECONDS)
        deadline = time.monotonic() + SECONDS
        while time.monotonic() < deadline:
            os.killpg(process.pid, 0)
            time.sleep(0.02)
        is_left = True
    except ProcessLookupError:
        is_left = False
    finally:
        process.kill()
    return process.returncode, output, errors, is_left


def wrong_interrupted(sas, plans, jobs):
    """Returns what is wrong with a run that is interrupted as a terminal does that, in all its processes."""
    process = begun(sas, plans, jobs)
    os.killpg(process.pid, signal.SIGINT)
    got = rest_of(process)
    said = f"interrupted: {WAITS} rows of 1 tasks: {WAITS} valid, 0 invalid, 0 refused, 0 without an answer\n".encode()
    return [] if got == (130, b"", said, False) else [f"{got}"]


def wrong_killed(sas, plans, jobs):
    """Returns what is wrong with a run of which a process is killed, as where memory is short: the plan at which it waits has no answer,
    and others have theirs."""
    process = begun(sas, plans, jobs)
    for child in children_of(process):
        os.kill(child, signal.SIGKILL)
    status, output, errors, is_left = rest_of(process)
    rows = [f"{plans[WAITS]},{HAS_NO_ANSWER}plan: the process ended by signal 9", *(f"{plan},{IS_VALID}" for plan in plans[WAITS + 1 :])]
    said = b"450 rows of 1 tasks: 449 valid, 0 invalid, 0 refused, 1 without an answer\n"
    expected = 3, "".join(f"{FUSES_FILES[0]},{row}\n" for row in rows).encode(), said, False
    got = status, without_files(output), errors, is_left
    return [] if got == expected else [f"{status}, {errors}, {is_left}, {output[-300:]}"]


def wrong_ended(sas, plans, jobs, number):
    """Returns what is wrong with a run of which the command is ended by a signal: the rows that it judged are there, and no process is
    left once the plan that it waits at can be read."""
    process = begun(sas, plans, jobs)
    process.send_signal(number)
    process.wait(SECONDS)
    os.close(os.open(plans[WAITS], os.O_WRONLY))
    got = rest_of(process)
    return [] if got == (-number, b"", b"", False) else [f"{got}"]


REPORT = """
def main(words, module):
    print(words, module.version() == module.__version__)
    return 7
"""


def report_tests(_, sas, folder):
    """Yields `python -m sas report`, with a module in the place of the command. They could show words or an exit status that are lost."""
    shutil.copytree(os.path.dirname(sas.__file__), os.path.join(folder, "sas"), ignore=shutil.ignore_patterns("report", "__pycache__"))
    env = {**os.environ, "PYTHONPATH": folder, "LIBSAS": importlib.import_module("sas._library")._LIBRARY._name}
    os.mkdir(os.path.join(folder, "sas/report"))
    put(os.path.join(folder, "sas/report/__init__.py"), b"")
    put(os.path.join(folder, "sas/report/command.py"), REPORT.encode())
    ran = ended(sys.executable, "-m", "sas", "report", "-o", "page.html", env=env)
    yield "a report", [] if (ran.returncode, ran.stdout) == (7, b"['-o', 'page.html'] True\n") else [f"{ran}"]


def type_tests(_, sas, folder):
    """Yields the types of the package, by mypy, and of a program that uses it. They could show a call whose type is wrong, and types
    that a program doesn't see."""
    package = os.path.dirname(sas.__file__)
    program = os.path.join(folder, "program.py")
    put(program, TYPED.encode())
    if not is_there("mypy"):
        return
    # reports are a command, not a module to import
    words = ["mypy", "--strict", "--exclude", "/report/", "--no-error-summary", "--cache-dir", os.path.join(folder, "cache")]
    for name, command, env in (
        ("the package", [*words, package], os.environ),
        ("a program", [*words, program], {**os.environ, "MYPYPATH": os.path.dirname(package)}),
    ):
        ran = ended(*command, env=env)
        yield f"mypy, {name}", [] if ran.returncode == 0 else [ran.stdout.decode()[:1000]]


TYPED = '''
import array
import pathlib
from typing import List, Optional

import sas


def faults(task: sas.Task, plan: bytes) -> List[sas.Fact]:
    reasons: Optional[sas.Reasons] = task.plan_why(plan).reasons
    return [cause.required for operator in reasons.operators for cause in operator.causes] if reasons else []


def trace_of(task: sas.Task, plan: bytes) -> sas.Answer:
    try:
        return task.trace(plan, max_answer_bytes=9)
    except sas.AnswerTooLong as fault:
        return sas.trace(b"", plan, max_answer_bytes=fault.size)


def main() -> None:
    with sas.Task.from_file(pathlib.Path("output.sas"), max_bytes=9) as task:
        state: sas.State = task.run_state([1])
        answer: sas.Answer = task.run(array.array("I", [1]), 1, state.values)
        costs: List[Optional[int]] = [it.cost for it in task.plans([b"", bytearray()])]
        names: List[bytes] = [change.name for step in trace_of(task, b"").trace_steps for change in step.changes]
        if answer.verdict is sas.Verdict.INVALID and answer.refused_file is not sas.File.TASK:
            print(costs, names, faults(task, b""), answer.reason)
'''


def help_tests(_, sas, __):
    """Yields what `help` has of the package and of each public name. They could show a name without a description, one that isn't shown,
    and a call that stands behind hundreds of lines."""
    text = pydoc.plain(pydoc.render_doc(sas))
    front, lines = text.partition("PACKAGE CONTENTS")[0], text.count("\n")
    yield "help, how long it is", [] if lines <= MOST_HELP else [f"{lines} lines"]
    for name in sas.__all__:
        yield f"help, {name}", [] if name == "version" or f"    sas.{name}(" in front or f"; sas.{name}(" in front else ["it isn't in front"]
    for name in (it for it in dir(sas) if getattr(getattr(sas, it), "__module__", None) == "sas" and not it.startswith("_")):
        it = getattr(sas, name)
        yield f"help, {name}", [] if it.__doc__ and it.__doc__.strip() else ["no description"]
        members = vars(it).items() if isinstance(it, type) else ()
        bare = [its for its, value in members if not its.startswith("_") and not getattr(value, "__doc__", None)]
        yield f"help, what {name} has", [its for its in bare if not isinstance(getattr(it, its), it)]
    yield "help, types", re.findall("ForwardRef.*", text)


# how many lines `help(sas)` may have
MOST_HELP = 400


def version_tests(program, sas, folder):
    """Yields the package in other versions of Python. They could show code that one of them doesn't understand."""
    env = environment(sas)
    make_runs(os.path.join(folder, "runs"))
    expected = tables(sas, "runs", "--why", "--jobs", "2", cwd=folder).stdout
    for python in filter(shutil.which, VERSIONS):
        if ended(python, "--version").returncode:
            continue
        for words, output in ((["plan", *FUSES_FILES], VALID), (["table", "runs", "--why", "--jobs", "2"], expected)):
            ran = ended(python, "-B", "-W", "error", "-m", "sas", *words, cwd=folder, env=env)
            yield f"{python} -m sas {words[0]}", differs((ran.stderr[:3] != b"Tra", without_files(ran.stdout)), (True, output))
        ran = ended(python, "-B", "-W", "error", "-c", "import sas; print(sas.trace(b'', b'').reasons, list(sas.Verdict))", env=env)
        yield f"{python}, values", [] if ran.returncode == 0 else [f"{ran}"]


# the page with a section about tables, and the commands of the sections before that make its folders
GUIDE, SECTION, MAKING = "docs/GUIDE.md", "## Make a table of many plans", ("cp examples/fuses.plan", "mkdir -p runs", "for r in a/fuses")


def guide_tests(program, sas, folder):
    """Yields the commands that the guide shows of tables. They could show a page that is wrong."""
    commands = transcripts(section_of(GUIDE, SECTION))
    shutil.copytree(os.path.join(TOP, "examples"), os.path.join(folder, "examples"))
    shutil.copy(program, os.path.join(folder, "sas"))
    for case in shown(GUIDE):
        if case["command"].startswith(MAKING):
            ended("bash", "-c", case["command"], cwd=folder)
    for command, output in commands:
        ran = ended("bash", "-c", command, cwd=folder, env=environment(sas))
        yield f"{GUIDE}: {command}", differs((True, ran.stdout + ran.stderr), (True, output.encode()))
    yield f"{GUIDE}, {SECTION}", [] if len(commands) == 2 else [f"{commands}"]


TESTS = (
    value_tests, later_tests, none_tests, number_tests, run_tests, cost_tests, file_tests, limit_tests, answer_tests,
    stream_tests, command_tests, packed_tests, table_tests, fault_tests, crash_tests, interrupt_tests,
    report_tests, type_tests, help_tests, version_tests, guide_tests,
)


def tests(program, folder):
    """Yields all of these over one package, each kind in a folder of its own."""
    os.chdir(TOP)
    yield from tests_by(TESTS, program, folder, package_in)


if __name__ == "__main__":
    harness.main(tests)
