#!/usr/bin/env python3
"""Refuses each allocation of a call in turn, counting upwards until a run meets no refusal.

    python3 cases/memory.py SAS PROGRAM ..

The programs are those of `calls.py`. The calls are those of calls.json with `refused`. A program answers `not made` where what the
call is given doesn't fit into memory, and `out of memory` where the call itself had none; what it printed before is the front of
its answer. The last run refuses nothing and has the answer of the call. A reader that is out of memory returns that for each later
piece, too.

SAS is the program itself, with requests over a task of the examples and over one that has several of everything. Each
allocation of it is refused in turn, until a run meets no refusal. With one refused it prints `sas: out of memory` on standard
error, writes nothing on standard output and ends with status 3; or it does without and answers as ever. So it is with `--why`,
for each kind of answer about a plan and about groups, with `trace` and with `plans`: there the answer is what reasons.py, traces.py and
plans.py of oracles/ compute.

The library that refuses is made of refuse.c, with $CC or cc.
"""
import functools
import os
import re

import harness
from large import plan_text, wide_plans, wide_task
from oracles.group_reasons import with_all_reasons
from oracles.layers import after_refusal
from oracles.plans import lines_of, status_of
from oracles.reasons import reasons
from oracles.refusals import answer_of_call
from oracles.tasks import text_of, with_ends
from oracles.traces import traced
from texts import as_bytes, put, table

# no run of these makes more allocations
MOST = 1000
# the byte that ends an answer
END = b"\x1e"
NO_MEMORY = re.compile(rb"(.*?)(out of memory\n)+", re.DOTALL)
NOT_MADE = re.compile(rb"(.*?)not made\n", re.DOTALL)
OUT_OF_MEMORY = (3, b"", b"sas: out of memory\n")
# how many of everything a task has that is refused memory for
SEVERAL = 65
# how often all of its switches are turned, each time in some 7 kB of a trace
OFTEN = 20
UNLAYERED, MINIMAL = "cases/tasks/unlayered.sas", "cases/tasks/minimal.sas"


def end_of(library, command, given, number):
    """Returns how a command ends with this allocation refused: its status, what it wrote to each output, and whether it came
    to that."""
    notes, note = os.pipe()
    try:
        env = {"LD_PRELOAD": library, "REFUSE": str(number), "REFUSED": str(note)}
        end = harness.ended(*command, input=given, env=env, pass_fds=[note], timeout=60)
        os.close(note)
        note = None
        return end, os.read(notes, 1) != b""
    finally:
        os.close(notes)
        if note is not None:
            os.close(note)


def runs(library, call):
    """Yields how the command of a call ends with each allocation refused, up to the run that refuses none."""
    for number in range(1, MOST):
        end, was_refused = end_of(library, call["command"], call["given"], number)
        yield end, was_refused
        if not was_refused:
            return


def refused_calls(programs):
    """Yields each call that is to be refused memory, with the program that makes it. It could show a call that goes on without the
    memory that it was refused, and a refusal that comes where none was."""
    for name, groups in table("calls.json").items():
        for group in groups:
            for given, answer in group["rows"] if "refused" in group else ():
                yield {
                    "command": [programs[name]],
                    "name": f"{group['call']} {as_bytes(given)[:40]!r}",
                    "given": b"%s\n%s" % (group["call"].encode(), as_bytes(given)),
                    "answer": as_bytes(answer_of_call(group["call"], given, answer)),
                    "spare": group.get("inputs", 2) + group.get("spare", 0),
                }


def refused_requests(sas, folder):
    """Yields each request to the program itself. It could show a call that goes on without the memory that it was refused,
    or that reports this after a part of its answer."""
    names, cost, _ = wide_plans(SEVERAL)[0]
    both_written(folder, "several", wide_task(SEVERAL), names, cost)
    for front, exclusive in (("examples/fuses", True), (os.path.join(folder, "several"), False)):
        task, plan = f"{front}.sas", f"{front}.plan"
        requests = [[request, task] for request in ("show", "check", "print", "mutex")]
        for words in (*requests, ["plan", task, plan], ["steps", plan]):
            status = 1 if words[0] == "mutex" and not exclusive else 0
            yield case_of(sas, words, status)
            yield case_of(sas, [*words, "--why"], status)


def case_of(sas, words, status, output=None, error=b""):
    """Returns a request to the program, its answer, where None is some text that is expected, and standard error."""
    name, command = " ".join(words), [sas, *words]
    return {"command": command, "name": name, "given": b"", "status": status, "output": output, "error": error}


def both_written(folder, name, task, names, cost):
    """Writes the files of a task and of a plan, and returns their paths."""
    plan = plan_text(names, cost)
    return [put(f"{folder}/{name}.sas", text_of(task)), put(f"{folder}/{name}.plan", plan)]


def lines_text(lines):
    return with_ends(lines).encode()


def refusals(plan):
    """Yields words for a task that isn't layered, and for a file that is no task, with this plan, and what is said of
    them."""
    yield [UNLAYERED, plan], "task refused: rule 0: layer order"
    yield ["examples/fuses.plan", plan], "task refused: line 1: keyword"


def failing_plans():
    """Yields plans of a task that has several of everything: those of large.py, of which one is valid, and some that fail in
    other ways. Of the goals, one fails on derived variables that rules give, and one on those that rules don't give, so often
    that its reasons don't go out in one piece."""
    task, plans = wide_task(SEVERAL), wide_plans(SEVERAL)
    for names, cost, _ in plans:
        yield task, names, cost
    reached = plans[0][0]
    missed = reached[:-1]
    dark = [(var, 1) for var, layer in enumerate(task["layers"]) if layer is not None]
    yield {**task, "goal": dark}, reached, 0
    yield {**task, "goal": [(0, 1), *task["goal"], *dark] * 8}, missed, 0
    yield task, [*missed, "Back "], 0
    yield {**task, "operators": [*task["operators"], *task["operators"]]}, [*reached, "turn"], 0


def refused_reasons(sas, folder):
    """Yields each kind of answer to `plan --why`, why a task isn't layered, and why groups aren't exclusive. It could show reasons
    that stop where memory is refused, or of which a part is written before that."""
    for number, (task, names, cost) in enumerate(failing_plans()):
        files = both_written(folder, f"why.{number}", task, names, cost)
        fault, after = reasons(task, names, cost)
        yield case_of(sas, ["plan", "--why", *files], 0 if fault.startswith("plan valid") else 1, lines_text([fault, *after]))
    for words, said in (*refusals(files[1]), ([MINIMAL, MINIMAL], "plan refused: line 1: keyword")):
        of = words[1] if said.startswith("plan ") else words[0]
        yield case_of(sas, ["plan", "--why", *words], 1, lines_text([said, *after_refusal(said, {"file": of})]))
    for request in ("check", "mutex"):
        said = "task refused: rule 0: layer order"
        yield case_of(sas, [request, "--why", UNLAYERED], 1, lines_text([said, *after_refusal(said, {"file": UNLAYERED})]))
    groups = next(made for made in table("groups.json") if made["name"] == "each verdict")
    task = put(f"{folder}/groups.sas", as_bytes(groups["task"]))
    yield case_of(sas, ["mutex", "--why", task], 1, with_all_reasons(groups["output"], groups["task"]))


def refused_traces(sas, folder):
    """Yields each kind of answer to `trace`. It could show a part of a trace that is written before memory is refused, or one
    that ends there."""
    names, cost, _ = wide_plans(SEVERAL)[0]
    # of this one the trace doesn't go out in one piece
    long = wide_task(SEVERAL), [*names, *["back", "turn"] * OFTEN], cost + 2 * OFTEN
    for number, (task, names, cost) in enumerate((*failing_plans(), long)):
        files = both_written(folder, f"trace.{number}", task, names, cost)
        lines = traced(task, names, cost)
        yield case_of(sas, ["trace", *files], 0 if lines[-1].startswith("plan valid") else 1, lines_text(lines))
    for words, said in (*refusals(files[1]), ([MINIMAL, MINIMAL], "plan refused: line 1: keyword")):
        yield case_of(sas, ["trace", *words], 1, lines_text([said]))


def refused_plans(sas, folder):
    """Yields plans of a task that has several of everything: each alone, all of them in either order, one twice, and one in
    front of a plan that can't be opened or read. It could show a plan that is left out, or reported as refused, where memory is;
    one for which the plans before it count; and a label that is cut off."""
    task = wide_task(SEVERAL)
    path = put(f"{folder}/many.sas", text_of(task))
    texts = [*(plan_text(names, cost) for names, cost, _ in wide_plans(SEVERAL)), "", "(next 0)\n"]
    plans = [(put(f"{folder}/many.{number}", text), text) for number, text in enumerate(texts)]
    for some in (*([plan] for plan in plans), plans, plans[::-1], plans[:1] * 2):
        lines = lines_of(task, some)
        yield case_of(sas, ["plans", path, *(label for label, _ in some)], status_of(lines), lines_text(lines))
    lines = lines_of(task, plans, True)
    yield case_of(sas, ["plans", "--why", path, *(label for label, _ in plans)], status_of(lines), lines_text(lines))
    for label, said in (("none", "cannot open the plan"), (".", "read failed")):
        yield case_of(sas, ["plans", path, plans[0][0], label], 3, b"", lines_text([f"sas: {said}: {label}"]))
    for words, said in refusals("none"):
        yield case_of(sas, ["plans", *words], 1, lines_text([said]))


def letter(end, was_refused, answer):
    """Returns what came of a run of a call, in a letter: not made, out of memory, the answer itself, or something else."""
    said = end[1].removesuffix(END)
    if said == answer:
        return "A" if was_refused else "a"
    for word, form in (("n", NOT_MADE), ("w", NO_MEMORY)):
        found = form.fullmatch(said)
        if found and answer.startswith(found[1]):
            return word
    return "?"


def wrong_with_call(library, call):
    came = "".join(letter(*run, call["answer"]) for run in runs(library, call))
    # Each input is read without memory for large pieces, which is requested before all other. Some calls have more to spare: a list of words
    # begins without room for several.
    spared = came.rstrip("a").rstrip("A").count("A")
    return [] if "w" in came and re.fullmatch("[nwA]*a", came) and spared <= call["spare"] else [came]


def wrong_with_request(library, call):
    *refused, (last, was_refused) = runs(library, call)
    expected = last[1] if call["output"] is None else call["output"]
    answered = not was_refused and last == (call["status"], expected, call["error"]) and (last[1] or call["output"] is not None)
    wrong = [f"allocation {number}: {end}" for number, (end, _) in enumerate(refused, 1) if end not in (OUT_OF_MEMORY, last)]
    return wrong if answered and OUT_OF_MEMORY in [end for end, _ in refused] else [*wrong, f"nothing refused: {last}"]


def tests(sas, place, *paths):
    """Yields the calls of these programs, and the requests to the program itself, with each allocation refused."""
    programs = {os.path.basename(path): os.path.abspath(path) for path in paths}
    library = harness.built_library("refuse.c", place)
    kinds = refused_requests, refused_reasons, refused_traces, refused_plans
    requests = [request for kind in kinds for request in kind(sas, place)]
    judged = (wrong_with_call, refused_calls(programs)), (wrong_with_request, requests)
    for judge, calls in judged:
        for call, found in harness.side_by_side(functools.partial(judge, library), calls):
            yield call["name"], found


if __name__ == "__main__":
    harness.main(tests)
