#!/usr/bin/env python3
"""Runs the command-line cases over an executable.

    python3 cases/run.py ./sas [WORD ..] [--under EMULATOR]

Where words are given, only the cases whose names contain one of them are run. EMULATOR is what runs the program where the machine can't,
such as qemu-aarch64-static. A case that limits memory or the stack would limit the emulator, so it is left out there. All others take
about an hour of processor time there.

tasks.json: task files, and what is printed of each, as it stands and with CR LF at the end of each line. `print` prints
it as it stands, and does so with CR LF at the end of one line alone. Cut off after any byte it ends early, on its last
line; that is tried with `print`, and with `check` where the file is small.

    file         the file, a path from the top of the repository
    check        what `check` prints of it
    mutex        the lines that `mutex` prints of it
    show         the lines of its summary, by hand, which oracles/summaries.py has to compute, too; left out: what it computes

lines.json: lines of these files, and texts in their place. Rows are [LINE, TEXT, ANSWER]; or each of `texts` stands in
each of `lines` with the same answer. It is `kept`, where the file is printed as changed; a word, where `print`, `show` and
`check` refuse it on that line; or the line with the word, as `line 15: keyword`. After `kept` may stand the fault of the
layers for which `check` and `mutex` refuse the task, which is layered where none stands there. `memory` is as below.

plans.json: plan files. Each is given to `steps` twice, as a file and as standard input, and nothing may come on
standard error. One with `cut_off` ends early wherever it is cut off.

verdicts.json: plans of tasks. Each is given to `plan` as two files, with the task as standard input, and with the plan as
standard input; those that walks.py and following.py make at random as two files. why.py gives them to `plan --why`, and traces.py
to `trace`; both have plans of their own, and so has many.py, for `plans`.

    task, plan   the files, as texts
    output       standard output, exactly
    status       the exit status
    initial      the initial state, and
    call         what the call `check_plan` answers; both for calls.py, and left out where a file is refused or too long

large.py, lengthy.py and plenty.py make large tasks and plans, as cases of program.json. refusals.py makes damaged ones, with `--why`.

groups.json: tasks. Each is given to `mutex` as a file and as standard input, and there with CR LF at the end of each line
too; those that grouped.py makes at random, as standard input.

    task         the file, as a text
    output       standard output, exactly
    status       the exit status
    call         what the call `check-groups` answers, for calls.py

program.json: words and devices, by these names.

    words        the words after the program's name, each character a byte; FOLDER in one, or in `error`, represents an empty folder
    files        files by their names, each character a byte: the program runs in a folder that has these alone
    pipes        named pipes beside the files, by their names. They are written one after another, each once: the program has to open
                 them in this order, and none a second time
    input        standard input, empty where it is left out
    streamed     pairs [TEXT, TIMES] that come before it, and aren't held in memory as a whole; left out: nothing
    input_ends   false: standard input stays open until the program has ended
    memory       how many bytes of memory the program may have; left out: as many as there are
    stack        how many bytes its stack may have, with no environment, which would take some of them; left out: as many as
                 there are
    file         how many bytes the file may have that standard output is; left out: it is a pipe
    open         how many files it may have open at a time, with its streams; left out: as many as the system lets it
    closed       which of "input", "output" and "error" aren't open when the program starts; left out: none
    output_to    where standard output goes: "full device", "closed pipe"; left out: to be compared with `output`
    front        pairs [TEXT, TIMES] that come before `output`, and aren't held in memory as a whole; left out: nothing
    output       standard output, exactly
    status       the exit status
    error        standard error, exactly; null: some text about the words, no line of the program's own; left out: nothing

texts.py defines what a text is. A case without `files` runs at the top of the repository. A case is
run as soon as it is made, and each that fails has a line once those before it have ended.
"""
import contextlib
import itertools
import os
import subprocess
import tempfile
import threading

import harness
from following import long_runs
from grouped import grouped_tasks, reason_cases
from large import large_cases
from layered import layer_cases
from lengthy import lengthy_cases
from many import plans_cases
from oracles.group_reasons import with_all_reasons
from oracles.tasks import with_ends
from plenty import plenty_cases
from refusals import refusal_cases
from texts import TOP, as_bytes, bytes_of, changed_lines, early_end, made_by, put, table
from traces import trace_cases
from walks import walked_plans
from why import why_cases

SECONDS = 60
# what a case may limit, in bytes or files: how many of them a unit of it is, and what the shell sets it by
LIMITS = [("memory", 1024, "ulimit -v {}"), ("stack", 1024, "ulimit -s {}")]
LIMITS += [("file", 512, "trap '' XFSZ; ulimit -f {}"), ("open", 1, "ulimit -n {}")]
# what would limit an emulator, which has memory of its own
UNEMULATED = ("memory", "stack")
CLOSING = {"input": "exec <&-", "output": "exec >&-", "error": "exec 2>&-"}


def over_task(name, request, task, output, status, **more):
    """Returns a case of a request over a task alone, which is standard input."""
    return {"name": name, "words": [request, "-"], "input": task, "output": output, "status": status, **more}


def refused(what, fault):
    """Returns the refusal of a file, and its status."""
    return {"output": f"{what} refused: {fault}\n", "status": 1}


def checked(fault):
    return refused("task", fault) if fault else {"output": "task layered\n", "status": 0}


def whole_cases():
    """Yields each task file, as it stands and with other ends of lines. They could show a wrong definition of task files, and want
    of memory that no one was refused."""
    for task in table("tasks.json"):
        name, held = task["file"], as_bytes({"file": task["file"]})
        returns = held.replace(b"\n", b"\r\n")
        shown, groups = as_bytes({"summary": {"file": name}}), as_bytes(with_ends(task["mutex"]))
        assert "show" not in task or with_ends(task["show"]).encode() == shown, (name, shown)
        layered = 0 if task["check"] == "task layered" else 1
        exclusive = 0 if all(line.endswith(" exclusive") for line in task["mutex"]) else 1
        for ends, given in (("LF", held), ("CR LF", returns)):
            yield over_task(f"{name}, printed, with {ends}", "print", given, held, 0)
            yield over_task(f"{name}, shown, with {ends}", "show", given, shown, 0)
            yield over_task(f"{name}, checked, with {ends}", "check", given, f"{task['check']}\n", layered)
            yield over_task(f"{name}, its groups, with {ends}", "mutex", given, groups, exclusive)


def cut_cases():
    """Yields each task file with CR LF on one line, and cut off. They could show the same."""
    for task in table("tasks.json"):
        name, held = task["file"], as_bytes({"file": task["file"]})
        lines = held.splitlines(keepends=True)
        for number, line in enumerate(lines):
            given = b"".join([*lines[:number], line[:-1] + b"\r\n", *lines[number + 1 :]])
            yield over_task(f"{name}, CR LF on line {number + 1}", "print", given, held, 0)
        for length in range(len(held)):
            front = held[:length]
            for request in ("print", "check")[: 2 if len(held) < 600 else 1]:
                yield over_task(f"{name}, {length} bytes, {request}", request, front, **refused("task", early_end(front)))


def line_cases():
    """Yields each changed line of a task file. They could show a rule of the format that its definition lacks, or an order
    of faults that isn't that of the file."""
    for case in changed_lines():
        name, task = case["name"], case["task"]
        more = {"memory": case["memory"]} if case["memory"] else {}
        if case["fault"] is None:
            yield over_task(name, "print", task, task, 0, **more)
            yield over_task(f"{name}, check", "check", task, **checked(case["layers"]), **more)
            if case["layers"]:
                yield over_task(f"{name}, mutex", "mutex", task, **refused("task", case["layers"]), **more)
            continue
        for request in ("print", "show", "check"):
            yield over_task(f"{name}, {request}", request, task, **refused("task", case["fault"]), **more)


def plan_cases(folder):
    """Yields each plan file, through a file and through standard input, and cut off. They could show a wrong definition of
    plan files, and an input that is taken for the other one."""
    for number, plan in enumerate(table("plans.json")):
        path, held = os.path.join(folder, f"{number}.plan"), as_bytes(plan["plan"])
        put(path, held)
        answer = {"output": plan["output"], "status": plan["status"]}
        yield {"name": plan["name"] + ", from a file", "words": ["steps", path], **answer}
        yield {"name": plan["name"] + ", from standard input", "words": ["steps", "-"], "input": held, **answer}
        for length in range(len(held)) if plan.get("cut_off") else ():
            front = held[:length]
            answer = refused("plan", early_end(front))
            yield {"name": f"{plan['name']}, {length} bytes", "words": ["steps", "-"], "input": front, **answer}


def verdict_case(made, words, **inputs):
    """Returns a case of `plan` with these words."""
    name = f"{made['name']}, plan {' '.join(words)}"
    return {"name": name, "words": ["plan", *words], "output": made["output"], "status": made["status"], **inputs}


def verdict_cases():
    """Yields each plan of a task, from files, and with either of the two from standard input. They could show a wrong
    definition of valid plans, and two inputs that are exchanged."""
    for made in table("verdicts.json"):
        task, plan = {"t.sas": made["task"]}, {"p.txt": made["plan"]}
        yield verdict_case(made, ["t.sas", "p.txt"], files={**task, **plan})
        yield verdict_case(made, ["-", "p.txt"], files=plan, input=made["task"])
        yield verdict_case(made, ["t.sas", "-"], files=task, input=made["plan"])
    for made in (*walked_plans(), *long_runs()):
        yield verdict_case(made, ["t.sas", "p.txt"], files={"t.sas": made["task"], "p.txt": made["plan"]})


def group_cases():
    """Yields the groups of each task of groups.json, from a file, and from standard input with either end of lines. They could
    show a definition of kept groups by which too few are shown."""
    for made in table("groups.json"):
        name, held, answer = made["name"], as_bytes(made["task"]), {"output": made["output"], "status": made["status"]}
        yield {"name": f"{name}, mutex of a file", "words": ["mutex", "t.sas"], "files": {"t.sas": held}, **answer}
        for ends, given in (("LF", held), ("CR LF", held.replace(b"\n", b"\r\n"))):
            yield over_task(f"{name}, mutex with {ends}", "mutex", given, **answer)


def family_cases():
    """Yields the groups of tasks that are made. They could show the same."""
    for made in grouped_tasks():
        yield over_task(made["name"], "mutex", made["task"], made["output"], made["status"])


def held_by(case):
    if "input" in case:
        return case["input"]
    if "files" in case:
        return case["files"]["t.sas"]
    return bytes_of(case["words"][-1])


def with_why(case):
    """Returns a case with `--why`: no other answer is expected, but for the reasons why a file is refused, a task isn't layered, or its
    groups aren't exclusive. It could show one."""
    request, *words = case["words"]
    output = with_all_reasons(case["output"], held_by(case))
    return {**case, "name": f"{case['name']}, with --why", "words": [request, "--why", *words], "output": output}


# The end for writing of a pipe whose other end is closed. It is made before any other process is:
# one that was begun while both ends were open would hold the other end for a while.
READING, CLOSED_PIPE = os.pipe()
os.close(READING)


def output_device(case, folder):
    """Returns what standard output is: a pipe to be read, unless the case names another place."""
    if "file" in case:
        file, path = tempfile.mkstemp(dir=folder)
        os.unlink(path)
        return file
    if "output_to" not in case:
        return subprocess.PIPE
    if case["output_to"] == "full device":
        return os.open("/dev/full", os.O_WRONLY)
    return os.dup(CLOSED_PIPE)


def command_of(program, case, folder):
    """Returns the words of the program with those of the case, and what closes its streams and sets its limits before it, where
    there is any of that."""
    words = [*program, *(as_bytes(word.replace("FOLDER", folder)) for word in case["words"])]
    # the shell needs some files itself to close a stream
    before = [CLOSING[name] for name in case.get("closed", ())]
    before += [line.format(case[name] // size) for name, size, line in LIMITS if name in case]
    return ["sh", "-c", "; ".join([*before, 'exec "$@"']), "", *words] if before else words


def leave_open(process, given):
    """Writes the bytes, and waits for the end of the program while its input is still open."""
    with contextlib.suppress(BrokenPipeError):
        process.stdin.write(given)
        process.stdin.flush()
    process.wait(SECONDS)


def stream(process, parts):
    """Writes each of these texts so many times. A program that doesn't take them is ended, or this would wait for it."""
    timer = threading.Timer(SECONDS, process.kill)
    timer.start()
    with contextlib.suppress(BrokenPipeError):
        for text, times in parts:
            piece = as_bytes(text)
            for _ in range(times):
                process.stdin.write(piece)
    timer.cancel()


def unlike(stream, parts):
    """Reads these texts, each so many times, and returns what follows; where one of them isn't there, what is there instead, and
    where that is."""
    read = 0
    for text, times in parts:
        piece = as_bytes(text)
        for _ in range(times):
            held = stream.read(len(piece))
            if held != piece:
                return b"after %d bytes: %s" % (read, held[:200])
            read += len(piece)
    return stream.read()


def compared(process, parts):
    """Does the same with standard output, and returns standard error too. A program that doesn't come to its end is ended."""
    timer = threading.Timer(SECONDS, process.kill)
    timer.start()
    process.stdin.close()
    written = unlike(process.stdout, parts)
    process.stdout.close()
    said = process.stderr.read()
    process.wait()
    timer.cancel()
    return written, said


def answer_of(program, case, folder, place):
    given = as_bytes(case.get("input", ""))
    output = output_device(case, place)
    pipe = subprocess.PIPE
    command = command_of(program, case, folder)
    environment = {} if "stack" in case else None
    process = subprocess.Popen(command, stdin=pipe, stdout=output, stderr=pipe, cwd=place, env=environment)
    try:
        if not case.get("input_ends", True):
            leave_open(process, given)
            given = b""
        if "streamed" in case:
            stream(process, case["streamed"])
        if "front" in case:
            written, said = compared(process, case["front"])
        else:
            written, said = process.communicate(given, SECONDS)
        if "file" in case:
            written = os.pread(output, 2 * case["file"], 0)
    finally:
        process.kill()
        process.wait()
        if output != pipe:
            os.close(output)
    return process.returncode, written, said


def differences(case, answer):
    status, written, said = answer
    error = case.get("error", "")
    if status != case["status"]:
        yield f"status {status}, not {case['status']}"
    if written is not None and written != as_bytes(case["output"]):
        yield f"output {written[:200]!r}, not {as_bytes(case['output'])[:200]!r}"
    if error is None and (not said or said.startswith(b"sas: ")):
        yield f"standard error {said[:200]!r}, which isn't about the words"
    if error is not None and said != as_bytes(error):
        yield f"standard error {said[:200]!r}, not {error!r}"


def feed(pipes):
    """Writes named pipes, one after another. It waits at each until the other end is open."""
    for path, held in pipes:
        with contextlib.suppress(BrokenPipeError), open(path, "wb", buffering=0) as pipe:
            pipe.write(held)


def answer_beside_pipes(program, case, folder, place):
    """Does the same beside the named pipes of the case, where it has some. Those that the program didn't open are opened in the
    end, or what writes them would wait for that."""
    pipes = [(os.path.join(os.fsencode(place), as_bytes(name)), as_bytes(text)) for name, text in case.get("pipes", {}).items()]
    for path, _ in pipes:
        os.mkfifo(path)
    writer = threading.Thread(target=feed, args=(pipes,))
    writer.start()
    try:
        return answer_of(program, case, folder, place)
    finally:
        ends = [os.open(path, os.O_RDONLY | os.O_NONBLOCK) for path, _ in pipes]
        writer.join()
        for end in ends:
            os.close(end)


def answer_among(program, case, folder):
    """Does the same in a folder that has the files of the case alone, where it has some."""
    if "files" not in case:
        return answer_of(program, case, folder, TOP)
    with tempfile.TemporaryDirectory() as place:
        for name, text in case["files"].items():
            put(os.path.join(os.fsencode(place), as_bytes(name)), as_bytes(text))
        return answer_beside_pipes(program, case, folder, place)


def faults(program, case, folder):
    """Returns what is wrong with the program's answer to a case."""
    expected = {**case, "error": case["error"].replace("FOLDER", folder)} if case.get("error") else case
    try:
        return list(differences(expected, answer_among(program, case, folder)))
    except subprocess.TimeoutExpired:
        return [f"no end within {SECONDS} seconds"]


def made_cases(folder):
    """Yields the cases that are made by the thousand. Plan files are written into the folder."""
    files = [*whole_cases(), *line_cases(), *plan_cases(folder), *group_cases()]
    yield from files
    yield from map(with_why, files)
    yield from made_by(cut_cases, verdict_cases, why_cases, trace_cases, plans_cases)
    yield from made_by(family_cases, reason_cases, layer_cases, refusal_cases)


def cases_in(folder, one_of=1):
    """Yields all cases, or one of so many of those that are made by the thousand. Those that take long to make come last: others run
    meanwhile."""
    yield from table("program.json")
    yield from itertools.islice(made_cases(folder), 0, None, one_of)
    yield from made_by(large_cases, plenty_cases, lengthy_cases)


def judged(program, emulator=(), words=(), one_of=1):
    """Runs the program on the cases with one of these words, or under an emulator on one of so many of all. Yields the name of each case,
    in order, with what is wrong with it."""
    with tempfile.TemporaryDirectory() as plans, tempfile.TemporaryDirectory() as folder:
        cases = harness.chosen(cases_in(plans, one_of), words)
        cases = (case for case in cases if not emulator or not any(name in case for name in UNEMULATED))
        for case, found in harness.side_by_side(lambda case: faults([*emulator, program], case, folder), cases):
            yield case["name"], found


def tests(sas, *words, under=None):
    yield from judged(sas, [under] if under else [], words)


if __name__ == "__main__":
    harness.main(tests)
