#!/usr/bin/env python3
"""Runs the program with its standard streams open and closed, and compares how it ends and which files it opens. Then runs several that
write into one pipe, and compares the lines.

    python3 cases/streams.py SAS

A file gets the lowest free number when it is opened. If standard input is closed, the first input would become standard input, and `-`
would read it. So the program opens `/dev/null` for each closed stream before its inputs, and nothing if no stream is closed.

Each request is made with each set of closed streams, and there three times: with all files, with `/` unreadable, and with `/dev/null`
unreadable. This could show a program that opens a file though no stream is closed; one that opens `/` in place of a closed stream,
which answers about the wrong file if `/` can't be read; and one that goes on if a stream can't be replaced, which may do so, too.

A pipe takes a write whole if it has at most 4,096 bytes (POSIX, PIPE_BUF). So `plans` has to write whole lines, in pieces of at most so
many bytes. Otherwise a line of one run is cut into that of another. That could show a program that writes larger pieces, or cuts a line.

The library that notes the files is made of opened.c, with $CC or cc.
"""
import functools
import itertools
import os
import shutil
import subprocess
import tempfile
import time
from collections import namedtuple

import harness
from run import CLOSING, SECONDS
from texts import TOP, bytes_of_file

NULL = "/dev/null"
VERSION = ["--version"]
UNREADABLE = ("", "/", NULL)
TASK, PLAN, NO_GROUPS, NOWHERE = "examples/fuses.sas", "examples/fuses.plan", "cases/tasks/minimal.sas", "examples/none"
LAYERED, VALID, BEST = "task layered\n", "plan valid: 4 steps, cost 4\n", "1 plans, 1 valid, best cost 4"

# how many runs write into one pipe, what a pipe takes whole, and how long they have until it is read, in seconds
WRITERS, WHOLE, FILLING = 10, 4096, 0.5
# how often each of these names its plan, and how many bytes the longest line has: with 249, 17 of the others have one more than WHOLE
SHARED = ((2000, 249), (100, WHOLE - 1), (100, WHOLE))

# the exit status, standard output and standard error
End = namedtuple("End", "status output error", defaults=("",))
# A request: its words, the files that it opens, how it ends, and the file that it reads from standard input, if any. If standard
# input is closed, it opens only some of the files, and `unread` is the line on standard error.
Request = namedtuple("Request", "words opened end given opened_before unread", defaults=(None, [], "sas: read failed\n"))

REQUESTS = (
    Request(["check", TASK], [TASK], End(0, LAYERED)),
    Request(["check", "-"], [], End(0, LAYERED), TASK),
    Request(["plan", TASK, PLAN], [TASK, PLAN], End(0, VALID)),
    Request(["plan", "-", PLAN], [PLAN], End(0, VALID), TASK, [PLAN]),
    Request(["plan", TASK, "-"], [TASK], End(0, VALID), PLAN, [TASK]),
    Request(["plan", PLAN, "-"], [PLAN], End(1, "task refused: line 1: keyword\n")),
    Request(["plans", TASK, PLAN], [TASK, PLAN], End(0, f"{PLAN}: {VALID}{BEST}: {PLAN}\n")),
    Request(["plans", "-", PLAN], [PLAN], End(0, f"{PLAN}: {VALID}{BEST}: {PLAN}\n"), TASK),
    Request(["plans", TASK, "-"], [TASK], End(0, f"-: {VALID}{BEST}: -\n"), PLAN, [TASK], "sas: read failed: -\n"),
    Request(["mutex", NO_GROUPS], [NO_GROUPS], End(0, "")),
    Request(["check", NOWHERE], [NOWHERE], End(3, "", "sas: cannot open the task\n")),
    Request(["plan", "-", NOWHERE], [NOWHERE], End(3, "", "sas: cannot open the plan\n")),
    Request(["plan", "-", "-"], [], End(2, "", "sas: standard input used twice\n")),
    # it opens no file, so nothing is replaced
    Request(VERSION, [], End(0, "sas 1.1.0\n")),
)


def stream_cases():
    """Yields each request, with each set of closed streams and each file that is unreadable meanwhile."""
    sets = [closed for count in range(4) for closed in itertools.combinations(CLOSING, count)]
    for request, closed, unreadable in itertools.product(REQUESTS, sets, UNREADABLE):
        name = f"{' '.join(request.words)}, closed: {' '.join(closed) or 'none'}, unreadable: {unreadable or 'none'}"
        yield {"name": name, "request": request, "closed": closed, "unreadable": unreadable}


def ends_of(request, closed, unreadable):
    """Returns the files that a request opens, and how it ends, as if its end were seen on closed streams, too."""
    if request.end.status == 2:
        return [], request.end
    if request.words == VERSION:
        return [], End(3, "", "sas: write failed\n") if "output" in closed else request.end
    if closed and unreadable == NULL:
        return [NULL], End(3, "", "sas: cannot open /dev/null\n")
    replaced = [NULL for _ in closed]
    if request.given and "input" in closed:
        return replaced + request.opened_before, End(3, "", request.unread)
    if request.end.output and "output" in closed:
        return replaced + request.opened, End(3, "", "sas: write failed\n")
    return replaced + request.opened, request.end


def seen(end, closed):
    return End(end.status, "" if "output" in closed else end.output, "" if "error" in closed else end.error)


def came_of(program, library, case):
    """Makes a request, and returns the files that it opens, and how it ends."""
    request = case["request"]
    with tempfile.TemporaryFile() as notes:
        settings = [f"LD_PRELOAD={library}", f"OPENED={notes.fileno()}", f"UNREADABLE={case['unreadable']}"]
        script = "; ".join([*(CLOSING[name] for name in case["closed"]), 'exec env "$@"'])
        more = {"input": bytes_of_file(request.given) if request.given else b"", "pass_fds": [notes.fileno()], "timeout": SECONDS}
        ran = harness.ended("sh", "-c", script, "", *settings, program, *request.words, **more)
        notes.seek(0)
        return notes.read().decode().splitlines(), End(ran.returncode, ran.stdout.decode(), ran.stderr.decode())


def faults(program, library, case):
    files, end = ends_of(case["request"], case["closed"], case["unreadable"])
    return harness.differs(came_of(program, library, case), (files, seen(end, case["closed"])))


def last_line(times, label):
    """Returns the last line about a valid plan that is named so often by this label."""
    return f"{times} plans, {times} valid, best cost 4: {label}\n"


def labels_of(times, length):
    """Returns a path for each run, which names a file in its folder. The last line about it has this length."""
    room = length - len(last_line(times, ""))
    return ["./" * ((room - 1) // 2) + letter * (2 - room % 2) for letter in "abcdefghijklmnop"[:WRITERS]]


def lines_of_pipe(program, folder, times, labels):
    """Returns the lines of runs that write into one pipe. It is full before it is read, so that all wait for their turn."""
    source, sink = os.pipe()
    words = [program, "plans", os.path.join(TOP, TASK)]
    runs = [subprocess.Popen([*words, *[label] * times], cwd=folder, stdout=sink) for label in labels]
    os.close(sink)
    time.sleep(FILLING)
    with open(source, "rb") as pipe:
        lines = pipe.read().decode().splitlines(keepends=True)
    for run in runs:
        run.wait(SECONDS)
    return lines


def shared_faults(program, times, length):
    """Returns what is wrong with the lines of runs that write into one pipe, of which the longest has this length."""
    labels = labels_of(times, length)
    expected = [line for it in labels for line in [f"{it}: {VALID}"] * times + [last_line(times, it)]]
    with tempfile.TemporaryDirectory() as folder:
        for label in labels:
            shutil.copy(os.path.join(TOP, PLAN), os.path.join(folder, label))
        found = lines_of_pipe(program, folder, times, labels)
    known = set(expected)
    others = [line for line in found if line not in known]
    shown = [line[-99:] for line in others[:1]]
    return [] if sorted(found) == sorted(expected) else [f"of {len(found)} lines {len(others)} are mixed, such as {shown}"]


def tests(sas, place):
    judge = functools.partial(faults, sas, harness.built_library("opened.c", place))
    for case, found in harness.side_by_side(judge, stream_cases()):
        yield case["name"], found
    for times, length in SHARED:
        yield f"{WRITERS} runs of plans into one pipe, lines of up to {length} bytes", shared_faults(sas, times, length)


if __name__ == "__main__":
    harness.main(tests)
