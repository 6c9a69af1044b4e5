#!/usr/bin/env python3
"""Tests the tables of `python -m sas table`: which files it takes for plans and for tasks, what it says of each, scores, and resumption.

    python3 cases/competition.py SAS LIBRARY

SAS is the program, and LIBRARY the folder that library/build.py made. python.py tests tables, too: their forms, processes that end, and
other commands. Each function of this script that makes tests says which mistake they could show that no proof does: the proofs know no
Python. It runs the commands of docs/COMPETITION.md. What isn't there is named in a line that begins with `without`.
"""
import collections
import contextlib
import csv
import fcntl
import gzip
import importlib
import io
import itertools
import json
import os
import re
import shutil
import subprocess
import sys
import time

import harness
from harness import differs, ended, is_there
from library import FUSES, package_in, read, tests_by
from python import BY_PATH, COLUMNS, COMPRESS, FUSES_FILES, WAITS, environment, limited, tables, without_files
from shown import transcripts
from texts import TOP, put, text_of

# how long a command may take, in seconds
SECONDS = 60
PAGE = "docs/COMPETITION.md"
NO_ANSWER, PASSED_OVER, LINK = "no answer", "passed over", "a link to a folder"
TASK, PLAN = read(f"{FUSES}.sas"), read(f"{FUSES}.plan")
BLOCKS, BLOCKS_PLAN = read("examples/blocks-4-0.sas"), read("examples/blocks-4-0.plan")
LIFT, LIFT_PLAN = read("examples/elevator.sas"), read("examples/elevator.plan")
# valid plans with steps in front that lead nowhere
DEAR_BLOCKS = b"(pick-up b)\n(put-down b)\n" + BLOCKS_PLAN.replace(b"= 6", b"= 8")
DEAR_LIFT = b"(up f0 f1)\n(down f1 f0)\n" + LIFT_PLAN.replace(b"= 7", b"= 9")
# a task whose goal holds at the start, and its plan
WITHOUT_GOAL = TASK[: TASK.index(b"begin_goal")] + b"begin_goal\n0\nend_goal" + TASK[TASK.index(b"end_goal") + 8 :]
NO_STEPS = b"; cost = 0 (unit cost)\n"


def table(sas, *words, front=(), **more):
    """Returns how a table ended, and its rows, each by the names of its columns. The command has these words in front."""
    ran = ended(*front, sys.executable, "-m", "sas", "table", *words, env=environment(sas), **more)
    return ran, rows_in(ran.stdout)


def as_user():
    """Returns what is put in front of a command of root, so that it can't read what others can't."""
    return ("setpriv", "--bounding-set=-all") if os.geteuid() == 0 and is_there("setpriv") else ()


def rows_in(text):
    return list(csv.DictReader(io.StringIO(text.decode(errors="surrogateescape"), newline="")))


def wrong_rows(sas, words, expected, columns=("task", "plan", "verdict", "reason"), **more):
    """Returns what is wrong with the rows of a table, of which these columns are compared."""
    ran, rows = table(sas, *words, **more)
    got = [tuple(row.get(name) for name in columns) for row in rows]
    differing = [f"{one}, not {other}" for one, other in itertools.zip_longest(got, expected) if one != other]
    return differing + ([f"{ran.stderr}"] if differing or b"Traceback" in ran.stderr else [])


def make(folder, files):
    """Makes files in a folder, each by its path there, and the folders in which they are."""
    for path, held in files.items():
        whole = os.path.join(folder, path)
        os.makedirs(os.path.dirname(whole), exist_ok=True)
        put(whole, held)


HARD_NAMES = ("sas_plan\n", "sas_plan\r\n", "sas_plan ", 'sas_plan, "x"', "sas_plan\udcff")
SPARSE = {"sas_plan.5": 1 << 32, "sas_plan.6": (1 << 32) + 1}
LINKS = {"8": "sas_plan.8", "9": "none", "10": "..", "11": "sas_plan.1", "12": "/proc/self/mem", "13": "/dev/zero"}
ODD = (
    *((name, "71", "valid", "") for name in HARD_NAMES[:4]),
    ("sas_plan.1", "71", "valid", ""),
    ("sas_plan.2", "0", "refused", "line 1: end"),
    ("sas_plan.3", "20", "refused", "line 2: end"),
    ("sas_plan.4", "", NO_ANSWER, "plan: not an ordinary file"),
    ("sas_plan.5", "4294967296", NO_ANSWER, "plan: input too long"),
    ("sas_plan.6", "4294967297", NO_ANSWER, "plan: input too long"),
    ("sas_plan.7", "", NO_ANSWER, "plan: Permission denied"),
    ("sas_plan.8", "", NO_ANSWER, "plan: Too many levels of symbolic links"),
    ("sas_plan.9", "", NO_ANSWER, "plan: No such file or directory"),
    ("sas_plan.11", "71", "valid", ""),
    ("sas_plan.12", "0", NO_ANSWER, "plan: Input/output error"),
    ("sas_plan.13", "", NO_ANSWER, "plan: not an ordinary file"),
    ("sas_plan\udcff", "71", "valid", ""),
    ("loop", "", PASSED_OVER, LINK),
    ("sas_plan.10", "", PASSED_OVER, LINK),
)


def make_odd(run):
    """Makes files in the folder of a run that a planner may leave behind: those of ODD, and a folder in the place of a plan."""
    make(run, {"output.sas": TASK, "sas_plan.1": PLAN, "sas_plan.2": b"", "sas_plan.3": PLAN[:20], "sas_plan.7": PLAN})
    make(run, {name: PLAN for name in HARD_NAMES})
    make(run, {"sas_plan.folder/sas_plan": PLAN})
    os.mkfifo(f"{run}/sas_plan.4")
    os.chmod(f"{run}/sas_plan.7", 0)
    for name, size in SPARSE.items():
        with open(f"{run}/{name}", "wb") as file:
            file.truncate(size)
    for number, to in LINKS.items():
        os.symlink(to, f"{run}/sas_plan.{number}")
    os.symlink("../..", f"{run}/loop")


def odd_tests(_, sas, folder):
    """Yields runs with odd files. They could show a file that is left out, waited for or taken for another, one that spoils others, a
    circle of links that is gone through, and memory that is taken for what a sparse file doesn't have."""
    run = f"{folder}/runs/a/p01"
    make_odd(run)
    make(f"{folder}/runs", {"b/p01/planner.log": b"", "c/p01/output.sas/x": b"", "c/p01/sas_plan": PLAN})
    os.mkdir(f"{folder}/runs/d")
    os.chmod(f"{folder}/runs/d", 0)
    words, more = ["--max-bytes", "100000000", "runs"], {"cwd": folder, "front": as_user()}
    rows = [(f"runs/a/p01/{name}", *rest) for name, *rest in ODD]
    rest = [
        ("runs/a/p01/sas_plan.folder/sas_plan", "", NO_ANSWER, "no task"),
        ("runs/b/p01", "", PASSED_OVER, "no task, and no plan"),
        ("runs/c/p01/sas_plan", "", NO_ANSWER, "no task"),
        ("runs/c/p01/output.sas", "", PASSED_OVER, "no task, and no plan"),
        ("runs/d", "", NO_ANSWER, "folder: Permission denied"),
    ]
    columns = "plan", "bytes", "verdict", "reason"
    for jobs in ("1", "3"):
        yield f"odd files, --jobs {jobs}", wrong_rows(sas, [*words, "--jobs", jobs], rows + rest, columns, **more)
    pattern = ["--plans", "runs/{planner}/{problem}", "--max-bytes", "100000000"]
    inner = [row for row in rows if not row[0].endswith("/loop")]
    odd = [("runs/a/p01/sas_plan.folder", "", PASSED_OVER, "a folder"), *inner[-1:]]
    rest = [("runs/b/p01", "", NO_ANSWER, "no task, and no plan"), rest[2], rest[4]]
    yield "odd files, a pattern", wrong_rows(sas, pattern, inner[:-1] + odd + rest, columns, **more)
    ran = limited(sas, 1500, "-m", "sas", "table", FUSES_FILES[0], f"{run}/sas_plan.5", FUSES_FILES[1])
    got = [(row["verdict"], row["reason"]) for row in rows_in(ran.stdout)]
    yield "a sparse file and little memory", differs(got, [(NO_ANSWER, "plan: out of memory"), ("valid", "")])


def task_tests(_, sas, folder):
    """Yields tables with tasks that stand apart. They could show a plan that is judged by the task of another, by one that its planner
    wrote, or by one that is only guessed, and a task or a run that is left out."""
    make(f"{folder}/tasks", {"blocks/p01.sas": BLOCKS, "lift/p01/output.sas": LIFT, "p02.sas": TASK, "lift/p03.sas": LIFT, "note.txt": b""})
    make(f"{folder}/tasks", {"x/p04.sas": TASK, "x/p04.sas.gz": TASK, "y/p02.sas": LIFT})
    own = {"output.sas": WITHOUT_GOAL}
    for place, files in {
        "a/blocks/p01": {"sas_plan": BLOCKS_PLAN},
        "b/blocks/p01": {**own, "sas_plan": NO_STEPS},
        "b/lift/p01": {**own, "sas_plan": LIFT_PLAN, "logs/x": b""},
        "b/lift/p02": {**own, "sas_plan": PLAN},
        "b/none/p01": {**own, "sas_plan": NO_STEPS},
        "b/x/p04": {"sas_plan": PLAN},
        "b/y/p02": {**own, "sas_plan": LIFT_PLAN},
        "b/z/p02": own,
    }.items():
        make(f"{folder}/runs/{place}", files)
    blocks, lift, flat, left = "tasks/blocks/p01.sas", "tasks/lift/p01/output.sas", "tasks/p02.sas", "tasks/lift/p03.sas"
    long = "tasks/y/p02.sas"
    judged = [
        (blocks, "runs/a/blocks/p01/sas_plan", "valid", ""),
        (blocks, "runs/b/blocks/p01/sas_plan", "invalid", "goal fact 0 not reached"),
        (lift, "runs/b/lift/p01/sas_plan", "valid", ""),
        ("", "runs/b/lift/p01/logs", PASSED_OVER, "no task of that name, and no plan"),
        (flat, "runs/b/lift/p02/sas_plan", "valid", ""),
        ("", "runs/b/none/p01/sas_plan", NO_ANSWER, "no task of that name"),
        ("", "runs/b/x/p04/sas_plan", NO_ANSWER, "2 tasks of that name"),
        (long, "runs/b/y/p02/sas_plan", "valid", ""),
        (flat, "", NO_ANSWER, "no plan in runs/b/z/p02"),
        (left, "", NO_ANSWER, "no plan"),
    ]
    words, twice = ["--tasks", "tasks"], ("tasks/x/p04.sas", "tasks/x/p04.sas.gz", long)
    yield "--tasks, folders", wrong_rows(sas, [*words, "runs"], judged, cwd=folder)
    yield "--tasks, in the folder of a run", wrong_rows(sas, ["--tasks", "../../../../tasks", "."], [
        (f"../../../../{blocks}", "./sas_plan", "valid", ""),
        *((f"../../../../{it}", "", NO_ANSWER, "no plan") for it in (flat, left, lift, *twice)),
    ], cwd=f"{folder}/runs/a/blocks/p01")
    named = [row for row in judged if not row[1].endswith("logs")]
    yield "--tasks, a pattern", wrong_rows(sas, [*words, "--plans", "runs/{planner}/{domain}/{problem}"], named, cwd=folder)
    plans = [row[1] for row in judged[:2]]
    rest = [(it, "", NO_ANSWER, "no plan") for it in (flat, left, lift, *twice)]
    yield "--tasks, plans", wrong_rows(sas, [*words, *plans], judged[:2] + rest, cwd=folder)
    rows = [(blocks, row[1], *row[2:]) for row in judged[:2]]
    yield "--task, plans", wrong_rows(sas, ["--task", blocks, *plans], rows, cwd=folder)
    yield "--task, folders", wrong_rows(sas, ["--task", blocks, "runs/a", "runs/b/blocks", "runs/b/z"], [
        *rows, (blocks, "", NO_ANSWER, "no plan in runs/b/z/p02"),
    ], cwd=folder)
    for jobs in ("1", "3"):
        words = f"{sys.executable} -m sas table --jobs {jobs} --task <(cat {blocks}) runs/a runs/b/blocks"
        ran = ended("bash", "-c", words, cwd=folder, env=environment(sas))
        yield f"--task, a pipe, --jobs {jobs}", differs([it["verdict"] for it in rows_in(ran.stdout)], ["valid", "invalid"])
    for words, warned in ((["runs/b/blocks"], True), (["--task", blocks, "runs/a"], False), (["--tasks", "tasks", "runs/a"], False)):
        ran, rows = table(sas, *words, cwd=folder)
        yield f"a warning, {words}", differs(b"warning: each task is the one beside its plans" in ran.stderr, warned)
        yield f"a task that a planner wrote, {words}", differs({row["verdict"] for row in rows} - {NO_ANSWER}, {"valid"})


def pattern_tests(_, sas, folder):
    """Yields patterns. They could show a name that is taken for another, a value of a column that is another one's, and what doesn't
    match and is left out."""
    make(folder, {"runs/x-1/q,1/sas_plan": PLAN, "runs/x-1/q,1/output.sas": TASK, "runs/y-10/b.plan": PLAN, "runs/y-10/a.plan": PLAN[:20]})
    make(folder, {"runs/y-2/c.plan": PLAN, "runs/file": b"", "runs/z-3/sub/none": b"", "task.sas": TASK})
    os.symlink("x-1", f"{folder}/runs/v-1")
    task, columns = ["--task", "task.sas"], ("plan", "planner", "number", "problem", "verdict", "reason")
    cut, valid = ("refused", "line 2: end"), ("valid", "")
    for pattern, rows in (
        ("runs/{planner}-{number}/{problem}.plan", [
            ("", "x", "1", "", NO_ANSWER, "no plan in runs/x-1"),
            ("runs/y-2/c.plan", "y", "2", "c", *valid),
            ("runs/y-10/a.plan", "y", "10", "a", *cut),
            ("runs/y-10/b.plan", "y", "10", "b", *valid),
            ("", "z", "3", "", NO_ANSWER, "no plan in runs/z-3"),
            ("runs/v-1", "", "", "", PASSED_OVER, LINK),
        ]),
        ("runs/{planner}/{problem}", [
            ("runs/x-1/q,1/sas_plan", "x-1", None, "q,1", *valid),
            ("runs/y-2/c.plan", "y-2", None, "c.plan", *valid),
            ("runs/y-10/a.plan", "y-10", None, "a.plan", *cut),
            ("runs/y-10/b.plan", "y-10", None, "b.plan", *valid),
            ("", "z-3", None, "sub", NO_ANSWER, "no plan in runs/z-3/sub"),
            ("runs/file", "", None, "", PASSED_OVER, "not a folder"),
            ("runs/v-1", "", None, "", PASSED_OVER, LINK),
        ]),
        (f"{folder}/runs/y-[!1]*/?.plan", [(f"{folder}/runs/y-2/c.plan", None, None, None, *valid)]),
        ("runs/y-2/{problem}/sas_plan", [("runs/y-2/c.plan", None, None, "", PASSED_OVER, "not a folder")]),
        ("runs/z-3/sub/q/{problem}", [("runs/z-3/sub/q", None, None, "", NO_ANSWER, "folder: No such file or directory")]),
        ("runs/[z]-3/sub/q{problem}/x", [("runs/z-3/sub", None, None, "", PASSED_OVER, "nothing in it matches q{problem}")]),
        ("runs/y-2/c.plan", [("runs/y-2/c.plan", None, None, None, *valid)]),
        ("none/{problem}", [("none", None, None, "", NO_ANSWER, "folder: No such file or directory")]),
    ):
        yield f"--plans {pattern}", wrong_rows(sas, [*task, "--plans", pattern], rows, columns, cwd=folder)
    yield "--plans, names in folders", wrong_rows(sas, [*task, "--plans", "{problem}.plan", "runs/y-10"], [
        ("runs/y-10/a.plan", None, None, "a", *cut), ("runs/y-10/b.plan", None, None, "b", *valid),
    ], columns, cwd=folder)
    names, of = ("a[b", "a^b", "a!b", "a\\b", "a.b", "a-b", "a\nb", "ab", "{ab}"), importlib.import_module("sas._patterns").NamePattern.of
    for pattern, expected in {
        "a[[]b": "a[b", "a[^]b": "a^b", "a[!]b": "a!b", "a[\\]b": "a\\b", "a.b": "a.b", "a[+-.]b": "a.b a-b", "[{]ab}": "{ab}",
        "a[!^!.-]b": "a[b a\\b a\nb", "a*b": " ".join(names[:-1]), "a?b": " ".join(names[:-2]), "a{x}b": " ".join(names[:-2]),
    }.items():  # fmt: skip
        yield f"the pattern {pattern}", differs(" ".join(name for name, _ in of(pattern).matches(names)), expected)
    yield "parts match as little as they can", differs(dict(of("{a}-{b}-*{c}").matches(["1-2-3-4"])), {"1-2-3-4": ("1", "2", "4")})
    for words in (["{task}/x"], ["{a}/{a}"], [""], ["a/b", "runs"], ["x", f"{folder}/task.sas"], ["[z-a]"]):
        ran = tables(sas, "--plans", *words, cwd=folder)
        yield f"--plans {words}", [] if ran.returncode == 2 and not ran.stdout and ran.stderr else [f"{ran}"]


def list_tests(_, sas, folder):
    """Yields lists of pairs. They could show a pair that is lost, a name that is read as another, a line that spoils others, and a column
    that is another one's."""
    make(folder, {"t.sas": TASK, "b.sas": BLOCKS, "p": PLAN, 'q, "x"\n': PLAN, "r\udcff": PLAN, "b": BLOCKS_PLAN})
    missing = NO_ANSWER, "plan: No such file or directory"
    os.mkfifo(f"{folder}/pipe")
    one, other = ("t.sas", "p", "valid", ""), ("b.sas", "b", "valid", "")
    for name, text, rows in (
        ("without a head", b"t.sas,p\n\nb.sas,b\nt.sas,p\n", [one, other, one]),
        ("with a head", b"x,plan,task\n1,p,t.sas\n", [one]),
        ("of another program", b"\xef\xbb\xbftask,plan\r\nt.sas,p\r\n", [one]),
        ("no end", b"t.sas,p", [one]),
        ("hard names", b't.sas,"q, ""x""\n"\nt.sas,r\xff\n', [("t.sas", 'q, "x"\n', "valid", ""), ("t.sas", "r\udcff", "valid", "")]),
        ("one word", b"t.sas\nt.sas,p\n", [("t.sas", "", NO_ANSWER, "no plan"), ("t.sas", "p", "valid", "")]),
        ("no names", b"t.sas,\n,p\n", [("t.sas", "", NO_ANSWER, "no plan"), ("", "p", NO_ANSWER, "task: No such file or directory")]),
        ("no files", b"t.sas,none\nnone,p\n", [("t.sas", "none", *missing), ("none", "p", NO_ANSWER, "task: No such file or directory")]),
        ("pipes", b"pipe,p\nt.sas,pipe\n", [
            ("pipe", "p", NO_ANSWER, "task: not an ordinary file"), ("t.sas", "pipe", NO_ANSWER, "plan: not an ordinary file"),
        ]),
        ("a table", f"{COLUMNS}\nt.sas,p,invalid,,,,,,,x\n".encode(), [one]),
    ):
        path = put(f"{folder}/list", text)
        yield f"--list, {name}", wrong_rows(sas, ["--list", path], rows, cwd=folder)
        yield f"--list -, {name}", wrong_rows(sas, ["--list", "-", "--jobs", "2"], rows, cwd=folder, input=text)
    text = b"task,plan\nt.sas,p\x00q\n\x00,p\nt.sas,p\n"
    ran, rows = table(sas, "--list", "-", cwd=folder, input=text)
    got = [row["verdict"] for row in rows]
    yield "--list, NUL", [] if got == [NO_ANSWER, NO_ANSWER, "valid"] and ran.returncode == 3 else [f"{ran}"]
    ran, rows = table(sas, "--list", "-", cwd=folder, input=b"plan,planner,domain,task\np,A,d 1,t.sas\np,,,t.sas\n")
    yield "--list, other columns", differs([(row["planner"], row["domain"]) for row in rows], [("A", "d 1"), ("", "")])
    for words in (["--list", "none"], ["--list", folder], ["--list", "list", "x"], ["--list", "list", "--task", "t.sas"]):
        ran = tables(sas, *words, cwd=folder)
        got, expected = (ran.returncode, ran.stdout, ran.stderr.count(b"\n")), (3, b"", 1) if len(words) == 2 else (2, b"", 5)
        yield f"{words}", differs(got, expected)
    ran = tables(sas, "--list", "-", cwd=folder, input=b"")
    yield "--list, nothing", [] if (ran.returncode, ran.stdout) == (2, b"") and ran.stderr.count(b"\n") == 1 else [f"{ran}"]


def column_tests(_, sas, folder):
    """Yields what a table has beside verdicts. They could show a sum where the steps are at fault, the size of another file, and a time
    that is rounded, or is that of another place on earth."""
    plans = {
        "valid": PLAN,
        "cost line": PLAN.replace(b"= 4", b"= 9"),
        "step": PLAN.replace(b"(take f2)\n", b"").replace(b"= 4", b"= 9"),
        "goal": b"(take f1)\n; cost = 9 (unit cost)\n",
    }
    moments = {"valid": 1_000_000_001, "cost line": 1_700_000_000_123_456_789, "step": 0, "goal": -1_000}
    make(folder, {"t.sas": TASK, "b.sas": BLOCKS, **plans, "packed": gzip.compress(PLAN)})
    for name, moment in moments.items():
        os.utime(f"{folder}/{name}", ns=(0, moment))
    rows = [
        ("valid", "4", "4", "", "71", "1970-01-01T00:00:01.000000Z"),
        ("cost line", "", "", "4", "71", "2023-11-14T22:13:20.123456Z"),
        ("step", "", "", "", "61", "1970-01-01T00:00:00.000000Z"),
        ("goal", "", "", "", "33", "1969-12-31T23:59:59.999999Z"),
    ]
    columns = "plan", "steps", "cost", "sum", "bytes", "modified"
    for zone in ("UTC", "Asia/Kathmandu"):
        words, env = ["t.sas", *plans], {**environment(sas), "TZ": zone}
        ran = ended(sys.executable, "-m", "sas", "table", *words, env=env, cwd=folder)
        got = [tuple(row[name] for name in columns) for row in rows_in(ran.stdout)]
        yield f"sum, bytes and modified, {zone}", differs(got, rows)
    _, rows = table(sas, "t.sas", "packed", "none", cwd=folder)
    got = [(row["bytes"], bool(row["modified"])) for row in rows]
    yield "the bytes of a compressed file, and of none", differs(got, [(str(len(gzip.compress(PLAN))), True), ("", False)])
    ran = ended(sys.executable, "-m", "sas", "table", "t.sas", "valid", "--json", cwd=folder, env=environment(sas))
    row = json.loads(ran.stdout)
    yield "numbers in JSON", differs([row[name] for name in ("steps", "cost", "sum", "bytes")], [4, 4, None, 71])


# the runs of two planners: the plan of each, if there is one
RUNS = {
    "old/blocks/p01": DEAR_BLOCKS,
    "old/lift/p01": LIFT_PLAN,
    "old/lift/p02": None,
    "new/blocks/p01": BLOCKS_PLAN,
    "new/lift/p01": DEAR_LIFT,
    "new/free/p01": NO_STEPS,
    "cut/lift/p01": LIFT_PLAN[:30],
    "cut/lift/p99": LIFT_PLAN,
}
# Worked out by hand. The best known costs are 6 (found), 5 (of the file of costs), 0. old: 6 / 8 + 5 / 7 + 0 = 1.4643;
# new: 6 / 6 + 5 / 9 + 0 / 0 = 1 + 0.5556 + 1; cut: 0. The times: old needs 17.3205 s = sqrt(300) s for blocks, so 1 - 1 / 2, and 300 s for
# lift; new 1 s, 0.1 s, and for free 900 s; cut found nothing in its 2 s, and another task than those that there are.
COSTS = b"problem,domain,cost\np01,lift,5\np01,blocks,7\np02,lift,1\np09,lift,1\n"
TIMES = b"""planner,domain,problem,seconds
old,blocks,p01,17.320508075688775
old,lift,p01,300
new,blocks,p01,1
new,lift,p01,1e-1
new,free,p01,900
cut,lift,p01,2
"""
SCORES = """\
planner,domain,tasks,coverage,score,agile
cut,blocks,1,0,0.0,0.0
cut,free,1,0,0.0,0.0
cut,lift,2,0,0.0,0.0
cut,,4,0,0.0,0.0
new,blocks,1,1,1.0,1.0
new,free,1,1,1.0,0.0
new,lift,2,1,0.5556,1.0
new,,4,3,2.5556,2.0
old,blocks,1,1,0.75,0.5
old,free,1,0,0.0,0.0
old,lift,2,1,0.7143,0.0
old,,4,2,1.4643,0.5
"""
BEST = """\
task,plans,valid,best_cost,best_plan
tasks/lift/p01.sas,3,2,7,runs/old/lift/p01/sas_plan
tasks/blocks/p01.sas,4,4,6,runs/new/blocks/p01/sas_plan
tasks/free/p01.sas,1,1,0,runs/new/free/p01/sas_plan
tasks/lift/p02.sas,0,0,,
,1,0,,
"""


def make_scored(folder):
    """Makes the runs that are scored. Returns the words that name them."""
    make(f"{folder}/tasks", {"blocks/p01.sas": BLOCKS, "lift/p01.sas": LIFT, "lift/p02.sas": LIFT, "free/p01.sas": WITHOUT_GOAL})
    for place, plan in RUNS.items():
        make(f"{folder}/runs/{place}", {"planner.log": b"", **({"sas_plan": plan} if plan else {})})
    # plans that aren't cheaper, one of the same cost
    make(f"{folder}/runs/new/blocks/p01", {"sas_plan.2": DEAR_BLOCKS, "sas_plan.3": BLOCKS_PLAN})
    make(folder, {"costs.csv": COSTS, "times.csv": TIMES})
    return ["--tasks", "tasks", "--plans", "runs/{planner}/{domain}/{problem}"]


def score_tests(_, sas, folder):
    """Yields scores that were worked out by hand. They could show a formula that is another one, a best known cost that isn't the lowest,
    a task that isn't counted for a planner without a run, and a number of another run."""
    runs = make_scored(folder)
    known = ["--reference", "costs.csv", "--times", "times.csv"]
    ran = tables(sas, *runs, "--summary", *known, cwd=folder)
    yield "scores", differs((ran.returncode, ran.stdout.decode()), (3, SCORES))
    note = b"python -m sas table: costs.csv: 1 records are about nothing in the table\n"
    said = b"10 rows of 4 tasks: 7 valid, 0 invalid, 1 refused, 2 without an answer\n"
    yield "what is said of scores", differs(ran.stderr, note + said)
    ran = tables(sas, *runs, "--summary", cwd=folder)
    lines = [line for line in ran.stdout.decode().splitlines() if ",," in line]
    yield "scores without files", differs(lines, ["cut,,4,0,0.0", "new,,4,3,2.7778", "old,,4,2,1.75"])
    ran = tables(sas, *runs, "--summary", "--json", *known, cwd=folder)
    rows = [json.loads(line) for line in ran.stdout.splitlines()]
    yield "scores in JSON", differs([[str(it) for it in row.values()] for row in rows], list(csv.reader(SCORES.splitlines()[1:])))
    pattern = [*runs[:3], "runs/{planner}/*/*"]
    lines = [b"planner,tasks,coverage,score", b"cut,4,0,0.0", b"new,4,3,2.7778", b"old,4,2,1.75"]
    yield "scores by planner", differs(tables(sas, *pattern, "--summary", cwd=folder).stdout.splitlines(), lines)
    lines = [b"tasks,coverage,score", b"4,3,3.0"]
    yield "scores of all", differs(tables(sas, *runs[:2], "--summary", "runs", cwd=folder).stdout.splitlines(), lines)
    rows = [f"tasks/{place[4:]}.sas,runs/{place}/sas_plan,{place[:3]}\n" for place, plan in list(RUNS.items())[:-1] if plan]
    text = "".join(["task,plan,planner\n", *reversed(rows)]).encode()
    lines = [b"planner,tasks,coverage,score", b"cut,3,0,0.0", b"new,3,3,2.7778", b"old,3,2,1.75"]
    yield "scores of a list", differs(tables(sas, "--list", "-", "--summary", cwd=folder, input=text).stdout.splitlines(), lines)
    got = tables(sas, *runs[:2], "runs/old", "runs/new", "runs/cut", "--best", cwd=folder).stdout.decode()
    yield "the best plans", differs(sorted(got.splitlines()), sorted(BEST.splitlines()))
    ran = tables(sas, *runs, "--best", "-o", "plans.csv", cwd=folder)
    yield "the best plans, and the rows", differs(sorted(ran.stdout.decode().splitlines()), sorted(BEST.splitlines()))
    rows = tables(sas, *runs, cwd=folder).stdout
    yield "the rows, in a file", differs(without_files(read(f"{folder}/plans.csv")), rows)
    yield from known_tests(sas, folder, runs)


def known_tests(sas, folder, runs):
    """Yields files of costs and times that aren't right."""
    for name, text, status in (
        ("no number", b"task,cost\nx,1.5\n", 2),
        ("a sign", b"task,cost\nx,-1\n", 2),
        ("no value", b"task,cost\nx\n", 2),
        ("twice", b"task,cost\nx,1\ny,1\nx,1\n", 2),
        ("no column", b"task,price\nx,1\n", 2),
        ("another column", b"task,owner,cost\nx,y,1\n", 2),
        ("only costs", b"cost\n1\n", 2),
        ("empty", b"", 2),
        ("a folder", None, 3),
        ("well", b"\xef\xbb\xbftask,cost\r\ntasks/lift/p01.sas,5\r\n", 0),
    ):
        path = folder if text is None else put(f"{folder}/known", text)
        ran = tables(sas, *runs, "--summary", "--reference", path, cwd=folder)
        well = ran.returncode == status and not ran.stdout and ran.stderr.count(b"\n") == 1
        yield f"--reference, {name}", [] if well or (status == 0 and b"new,lift,2,1,0.5556" in ran.stdout) else [f"{ran}"]
    for seconds, status in (("nan", 2), ("inf", 2), ("-1", 2), ("1,5", 3), ("", 2), ("0", 3), ("1.", 3)):
        put(f"{folder}/known", f"plan,seconds\nruns/old/lift/p01/sas_plan,{seconds}\n")
        ran = tables(sas, *runs, "--summary", "--times", "known", cwd=folder)
        yield f"--times, {seconds}", differs((ran.returncode, b"old,lift,2,1,1.0,1.0" in ran.stdout), (status, status == 3))
    for words in (["--reference", "costs.csv"], ["--times", "times.csv", "--best"], ["--best", "--summary"], ["--resume"]):
        ran = tables(sas, *runs, *words, cwd=folder)
        yield f"{words}", [] if ran.returncode == 2 and not ran.stdout else [f"{ran}"]
    scores = importlib.import_module("sas._scores")
    for (best, cost), score in {(0, 0): 1, (0, 5): 0, (3, 4): 0.75, (2**64 - 1, 2**64 - 1): 1}.items():
        yield f"the score of {cost} where {best} is known", differs(float(scores.satisficing(best, cost)), score)
    for seconds, score in {0: 1, 1: 1, 300: 0, 301: 0, 1e300: 0, 300**0.25: 0.75}.items():
        yield f"the score of {seconds} s", differs(round(scores.agile(seconds), 12), score)


def resume_tests(_, sas, folder):
    """Yields tables that were cut off at any byte, and go on. They could show a row that is lost, twice there or broken, a row of another
    plan in front of those that are judged, and a table of another form that is overwritten."""
    make(folder, {"t.sas": TASK, "1": PLAN, 'q, "x"\n\r\n': PLAN, "\udcff\"": PLAN[:20], "4": b"(take f1)\n; cost = 1 (unit cost)\n"})
    plans = ["1", 'q, "x"\n\r\n', "\udcff\"", "none", "4"]
    for form in ([], ["--json"], ["--why"], ["--why", "--json"]):
        words = ["t.sas", *plans, *form, "-o", "table"]
        first = ended(sys.executable, "-m", "sas", "table", *words, cwd=folder, env=environment(sas))
        whole = read(f"{folder}/table")
        yield f"a table in a file, {form}", [] if first.returncode == 3 and not first.stdout and whole.count(b"valid") > 2 else [f"{first}"]
        yield from cut_tests(f"{folder}/cut", whole, form)
        for part, jobs in ((0, "1"), (0.3, "1"), (0.6, "3"), (0.9, "1"), (1, "1")):
            put(f"{folder}/table", whole[: int(part * len(whole))])
            again = ended(sys.executable, "-m", "sas", "table", *words, "--resume", "--jobs", jobs, cwd=folder, env=environment(sas))
            yield f"a table of which {part} is there, {form}", differs((again, read(f"{folder}/table")), (first, whole))
        for name, others in (
            ("other plans", words[:2] + words[3:]),
            ("fewer plans", [*words[:5], *words[6:]]),
            ("others first", ["t.sas", "4", *words[1:]]),
        ):
            put(f"{folder}/table", whole)
            ran = ended(sys.executable, "-m", "sas", "table", *others, "--resume", cwd=folder, env=environment(sas))
            well = ran.returncode == 2 and b"isn't of what is found now" in ran.stderr
            yield f"{name}, {form}", [] if well and read(f"{folder}/table") == whole else [f"{ran}"]
        for text in (b"a note", b'"', b"task,note", b"{}", b"task,plan\n", b"[1]\n"):
            ran = tables(sas, *words[:-1], put(f"{folder}/note", text), "--resume", cwd=folder)
            got = ran.returncode, read(f"{folder}/note"), b"line 1 of" in ran.stderr
            yield f"another file, {text}, {form}", differs(got, (2, text, True))
        others = [*words, "--resume", *({"--why", "--json"} - set(form))]
        ran = ended(sys.executable, "-m", "sas", "table", *others, cwd=folder, env=environment(sas))
        well = form == ["--why", "--json"] or (ran.returncode == 2 and b"isn't of a table with these columns" in ran.stderr)
        yield f"another form, {form}", [] if well and read(f"{folder}/table") == whole else [f"{ran}"]
    os.utime(f"{folder}/table", ns=(0, os.stat(f"{folder}/t.sas").st_mtime_ns - 1))
    ran = tables(sas, *words, "--resume", cwd=folder)
    said = b"python -m sas table: table: t.sas was written after rows about it\n"
    yield "a task that has changed since", differs((ran.returncode, ran.stderr, read(f"{folder}/table")), (2, said, whole))
    with open(f"{folder}/table", "r+b") as file:
        fcntl.lockf(file, fcntl.LOCK_EX)
        # another reader of the file would end the lock
        for more in ([], ["--resume"]):
            ran = tables(sas, *words, *more, cwd=folder)
            yield f"another run, {more}", differs((ran.returncode, ran.stderr), (3, b"python -m sas table: table: another run writes it\n"))
    yield "another run, the table", differs(read(f"{folder}/table"), whole)
    ran = ended(sys.executable, "-m", "sas", "table", *words, cwd=folder, env=environment(sas))
    yield "without --resume the table begins anew", differs((ran.returncode, read(f"{folder}/table")), (3, whole))
    for path, status in (("none/table", 3), (folder, 3), ("/dev/full", 3)):
        ran = tables(sas, "t.sas", "1", "-o", path, cwd=folder)
        yield f"-o {path}", [] if ran.returncode == status and not ran.stdout and b"Traceback" not in ran.stderr else [f"{ran}"]
    yield from killed_tests(sas, folder)
    runs = make_scored(folder)
    words = [*runs, "--summary", "--reference", "costs.csv", "--times", "times.csv", "-o", "scored", "--resume"]
    for size in (0, 300, 10_000):
        if size:
            put(f"{folder}/scored", read(f"{folder}/scored")[:size])
        yield f"scores of rows that were there, {size}", differs(tables(sas, *words, cwd=folder).stdout.decode(), SCORES)


def killed_tests(sas, folder):
    """Yields runs that are killed, and go on."""
    words = ["--list", "pairs", "-o", "killed"]
    put(f"{folder}/pairs", b"t.sas,1\n" * 2000)
    tables(sas, *words, cwd=folder)
    whole = read(f"{folder}/killed")
    for jobs in ("1", "3"):
        with subprocess.Popen([sys.executable, "-m", "sas", "table", *words, "--jobs", jobs], cwd=folder, env=environment(sas)) as process:
            deadline = time.monotonic() + SECONDS
            while time.monotonic() < deadline and not 5000 < os.path.getsize(f"{folder}/killed") < len(whole):
                time.sleep(0.001)
            process.kill()
        part = read(f"{folder}/killed")
        ran = tables(sas, *words, "--jobs", jobs, "--resume", cwd=folder)
        well = whole.startswith(part) and 5000 < len(part) < len(whole) and read(f"{folder}/killed") == whole
        yield f"a run that is killed, --jobs {jobs}", [] if well and ran.returncode == 0 else [f"{len(part)} of {len(whole)}, {ran}"]


def cut_tests(path, whole, form):
    """Yields what is read of a table that is cut off at any byte: its whole rows, behind which the file then ends."""
    sheets, is_json = importlib.import_module("sas._sheets"), "--json" in form
    columns = list(json.loads(whole.partition(b"\n")[0])) if is_json else whole.partition(b"\n")[0].decode().split(",")
    ends = [0, *(size for size in range(1, len(whole) + 1) if is_row_end(whole[:size], is_json))]
    wrong = []
    for size in range(len(whole) + 1):
        with contextlib.closing(sheets.Sheet(columns, is_json, put(path, whole[:size]), is_resumed=True)) as sheet:
            count = len(list(sheet.earlier()))
        end = max(end for end in ends if end <= size)
        rows = ends.index(end) if is_json else max(0, ends.index(end) - 1)
        if (count, read(path)) != (rows, whole[:end]):
            wrong.append(size)
    yield f"cut off, {form}", [] if not wrong and len(ends) == (6 if is_json else 7) else [f"at {wrong}, {ends}"]


def is_row_end(front, is_json):
    """Whether the front of a table ends with a row: a line end that isn't between quotes."""
    return front.endswith(b"\n") and (is_json or front.count(b'"') % 2 == 0)


def changing_tests(_, sas, folder):
    """Yields tasks that change while their plans are judged. They could show verdicts about two tasks in one table."""
    plans = [f"{folder}/{number}" for number in range(450)]
    changes = {
        "another task": lambda: put(f"{folder}/t.sas", BLOCKS),
        "the same length": lambda: put(f"{folder}/t.sas", TASK.replace(b"f1", b"f3")),
        "it is replaced": lambda: os.replace(put(f"{folder}/new", TASK), f"{folder}/t.sas"),
        "it is removed": lambda: os.remove(f"{folder}/t.sas"),
    }
    for path in plans:
        put(path, PLAN)
    os.remove(plans[WAITS])
    os.mkfifo(plans[WAITS])
    for name, change in changes.items():
        for jobs in ("1", "3") if name == "another task" else ("1",):
            put(f"{folder}/t.sas", TASK)
            words = [sys.executable, "-m", "sas", "table", "--jobs", jobs, f"{folder}/t.sas", *plans]
            with subprocess.Popen(words, stdout=subprocess.PIPE, stderr=subprocess.PIPE, env=environment(sas)) as process:
                rows = [process.stdout.readline() for _ in range(WAITS + 1)]
                change()
                put(plans[WAITS], PLAN)
                rows += process.communicate(timeout=SECONDS)[0].splitlines()
            got = [(row["verdict"], row["reason"]) for row in rows_in(b"".join(line.rstrip(b"\n") + b"\n" for line in rows))]
            before, behind = got[:WAITS], got[WAITS:]
            changed = (NO_ANSWER, "task: it changed while its plans were judged")
            # with several processes later plans may be judged before the change
            well = set(before) == {("valid", "")} and behind[0] == changed and len(got) == 450
            well = well and set(behind) <= {changed, *([("valid", "")] if jobs == "3" else [])}
            yield f"{name}, --jobs {jobs}", [] if well else [f"{collections.Counter(got)}, {behind[:2]}"]


def once_tests(_, sas, folder):
    """Yields how often a task is read. They could show one that is read again for each 200 plans, or for a plan that is lost."""
    judging, finding = (importlib.import_module(f"sas.{it}") for it in ("_judging", "_finding"))
    make(folder, {"t.sas": TASK, "other.sas": TASK, "p": PLAN})
    counts, made = collections.Counter(), judging.Task

    class Counted(made):
        def _read(self, content):
            counts["read"] += 1
            super()._read(content)

    judging.Task = Counted
    try:
        for name, tasks, count in (("one task", ["t.sas"] * 1000, 1), ("two tasks", ["t.sas"] * 450 + ["other.sas"] * 450, 2)):
            counts.clear()
            found = (finding.Found(f"{folder}/{task}", finding.Item(f"{folder}/p")) for task in tasks)
            judge, orders = judging.Judge((), 1 << 32, False, None), judging.Orders(())
            rows = [row for work in finding.works_of(found) for row in filter(None, judge.rows(orders.of(work)))]
            got = counts["read"], {row["verdict"] for row in rows}, len(rows)
            yield f"{name} is read once", differs(got, (count, {"valid"}, len(tasks)))
    finally:
        judging.Task = made
    yield from lost_tests(sas, folder)


KILLED = "the process ended by signal 9"
# what goes wrong in a process that judges, and how many plans have this reason
LOST = {
    "a task that ends each process": ("b'lit(hall)' in file", {f"task: {KILLED}": 2202, "": 1}),
    "a plan that ends its process": ("file == b'deadly'", {f"plan: {KILLED}": 2, "": 2201}),
}
KILL = """
import os, sas, sas._judging as it
def killing(call):
    def called(*words):
        file = bytes(words[-1])
        if {}:
            os.write(os.open("kills", os.O_WRONLY | os.O_APPEND | os.O_CREAT), b"x")
            os.kill(os.getpid(), 9)
        return call(*words)
    return called
it.Task = type("Task", (sas.Task,), {{"_read": killing(sas.Task._read), "plan": killing(sas.Task.plan)}})
"""


def lost_tests(sas, folder):
    """Yields runs in which processes end at a task or a plan. They could show plans that are lost with another, and a task that is tried
    again for each plan."""
    make(folder, {"b.sas": BLOCKS, "b": BLOCKS_PLAN, "deadly": b"deadly"})
    package = os.path.dirname(os.path.dirname(sas.__file__))
    pairs = ["t.sas,p"] * 200 + ["t.sas,deadly"] * 2 + ["t.sas,p"] * 2000 + ["b.sas,b"]
    for name, (wrong, expected) in LOST.items():
        for jobs in ("1", "3"):
            words = [sys.executable, "-c", f"{KILL.format(wrong)}\n{BY_PATH}", package, "table", "--list", "-", "--jobs", jobs]
            put(f"{folder}/kills", b"")
            ran = ended(*words, cwd=folder, env=environment(sas), input="\n".join(pairs).encode())
            rows = rows_in(ran.stdout)
            got = collections.Counter(row["reason"] for row in rows)
            said = [row["plan"] for row in rows] == [pair.partition(",")[2] for pair in pairs]
            yield f"{name}, --jobs {jobs}", [] if got == expected and said and ran.returncode == 3 else [f"{got}, {ran.stderr[:500]}"]
            count = len(read(f"{folder}/kills"))
            yield f"{name}, --jobs {jobs}, how often", [] if 2 <= count <= 1 + int(jobs) else [f"{count} times"]


def memory_tests(_, sas, folder):
    """Yields the memory of long runs. They could show rows, names or results that are kept."""
    make(folder, {"t.sas": TASK, "p": PLAN})
    peaks = []
    for count in (500, 50_000):
        code = f"for _ in range({count}): print('t.sas,p')"
        command = f"'{sys.executable}' -c \"{code}\" | '{sys.executable}' -c '{PEAK}' -m sas table --list - --jobs 2 --summary"
        ran = ended("bash", "-c", command, cwd=folder, env=environment(sas))
        peaks.append(int(ran.stdout.splitlines()[-1]))
        yield f"{count} plans", [] if f"{count} valid".encode() in ran.stderr else [f"{ran}"]
    yield "the memory of 500 and of 50,000 plans, in kB", [] if peaks[1] - peaks[0] < 4000 else [f"{peaks}"]
    begun = put(f"{folder}/begun", b"")

    def do(number):
        if number == 0:
            time.sleep(1)
            yield len(read(begun))
        else:
            os.write(os.open(begun, os.O_WRONLY | os.O_APPEND), b"x")
            yield number

    first, *rest = importlib.import_module("sas._workers").Team(range(1000), do, None).results(3)
    yield "works that are begun while the first one lasts", [] if first < 12 and rest == list(range(1, 1000)) else [f"{first}, {rest[:9]}"]


# runs a command, and prints the most memory that one of its processes has taken
PEAK = """import resource, subprocess, sys
subprocess.run([sys.executable, *sys.argv[1:]])
print(resource.getrusage(resource.RUSAGE_CHILDREN).ru_maxrss)"""


def page_tests(program, sas, folder):
    """Yields the commands of the page for organizers, with a planner that cheats, one that crashes, and one that writes half a plan; and
    the flags of the help. They could show a page that is wrong, and a flag that no page names."""
    flags = re.findall(r"^  (--[\w-]+|-o)\b", tables(sas, "--help").stdout.decode(), re.MULTILINE)
    pages = "".join(text_of(os.path.join(TOP, page)) for page in (PAGE, "docs/GUIDE.md"))
    yield "flags", [flag for flag in flags if not re.search(rf"(?<![\w-]){flag}(?![\w-])", pages)] if len(flags) > 10 else [f"{flags}"]
    shutil.copytree(os.path.join(TOP, "examples"), os.path.join(folder, "examples"))
    shutil.copy(program, os.path.join(folder, "sas"))
    commands = transcripts(text_of(os.path.join(TOP, PAGE)))
    for command, output in commands:
        ran = ended("bash", "-c", command, cwd=folder, env={**environment(sas), "LC_ALL": "C"}, stderr=subprocess.STDOUT)
        yield f"{PAGE}: {command}", differs(ran.stdout.decode(), output)
    yield PAGE, [] if len(commands) > 10 else [f"{commands}"]


TESTS = (
    odd_tests, task_tests, pattern_tests, list_tests, column_tests, score_tests,
    resume_tests, changing_tests, once_tests, memory_tests, page_tests,
)


def tests(program, folder):
    """Yields all of these over one package, each kind in a folder of its own."""
    os.chdir(TOP)
    yield from tests_by(TESTS, program, folder, package_in)


if __name__ == "__main__":
    harness.main(tests)
