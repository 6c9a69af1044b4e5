#!/usr/bin/env python3
"""Times a valid plan of a task that the library holds: as a file, without its last step and with reasons, with a trace, and by the numbers
of its operators; beside reading the task, and beside `sas_plan`, which reads both.

    bench/library.py TASK PLAN [--library FOLDER] [--count N] [--rounds R]

FOLDER is what `make lib` makes, library/out. A small program in C is built over it, with $CC or cc (library.c). Of R rounds the best
time counts; in each the task is read once and its plan is judged N times. Times are processor time, in microseconds.
"""
import os
import shlex
import subprocess
import sys
import tempfile

import machine

HERE = os.path.dirname(os.path.abspath(__file__))


def built(library, folder):
    """Returns the program that measures, built in a folder."""
    path = os.path.join(folder, "measure")
    command = [*shlex.split(os.environ.get("CC") or "cc"), "-O2", "-I", library, os.path.join(HERE, "library.c")]
    subprocess.run([*command, os.path.join(library, "libsas.a"), "-o", path], check=True)
    return path


def main():
    library = os.path.join(os.path.dirname(HERE), "library/out")
    given = machine.arguments(__doc__, "task", "plan", library=library, count=1000, rounds=10)
    with tempfile.TemporaryDirectory() as folder:
        command = [built(given.library, folder), given.task, given.plan, str(given.count), str(given.rounds)]
        ran = subprocess.run(command, stdout=subprocess.PIPE, check=False, encoding="utf-8")
    if ran.returncode:
        sys.exit("the plan isn't valid, or the answers differ")
    read, held, why, trace, by_numbers, both, said = ran.stdout.rstrip("\n").split(" ", 6)
    heads = ["Task", "Plan", "Answer", "Read", "A plan of it", "Reasons", "Trace", "By numbers", "`sas_plan`"]
    machine.print_head(heads, os.path.join(given.library, "libsas.so"))
    names = map(os.path.basename, (given.task, given.plan))
    machine.print_row([*names, said, read, held, why, trace, by_numbers, both])


main()
