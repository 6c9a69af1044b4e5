"""The command: its arguments, `sas` as a program or as a library, and the exit status."""
import argparse
import contextlib
import functools
import io
import os
import re
import shutil
import subprocess
import sys
import tempfile

from .answer import Moves, Plan
from .page import page, summary
from .task import lines, text

STATUSES = ("Exit status: 0 if every plan is valid; 1 if one isn't, or a file is refused; 2 for "
            "invalid arguments; 3 if a file or a device fails, or sas can't be run. At 3 the "
            "report isn't written, or not in full.")
# bytes of the longest input, of the longest answer about a plan, and of what is read at once
LIMIT, SHOWN, PIECE = 4294967296, 1 << 28, 1 << 20
TOO_LARGE = "the plan is too large to show: %s: sas prints %d bytes about it"


class NoAnswer(Exception):
    """There is no report. It says why."""


class Program:
    """`sas`, run over copies of the files, so that all its answers are of the same bytes."""

    def __init__(self, path, task):
        self.path, self.task = path or program(), copy(task)
        self.version = text(b" ".join(self.printed("sas", [0], ["--version"])))

    def printed(self, label, statuses, words, *files):
        """Yields the lines that `sas` prints about files."""
        names, size = ["/dev/fd/%d" % file.fileno() for file in files], 0
        with tempfile.TemporaryFile() as errors:
            try:
                ran = subprocess.Popen(
                    [self.path, *words, *names], pass_fds=[file.fileno() for file in files],
                    stdin=subprocess.DEVNULL, stdout=subprocess.PIPE, stderr=errors)
            except OSError as fault:
                raise NoAnswer("%s can't be run: %s" % (self.path, fault.strerror)) from fault
            with ran:
                for line in iter(functools.partial(ran.stdout.readline, SHOWN), b""):
                    size += len(line)
                    if size <= SHOWN:
                        yield line.rstrip(b"\n")
            errors.seek(0)
            said = text(errors.read(PIECE).strip(), 1000)
        if ran.returncode not in statuses:
            said = said or "it ended with status %d" % ran.returncode
            raise NoAnswer("%s: %s" % (self.path, said))
        if size > SHOWN:
            raise NoAnswer(TOO_LARGE % (label, size))

    def answer(self, label, plan):
        with copy(plan) as file:
            yield from self.printed(label, [0, 1], ["trace", "--why"], self.task, file)


class Library:
    """libsas, called by its module for Python."""

    def __init__(self, module, task):
        self.module, self.task, self.version = module, task, "sas " + module.version()

    def answer(self, label, plan):
        try:
            trace = self.module.trace(self.task, plan, max_answer_bytes=SHOWN)
            yield from lines(trace.text)
            if not trace:  # no call has both, so here the verdict comes once more
                why = self.module.plan_why(self.task, plan, max_answer_bytes=SHOWN)
                yield from lines(why.text)
        except self.module.AnswerTooLong as fault:
            raise NoAnswer(TOO_LARGE % (label, fault.size)) from fault


def copy(data):
    """Returns a file that holds this. It has no name, so none is left behind, however this ends."""
    file = tempfile.TemporaryFile()
    file.write(data)
    file.flush()
    return file


def label(word):
    return text(os.fsencode(word), LIMIT)


def read(name, most):
    """Returns the bytes of a file. Each is read once, as it may be a pipe."""
    held = io.BytesIO()
    with open(0 if name == "-" else name, "rb", closefd=name != "-") as file:
        for piece in iter(functools.partial(file.read, PIECE), b""):
            held.write(piece)
            if held.tell() > most:
                raise NoAnswer("input too long: " + label(name))
    return held.getvalue()


def write(name, data):
    with open(1 if name == "-" else name, "wb", closefd=name != "-") as file:
        file.write(data)


def say(words, stream=2):
    """Writes a line on a standard stream, if that is possible."""
    with contextlib.suppress(OSError):
        os.write(stream, os.fsencode(words + "\n"))


def replace_closed():
    """Opens /dev/null for each standard stream that was closed at the start, or a file would take
    its place. To read or to write it fails, as it should."""
    modes = os.O_WRONLY, os.O_RDONLY, os.O_RDONLY
    for stream, mode in zip((sys.stdin, sys.stdout, sys.stderr), modes):
        if stream is None:
            os.open(os.devnull, mode)


class Parser(argparse.ArgumentParser):
    """Writes its help and its errors as all else is written."""

    def print_help(self, file=None):
        write("-", self.format_help().encode())

    def error(self, message):
        say("%s%s: error: %s" % (self.format_usage(), self.prog, message))
        sys.exit(2)


def options(words):
    parser = Parser(prog="sas-report", epilog=STATUSES,
                    description="Writes one HTML file that shows plans, and what sas says of them.")
    add = parser.add_argument
    add("task", metavar="TASK", help="the task, output.sas; - is standard input")
    add("plans", metavar="PLAN", nargs="+", help="a plan, sas_plan; several are compared")
    add("-o", metavar="FILE", default="report.html", help="the report (%(default)s); - is stdout")
    add("--sas", metavar="PROGRAM", help="the program sas (beside sas-report, or on the PATH)")
    add("--max-bytes", metavar="N", type=int, default=LIMIT, help="the longest file (%(default)s)")
    add("--version", "-V", action="store_true", help="print the version of sas; alone")
    given = parser.parse_args(words)
    inputs = [given.task, *given.plans]
    if inputs.count("-") > 1:
        parser.error("standard input used twice")
    for name in filter(os.path.exists, inputs if os.path.exists(given.o) else ()):
        if os.path.samefile(name, given.o):
            parser.error("the report would replace " + label(name))
    return given


def program():
    """Returns where `sas` is: beside this command or in the folder above, else on the PATH. Under
    another name than `sas-report`, such as `NAME-report`, it looks for `NAME`."""
    here, command = os.path.split(os.path.realpath(sys.argv[0]))
    name = command[:-len("-report")] if command.endswith("-report") else "sas"
    places = (shutil.which(os.path.join(it, name)) for it in (here, os.path.dirname(here)))
    return next(filter(None, places), name)


def natural(name):
    """Returns what names are sorted by, so that `.2` comes before `.10`."""
    return [(len(it), it) if it.isdigit() else (0, it) for it in re.split("([0-9]+)", name)]


def report(given, module):
    """Writes the report, and returns whether every plan is valid."""
    task = read(given.task, given.max_bytes)
    files = {name: read(name, given.max_bytes) for name in given.plans}
    sas = Library(module, task) if module and not given.sas else Program(given.sas, task)
    moves = Moves()
    plans = [Plan(label(it), files[it], sas.answer(label(it), files[it]), moves)
             for it in sorted(given.plans, key=natural)]
    write(given.o, page(sas.version, label(given.task), task, plans, moves))
    if given.o != "-":
        say("%s: %s" % (label(given.o), summary(plans)), 1)
    return all(plan.kind == "valid" for plan in plans)


def main(words=None, module=None):
    """Runs the command, and returns its exit status. `module` is the one of the library, if that is
    to be called."""
    words = sys.argv[1:] if words is None else words
    replace_closed()
    try:
        if words in (["--version"], ["-V"]):
            sas = Library(module, b"") if module else Program(None, b"")
            write("-", ("sas-report, with %s\n" % sas.version).encode())
            return 0
        return 0 if report(options(words), module) else 1
    except OSError as fault:
        message = fault.strerror + (": " + label(fault.filename) if fault.filename else "")
    except MemoryError:
        message = "out of memory"
    except Exception as fault:  # with status 1 it would be a no
        kind = "" if isinstance(fault, NoAnswer) else type(fault).__name__ + ": "
        message = kind + str(fault)
    say("sas-report: " + " ".join(message.split()))
    return 3
