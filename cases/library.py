"""The library as its tests have it: loaded, with its calls as they are and its wrapper in Python, and built otherwise. library_calls.py,
library_wrappers.py and library_tasks.py test it, and others use it.
"""
import ctypes
import importlib
import os
import signal
import sys
import tempfile

import harness
from harness import c_compiler, ended
from texts import TOP, bytes_of

YES, NO, ROOM_TOO_SHORT, OUT_OF_MEMORY, INPUT_TOO_LONG, NO_TASK = range(6)
LIMIT = 4_294_967_296
OVER_BOTH, OVER_PLAN, OVER_TASK = ("plan", "plan_why", "trace"), ("steps",), ("check", "check_why", "mutex", "mutex_why", "show", "print")
REQUESTS = (*OVER_BOTH, *OVER_PLAN, *OVER_TASK)
# of each request over both files there is a call over a task that is held
OVER_HELD = tuple(f"task_{it}" for it in OVER_BOTH)
# a task and a plan that solves it, a group that isn't exclusive, and a task that isn't layered
FUSES, DOORWAY, LAMPS = "examples/fuses", "examples/doorway", "examples/lamps"
# what stands around a room, and how often
GUARD, AROUND = b"\xa5", 32
# how long all tests of a script may take together, in seconds
LONGEST = 3000
C_WARNINGS = ("-Wall", "-Wextra", "-pedantic", "-Werror")


class Held(ctypes.Structure):
    """What is called sas_task in sas.h."""

    _fields_ = [("is_there", ctypes.c_uint8), ("at", ctypes.c_void_p)]


class Library:
    """The library in a folder: its wrapper in Python as `sas`, and its calls as they are."""

    def __init__(self, folder):
        self.folder = folder
        self.calls = ctypes.CDLL(os.path.join(folder, "libsas.so"))
        self.calls.sas_task_free.restype = None
        self.sas = package_in(folder)

    def call(self, name, given, length):
        """Makes a call with a room of so many bytes, between others that nothing may change. Returns its number, the size
        that it reports, what is in the room then, and whether the bytes around the room are as before."""
        around = GUARD * AROUND
        memory = ctypes.create_string_buffer(around + GUARD * length + around, length + 2 * AROUND)
        size = ctypes.c_size_t(LIMIT + length)
        inputs = [part for it in given for part in raw(it)]
        room = ctypes.byref(memory, AROUND)
        number = getattr(self.calls, name)(*inputs, room, ctypes.c_size_t(length), ctypes.byref(size))
        held = memory.raw
        is_kept = held.startswith(around) and held.endswith(around) and len(held) == length + 2 * AROUND
        return number, size.value, held[AROUND : AROUND + length], is_kept


def raw(given):
    """Returns an input as a call is given it: what is held by its address, bytes by theirs and
    their length, and several words of C as they are."""
    if isinstance(given, tuple):
        return given
    if isinstance(given, Held):
        return [ctypes.byref(given)]
    return [ctypes.c_char_p(given), ctypes.c_size_t(len(given))]


def package_in(folder):
    """Returns the package of Python that is in a folder. The first one that is loaded stays the one that is imported by its name."""
    first = {name: sys.modules.pop(name) for name in list(sys.modules) if name.partition(".")[0] == "sas"}
    sys.path.insert(0, folder)
    try:
        return importlib.import_module("sas")
    finally:
        sys.path.remove(folder)
        sys.modules.update(first)


def read(name):
    return bytes_of(TOP, name)


def inputs_of(request, task, plan):
    """Returns the files that a request is given, of these two."""
    return [plan] if request in OVER_PLAN else [task] if request in OVER_TASK else [task, plan]


def answer_of(sas, request, *files):
    return getattr(sas, "print_task" if request == "print" else request)(*files)


def fault_of(call):
    """Returns the exception that a call ends with, or what it returns."""
    try:
        return call()
    except Exception as exception:  # pylint: disable=broad-except
        return exception


def failed(*command, **more):
    """Runs a command that is to say nothing, and returns what is wrong with it."""
    ran = ended(*command, **more)
    said = (ran.stdout + ran.stderr).decode(errors="replace")
    return [f"status {ran.returncode}: {said[:500]}"] if ran.returncode or said else []


def crate(library, folder):
    """Builds the crate in Rust over the library in a folder, and returns the words by which rustc uses it."""
    source, built = os.path.join(TOP, "library/rust/src/lib.rs"), os.path.join(folder, "crate")
    os.makedirs(built, exist_ok=True)
    words = ["--edition", "2021", "-D", "warnings", "--crate-type", "rlib", "--crate-name", "sas", source]
    wrong = failed("rustc", *words, "-l", "static=sas", "-L", library, "--out-dir", built)
    assert not wrong, wrong
    return ["--extern", f"sas={built}/libsas.rlib"]


def stub_library(library, folder):
    """Returns the folder of a library that only returns a number."""
    flags = ["-I", library.folder, os.path.join(TOP, "cases/library_stub.c")]
    commands = (
        [*c_compiler(), "-fPIC", "-c", *flags, "-o", f"{folder}/stub.o"],
        ["ar", "rcs", f"{folder}/libsas.a", f"{folder}/stub.o"],
        [*c_compiler(), "-shared", f"{folder}/stub.o", "-o", f"{folder}/libsas.so"],
    )
    for command in commands:
        wrong = failed(*command)
        assert not wrong, wrong
    return folder


def tests_by(makers, program, folder, load=Library):
    """Yields the tests that these functions make over a program and what is loaded of the library
    in a folder, each kind in a folder of its own."""
    # a call that doesn't end would hold the whole gate up
    signal.alarm(LONGEST)
    library = load(folder)
    for make in makers:
        with tempfile.TemporaryDirectory() as place:
            yield from harness.named(make, program, library, place)
