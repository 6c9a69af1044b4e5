#!/usr/bin/env python3
"""Tests the wrappers of the library: what a program in C++, Python or Rust gets of it, and the examples and pages about them.

    python3 cases/library_wrappers.py SAS LIBRARY

SAS is the program, and LIBRARY the folder that library/build.py made. Each function of this script that makes tests says which mistake
they could show that no proof does: the proofs don't know the wrappers.

library.cpp and library.rs make calls from these languages, library_stub.c stands in for the library. The compilers are $CC or cc, and of
gcc, clang, g++, clang++, rustc and cargo those that are there; `valgrind` is used where it is. For each tool that isn't there it prints a
line that begins with `without`.
"""
import copy
import ctypes
import functools
import glob
import os
import pickle
import re
import shutil
import sys

import harness
from harness import c_compiler, differs, ended, is_there
from large import plan_text, wide_task
from library import C_WARNINGS, DOORWAY, FUSES, INPUT_TOO_LONG, LAMPS, NO, NO_TASK, OUT_OF_MEMORY
from library import OVER_BOTH, ROOM_TOO_SHORT, YES, answer_of, crate, failed, fault_of, inputs_of
from library import package_in, read, stub_library, tests_by
from oracles.tasks import text_of
from shown import section_of, transcripts
from texts import CASES, TOP, put, table
from texts import text_of as text_of_file

# a task that a program whose room is fixed would cut off
LARGE = 2 << 20


def answer_tests(_, library, __):
    """Yields what the answers in Python say, and that they and the exceptions are the same when they were pickled or copied. They could
    show a number that is read of another line, and a pool of processes that waits for an exception for ever."""
    sas, task, plan = library.sas, read(f"{FUSES}.sas"), read(f"{FUSES}.plan")
    doorway = read(f"{DOORWAY}.sas")
    # the value's name of the task that is printed is the line of a valid plan
    printed = task.replace(b"Atom handempty()", b"plan valid: 1 steps, cost 1")
    no_operator, group = "step 1: no operator of that name", "group 0 not shown: operator 4"
    for name, answer, expected in (
        ("valid", sas.plan(task, plan), ("valid", None, 4, 4, None)),
        ("valid, traced", sas.trace(task, plan), ("valid", None, 4, 4, None)),
        ("invalid", sas.plan(doorway, plan), ("invalid", None, None, None, no_operator)),
        ("invalid, with reasons", sas.plan_why(doorway, plan), ("invalid", None, None, None, no_operator)),
        ("invalid, traced", sas.trace(doorway, plan), ("invalid", None, None, None, no_operator)),
        ("another cost", sas.plan(task, plan.replace(b"= 4", b"= 5")), ("invalid", None, None, 5, "cost is 4, not 5")),
        ("refused plan", sas.plan(task, b"junk\n"), ("refused", "plan", None, None, "line 1: keyword")),
        ("refused plan, traced", sas.trace(task, b"(take f1)\n"), ("refused", "plan", None, None, "line 2: end")),
        ("refused task", sas.plan(b"junk\n", plan), ("refused", "task", None, None, "line 1: keyword")),
        ("refused task, shown", sas.show(plan), ("refused", "task", None, None, "line 1: keyword")),
        ("not layered", sas.check_why(read(f"{LAMPS}.sas")), ("refused", "task", None, None, "rule 0: layer order")),
        ("groups", sas.mutex(doorway), ("no", None, None, None, group)),
        ("groups with reasons", sas.mutex_why(doorway), ("no", None, None, None, group)),
        ("no groups", sas.mutex(read("cases/tasks/minimal.sas")), ("yes", None, None, None, None)),
        ("layered", sas.check(task), ("yes", None, None, None, None)),
        ("printed", sas.print_task(printed), ("yes", None, None, None, None)),
        ("shown", sas.show(printed), ("yes", None, None, None, None)),
        ("steps", sas.steps(b"(plan valid: 1 steps, cost 1)\n; cost = 1 (unit cost)\n"), ("yes", None, None, None, None)),
    ):
        is_yes, text = answer
        got = answer.verdict, answer.refused_file, answer.steps, answer.cost, answer.reason
        same = (is_yes, text, bool(answer)) == (answer.is_yes, answer.text, answer.is_yes)
        yield f"Python, {name}", [] if got == expected and same else [f"{got}, not {expected}"]
        yield f"Python, {name}, printed", differs((is_yes, f"{answer}\n" if text else ""), (is_yes, text.decode()))
    for it in (sas.plan_why(doorway, plan), sas.Refused(b"task refused: \xff\n"), sas.NoTask("a"), sas.InputTooLong("b")):
        copies = pickle.loads(pickle.dumps(it)), copy.copy(it), copy.deepcopy(it)
        same = all((type(one), repr(one), str(one), vars_of(one)) == (type(it), repr(it), str(it), vars_of(it)) for one in copies)
        yield f"Python, copies of {it!r}", [] if same else [f"{copies}"]


def vars_of(it):
    return getattr(it, "__dict__", None)


def found_tests(_, library, folder):
    """Yields where the module in Python looks for the library. They could show one that is installed and isn't found."""
    shutil.copytree(os.path.join(library.folder, "sas"), os.path.join(folder, "sas"))
    env = {name: value for name, value in os.environ.items() if name not in ("LIBSAS", "LD_LIBRARY_PATH")}
    for name, more, status in (
        ("nowhere", {}, 1),
        ("by the loader", {"LD_LIBRARY_PATH": library.folder}, 0),
        ("by LIBSAS", {"LIBSAS": os.path.join(library.folder, "libsas.so")}, 0),
        ("by LIBSAS that is wrong", {"LIBSAS": "none", "LD_LIBRARY_PATH": library.folder}, 1),
    ):
        ran = ended(sys.executable, "-c", "import sas", env={**env, **more}, cwd=folder)
        last = ran.stderr.decode().splitlines()[-1:]
        well = ran.returncode == status and all(it.startswith("ImportError: sas: the library isn't found: ") for it in last)
        yield f"Python, the library is found {name}", [] if well else [f"{ran}"]


def built_examples(library, folder):
    """Yields the commands of the examples of the library whose compiler is there, each built."""
    examples, flags = os.path.join(TOP, "library/examples"), ["-O2", "-I", library.folder]
    archive = os.path.join(library.folder, "libsas.a")
    yield "held.py", [sys.executable, os.path.join(examples, "held.py")]
    for source, compiler, words in (
        ("held.c", c_compiler(), [*flags, archive]),
        ("held.cpp", ["g++"], ["-std=c++17", *flags, archive]),
        ("held.rs", ["rustc"], ["--edition", "2021", "-O"]),
    ):
        if is_there(compiler[0]):
            path = os.path.join(folder, source.replace(".", "_"))
            words = words if compiler != ["rustc"] else [*words, *crate(library.folder, folder)]
            wrong = failed(*compiler, os.path.join(examples, source), *words, "-o", path)
            assert not wrong, wrong
            yield source, [path]


def held_prints(program, task, *plans):
    """Returns what the examples do with these files: their status, and what they print."""
    checked = ended(program, "check", task)
    if checked.returncode:
        return checked.returncode, checked.stdout, b""
    answers = [ended(program, "plan", "--why", task, plan) for plan in plans]
    lines = (os.fsencode(plan) + b": " + it.stdout for plan, it in zip(plans, answers))
    return max(it.returncode for it in answers), b"".join(lines), b""


def example_tests(program, library, folder):
    """Yields the examples, each over plans of which some are valid, over a task that is refused, and without a file: they print what
    `plan --why` prints of each plan. They could show a wrapper that doesn't do what the examples say."""
    env = {**os.environ, "PYTHONPATH": library.folder}
    plans = [os.path.join(TOP, f"{it}.plan") for it in (FUSES, DOORWAY, FUSES)]
    fuses, lamps = os.path.join(TOP, f"{FUSES}.sas"), os.path.join(TOP, f"{LAMPS}.sas")
    for name, command in built_examples(library, folder):
        for words in ([fuses, *plans], [fuses, plans[0]], [lamps, *plans]):
            ran, expected = ended(*command, *words, env=env), held_prints(program, *words)
            got = ran.returncode, ran.stdout, ran.stderr
            yield f"{name} {' '.join(words)}", [] if got == expected else [f"{got}, not {expected}"]
        for words in (["none", plans[0]], [fuses, plans[0], "none"]):
            ran = ended(*command, *words, env=env)
            yield f"{name} {' '.join(words)}", [] if ran.returncode == 3 and ran.stderr else [f"{ran}"]
        if name == "held.c" and is_there("valgrind"):
            ran = watched(*command, fuses, *plans)
            yield "valgrind held.c", [] if ran.returncode == 1 and not ran.stderr else [f"{ran}"]


def lines_of_runs(sas, task):
    """Returns the calls of a run that library.cpp and library.rs make, over a task or over none, with their answers."""
    held, names = sas.Task(task) if task else None, ("run", "run_trace")
    starts = [None, [1000000], held.run_state([]).values if held else None]
    answers = ([*(getattr(held, it)([0], 1, start) for it in names), held.run_state([0], start)] if held else [None] * 3 for start in starts)
    return [(f"held {name}", answer) for each in answers for name, answer in zip((*names, "run_state"), each)]


# what is sensed before each step of the plan of the example, the exit status, and the last line that is printed
SENSED = (
    ("\n\n3=1\n", 1, "2 steps to go: step 4 will fail, put f2 feed: not applicable"),
    ("\n\n\n\n\n", 0, "0 steps to go: valid"),
    ("", 0, ""),
    ("\n0=0 1=0 7=1\n", 0, "3 steps to go: valid"),
    ("\n\n\n\n5=3\n", 1, "0 steps to go: goal fact 0 not reached"),
    ("\n\n\n4=0 2=3\n", 1, "1 steps to go: goal fact 0 not reached"),
    ("0=2\n", 1, "4 steps to go: variable 0"),
    ("99=1\n", 3, ""),
)


def monitor_tests(_, library, folder):
    """Yields the examples that watch a machine: in C and in Python they print the same. They could show a state that isn't carried on, a
    value that was sensed and is lost, and the number of a step of the rest that is taken for one of the plan."""
    env, files = {**os.environ, "PYTHONPATH": library.folder}, [os.path.join(TOP, f"{FUSES}.{it}") for it in ("sas", "plan")]
    path, source = os.path.join(folder, "monitor"), os.path.join(TOP, "library/examples/monitor")
    wrong = failed(*c_compiler(), "-std=c99", *C_WARNINGS, "-I", library.folder, f"{source}.c", f"{library.folder}/libsas.a", "-o", path)
    yield "monitor.c", wrong
    for command in ([path], [sys.executable, f"{source}.py"]):
        for sensed, status, last in SENSED:
            ran = ended(*command, *files, input=sensed.encode(), env=env)
            lines = ran.stdout.decode().splitlines() or [""]
            said = [it.partition(" ")[0] for it in lines if "steps to go" in it]
            well = (ran.returncode, lines[-1], bool(ran.stderr)) == (status, last, status == 3)
            yield f"{os.path.basename(command[-1])}, {sensed!r}", [] if well and said == list("43210")[: len(said)] else [f"{ran}"]
        for words, front in (([files[0], f"{TOP}/examples/fuses-short.plan"], "initial "), ([f"{TOP}/{LAMPS}.sas", files[1]], "task refused: ")):
            ran = ended(*command, *words, input=b"\n", env=env)
            well = ran.returncode == 1 and ran.stdout.startswith(front.encode()) and not ran.stderr
            yield f"{os.path.basename(command[-1])}, {words}", [] if well else [f"{ran}"]
    if is_there("valgrind"):
        ran = ended("valgrind", "-q", "--leak-check=full", "--error-exitcode=9", path, *files, input=SENSED[0][0].encode())
        yield "valgrind monitor.c", [] if ran.returncode == 1 and not ran.stderr else [f"{ran}"]


def answer_lines(name, answer):
    """Returns what library.cpp and library.rs print of an answer or a state, or of none."""
    if answer is None:
        return f"{name} no task\n".encode()
    if not hasattr(answer, "text"):
        return f"{name} {' '.join(map(str, (0 if answer else 1, *answer.values)))}\n".encode()
    return f"{name} {0 if answer else 1} {answer.steps or 0} {answer.cost or 0}\n".encode() + answer.text


# the requests in the order in which library.cpp and library.rs make them
IN_ORDER = ("plan", "plan_why", "trace", "check", "check_why", "mutex", "mutex_why", "show", "print", "steps")


def lines_of_wrappers(sas, task, plan):
    """Returns what library.cpp and library.rs print of a task and of a plan. What is None is no answer, as no task is held."""
    said = b"".join(answer_lines(it, answer_of(sas, it, *inputs_of(it, task, plan))) for it in IN_ORDER)
    said += answer_lines("empty", sas.plan(b"", b""))
    came, refused = sas.check(task), sas.check(plan)
    held = sas.plan(task, plan) if came else None
    by_numbers = sas.Task(task).plan_operators([0], 1) if came else None
    runs = lines_of_runs(sas, task if came else None)

    def each(name, is_held):
        names = (name, "held plan_why", "held trace")
        answers = [(word, answer_of(sas, it, task, plan) if is_held else None) for word, it in zip(names, OVER_BOTH)]
        return [*answers, ("held operators", by_numbers if is_held else None), *(runs if is_held else no_runs)]

    no_runs = lines_of_runs(sas, None)
    moved = [("moved from", None), ("moved to", held)]
    first = [*each("none", False), ("read", came), *each("held" if came else "not held", bool(came))]
    first += [*each("moved from", False), *each("moved to", bool(came))]
    parts = {
        "cpp": [*first, ("read", came), *moved, ("read", refused), ("refused", None)],
        "rs": [*each("held", True), ("elsewhere", held), ("read", refused)] if came else [("read", came), ("read", refused)],
    }
    constructed = answer_lines("constructed", held) if came else b"constructed " + came.text
    said = {"cpp": said + constructed, "rs": said}
    return {name: said[name] + b"".join(answer_lines(*it) for it in lines) for name, lines in parts.items()}


def built_wrapper(language, library, folder):
    source, path = os.path.join(TOP, f"cases/library.{language}"), os.path.join(folder, f"library_{language}")
    command = []
    if language == "rs":
        command = ["rustc", "--edition", "2021", "-D", "warnings", source, *crate(library, folder)]
    else:
        command = ["g++", "-std=c++17", "-I", os.path.join(TOP, "library"), source, os.path.join(library, "libsas.a")]
    wrong = failed(*command, "-o", path)
    assert not wrong, wrong
    return path


def long_answers(folder):
    """Writes a wide task and a plan whose reasons and trace are longer than the rooms that wrappers begin with, and returns their paths."""
    width = 500
    plan = plan_text([*(f"next {place}" for place in range(width)), *["turn", "back"] * 20], 1)
    return [put(f"{folder}/wide.sas", text_of(wide_task(width))), put(f"{folder}/wide.plan", plan)]


def wrapper_tests(_, library, folder):
    """Yields all calls of the wrappers in C++ and Rust, over a task that is layered and one that isn't, and with long answers. They could
    show a call that answers for another request or exchanges its inputs, a limit that is off by one, and a task that is freed twice, or
    never."""
    pairs = [[os.path.join(TOP, f"{name}.sas"), os.path.join(TOP, f"{FUSES}.plan")] for name in (DOORWAY, LAMPS)]
    for language, compiler in (("cpp", "g++"), ("rs", "rustc")):
        path = built_wrapper(language, library.folder, folder) if is_there(compiler) else None
        for files in [*pairs, long_answers(folder)] if path else ():
            name = os.path.basename(files[0])
            expected = 0, lines_of_wrappers(library.sas, *map(read, files))[language], b""
            ran = ended(path, *files)
            got = ran.returncode, ran.stdout, ran.stderr
            yield f"library.{language}, {name}", [] if got == expected else [f"{got}, not {expected}"[:5000]]
            if is_there("valgrind"):
                ran = watched(path, *files)
                yield f"valgrind library.{language}, {name}", [] if ran.returncode == 0 and not ran.stderr else [f"{ran}"[:5000]]


def watched(*command):
    """Returns how a command ends under valgrind: with status 9 and on standard error where it loses memory, or uses it wrongly."""
    kinds = "definite,indirect"
    words = ["--leak-check=full", f"--show-leak-kinds={kinds}", f"--errors-for-leak-kinds={kinds}", "--error-exitcode=9"]
    return ended("valgrind", "-q", *words, *command)


def number_tests(_, library, folder):
    """Yields the calls of the wrappers over a library that only returns a number. They could show a number that is taken for
    another."""
    stub = stub_library(library, folder)
    for language, compiler in (("cpp", "g++"), ("rs", "rustc")):
        path = built_wrapper(language, stub, folder) if is_there(compiler) else None
        for number, word in ((OUT_OF_MEMORY, "out of memory"), (INPUT_TOO_LONG, "input too long"), (NO_TASK, "no task")):
            # no call of the wrapper in Rust can come to that one
            if path and not (language == "rs" and number == NO_TASK):
                ran = ended(path, *[os.path.join(TOP, f"{FUSES}.sas")] * 2, env={**os.environ, "STUB": str(number)})
                lines = ran.stdout.decode().splitlines()
                others = [line for line in lines if not line.endswith(f" {word}")]
                yield f"library.{language}, number {number}", others if len(lines) > len(IN_ORDER) else [f"{ran}"]
    os.environ["LIBSAS"] = os.path.join(stub, "libsas.so")
    sas = package_in(library.folder)
    del os.environ["LIBSAS"]
    for number, exception in ((OUT_OF_MEMORY, MemoryError), (INPUT_TOO_LONG, sas.InputTooLong), (NO_TASK, sas.NoTask)):
        # the library that is loaded sees no change that Python alone makes of its environment
        ctypes.CDLL(None).setenv(b"STUB", str(number).encode(), 1)
        calls = [functools.partial(answer_of, sas, it, *inputs_of(it, b"", b"")) for it in IN_ORDER]
        came = [type(fault_of(call)) for call in (*calls, lambda: sas.Task(b""))]
        yield f"Python, number {number}", [] if set(came) == {exception} else [f"{came}"]


def range_tests(_, library, folder):
    """Yields plans by the numbers of their operators, in C++, in ranges of each kind. They could show a range that has to be copied first,
    and numbers that are read as others."""
    path, valid = os.path.join(folder, "ranges"), "plan valid: 4 steps, cost 4"
    none, unknown = "plan invalid: goal fact 0 not reached", "plan invalid: step 4: no operator of that number"
    for compiler, standard, count in (("g++", "-std=c++17", 13), ("g++", "-std=c++20", 17), ("clang++", "-std=c++17", 13)):
        if is_there(compiler):
            words = [standard, *C_WARNINGS, "-I", library.folder, os.path.join(TOP, "cases/ranges.cpp"), f"{library.folder}/libsas.a"]
            wrong = failed(compiler, *words, "-o", path)
            said = [] if wrong else ended(path, os.path.join(TOP, f"{FUSES}.sas")).stdout.decode().splitlines()
            yield f"ranges.cpp, {compiler} {standard}", wrong or ([] if said == [valid] * count + [unknown, *[none] * 3] else [f"{said}"])


# programs that trace a plan of a task three times
TRACED = {
    "cpp": """#include <sas.hpp>
#include <fstream>
#include <iterator>
int main(int, char **words) {
    std::ifstream file(words[1], std::ios::binary);
    sas::Task task(std::string(std::istreambuf_iterator<char>(file), {})), other;
    for (int round = 0; round < 3; ++round) {
        const sas::Answer trace = task.trace("; cost = 0 (unit cost)\\n");
        if (trace.text.size() < 65536) {
            return 1;
        }
        std::swap(task, other);
        std::swap(task, other);
    }
}
""",
    "rs": """fn main() {
    let file = std::fs::read(std::env::args().nth(1).unwrap()).unwrap();
    let mut task = sas::Task::read(&file).unwrap();
    for _ in 0..3 {
        assert!(task.trace(b"; cost = 0 (unit cost)\\n").unwrap().text.len() > 65536);
    }
}
""",
}


def trace_tests(_, library, folder):
    """Yields how often a trace of a held task is computed whose initial state is longer than the room of most answers. They could show one
    that is computed twice."""
    counted, task = os.path.join(folder, "counted.o"), put(os.path.join(folder, "wide.sas"), text_of(wide_task(5000)))
    wrong = failed(*c_compiler(), "-c", "-I", library.folder, os.path.join(CASES, "counted.c"), "-o", counted)
    assert not wrong, wrong
    wrap = "-Wl,--wrap=sas_task_trace"
    for language, compiler in (("cpp", ["g++", "-std=c++17", "-I", library.folder]), ("rs", ["rustc", "--edition", "2021"])):
        if not is_there(compiler[0]):
            continue
        source, path = os.path.join(folder, f"traced.{language}"), os.path.join(folder, f"traced_{language}")
        put(source, TRACED[language])
        linked = [counted, wrap, os.path.join(library.folder, "libsas.a")]
        linked = linked if language == "cpp" else [*crate(library.folder, folder), "-C", f"link-arg={counted}", "-C", f"link-arg={wrap}"]
        wrong = failed(*compiler, source, *linked, "-o", path)
        yield f"traces that are computed, {language}", wrong or differs((True, ended(path, task).stdout), (True, b"3\n"))


def limit_tests(_, library, folder):
    """Yields the calls with a limit, over a library whose answers have 2^40 bytes. They could show a room over the limit, and one for an
    answer that nobody gets."""
    stub, path = stub_library(library, folder), os.path.join(folder, "limited")
    said = f"sas: answer too long: {1 << 40} bytes\n"
    cpp = ["-std=c++17", *C_WARNINGS, "-I", library.folder, f"{CASES}/limited.cpp"]
    for compiler, words, expected in (
        ("g++", [*cpp, f"{stub}/libsas.a"], said * 11),
        ("g++", ["-fno-exceptions", *cpp, f"{stub}/libsas.a"], "5\n" * 11),
        ("rustc", ["--edition", "2021", "-D", "warnings", f"{CASES}/limited.rs"], said * 8),
    ):
        if is_there(compiler):
            words = [*words, *crate(stub, folder)] if compiler == "rustc" else words
            wrong = failed(compiler, *words, "-o", path)
            ran = wrong or ended(path, env={**os.environ, "STUB": str(ROOM_TOO_SHORT)})
            yield f"limits, {compiler} {words[0]}", wrong or ([] if ran.stdout.decode() == expected else [f"{ran}"])


def no_exception_tests(_, library, folder):
    """Yields the statuses of C++ without exceptions, of a library that only returns a number. They could show one that is taken for
    another."""
    stub, path = stub_library(library, folder), os.path.join(folder, "statuses")
    for compiler in filter(is_there, ("g++", "clang++")):
        flags = ["-std=c++17", "-fno-exceptions", *C_WARNINGS, "-I", library.folder]
        words = [*flags, f"{CASES}/statuses.cpp", f"{stub}/libsas.a", "-o", path]
        yield f"C++ without exceptions, by {compiler}", failed(compiler, *words)
        # without an answer the verdict is none, the last one
        for number, status, verdict in ((YES, 0, 3), (NO, 1, 4), (OUT_OF_MEMORY, 2, 5), (INPUT_TOO_LONG, 3, 5), (NO_TASK, 4, 5)):
            said = ended(path, env={**os.environ, "STUB": str(number)}).stdout.decode()
            yield f"C++ without exceptions, number {number}", [] if said == f"{status} {verdict} {status} 0\n" else [said]


def refused_code_tests(_, library, folder):
    """Yields code in Rust that a compiler has to refuse, and code that it takes without a warning. They could show a task that two threads
    may use at once, or two that free the same one, an answer that is lost unseen, and code that a later version would break."""
    if not is_there("rustc"):
        return
    words, path = crate(library.folder, folder), os.path.join(folder, "refused.rs")
    # a refusal is the code of an error, or what the compiler says of it
    for name, code, error in table("library_code.json")["rust"]:
        put(path, f"fn main() {{ {code} }}\n")
        ran = ended("rustc", "--edition", "2021", "-D", "warnings", *words, path, "-o", f"{path}.out")
        found = [code or said for code, said in re.findall(r"^error(?:\[(E\d+)\])?: (.*)$", ran.stderr.decode(), re.MULTILINE)]
        found = [it for it in found if not it.startswith("aborting")]
        yield f"Rust, {name}", [] if found == ([error] if error else []) else [f"{found}, {ran.stderr.decode()[:300]}"]


def rust_doc_tests(_, __, ___):
    """Yields the functions of the crate in Rust: what is said of those that can fail, and that a value isn't dropped unseen."""
    for path in sorted(glob.glob(os.path.join(TOP, "library/rust/src/*.rs"))):
        for doc, name, result in re.findall(r"((?:^ *(?:///|#\[).*\n)*)^ *pub (?:const )?fn (\w+)\(.*\)(?: -> (.*))? \{$", text_of_file(path), re.MULTILINE):
            said = "# Errors" in doc if (result or "").startswith("Result<") else "#[must_use]" in doc or not result
            # these types have the attribute themselves
            said = said or result.startswith(("impl Iterator", "Limited"))
            yield f"{os.path.basename(path)}, {name}", [] if said and "///" in doc else [doc]


# the page of the library, and its sections about languages: how their programs are marked, the end of their files' names, and what
# compiles or runs them
PAGE = "docs/LIBRARY.md"
SECTIONS = {"C": ("c", ".c", "cc"), "C++": ("cpp", ".cpp", "g++"), "Python": ("python", ".py", "python3"), "Rust": ("rust", ".rs", "cargo")}


def page_tests(_, library, place):
    """Yields the commands of the sections about languages, over the programs that they show, all in one folder. They could show a page
    that is wrong, and a section that another one is in the way of."""
    names = "examples", "library/examples", "library/rust"
    copied = {**{name: f"{TOP}/{name}" for name in names}, "library/out": library.folder}
    for name, folder in copied.items():
        shutil.copytree(folder, os.path.join(place, name), ignore=shutil.ignore_patterns("target"))
    for section, (mark, suffix, compiler) in SECTIONS.items():
        if not is_there(compiler):
            continue
        text = section_of(PAGE, f"## {section}")
        program, commands = "".join(re.findall(rf"```{mark}\n(.*?)```", text, re.DOTALL)[:1]), transcripts(text)
        put(os.path.join(place, f"judge{suffix}"), program)
        yield f"{PAGE}, {section}", [] if program and commands else ["no program, or no command"]
        for command, output in commands:
            ran = ended("bash", "-c", command, cwd=place)
            yield f"{PAGE}, {section}: {command}", [] if (ran.stdout.decode(), ran.stderr) == (output, b"") else [f"{ran}"]
        if section in ("C", "C++"):
            yield f"{PAGE}, {section}: a large task", wrong_large(library.sas, os.path.join(place, "judge"))


def wrong_large(sas, judge):
    """Returns what is wrong with what the program of a page prints of a task of two million bytes. Its first plan begins with a step that
    no operator of the task is named after."""
    task = read("cases/tasks/minimal.sas").splitlines(keepends=True)
    operator = b"begin_operator\n" + b"a" * 1000 + b"\n0\n0\n1\nend_operator\n"
    count = LARGE // len(operator) + 1
    task[21] = b"%d\n" % count
    text = b"".join([*task[:22], operator * count, *task[22:]])
    ran, plan = ended(judge, input=text), sas.plan(text, b"(take f1)\n; cost = 1 (unit cost)\n")
    expected = 1, plan.text
    return [] if len(text) > LARGE and (ran.returncode, ran.stdout[: len(plan.text)]) == expected else [f"{ran}, {plan}"]


TESTS = (
    answer_tests, found_tests, wrapper_tests, number_tests, range_tests, trace_tests, limit_tests,
    no_exception_tests, refused_code_tests, rust_doc_tests, example_tests, monitor_tests, page_tests,
)


def tests(program, folder):
    yield from tests_by(TESTS, program, folder)


if __name__ == "__main__":
    harness.main(tests)
