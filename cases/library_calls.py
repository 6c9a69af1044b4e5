#!/usr/bin/env python3
"""Tests the calls of the library: the header, the libraries that are linked, and what a call writes and answers.

    python3 cases/library_calls.py SAS LIBRARY

SAS is the program, and LIBRARY the folder that library/build.py made. Each function of this script that makes tests says which mistake
they could show that no proof does: the proofs don't know the header, nor any pointer of a caller's.

The compilers are $CC or cc, and of gcc, clang, g++ and clang++ those that are there; `nm` and `readelf` are used where they are. For each
tool that isn't there it prints a line that begins with `without`.
"""
import contextlib
import ctypes
import glob
import mmap
import os
import re
import shutil
import sys
import tempfile
from concurrent.futures import ThreadPoolExecutor

import harness
import run
from harness import differs, ended, is_there
from library import C_WARNINGS, DOORWAY, FUSES, INPUT_TOO_LONG, LAMPS, LIMIT, NO, OVER_BOTH
from library import REQUESTS, ROOM_TOO_SHORT, YES, Held, answer_of, failed, inputs_of, read
from library import tests_by
from oracles.tasks import with_ends
from texts import TOP, as_bytes, changed_lines, put, table, text_of

# the words of a case of run.py that say more than the request
LIMITED = ("memory", "stack", "file", "open", "closed", "output_to", "streamed", "front", "input_ends")
UNDEFINED = {"malloc", "realloc", "free", "memcpy", "memmove", "memset"}
SOURCES = {
    "c": ("library/examples/held.c", "library/examples/arena.c", "library/examples/monitor.c", "library/sas_memory.c", "library/sas_version.c", "cases/library_stub.c"),
    "cpp": ("library/examples/held.cpp", "cases/library.cpp", "cases/planner.cpp", "cases/ranges.cpp", "cases/values.cpp"),
}
LANGUAGES_OF_C = (("c", "-std=c99", ("gcc", "clang")), ("cpp", "-std=c++17", ("g++", "clang++")))


def answer_of_program(program, request, *files):
    word, *flag = request.split("_")
    with tempfile.TemporaryDirectory() as folder:
        paths = [put(os.path.join(folder, name), held) for name, held in zip("ab", files)]
        ran = ended(program, word, *("--why" for _ in flag), *paths)
    assert ran.returncode in (0, 1) and not ran.stderr, ran
    return ran.returncode == 0, ran.stdout


def same_as_case(sas, case):
    """Returns what is wrong with the answer to a case of run.py; None where it is none of a request over whole files."""
    request, *words = case["words"] or ["steps", "-"]
    if case["status"] > 1 or case.get("error") or any(word in case for word in LIMITED):
        return None
    files = [word for word in words if word != "--why"]
    if "--why" in words and request not in ("plan", "check", "mutex"):
        # of these the library has no call with reasons, which are those of a no alone
        return None if case["status"] else same_as_case(sas, {**case, "words": [request, *files]})
    request += "_why" if "--why" in words else ""
    if request not in (*REQUESTS, "plans") or any(word.startswith("-") and word != "-" for word in files):
        return None
    try:
        held = [file_of(case, word) for word in files]
    except (KeyError, OSError):
        return None
    expected = case["status"] == 0, as_bytes(case["output"])
    if request == "plans":
        return differs(lines_of_plans(sas, files[1:], *held), expected)
    return differs(answer_of(sas, request, *held), expected) + (same_of_held(sas, request, *held, expected) if request in OVER_BOTH else [])


def file_of(case, word):
    if word == "-":
        return as_bytes(case.get("input", ""))
    return as_bytes(case["files"][word]) if "files" in case else read(word)


def same_of_held(sas, request, task, plan, expected):
    try:
        with sas.Task(task) as held:
            return [f"held: {it}" for it in differs(getattr(held, request)(plan), expected)]
    except sas.Refused as refusal:
        # a task that is refused has no reasons here
        return [f"held: {it}" for it in differs((False, refusal.text), (expected[0], expected[1][: len(refusal.text)]))]


def lines_of_plans(sas, labels, task, *plans):
    """Returns what `plans` prints of these plans, by one task that is held. The summary is made of the answers alone."""
    try:
        with sas.Task(task) as held:
            answers = [held.plan(plan) for plan in plans]
    except sas.Refused as refusal:
        return False, refusal.text
    lines = [as_bytes(label) + b": " + text for label, (_, text) in zip(labels, answers)]
    valid = [(int(text.split()[-1]), label) for label, (is_valid, text) in zip(labels, answers) if is_valid]
    summary = f"{len(plans)} plans, {len(valid)} valid"
    if valid:
        summary += ", best cost %d: %s" % min(valid, key=lambda it: it[0])
    return len(valid) == len(plans), b"".join([*lines, as_bytes(summary), b"\n"])


def case_tests(_, library, folder):
    """Yields each case of run.py about whole files, but for the largest: the answer is the text and the status of the
    program. Plans are judged with their task held, too. They could show a call that answers another request, inputs that are
    exchanged, and a plan for which those before it count."""
    files = (*run.whole_cases(), *run.line_cases(), *run.plan_cases(folder), *run.group_cases())
    plans = (*run.verdict_cases(), *run.why_cases(), *run.trace_cases(), *run.plans_cases())
    made = (*run.cut_cases(), *run.family_cases(), *table("program.json"))
    for case in (*files, *map(run.with_why, files), *plans, *made):
        wrong = same_as_case(library.sas, case) if "output" in case else None
        if wrong is not None:
            yield case["name"], wrong


def program_tests(program, library, _):
    """Yields files about which the program itself answers, with reasons too: the answers are the same. They could show the same."""
    minimal, valid = read("cases/tasks/minimal.sas"), b"; cost = 0 (unit cost)\n"
    tasks = [read(task["file"]) for task in table("tasks.json")] + [as_bytes(made["task"]) for made in table("groups.json")]
    tasks += [as_bytes(changed["task"]) for changed in changed_lines() if len(as_bytes(changed["task"])) < 10_000]
    calls = [(request, task) for task in dict.fromkeys(tasks) for request in ("check_why", "mutex_why")]
    calls += [("plan_why", minimal, as_bytes(made["plan"])) for made in table("plans.json")]
    for name in ("blocks-4-0", "doorway", "elevator", "fuses"):
        files = read(f"examples/{name}.sas"), read(f"examples/{name}.plan")
        calls += [(request, *inputs_of(request, *files)) for request in REQUESTS]
    calls += [(request, *inputs_of(request, b"", b"")) for request in REQUESTS]
    calls += [(request, minimal, b"") for request in OVER_BOTH] + [(request, b"", valid) for request in OVER_BOTH]
    with ThreadPoolExecutor(2) as pool:
        answers = pool.map(lambda it: answer_of_program(program, *it), calls)
        for (request, *files), expected in zip(calls, answers):
            yield f"{request}, as the program, {files[-1][:40]!r}", differs(answer_of(library.sas, request, *files), expected)


def room_tests(_, library, __):
    """Yields each call with rooms of each length up to a little more than it needs. They could show a byte that is written after the
    room, or in front of it, a wrong length, and a room that is just long enough and is reported as too short."""
    fuses, broken = (read(f"{FUSES}.sas"), read(f"{FUSES}.plan")), (read(f"{DOORWAY}.sas"), read(f"{FUSES}.plan"))
    refused = read(f"{LAMPS}.sas"), b"(take f1)\n"
    for request in REQUESTS:
        for task, plan in (fuses, broken, refused):
            given = inputs_of(request, task, plan)
            answer = answer_of(library.sas, request, *given)
            yield f"{request}, each room", wrong_rooms(library, f"sas_{request}", lambda given=given: given, answer)
    for task, plan in (fuses, broken, refused):
        held = Held()
        yield "task_read, each room", wrong_rooms(library, "sas_task_read", lambda: [held, task], library.sas.check(task), held)
        library.call("sas_task_read", [held, fuses[0]], 128)
        for request in OVER_BOTH:
            answer = answer_of(library.sas, request, fuses[0], plan)
            yield f"task_{request}, each room", wrong_rooms(library, f"sas_task_{request}", lambda: [held, plan], answer)
        library.calls.sas_task_free(ctypes.byref(held))


def wrong_rooms(library, name, given, answer, held=None):
    """Returns what is wrong with a call in rooms of each length, of which this is the answer. What is read into `held` is there
    exactly at the number 0."""
    is_yes, text = answer
    for length in range(len(text) + 3):
        number, size, room, is_kept = library.call(name, given(), length)
        expected = ROOM_TOO_SHORT if length < len(text) else YES if is_yes else NO
        fits = number == ROOM_TOO_SHORT or room.startswith(text)
        holds = held is None or bool(held.is_there) == (number == YES)
        if (number, size) != (expected, len(text)) or not (is_kept and fits and holds):
            return [f"{length} bytes: number {number}, size {size}, {room[:80]!r}, around it {is_kept}, held rightly {holds}"]
    return []


def version_tests(program, library, _):
    """Yields the version of the library. They could show one that isn't that of the program."""
    ran = ended(program, "--version")
    expected = (ran.stdout + ran.stderr).split()[-1].decode()
    for name, version in (("the library", library.sas.version()), ("the package of Python", library.sas.__version__)):
        yield f"version of {name}", [] if version == expected else [f"{version}, not {expected}"]


def longest_tests(_, library, __):
    """Yields inputs that are a byte longer than may be read: a front of a task, of operators of which each is the same memory, and likewise a
    plan of a task that is held, which takes as much memory. They could show an input that goes past the limit and isn't taken so."""
    lines = read("cases/tasks/minimal.sas").splitlines(keepends=True)
    operator = b"begin_operator\n%s\n0\n0\n1\nend_operator\n"
    operator %= b"a" * ((1 << 16) - len(operator) + 2)
    count, held = b"%d\n" % (LIMIT // len(operator) + 1), ctypes.byref((ctypes.c_void_p * 2)())
    before = lines[:11], [lines[11][:-1], b"a" * (mmap.PAGESIZE - sum(map(len, [*lines[:22], count]))), b"\n"], lines[12:22], [count]
    with repeated(b"".join(map(b"".join, before)), operator) as at:
        yield "a byte more than may be read", wrong_number(INPUT_TOO_LONG, library.calls.sas_show, at, LIMIT + 1)
    task = b"".join(lines)
    yield "a task that is held", wrong_number(YES, library.calls.sas_task_read, held, task, len(task))
    with repeated(b"", b"(" + b"a" * ((1 << 16) - 3) + b")\n") as at:
        for name in ("sas_task_plan", "sas_task_plan_why"):
            yield f"a byte more than may be read, {name}", wrong_number(INPUT_TOO_LONG, getattr(library.calls, name), held, at, LIMIT + 1)
    library.calls.sas_task_free(held)


@contextlib.contextmanager
def repeated(front, item):
    """Gives where so many bytes stand: a front of whole pages, and then over and over the same memory, of 16 times the item. They are more
    than may be read."""
    calls, block = ctypes.CDLL(None), item * 16
    calls.mmap.restype = ctypes.c_void_p
    calls.mmap.argtypes = [ctypes.c_void_p, ctypes.c_size_t, *[ctypes.c_int] * 3, ctypes.c_long]
    whole = len(front) + (LIMIT // len(block) + 2) * len(block)
    with tempfile.TemporaryFile() as file:
        file.write(front + block)
        file.flush()
        at = calls.mmap(None, whole, mmap.PROT_READ, mmap.MAP_PRIVATE | mmap.MAP_ANONYMOUS, -1, 0)
        pieces = [(0, len(front), 0)] if front else []
        for place, size, start in (*pieces, *((it, len(block), len(front)) for it in range(len(front), whole, len(block)))):
            fixed = calls.mmap(at + place, size, mmap.PROT_READ, mmap.MAP_SHARED | 0x10, file.fileno(), start)
            assert fixed == at + place
        yield ctypes.c_void_p(at)
        calls.munmap(ctypes.c_void_p(at), ctypes.c_size_t(whole))


def wrong_number(expected, call, *given):
    """Returns what is wrong with the number of a call over these inputs, of which the last word is a length."""
    room, size = ctypes.create_string_buffer(4096), ctypes.c_size_t()
    *inputs, length = given
    number = call(*inputs, ctypes.c_size_t(length), room, ctypes.c_size_t(len(room)), ctypes.byref(size))
    return [] if number == expected else [f"number {number}"]


KINDS = {
    "Global": None,
    "&[u8]": "const uint8_t *, size_t",
    "&mut [u8]": "uint8_t *, size_t",
    "&mut usize": "size_t *",
    "&mut SasTask": "sas_task *",
    "&[u32]": "const uint32_t *, size_t",
    "&'r [u32]": "const uint32_t *, size_t",
    "&mut [u32]": "uint32_t *, size_t",
    "&SasRun<'_>": "const sas_run *",
    "u64": "uint64_t",
}


def exports():
    """Returns the calls of the library as its crate and its own code in C have them: the declaration of each by its name."""
    found = {}
    for text in map(text_of, glob.glob(os.path.join(TOP, "library/*.c"))):
        calls = re.findall(r"^(\w.*\b(sas_\w+)\(.*\)) {$", text, re.MULTILINE)
        found |= {name: f"{whole};" for whole, name in calls}
    declared_call = r'pub extern "C" fn (\w+)\((.*?),?\s*\)(?: -> (\w+))?'
    for code in map(text_of, glob.glob(os.path.join(TOP, "crates/sas_c/src/*.rt"))):
        for name, given, answer in re.findall(declared_call, code, re.DOTALL):
            kinds = [part.split(":", 1)[1].strip() for part in re.split(r",\s*", given)]
            shapes = ", ".join(filter(None, (KINDS[kind] for kind in kinds)))
            found[name] = f"{'enum sas_number' if answer == 'u32' else 'void'} {name}({shapes});"
    return found


def declared(path):
    """Returns the names of the calls that a header or a wrapper declares."""
    without_comments = re.sub(r"/\*.*?\*/", "", text_of(path), flags=re.DOTALL)
    return set(re.findall(r"\b(sas_\w+)\(", without_comments))


def fields_of_crate(name):
    """Returns the types of the fields of a struct that a program in C makes, in order, as its crate has them."""
    code = "".join(map(text_of, glob.glob(os.path.join(TOP, "crates/sas_c/src/*.rt"))))
    fields = re.search(rf"#\[repr\(C\)\]\n(?:#.*\n)*pub struct {name}<'r> {{(.*?)\n}}", code, re.DOTALL)[1]
    return ", ".join(KINDS[kind] for kind in re.findall(r"pub \w+: (.*),\n?", fields))


def fields_of_header(header, name):
    """Returns the same as the header has them."""
    fields = re.search(rf"typedef struct {name} {{\n(.*?)\n}}", text_of(header), re.DOTALL)[1]
    return ", ".join(re.sub(r"\b\w+;$", "", line).strip() for line in fields.split("\n"))


def header_tests(_, library, folder):
    """Yields the header, by each compiler and against each call of the crate. They could show a call that the header lacks, or declares
    otherwise than it is."""
    found, header = exports(), os.path.join(library.folder, "sas.h")
    names = sorted(found)
    yield "the header has the fields of a run", differs(fields_of_header(header, "sas_run"), fields_of_crate("SasRun"))
    yield "the header has the calls of the crate", [] if declared(header) == set(names) and names else [f"{declared(header)}, {names}"]
    listed = ", ".join(f"(call){name}" for name in names)
    code = ["#include <sas.h>", *found.values(), "typedef void (*call)(void);", f"call calls[] = {{{listed}}};"]
    code.append(f"int main(void) {{ sas_task none = SAS_TASK_NONE; return none.is_there || !calls[{len(names) - 1}]; }}")
    for language, standard, made in LANGUAGES_OF_C:
        path = os.path.join(folder, f"declared.{language}")
        put(path, with_ends(code))
        for compiler in filter(is_there, made):
            command = [compiler, standard, *C_WARNINGS, "-I", library.folder, path, "-o", f"{path}.out"]
            for linked in ("libsas.a", "libsas.so"):
                words = [os.path.join(library.folder, linked), f"-Wl,-rpath,{library.folder}"]
                yield f"the header, by {compiler} with {linked}", failed(*command, *words) or failed(f"{path}.out")


def warning_tests(_, library, __):
    """Yields the code in C and C++ by each compiler. They could show code that a compiler warns of."""
    for language, standard, made in LANGUAGES_OF_C:
        for compiler in filter(is_there, made):
            for source in SOURCES[language]:
                more = ("-Weffc++",) if compiler == "g++" else ()
                command = [compiler, standard, *C_WARNINGS, *more, "-I", library.folder, "-fsyntax-only", os.path.join(TOP, source)]
                yield f"{source}, by {compiler}", failed(*command)


def symbols(path, *words):
    """Returns the symbols that `nm` prints of a library with these words: the name and the kind of each."""
    ran = ended("nm", *words, path)
    assert ran.returncode == 0, ran.stderr
    lines = (line.split() for line in ran.stdout.decode().splitlines())
    return {(parts[-1].split("@")[0], parts[-2]) for parts in lines if len(parts) > 1}


def symbol_tests(_, library, __):
    """Yields what the libraries need of others and show to them. They could show a call of the system that the proofs know nothing
    of, a name that is another's in a program that links the library, and a library that is loaded where its instructions aren't known."""
    if not is_there("nm"):
        return
    yield from linked_tests(library.folder)
    if is_there("readelf"):
        said = ended("readelf", "-n", "-d", os.path.join(library.folder, "libsas.so")).stdout.decode()
        yield "what the loader reads", [it for it in ("x86 ISA needed: x86-64-v2", "soname: [libsas.so.1]") if it not in said]


def linked_tests(folder):
    """Yields which functions of others the library in a folder wants, and which of its own it shows."""
    found = symbols(os.path.join(folder, "libsas.a"))
    undefined = {name for name, kind in found if kind in "Uvw"} - {name for name, kind in found if kind not in "Uvw"}
    yield "what libsas.a wants", [] if undefined == UNDEFINED else [f"{sorted(undefined ^ UNDEFINED)} more or less"]
    shown = {name for name, _ in symbols(os.path.join(folder, "libsas.so"), "-D", "--defined-only")}
    names = declared(os.path.join(folder, "sas.h"))
    yield "what libsas.so shows", [] if shown == names else [f"{sorted(shown ^ names)} more or less"]


def dialect_tests(_, library, folder):
    """Yields what a compiler of C++ takes, and what it refuses, with a part of its message. They
    could show bytes that have to be copied, and an answer that is lost unseen."""
    path, headers = os.path.join(folder, "dialect.cpp"), ["sas.hpp", "array", "vector"]
    if not is_there("g++"):
        return
    for name, standard, code, refusal in table("library_code.json")["cpp"]:
        included = [*headers, "span"] if standard == "-std=c++20" else headers
        put(path, with_ends([*(f"#include <{it}>" for it in included), f"int main() {{ {code} }}"]))
        words = [standard, *C_WARNINGS, "-I", library.folder, path, os.path.join(library.folder, "libsas.a"), "-o", f"{path}.out"]
        wrong = failed("g++", *words)
        if refusal is None:
            yield f"C++, {name}", wrong or failed(f"{path}.out")
        else:
            yield f"C++, {name}, refused", [] if wrong and refusal in wrong[0] else [f"{wrong}"]


def builder_tests(_, __, ___):
    """Yields what library/build.py prints about compilers that can't build. They could show a library that is gone when another one isn't
    built."""
    out = os.path.join(TOP, "library/out")
    for compiler in ("no-compiler", "false"):
        before = os.path.isdir(out) and sorted(os.listdir(out))
        ran = ended(sys.executable, os.path.join(TOP, "library/build.py"), env={**os.environ, "CC": compiler})
        after = os.path.isdir(out) and sorted(os.listdir(out))
        said = ran.returncode == 1 and not ran.stdout and re.fullmatch(rf"not built: {compiler}.*\n", ran.stderr.decode())
        yield f"built with {compiler}", [] if said and before == after else [f"{ran}"]


def processor_tests(_, __, folder):
    """Yields what `make lib` hands on to build.py. It could show a number of processors that is lost, or a platform."""
    for name in ("Makefile", "library/build.py", "crates.txt"):
        os.makedirs(os.path.dirname(os.path.join(folder, name)), exist_ok=True)
        shutil.copy(os.path.join(TOP, name), os.path.join(folder, name))
    # what library/build.py imports is the file of the repository, and what it runs says its arguments
    shutil.copy(os.path.join(TOP, "build.py"), os.path.join(folder, "whole.py"))
    lines = ["import sys", "from whole import *"]
    lines += ["if __name__ == '__main__':", "    sys.exit(' '.join(sys.argv[1:]))"]
    put(os.path.join(folder, "build.py"), with_ends(lines))
    env = {name: value for name, value in os.environ.items() if name not in ("MAKEFLAGS", "MFLAGS", "MAKELEVEL", "JOBS", "CC", "AR")}
    calls = [(["JOBS=1"], "1 x86_64-linux"), (["JOBS=3"], "3 x86_64-linux"), ([], f"{int(ended('nproc').stdout)} x86_64-linux")]
    if is_there("aarch64-linux-gnu-gcc"):
        calls.append((["JOBS=2", "PLATFORM=aarch64-linux"], "2 aarch64-linux"))
    for words, handed in calls:
        ran = ended("make", "-s", "lib", *words, cwd=folder, env=env)
        said = ran.stderr.decode().partition("\n")[0]
        yield f"make lib {words}", [] if said == f"sas_c {handed}" else [f"{ran}"]


TESTS = (
    header_tests, warning_tests, symbol_tests, version_tests, room_tests, longest_tests,
    dialect_tests, builder_tests, processor_tests, program_tests, case_tests,
)


def tests(program, folder):
    yield from tests_by(TESTS, program, folder)


if __name__ == "__main__":
    harness.main(tests)
