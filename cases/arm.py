#!/usr/bin/env python3
"""Builds the program and the library for 64-bit ARM, packs a release, and runs what is in it under an emulator.

    python3 cases/arm.py SAS

SAS is the program for this machine. The one for ARM has to give its answers: to one of fifty of the cases of run.py, and to all that are
large or about devices, but for those that limit memory or the stack, which would limit the emulator. `run.py SAS --under
EMULATOR` runs all others, too. The library has to give them to the example in C, and keeps what is its own where memory is refused.

aarch64-linux-gnu-gcc and its C library build, and qemu-aarch64-static runs. Where the first isn't there, nothing is tried, and where the
second isn't, nothing is run; a line that begins with `without` says so. Two crates are proved again, in two to three minutes each, and what
is run takes some minutes of a processor.

No proof sees the code in C that stands beside the crates there, nor what the toolchain and the
cross compiler make of them.
"""
import functools
import os
import struct
import sys
import tempfile

import harness
import run
from harness import differs, ended, is_there
from library_calls import linked_tests
from library_wrappers import held_prints
from release import is_static, pack, packing_tests
from texts import TOP, as_bytes, bytes_of, put

sys.path.insert(0, TOP)
import build as proving  # the file at the top

PLATFORM = "aarch64-linux"
COMPILER, EMULATOR = proving.PLATFORMS[PLATFORM].compiler, "qemu-aarch64-static"
# where Debian has the loader and the C library of the compiler
SYSROOT = "/usr/aarch64-linux-gnu"
# what a header of ELF says
AARCH64, LOADED = 183, 1
# the largest pages that Linux has on this processor
PAGE = 65536
# how long a case may take, and one of how many small ones is run: each takes about 60 ms of a processor
SECONDS, ONE_OF = 600, 50


def build_tests():
    """Yields the two crates, proved for ARM over the libraries that were proved last, and built."""
    for crate in ("sas", "sas_c"):
        if not proving.is_built(crate, PLATFORM):
            # one processor takes the least memory, and the other cases run beside this
            built = proving.build(crate, proving.proved_below(crate), 1, PLATFORM)
            yield f"{crate} is proved and built", [built.stdout[-1000:]] if built.returncode else []


def segments(held):
    """Returns the machine that a program or a library is for, and how each of its segments is aligned that is loaded."""
    start, size, count = struct.unpack_from("<Q", held, 32)[0], *struct.unpack_from("<HH", held, 54)
    headers = [start + size * it for it in range(count)]
    return struct.unpack_from("<H", held, 18)[0], {struct.unpack_from("<Q", held, it + 48)[0] for it in headers if held[it] == LOADED}


def file_tests(released, place):
    """Yields what the files are. They could show one for another processor, a library that asks for more or shows more than the other
    platform's, and code that a system with large pages can't load."""
    program, shared = (bytes_of(released, it) for it in ("sas", "library/out/libsas.so.1"))
    yield "linked statically", differs(is_static(program), True)
    for name, held in (("sas", program), ("libsas.so.1", shared)):
        machine, aligned = segments(held)
        yield f"{name}, its processor", differs(machine, AARCH64)
        yield f"{name}, its segments", differs({it % PAGE for it in aligned}, {0})
    if is_there("nm"):
        yield from linked_tests(os.path.join(released, "library/out"))
    if is_there("dpkg-deb"):
        path = pack("deb.py", os.path.join(place, "deb"), PLATFORM)
        yield "the package of Debian", differs(ended("dpkg-deb", "-f", path, "Architecture")[1], b"arm64\n")


def compiled(source, place, *words):
    """Returns a program in C that is built for ARM, and the words that run it."""
    path = os.path.join(place, os.path.basename(source).replace(".", "_"))
    status, out, errors = ended(COMPILER, "-O2", source, *words, "-o", path, cwd=TOP)
    assert (status, out, errors) == (0, b"", b""), errors
    return [EMULATOR, "-L", SYSROOT, path]


def example_tests(released, sas, place):
    """Yields the example of the library in C over some of the tasks and plans of run.py, with each of the two libraries: it prints what
    the program for this machine does. They could show a call that is wrong on the other processor."""
    out = os.path.join(released, "library/out")
    cases = [it for it in (*run.verdict_cases(), *run.why_cases()) if it.get("files", {}).keys() == {"t.sas", "p.txt"}]
    for name, words, one_of in (("libsas.a", ["-static"], ONE_OF), ("libsas.so.1", [f"-Wl,-rpath,{out}"], 10 * ONE_OF)):
        held = compiled("library/examples/held.c", place, "-I", out, *words, os.path.join(out, name))
        for case, found in harness.side_by_side(functools.partial(wrong_held, held, sas), cases[::one_of]):
            yield f"held.c with {name}: {case['name']}", found


def wrong_held(held, sas, case):
    """Returns what is wrong with what the example prints of the files of a case."""
    with tempfile.TemporaryDirectory() as place:
        files = [os.path.join(place, it) for it in ("t.sas", "p.txt")]
        for path in files:
            put(path, as_bytes(case["files"][os.path.basename(path)]))
        return differs(ended(*held, *files), held_prints(sas, *files))


def driver_tests(released, place):
    """Yields each call with each of its allocations refused, and in threads. They could show memory that is lost, or shared by mistake."""
    out = os.path.join(released, "library/out")
    driver = compiled("cases/library.c", place, "-I", out, os.path.join(out, "libsas.a"), "-pthread")
    files = [os.path.join(TOP, f"examples/fuses.{it}") for it in ("sas", "plan")]
    status, said, _ = ended(*driver, "refused", *files)
    lines = said.decode().splitlines()
    yield "memory is refused", [it for it in lines if not it.endswith(" refused, 0 wrong")] + differs((status, len(lines) > 10), (0, True))
    yield "threads", differs(ended(*driver, "threads", *files, "200"), (0, b"200 plans in each of 4 threads, 0 wrong\n", b""))


def emulated_tests(released, sas, place):
    run.SECONDS = SECONDS
    judged = run.judged(os.path.join(released, "sas"), [EMULATOR], one_of=ONE_OF)
    yield from ((f"{EMULATOR}: {name}", found) for name, found in judged)
    yield from example_tests(released, sas, place)
    yield from driver_tests(released, place)


def tests(sas, place):
    if not is_there(COMPILER):
        return
    if not os.path.isdir(SYSROOT):
        print(f"without {SYSROOT}")
        return
    released = os.path.join(place, "release")
    yield from build_tests()
    yield from packing_tests(place, PLATFORM)
    yield from file_tests(released, place)
    if is_there(EMULATOR):
        yield from emulated_tests(released, sas, place)


if __name__ == "__main__":
    harness.main(tests)
