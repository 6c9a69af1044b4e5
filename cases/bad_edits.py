#!/usr/bin/env python3
"""Tests that edits which must fail, but show nothing, are noticed: over a crate of its own, with the toolchain as it is.

    python3 cases/bad_edits.py

The crate is made by `rt new` in a temporary folder. It has an edit of each kind that there is: one
that a promise refuses, one that is still proved, one that can't be read, and several that aren't
edits of the crate. What the gate says of the lines that `rt ci` prints has to name all but the
first, and `build.py --edit` has to come to the same of each. That takes one to two minutes.

The words, and the code that judges edits, are the toolchain's. Where a later one has others, the gate would no longer notice an edit that
isn't one any more.
"""
import contextlib
import io
import os
import re
import shutil
import subprocess
import sys

import gate
import harness
from harness import differs
from release import files_below
from texts import TOP, bytes_of, put, text_of

CODE = """
/// Returns half of a number.
pub fn half(x: usize) -> usize
    ensures at_most { result ≤ x }
{
    x / 2
}
"""
# the edits: where the text stands, the text, what comes in its place, and what the gate has to say of it
REFUSED, PROVED, BAD, UNREAD = "refused", "NOT REFUSED", "BAD EDIT", "NOT TRIED"
# the exit status of build.py for each, and the goal that is no longer proved
STATUSES, GOAL = {REFUSED: 0, PROVED: 1, BAD: 2, UNREAD: 2}, "at_most"
EDITS = {
    "greater.edit": ("src/lib.rt", "x / 2", "x + 1", REFUSED),
    "less.edit": ("src/lib.rt", "x / 2", "x / 3", PROVED),
    "not_there.edit": ("src/lib.rt", "x / 7", "x + 1", BAD),
    "there_twice.edit": ("src/lib.rt", "x: usize", "x: u8", BAD),
    "no_change.edit": ("src/lib.rt", "x / 2", "x / 2", BAD),
    "unknown_name.edit": ("src/lib.rt", "x / 2", "y / 2", BAD),
    "unknown_type.edit": ("src/lib.rt", "pub fn half(x: usize)", "pub fn half(x: Number)", BAD),
    "unknown_in_clause.edit": ("src/lib.rt", "{ result ≤ x }", "{ result ≤ y }", BAD),
    "no_file.edit": ("src/none.rt", "x / 2", "x + 1", BAD),
    "no_part.edit": ("must-fail/greater.edit", "x + 1", "x + 2", BAD),
    "no_name.edit.txt": ("src/lib.rt", "x / 2", "x + 1", BAD),
    "no_text.edit": ("proofs/notes", "x", "y", UNREAD),
}


def make_crate(top):
    """Makes a repository with one crate in a folder, with the edits."""
    folder = f"{top}/crates/tiny"
    subprocess.run(["git", "init", "-q", top], check=True)
    # `rt new` takes the folder for the top only with this file, which may name a crate only once it is there
    put(f"{top}/crates.txt", "")
    subprocess.run(["rt", "new", folder, "start_lib"], check=True, cwd=top, stdout=subprocess.DEVNULL)
    put(f"{top}/crates.txt", "tiny:\n")
    put(f"{top}/HANDLES", "Handles allowed: none.\n")
    put(f"{folder}/src/lib.rt", text_of(f"{folder}/src/lib.rt").replace("{◌≡◌}", "{◌≡◌, ◌≤◌}") + CODE)
    put(f"{folder}/proofs/notes", b"x \xff\n")
    os.mkdir(f"{folder}/must-fail")
    for name, (path, old, new, _) in EDITS.items():
        put(f"{folder}/must-fail/{name}", f"file: {path}\nold: {old}\nnew: {new}\n")


def gate_tests(top):
    """Yields what the gate says of each edit, and how many failures it counts. They could show an edit that isn't noticed, or that is
    counted twice."""
    printed, was = io.StringIO(), os.getcwd()
    os.chdir(top)
    with contextlib.redirect_stdout(printed):
        passed, failed, lines = gate.counts_of_proofs()
    os.chdir(was)
    wrong = [name for name, edit in EDITS.items() if edit[-1] != REFUSED]
    # the crate itself, and the edit that is refused
    expected = (2, len(wrong), len(wrong))
    differences = differs((passed, failed, len(lines)), expected)
    yield "counts", [*differences, printed.getvalue()] if differences else []
    for name, (*_, kind) in EDITS.items():
        said = [line for line in lines if re.search(rf"/{re.escape(name)}: {kind}: ", line)]
        yield name, [] if len(said) == (kind != REFUSED) else [f"{len(said)} lines say {kind}: {lines}"]


def build(top, *words):
    return harness.printed(sys.executable, f"{top}/build.py", "tiny", *words)


def held(folder):
    return {path: bytes_of(folder, path) for path in files_below(folder)}


def build_tests(top):
    """Yields what build.py says of each edit, and its exit status. They could show a verdict that isn't that of the gate, a goal that isn't
    named, and an edit that is left in the crate, or in what a check of it kept."""
    folder = f"{top}/crates/tiny"
    for name in ("build.py", "edits.py"):
        shutil.copy(f"{TOP}/{name}", top)
    yield "a check before the edits", differs(build(top, "--check", "--jobs", "1")[0], 0)
    before = held(folder)
    for name, (*_, kind) in EDITS.items():
        if name.endswith(".edit"):
            status, said = build(top, "--edit", f"must-fail/{name}")
            wrong = differs(status, STATUSES[kind]) + ([] if kind in said else [f"no {kind} in {said}"])
            yield f"build.py, {name}", wrong + ([] if kind != REFUSED or GOAL in said else [f"no {GOAL} in {said}"])
    for function, kind in (("half", REFUSED), ("echo", PROVED)):
        status, said = build(top, "--edit", "must-fail/greater.edit", "--only", function)
        yield f"build.py, --only {function}", differs(status, STATUSES[kind]) + ([] if kind in said else [f"no {kind} in {said}"])
    yield "the crate after the edits", differs(held(folder) == before, True)
    put(f"{folder}/src/lib.rt", text_of(f"{folder}/src/lib.rt").replace("x / 2", "x + 0 * x + 3"))
    put(f"{folder}/must-fail/greater.edit", "file: src/lib.rt\nold: x + 0 * x + 3\nnew: x + 1\n")
    status, said = build(top, "--edit", "must-fail/greater.edit")
    yield "build.py, a crate that isn't proved itself", differs(status, STATUSES[UNREAD]) + ([] if UNREAD in said else [said])


def tests(place):
    make_crate(place)
    yield from gate_tests(place)
    yield from build_tests(place)


if __name__ == "__main__":
    harness.main(tests)
