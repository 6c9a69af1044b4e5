"""How build.py tries an edit that must fail, on a copy of its crate: `python3 build.py CRATE --edit must-fail/X.edit [FLAG ..]`.

The command `rt must-fail` proves all crates below from nothing, where it kept nothing of them. Here they are what build.py proved last. Its
code reads the edit and judges what the prover prints, so that the verdict is the same. FLAGs are those of `rattle check`. With `--only F`
the verdict is about F alone: that F is still proved says nothing of other functions.

The copy begins with what `build.py CRATE --check` kept, in out/incremental of the crate, and leaves that as it is. Where the crate isn't
proved without the edit either, a refusal shows nothing, and that is said.

The exit status is 0 where the prover refuses the edit, 1 where it doesn't, and 2 where the edit wasn't tried, or doesn't apply or compile.
"""
import importlib.machinery
import importlib.util
import os
import re
import shutil
import sys
import tempfile
import time
from types import SimpleNamespace

import build as proving

PARTS = ("src", "specs", "proofs")
# a line of the prover that names a goal or a function that isn't proved, or the clauses in a goal, and so long as it is shown
REASON = re.compile(
    r"(?:note: )?\S+:\d+:\d+: (?:error: |it is not proved)|fn \S+: (?:not proved|no proof: (?!it calls))|note: .* must prove: record \{"
)
LONGEST = 240
# how `rt must-fail` says that an edit is refused, before its first reason, and if need be why that shows little
REFUSAL = re.compile(r"refused, as it must be(?: \([^)]*\))?")
# the last line of a check of some functions
ONLY = re.compile(r"^only=\d+ proved=\d+.*\Z", re.MULTILINE)
# exit statuses, and those of the verdicts of `rt must-fail`
IS_REFUSED, IS_PROVED, IS_NOT_TRIED = range(3)
STATUSES = {"refused": IS_REFUSED, "limit": IS_REFUSED, "missed": IS_PROVED}


def script_of_rt():
    """Returns the command `rt` of the toolchain, which is a script, as a module."""
    sys.dont_write_bytecode = True
    path = shutil.which("rt") or sys.exit("there is no `rt`, of the toolchain, on the PATH")
    loader = importlib.machinery.SourceFileLoader("rt", os.path.realpath(path))
    module = importlib.util.module_from_spec(importlib.util.spec_from_loader("rt", loader))
    loader.exec_module(module)
    return module


def checked(crate, texts, flags, kept):
    """Checks a copy of the crate with these texts in place of its own, over what was kept. Returns how that ended."""
    with tempfile.TemporaryDirectory() as copy:
        for part in PARTS:
            if os.path.isdir(f"{crate.folder}/{part}"):
                shutil.copytree(f"{crate.folder}/{part}", f"{copy}/{part}")
        for path, text in texts.items():
            with open(f"{copy}/{path}", "w", encoding="utf-8") as file:
                file.write(text)
        return proving.run(crate.name, "check", [proving.LIBRARIES], "--incremental", kept, *flags, copy=copy)


def judged(rt, crate, edit, flags, kept):
    """Returns the verdict of `rt must-fail` on an edit, what it says, and what the prover printed."""
    printed = []

    def check(*given):
        ended = checked(*given)
        printed.append(ended.stdout)
        # `rt must-fail` checks whole crates, and knows their last line alone
        ended.stdout = ONLY.sub("logic=not-proved", ended.stdout.rstrip("\n"))
        return ended

    rt.checked = check
    verdict, said = rt.must_fail(crate, edit, flags, kept)
    return verdict, said, "".join(printed[-1:])


def answer(status, said, printed, flags):
    """Returns what came of an edit, in words: if it is refused, with the goals and functions that are no longer proved."""
    if status == IS_REFUSED:
        reasons = [f"  {line[:LONGEST]}" for line in printed.splitlines() if REASON.match(line)]
        return "\n".join([REFUSAL.search(said)[0], *reasons])
    if status == IS_PROVED and "--only" in flags:
        return f"NOT REFUSED: {flags[flags.index('--only') + 1]} is still proved with this edit, and nothing else was checked"
    return said


def try_edit(name, edit, *flags):
    """Tries an edit of a crate, prints what came of it, and returns the exit status."""
    began, rt, folder = time.monotonic(), script_of_rt(), f"{proving.CRATES}/{name}"
    crate, edit = SimpleNamespace(name=name, folder=folder), edit if os.path.isfile(edit) else f"{folder}/{edit}"
    flags = flags if "--jobs" in flags else ("--jobs", "1", *flags)
    with tempfile.TemporaryDirectory() as room:
        kept = f"{room}/kept"
        if os.path.isdir(f"{folder}/out/incremental"):
            rt.linked(f"{folder}/out/incremental", kept)
        verdict, said, printed = judged(rt, crate, edit, flags, kept)
        status = STATUSES.get(verdict, IS_NOT_TRIED)
        shows = status != IS_REFUSED or proving.is_proved(name) or checked(crate, {}, flags, kept).returncode == 0
    print(answer(status, said, printed, flags) if shows else "NOT TRIED: the crate isn't proved without the edit either")
    print(f"{time.monotonic() - began:.0f} s")
    return status if shows else IS_NOT_TRIED
