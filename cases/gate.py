#!/usr/bin/env python3
"""Runs every check of the repository: the gate of the toolchain, then the cases over what it built.

`rt ci` proves and builds everything and tries each edit that must fail. What an earlier run on this machine proved of the same files is
kept. An edit that doesn't apply or compile shows nothing: `rt ci` passes it, and here it is a failure. The lines of all edits that weren't
refused stand once more at the end; cases/bad_edits.py shows that they are noticed. Then the lists of CASES run side by side: documents
against definitions, contracts, edits and the program, and what the crates' calls, the program, the library, its wrappers, packages and
reports do. The first lines of each script say what it tries. For 64-bit ARM two crates are proved once more.

The last line is 'N passed, M failed' of all together, and the exit status is 0 exactly if M is 0. A command that doesn't end as its own
last line says counts as one failure. gate.log keeps the last line for releases, with the commit and the toolchain.
"""
import glob
import os
import re
import shutil
import subprocess
import sys
import time
from concurrent.futures import ThreadPoolExecutor

from harness import ended
from texts import TOP, put

sys.path.insert(1, TOP)
import build as proving  # the file at the top

PROGRAMS = [f"crates/{name}/out/{name}" for name in ("test_core", "test_files", "test_verdicts", "test_requests")]
# Lists of cases that run side by side, each list in order. Some use all processors at times, others one.
CASES = [
    [
        ["cases/memory.py", "sas", *PROGRAMS],
        ["cases/calls.py", *PROGRAMS],
        ["cases/run.py", "sas"],
        ["cases/streams.py", "sas"],
        ["cases/growth.py", "sas"],
        ["bench/count.py", "sas", "bench/out", "--compare"],
        ["cases/name_groups.py", "sas"],
    ],
    [
        ["cases/library_calls.py", "sas", "library/out"],
        ["cases/library_wrappers.py", "sas", "library/out"],
        ["cases/library_tasks.py", "sas", "library/out"],
        ["cases/library_costs.py", "library/out"],
        ["cases/operators.py", "library/out"],
        ["cases/values.py"],
        ["cases/python.py", "sas", "library/out"],
        ["cases/competition.py", "sas", "library/out"],
        ["cases/packages.py"],
        ["cases/release.py", "sas"],
        ["cases/debian.py", "sas"],
    ],
    [
        ["cases/bad_edits.py"],
        ["cases/reading.py"],
        ["cases/promises.py"],
        ["cases/pages.py", "sas"],
        ["cases/shown.py", "sas"],
        ["cases/cluster.py", "sas"],
        ["cases/footprint.py", "sas"],
        ["cases/patterns.py"],
        ["cases/plan_awk.py"],
        ["cases/report_pages.py", "sas"],
        ["cases/arm.py", "sas"],
    ],
]
RECORD = "gate.log"
# a line of `rt ci` about an edit that the prover didn't refuse. `rt ci` counts each as a failure but for a bad edit
WRONG_EDIT = re.compile(r"rt: \S.*?: (BAD EDIT|NOT TRIED|NOT REFUSED): ")


def counts(command, show):
    """Runs a command, shows each line that it prints, and gives how many checks of it passed and failed."""
    last, began = "", time.monotonic()
    with subprocess.Popen(command, stdout=subprocess.PIPE, encoding="utf-8", errors="replace") as process:
        for line in process.stdout:
            show(line.rstrip("\n"))
            last = line.strip() or last
    show(f"{' '.join(command)}: {time.monotonic() - began:.0f} s")
    found = re.fullmatch(r"(\d+) passed, (\d+) failed", last)
    passed, failed = (int(found[1]), int(found[2])) if found else (0, 0)
    agrees = found and (failed == 0) == (process.returncode == 0)
    return passed, failed if agrees else failed + 1


def counts_of_proofs():
    """Runs `rt ci`. Gives its counts, where a bad edit is a failure too, and the lines of all edits that weren't refused."""
    lines = []

    def show(line):
        print(line, flush=True)
        lines.append(line)

    passed, failed = counts(["rt", "ci"], show)
    wrong = [found for found in map(WRONG_EDIT.match, lines) if found]
    return passed, failed + sum(found[1] == "BAD EDIT" for found in wrong), [found.string for found in wrong]


def counts_of(commands):
    """Runs the cases of a list in order, shows what each prints once it has ended, and gives the counts of each."""
    found = []
    for command in commands:
        lines = []
        found.append(counts([sys.executable, *command], lines.append))
        print("\n".join(lines), flush=True)
    return found


def printed(*command):
    """Returns what a command prints, without the line's end, or nothing where it isn't there."""
    return ended(*command).stdout.decode().strip()


def commit():
    """Returns at which commit the files are, in the words of release/dist.py."""
    changes = ", with changes that are in no commit" if printed("git", "status", "--porcelain") else ""
    return printed("git", "rev-parse", "HEAD") + changes


def main():
    os.chdir(TOP)
    if os.path.exists(RECORD):
        os.remove(RECORD)
    began_at = commit()
    # what an earlier run left of the library has a link, and `rt ci` takes none
    for folder in glob.glob("library/out*"):
        shutil.rmtree(folder)
    *proofs, wrong_edits = counts_of_proofs()
    parts = [proofs]
    if os.path.isfile("crates/sas/out/sas"):
        shutil.copy("crates/sas/out/sas", "sas")
    # a release is linked from the object, and of a program that an earlier run proved `rt ci` leaves none
    if os.path.isfile("crates/sas/out/sas.o"):
        proving.keep("sas", proving.NATIVE)
    else:
        proving.build("sas", glob.glob(f"{TOP}/crates/*/out/rlib"), os.cpu_count())
    # where it isn't built its tests end without a last line, which counts as a failure
    subprocess.run([sys.executable, "library/build.py", "--over-gate"], check=False)
    with ThreadPoolExecutor(len(CASES)) as pool:
        parts += [part for found in pool.map(counts_of, CASES) for part in found]
    passed, failed = map(sum, zip(*parts))
    last = f"{passed} passed, {failed} failed"
    # a record of files that changed while they were tried would be none
    if commit() == began_at:
        put(RECORD, f"{began_at}\n{printed('rt', 'version')}\n{last}\n")
    print("\n".join([*wrong_edits, last]))
    sys.exit(1 if failed else 0)


if __name__ == "__main__":
    main()
