#!/usr/bin/env python3
"""Counts the instructions that ./sas takes, over inputs that are made in FOLDER if they aren't there.

    bench/count.py ./sas FOLDER [--beside PROGRAM] [--only TEXT] [--scale F]
    bench/count.py ./sas FOLDER --compare [--only TEXT]
    bench/count.py ./sas FOLDER --write

A count is the same on a quiet machine and on a loaded one, so it shows what a change did where times are noise. It is
no time: a program that waits for memory takes longer than its count shows.

Each case of cases.py is counted at the scales F, 2 F and 4 F (times `enlarged` there): for the largest the
instructions, and those a line and a byte; then what each further byte costs from F to 2 F and from 2 F to 4 F, and
growth, the second over the first. Growth near 1 is linear. PROGRAM takes the same words, an older build for example;
./sas / PROGRAM is printed for the largest scale.

--compare counts each case at one scale, the one that counts.json names, and prints its instructions over those that stand there. A row
that differs by more than 2 % fails, in either direction: a table that is too high would hide the next change. The last line is
'N passed, M failed', and the exit status is 0 where none failed. --write writes the table anew, with the reason in its commit.

Two things would let one program's count differ from machine to machine, and are held fast. The C library picks its functions for copying
and comparing by what the processor can do: GLIBC_TUNABLES has it pick those that every x86-64 processor has, with limits that don't depend
on caches. That changes rows by up to 9 %. The environment, which is looked through at the start, has nothing else. What is left, such as
another version of the C library, is what the 2 % are for. On one machine a row stays within a millionth. The names of the tunables are
those of glibc 2.33 and later; the table was made on a machine with AVX-512 and glibc 2.36, and no other was tried.

Needs valgrind (apt-get install valgrind); where it isn't there, --compare says so and ends with status 0.
"""
import json
import os
import re
import shutil
import subprocess
import sys
from collections import namedtuple

import machine
from answers import digest, expected_digest
from cases import chosen, files_of
from make import case_input

VALGRIND = ["valgrind", "--tool=cachegrind", "--cache-sim=no", "--cachegrind-out-file=/dev/null"]
# the C library's plain functions, and its limits on when it copies in another way
TUNABLES = ":".join((
    "glibc.cpu.hwcaps=-AVX2,-AVX512F,-AVX512VL,-AVX512BW,-AVX_Fast_Unaligned_Load,-ERMS,-FSRM,-Prefer_ERMS,-Prefer_FSRM,"
    "Fast_Unaligned_Copy",
    "glibc.cpu.x86_non_temporal_threshold=0xc0000",
    "glibc.cpu.x86_rep_movsb_threshold=2048",
    "glibc.cpu.x86_rep_stosb_threshold=2048",
))
# the counts that --compare expects, at which scale, and by how much a count may differ
TABLE = os.path.join(os.path.dirname(os.path.abspath(__file__)), "counts.json")
SCALE, MAY_DIFFER = 0.04, 0.02
TIMES = (1, 2, 4)
HEADS = ["Case", "MB", "million instructions", "a line", "a byte", "a further byte"]
HEADS += ["and from there on", "growth", "answer"]
HEADS_BESIDE = ["beside, millions", "ratio", "answers"]
# what is no longer put down to tables that double and to chance
LINEAR = 1.15

Count = namedtuple("Count", "instructions status output")
Size = namedtuple("Size", "bytes lines")


def counted(command):
    """Runs a command once, and counts its instructions."""
    env = {"PATH": os.environ["PATH"], "GLIBC_TUNABLES": TUNABLES}
    run = subprocess.run([*VALGRIND, *command], env=env, stdin=subprocess.DEVNULL, capture_output=True)
    found = re.search(rb"I +refs: +([\d,]+)", run.stderr)
    if not found:
        sys.exit("count.py: valgrind printed no count: " + run.stderr.decode(errors="replace")[-500:])
    return Count(int(found[1].replace(b",", b"")), run.returncode, digest([run.stdout]))


def size_of(case, made):
    """Returns the bytes and lines of the files that the request reads."""
    abouts = [made.about[os.path.basename(path)] for path in files_of(case, made)]
    return Size(sum(about["bytes"] for about in abouts), sum(about["lines"] for about in abouts))


def further(sizes, counts):
    """Returns what a further byte costs, from each scale to the next one."""
    return [(next_count - count) / (next_size.bytes - size.bytes)
            for size, next_size, count, next_count in zip(sizes, sizes[1:], counts, counts[1:])]


def answer_word(count, expected, status=0):
    return "right" if (count.status, count.output) == (status, expected) else "WRONG: status %d" % count.status


def beside_cells(given, case, made, mine):
    """Returns the cells about the other program at the largest scale."""
    other = counted([given.beside, case.request, *files_of(case, made)])
    same = (mine.status, mine.output) == (other.status, other.output)
    return ["%.1f" % (other.instructions / 1e6), "%.2f" % (mine.instructions / other.instructions),
            "same" if same else "DIFFERENT"]


def case_row(given, case):
    """Counts a case, and returns its row of the table."""
    inputs = [case_input(given.folder, case, given.scale * case.enlarged * times) for times in TIMES]
    sizes = [size_of(case, made) for made in inputs]
    counts = [counted([given.sas, case.request, *files_of(case, made)]) for made in inputs]
    size, count = sizes[-1], counts[-1]
    costs = further(sizes, [count.instructions for count in counts])
    growth = costs[1] / costs[0]
    cells = [case.name, "%.2f" % (size.bytes / 1e6), "%.1f" % (count.instructions / 1e6),
             "%.1f" % (count.instructions / size.lines), "%.2f" % (count.instructions / size.bytes),
             *("%.2f" % cost for cost in costs), "%.2f" % growth + ("" if growth < LINEAR else " MORE THAN LINEAR"),
             answer_word(count, expected_digest(case.request, inputs[-1]))]
    return cells + beside_cells(given, case, inputs[-1], count) if given.beside else cells


def counts_at(given, scale):
    """Yields each case with its instructions at a scale, and whether the answer is right."""
    for case in chosen(given.only):
        made = case_input(given.folder, case, scale * case.enlarged)
        count = counted([os.path.abspath(given.sas), case.request, *files_of(case, made)])
        yield case.name, count.instructions, answer_word(count, expected_digest(case.request, made))


def compare(given):
    """Holds the counts against the table, and prints a row for each. Returns the exit status."""
    with open(TABLE, encoding="utf-8") as file:
        table = json.load(file)
    passed = failed = 0
    for name, count, word in counts_at(given, table["scale"]):
        expected = table["instructions"].get(name)
        ratio = count / expected if expected else 0.0
        well = word == "right" and abs(ratio - 1) <= MAY_DIFFER
        passed, failed = passed + well, failed + (not well)
        print("%s%s: %d instructions, %.4f of %s, %s" % ("" if well else "FAILED ", name, count, ratio, expected, word), flush=True)
    print("%d passed, %d failed" % (passed, failed))
    return 1 if failed else 0


def write(given):
    """Writes the table anew. Returns the exit status."""
    rows = list(counts_at(given, SCALE))
    if any(word != "right" for *_, word in rows):
        sys.exit("count.py: an answer is wrong, so nothing is written")
    with open(TABLE, "w", encoding="utf-8") as file:
        json.dump({"scale": SCALE, "instructions": {name: count for name, count, _ in rows}}, file, indent=1)
        file.write("\n")
    return 0


def main():
    flags = {"beside": "", "only": "", "scale": 0.01, "compare": False, "write": False}
    given = machine.arguments(__doc__, "sas", "folder", **flags)
    if not shutil.which("valgrind"):
        if given.compare:
            print("without valgrind: no instructions are counted\n0 passed, 0 failed")
            return
        sys.exit("count.py: valgrind isn't there; on Debian and Ubuntu: apt-get install valgrind")
    if given.compare or given.write:
        sys.exit(compare(given) if given.compare else write(given))
    scales = ", ".join("%g" % (given.scale * times) for times in TIMES)
    note = "Counted at the scales %s, small cases at larger ones" % scales
    heads = HEADS + HEADS_BESIDE if given.beside else HEADS
    machine.print_head(heads, given.sas, given.beside, note)
    for case in chosen(given.only):
        machine.print_row(case_row(given, case))


if __name__ == "__main__":
    main()
