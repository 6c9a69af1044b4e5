#!/usr/bin/env python3
"""Prints what files cost whose lines end in CR LF, all or half of them, beside the same files with LF: the instructions that ./sas takes.

    bench/ends.py ./sas FOLDER [--scale F]

The inputs are made in FOLDER if they aren't there. For each request the instructions over the files with LF are printed, and the
ratios of those over the files with CR LF, and over the files in which half of the lines have it, to these. The exit status is 1
if a ratio is above that of MOST, or an answer isn't right. It needs valgrind.
"""
import os
from concurrent.futures import ThreadPoolExecutor

import machine
from answers import expected_digest
from cases import Case, files_of
from count import answer_word, counted
from make import case_input

# `print` removes the CRs at the end
MOST = {"check": 1.1, "show": 1.1, "plan": 1.1, "steps": 1.2, "print": 1.2}
SIZES = [("gripper", 2), ("blocks", 2)]
REQUESTS = ["check", "show", "print", "plan", "steps"]
STEPS = 20000
CASES = [Case("%s %s" % (request, domain), request, domain, size, "MB", STEPS) for domain, size in SIZES for request in REQUESTS]


def half(line):
    """Returns whether the line with this number ends in CR LF in the file in which half of the lines do, in no order that shows."""
    return line * 7919 % 1000003 % 2 == 1


def with_returns(path, has_return):
    """Returns the path of this file with CR LF at the end of the lines with these numbers. It is made anew."""
    with open(path, "rb") as file:
        lines = file.read().splitlines()
    made = "%s.%s" % (path, has_return.__name__)
    with open(made, "wb") as file:
        file.writelines(line + (b"\r\n" if has_return(number) else b"\n") for number, line in enumerate(lines))
    return made


def every(_line):
    """Returns that each line ends in CR LF."""
    return True


def input_files(given):
    """Makes the inputs, and returns of each case what was made, and its files with LF, with CR LF and with both."""
    inputs = [case_input(given.folder, case, given.scale) for case in CASES]
    files = [files_of(case, made) for case, made in zip(CASES, inputs)]
    changed = {path: [path, with_returns(path, every), with_returns(path, half)] for path in sorted(set(sum(files, [])))}
    return [(made, list(zip(*(changed[path] for path in paths)))) for made, paths in zip(inputs, files)]


def case_row(given, case, made, ways):
    """Counts a case, and returns its row of the table, and whether it is well."""
    counts = [counted([given.sas, case.request, *paths]) for paths in ways]
    words = [answer_word(count, expected_digest(case.request, made)) for count in counts]
    word = next((word for word in words if word != "right"), "right")
    ratios = [count.instructions / counts[0].instructions for count in counts[1:]]
    cells = [case.name, "%.1f" % (counts[0].instructions / 1e6),
             *("%.2f" % ratio + ("" if ratio <= MOST[case.request] else " TOO MUCH") for ratio in ratios), word]
    return cells, max(ratios) <= MOST[case.request] and word == "right"


def main():
    given = machine.arguments(__doc__, "sas", "folder", scale=1.0)
    inputs = input_files(given)
    heads = ["Case", "million instructions with LF", "with CR LF, times that", "with both", "answer"]
    machine.print_head(heads, given.sas)
    with ThreadPoolExecutor(os.cpu_count()) as pool:
        rows = pool.map(lambda case, made: case_row(given, case, *made), CASES, inputs)
        machine.print_rows(rows)


if __name__ == "__main__":
    main()
