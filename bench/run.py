#!/usr/bin/env python3
"""Measures how long ./sas takes and how much memory, over inputs that are made in FOLDER if they aren't there.

    bench/run.py ./sas FOLDER [--beside PROGRAM] [--rounds R] [--only TEXT] [--scale F] [--limit S]

For each case of cases.py it prints the size of the input, the best wall time of R rounds, MB a second at that, the peak
memory of the process, and as floors the best times of `cat` and `wc -l` over the same files. PROGRAM takes the same
words, an older build for example. It runs in turn with ./sas, and for times and memory ./sas / PROGRAM is printed.

In front of the rounds each program runs once to be compared with the answer that is expected (answers.py); by then the input
is in the cache of the system. A run past S seconds is stopped; a program that is stopped there isn't run in the rounds.
"""
import os
import signal
import subprocess
import sys
from collections import namedtuple

import machine
from answers import digest, expected_digest
from cases import chosen, files_of
from make import case_input

LAUNCH = os.path.join(os.path.dirname(os.path.abspath(__file__)), "launch.py")
PIECE = 1 << 20

HEADS = ["Case", "MB", "s", "MB/s", "peak MB", "`cat` s", "`wc -l` s", "answer"]
HEADS_BESIDE = ["beside s", "time ratio", "beside peak MB", "memory ratio", "answers"]

# seconds, peak (in MB) and status are None where the command was stopped, output where nothing looked at it
Run = namedtuple("Run", "seconds peak status output")
Best = namedtuple("Best", "seconds peak")
NOTHING = Best(None, None)


def stop(process):
    """Ends a launcher that isn't waited for yet, and its command."""
    os.killpg(process.pid, signal.SIGKILL)


def finish(process, limit):
    """Waits for a launcher, no longer than the limit. Returns the digest of its output, where it has one to read."""
    # an alarm, since there are two places to wait in
    signal.signal(signal.SIGALRM, lambda *_: stop(process))
    signal.alarm(limit)
    output = None
    if process.stdout:
        with process.stdout:
            output = digest(iter(lambda: process.stdout.read(PIECE), b""))
    # looks without taking the process away, so that the alarm never ends another that has its number
    os.waitid(os.P_PID, process.pid, os.WEXITED | os.WNOWAIT)
    signal.alarm(0)
    return output


def measured(command, limit, compared=False):
    """Runs a command once. Its output is thrown away, or made into a digest to compare it by."""
    source, report = os.pipe()
    stdout = subprocess.PIPE if compared else subprocess.DEVNULL
    # in a process group of its own, so that both can be stopped together
    streams = {"stdin": subprocess.DEVNULL, "stdout": stdout, "pass_fds": [report]}
    launched = [sys.executable, "-I", "-S", LAUNCH, str(report), *command]
    process = subprocess.Popen(launched, start_new_session=True, **streams)
    os.close(report)
    try:
        output = finish(process, limit)
    except BaseException:
        stop(process)
        raise
    finally:
        process.wait()
    with open(source) as file:
        figures = file.read().split()
    if not figures:
        return Run(None, None, None, output)
    return Run(float(figures[0]), int(figures[1]) * 1024 / 1e6, int(figures[2]), output)


def commands_of(given, case, files):
    """Returns what runs in turn in each round, under a name."""
    beside = {"beside": [given.beside, case.request, *files]} if given.beside else {}
    floors = {"cat": ["cat", *files], "wc": ["wc", "-l", *files]}
    return {"sas": [given.sas, case.request, *files], **beside, **floors}
def best_runs(commands, rounds, limit, stopped):
    """Returns, of each command, the best time and the most memory of its runs to the end. Those named `stopped` aren't
    run."""
    runs = {name: [] for name in commands}
    for turn in range(rounds):
        # every other round backwards, so that none is always after the same one
        for name in list(commands)[::-1 if turn % 2 else 1]:
            if name not in stopped:
                runs[name].append(measured(commands[name], limit))
    whole = {name: [run for run in ran if run.status is not None] for name, ran in runs.items()}
    return {name: Best(min(run.seconds for run in ran), max(run.peak for run in ran)) if ran else NOTHING
            for name, ran in whole.items()}


def word_of(run, expected, limit):
    """Returns how a run compares with the answer that is expected."""
    if run.status is None:
        return "stopped after %d s" % limit
    if run.status != 0:
        return "WRONG: status %d" % run.status
    return "right" if run.output == expected else "WRONG"


def compared_words(firsts, expected, limit):
    """Returns what the answers were like, and those of both programs beside each other."""
    words = [word_of(firsts["sas"], expected, limit)]
    if "beside" in firsts:
        mine, other = firsts["sas"], firsts["beside"]
        words.append("same" if (mine.status, mine.output) == (other.status, other.output) else
                     "DIFFERENT: " + word_of(other, expected, limit))
    return words


def cell(form, value):
    return "-" if value is None else form % value


def ratio(mine, other):
    return None if mine is None or other is None else mine / other


def case_row(given, case):
    """Measures a case, and returns its row of the table."""
    made = case_input(given.folder, case, given.scale)
    files = files_of(case, made)
    commands = commands_of(given, case, files)
    firsts = {name: measured(commands[name], given.limit, True) for name in commands if name in ("sas", "beside")}
    words = compared_words(firsts, expected_digest(case.request, made), given.limit)
    stopped = [name for name, run in firsts.items() if run.status is None]
    best = best_runs(commands, given.rounds, given.limit, stopped)
    size = sum(map(os.path.getsize, files)) / 1e6
    mine, other = best["sas"], best.get("beside", NOTHING)
    cells = [case.name, "%.1f" % size, cell("%.3f", mine.seconds), cell("%.0f", ratio(size, mine.seconds)),
             cell("%.1f", mine.peak), *(cell("%.3f", best[name].seconds) for name in ("cat", "wc")), words[0]]
    if given.beside:
        cells += [cell("%.3f", other.seconds), cell("%.2f", ratio(mine.seconds, other.seconds)),
                  cell("%.1f", other.peak), cell("%.2f", ratio(mine.peak, other.peak)), words[1]]
    return cells


def main():
    flags = {"beside": "", "rounds": 7, "only": "", "scale": 1.0, "limit": 600}
    given = machine.arguments(__doc__, "sas", "folder", **flags)
    note = "Best of %d rounds at scale %g; memory below some %.0f MB is not measured"
    note %= given.rounds, given.scale, measured(["true"], given.limit).peak
    heads = HEADS + HEADS_BESIDE if given.beside else HEADS
    machine.print_head(heads, given.sas, given.beside, note)
    for case in chosen(given.only):
        machine.print_row(case_row(given, case))
    print("\nAfter: " + machine.load())


if __name__ == "__main__":
    main()
