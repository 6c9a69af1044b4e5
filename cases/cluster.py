#!/usr/bin/env python3
"""Runs what docs/GUIDE.md shows for thousands of plans, and for clusters, by `xargs`, GNU parallel and Slurm, and compares what each
leaves in the folders of runs.

    python3 cases/cluster.py SAS

The commands and scripts are those of the guide, run in a folder of their own that has the examples and SAS. Folders and plans with names
that are hard are added to its own. Its script is also run without a folder, and where SAS can't start: the guide has to name the status
and the message. Slurm is started here: munged, slurmctld and slurmd, with one node, over the loopback address. All that they write is in
a folder that is removed; they are ended, and so is what they have started. Only root can do so.

For what isn't there it prints a line that begins with `without`.

No proof reads a document. A recipe that leaves out a plan or a run, or writes where it shouldn't, would be found here alone.
"""
import contextlib
import glob
import os
import re
import shutil
import signal
import socket
import subprocess
import sys
import tempfile
import time

import harness
from harness import differs, ended, is_there
from pages import GUIDE
from shown import commands_in, lines_of
from texts import CASES, TOP, put, text_of

TITLE = "## Run many tasks on a cluster"
# what judge.sh leaves in the folder of a run
LEFT = ("status", "verdicts", "errors")
# the runs that are added to the guide's, each with its plans and the examples that they are copied from
ADDED = {
    "e f": {"sas_plan.10": "fuses", "sas_plan.2": "fuses", "sas_plan.3 *": "fuses-short"},
    "[a-d]*": {"sas_plan.1": "fuses"},
    "it's \"$HOME\"\\n": {"sas_plan": "fuses-short"},
    "no task": {"sas_plan": "fuses"},
}
# names of valid plans that a shell, `sas` or `grep` may take for something else, the pattern of these names, and one that `sas` refuses
HARD = ("7 plans, 7 valid", "3 plans, 0 valid, best cost 1: x", " sas_plan", "-p", "0 plans, 9 valid\t")
HARD_NAMES, REFUSED = r"[\ 0-9-]*", "9 plans, 9 valid\n9 plans, 9 valid"
# how runs under `xargs` end, one after another, with the status that `xargs` then has, and how many of them are started
ENDS = (("0 0", 0, 2), ("0 1 0", 123, 3), ("2 0", 123, 2), ("0 3", 123, 2), ("0 killed 0", 125, 2), ("1 killed 0", 123, 2))
# the plans of the first of these in their order; the first and the last cost the same
IN_ORDER = ("sas_plan.2", "sas_plan.3 *", "sas_plan.10")
# all runs, each with the status that is left there
STATUSES = {"a": "1", "b": "0", "c": "1", "d": "3"} | dict(zip(ADDED, ("1", "0", "1", None)))
# how long a command may take, and how long the node and a job array, in seconds
SECONDS, UP, DONE = 60, 60, 120
DAEMONS = ("munged", "slurmctld", "slurmd")


class Guide:
    """The guide's section about clusters, whose commands are run in a folder."""

    def __init__(self, place, sas):
        """Runs the commands from the guide's beginning to the end of the section, and adds runs to its own."""
        lines = lines_of(GUIDE, TOP)
        start = lines.index(TITLE)
        end = next(at for at in range(start + 1, len(lines)) if lines[at].startswith("## "))
        before, self.commands = (commands_in(it, GUIDE) for it in (lines[:start], lines[start:end]))
        self.before = [it["command"] for it in before]
        self.whole, self.text = "\n".join(lines), "\n".join(lines[start:end])
        self.place, self.env = place, {**environment(), "LC_ALL": "C", "HOME": place}
        shutil.copytree(os.path.join(TOP, "examples"), os.path.join(place, "examples"))
        shutil.copy(sas, os.path.join(place, "sas"))
        for case in before + self.commands:
            self.run(case["command"])
        add_runs(place)

    def command(self, words):
        return next(it["command"] for it in self.commands if it["command"].startswith(words))

    def named(self, word):
        """Returns the command that the text of the section names, by its first word."""
        return re.search(rf"`({word} [^`]*)`", self.text)[1]

    def run(self, command, **more):
        """Runs a command in a shell, and returns what it prints on standard output."""
        more = {"cwd": self.place, "env": {**self.env, **more}, "timeout": SECONDS, "stderr": subprocess.DEVNULL}
        return ended("bash", "-c", command, **more).stdout.decode()

    def left(self):
        return {run: {name: held(self.place, "runs", run, name) for name in LEFT} for run in STATUSES}

    def clean(self):
        for run in STATUSES:
            for name in LEFT:
                with contextlib.suppress(FileNotFoundError):
                    os.remove(os.path.join(self.place, "runs", run, name))

    def folders(self):
        return held(self.place, "folders").count("\n")


def environment():
    return {name: it for name, it in os.environ.items() if not name.startswith(("SLURM", "SBATCH", "SQUEUE", "SINFO", "MUNGE"))}


def held(*path):
    """Returns what a file holds, or None where it isn't there."""
    try:
        with open(os.path.join(*path), encoding="utf-8") as file:
            return file.read()
    except FileNotFoundError:
        return None


def add_runs(place):
    for run, plans in ADDED.items():
        os.mkdir(os.path.join(place, "runs", run))
        files = {name: f"{it}.plan" for name, it in plans.items()} | ({"output.sas": "fuses.sas"} if STATUSES[run] else {})
        for name, file in files.items():
            shutil.copy(os.path.join(place, "examples", file), os.path.join(place, "runs", run, name))


def differ(got, expected):
    return [f"{run}: {got[run]}, not {it}" for run, it in expected.items() if got[run] != it]


def xargs_tests(guide):
    """Yields what the guide's first recipe leaves, and what its commands find there. They could show a run or a plan that is left out,
    or taken for another."""
    guide.run(guide.command("ls -d"))
    left = guide.left()
    statuses = {run: it["status"] and it["status"].strip() for run, it in left.items()}
    yield "xargs, the statuses", differs(statuses, STATUSES)
    yield "xargs, a folder without a task", differs(left["no task"], dict.fromkeys(LEFT))
    lines = (left["e f"]["verdicts"] or "").splitlines()
    yield "xargs, the order of plans", differs([it.partition(": plan ")[0] for it in lines[:-1]], [f"runs/e f/{it}" for it in IN_ORDER])
    yield "xargs, the best plan", differs(lines[-1:], [f"3 plans, 2 valid, best cost 4: runs/e f/{IN_ORDER[0]}"])
    table = guide.run(guide.command("for r in runs/*; do echo")).splitlines()
    wanted = {f"runs/{run}: {status or 'none'}" for run, status in STATUSES.items()}
    yield "the table", differs({it for it in wanted if any(line.startswith(f"{it}: ") for line in table)}, wanted)
    again = guide.run(guide.command("for r in runs/*; do grep")).splitlines()
    yield "runs without an answer", differs(set(again), {f"runs/{run}" for run, it in STATUSES.items() if it not in ("0", "1")})
    said = guide.run(guide.command("grep")).splitlines()
    named = {line.partition("/verdicts:")[0] for line in said}
    yield "runs with a no", differs(named, {f"runs/{run}" for run, it in STATUSES.items() if it == "1"})


def thousands_tests(guide):
    """Yields what the recipe for thousands of plans counts, and how its `xargs` ends. They could show a plan that is taken for the line
    at the end of a run, a run that isn't missed, and a status that the guide explains wrongly."""
    recipe = next(it for it in guide.before if "sas_plan.* | sort" in it)
    count = r"^(\d+) plans, (\d+) valid"
    for added, missed in ((HARD, 0), ([REFUSED], 2)):
        for name in added:
            shutil.copy(os.path.join(guide.place, "examples/fuses.plan"), os.path.join(guide.place, name))
        lines = re.findall(count, guide.run(recipe.replace("sas_plan.*", HARD_NAMES)), re.MULTILINE)
        wanted = [len(HARD) + bool(missed) - missed] * 2
        yield f"thousands of plans, {missed} missed", differs([sum(map(int, it)) for it in zip(*lines)], wanted)
    for ends, status, started_runs in ENDS:
        run = 'echo run; test "$0" = killed && kill -9 $$; exit "$0"'
        lines = guide.run(f"printf '%s\\0' {ends} | xargs -0 -n 1 sh -c '{run}'; echo $?").splitlines()
        yield f"xargs, runs that end with {ends}", differs(lines, ["run"] * started_runs + [f"{status}"])


def state(folder):
    """Returns the names in a folder, and what is there of the files that judge.sh leaves."""
    return sorted(os.listdir(folder)), [held(folder, it) for it in LEFT]


def script_tests(guide):
    """Yields what judge.sh does without a folder. It could show one that writes into the root of all folders."""
    folder = os.path.join(guide.place, "alone")
    os.mkdir(folder)
    for name in ("judge.sh", "sas"):
        shutil.copy(os.path.join(guide.place, name), folder)
    before = state("/"), state(folder)
    for words in ([], [""], ["/none"]):
        ran = ended("sh", "judge.sh", *words, cwd=folder, timeout=SECONDS)
        yield f"judge.sh {words}", differs((ran.returncode, ran.stderr, state("/"), state(folder)), (3, b"", *before))


def status_tests(guide):
    """Yields what judge.sh leaves where `sas` can't start or isn't there. They could show a status or a message that the guide doesn't
    name, or explains wrongly."""
    folder = os.path.join(guide.place, "many")
    os.mkdir(folder)
    shutil.copy(os.path.join(guide.place, "examples/fuses.sas"), os.path.join(folder, "output.sas"))
    for number in range(1000):
        shutil.copy(os.path.join(guide.place, "examples/fuses.plan"), os.path.join(folder, f"sas_plan.{'0' * 150}{number}"))
    lacking = re.search(r"^\| 127 \| `(.*)` \.\. \|", guide.whole, re.MULTILINE)[1]
    for first, run, status, message in (
        # the longest command line has a quarter of the stack, and at least 128 kB
        ("ulimit -s 512", "many", 126, "too long"),
        ("ulimit -s 24", "runs/b", 139, ""),
        ("export GLIBC_TUNABLES=glibc.cpu.hwcaps=-SSE4_2,-POPCNT", "runs/b", 127, lacking),
        ("mv sas away", "runs/b", 127, "not found"),
    ):
        # an environment takes some of a small stack
        guide.run(f'env -i PATH="$PATH" sh -c "{first}; sh judge.sh {run}"')
        left = [held(guide.place, run, it) for it in LEFT]
        named = re.search(rf"^\|[ \d,]*\b{status}\b[ \d,]*\|", guide.whole, re.MULTILINE)
        is_so = left[:2] == [f"{status}\n", ""] and message in left[2] and named
        yield f"{first}, status {status}", [] if is_so else [f"{left}"]
    guide.run("mv away sas")


def parallel_tests(guide, expected):
    """Yields what GNU parallel leaves. It could show a name that it takes apart."""
    if not is_there("parallel"):
        return
    if "GNU" not in guide.run("parallel --version"):
        print("without GNU parallel: `parallel` is another program")
        return
    guide.clean()
    guide.run(guide.named("parallel"))
    yield "GNU parallel", differ(guide.left(), expected)


def slurm_tests(guide, expected):
    """Yields what job arrays of Slurm leave: the guide's, one with more jobs than folders, and one with fewer. They could show a folder
    that no job judges, and a job that has no folder and harms."""
    if not all([is_there(it) for it in (*DAEMONS, "sbatch")]):
        return
    if os.geteuid():
        print("without Slurm: only root can start it")
        return
    with slurm() as env:
        found = wait_for(lambda: guide.run("sinfo -h -o %T", **env) == "idle\n", UP)
        if found:
            place = os.path.dirname(env["SLURM_CONF"])
            logs = {it: (held(place, f"{it}.out") or "")[-500:] for it in DAEMONS}
            print(f"without Slurm: its node isn't up here: {found}: {logs}")
            return
        yield "Slurm, the largest array", differs(guide.run(guide.named("scontrol"), **env).split()[-1:], ["1001"])
        command, count = guide.named("sbatch"), guide.folders()
        for jobs in (1000, 1001):
            held_back = of_jobs(command, jobs).replace("sbatch", "sbatch --hold")
            said = guide.run(f"{held_back}; scancel --state=PENDING", **env)
            yield f"Slurm, {jobs} jobs", differs(said.startswith("Submitted"), jobs == 1000)
        arrays = {"": command} | {f", {jobs} jobs for {count} folders": of_jobs(command, jobs) for jobs in (count + 2, 3)}
        before = state("/"), state(guide.place)
        for name, array in arrays.items():
            guide.clean()
            said = guide.run(array, **env)
            found = differs(said.startswith("Submitted"), True) or wait_for(lambda: guide.run("squeue -h", **env) == "", DONE)
            yield f"Slurm{name}", found + differ(guide.left(), expected)
        yield "Slurm, no other files", differs((state("/"), state(guide.place)), before)


def of_jobs(command, jobs):
    return re.sub(r"--array=1-.*%", f"--array=1-{jobs}%", command)


def wait_for(is_so, seconds):
    """Waits until something is so. Returns what is wrong where it isn't in time."""
    end = time.monotonic() + seconds
    while time.monotonic() < end:
        if is_so():
            return []
        time.sleep(0.2)
    return [f"not in {seconds} s"]


def config_of(place):
    """Returns the configuration of Slurm in a folder. The ports are bound to the loopback address if the machine's name stands for one;
    otherwise Slurm can't bind them to it, and they are reached there."""
    host = socket.gethostname().partition(".")[0]
    try:
        address = socket.gethostbyname(host)
    except OSError:
        address = ""
    # the mark of a comment
    address, mark = (address, "") if address.startswith("127.") else ("127.0.0.1", "#")
    with contextlib.ExitStack() as stack:
        found = [stack.enter_context(socket.socket()) for _ in range(2)]
        for it in found:
            it.bind((address, 0))
        ports = [it.getsockname()[1] for it in found]
    it = {"place": place, "host": host, "address": address, "mark": mark, "ports": ports}
    return text_of(os.path.join(CASES, "slurm.conf")).format(**it)


@contextlib.contextmanager
def slurm():
    """Runs Slurm with one node, gives the environment for its commands, and ends it."""
    with tempfile.TemporaryDirectory() as place:
        # munged wants a folder that all may enter
        os.chmod(place, 0o755)
        for name in ("state", "spool"):
            os.mkdir(os.path.join(place, name))
        put(f"{place}/slurm.conf", config_of(place))
        with open(f"{place}/munge.key", "wb", opener=lambda path, flags: os.open(path, flags, 0o600)) as file:
            file.write(os.urandom(128))
        at = {"socket": "munge.socket", "key-file": "munge.key", "pid-file": "munged.pid", "seed-file": "munge.seed"}
        words = [f"--{option}={place}/{name}" for option, name in at.items()]
        env, running = {"SLURM_CONF": f"{place}/slurm.conf"}, []
        try:
            running.append(started(place, "munged", "--foreground", "--force", *words))
            wait_for(lambda: os.path.exists(f"{place}/munge.socket"), UP)
            running.append(started(place, "slurmctld", "-D", "-c"))
            running.append(started(place, "slurmd", "-D"))
            yield env
        finally:
            end_all(place, reversed(running))


def started(place, name, *words):
    env = {**environment(), "SLURM_CONF": f"{place}/slurm.conf"}
    with open(f"{place}/{name}.out", "wb") as out:
        streams = {"stdin": subprocess.DEVNULL, "stdout": out, "stderr": out, "start_new_session": True}
        return subprocess.Popen([name, *words], cwd=place, env=env, **streams)


def end_all(place, running):
    """Ends the daemons, and then what they have started: the processes whose environment names the folder."""
    for process in running:
        process.terminate()
        try:
            process.wait(10)
        except subprocess.TimeoutExpired:
            process.kill()
            process.wait()
    for path in glob.glob("/proc/[0-9]*/environ"):
        with contextlib.suppress(OSError), open(path, "rb") as file:
            if f"SLURM_CONF={place}/".encode() in file.read():
                os.kill(int(path.split("/")[2]), signal.SIGKILL)


def tests(sas, place):
    # what is started is ended also where this is
    signal.signal(signal.SIGTERM, lambda *_: sys.exit(1))
    # the daemons are there, on some systems not on the PATH
    os.environ["PATH"] += ":/usr/sbin:/sbin"
    guide = Guide(place, sas)
    yield from thousands_tests(guide)
    yield from xargs_tests(guide)
    expected = guide.left()
    yield from script_tests(guide)
    yield from status_tests(guide)
    yield from parallel_tests(guide, expected)
    yield from slurm_tests(guide, expected)


if __name__ == "__main__":
    harness.main(tests)
