#!/usr/bin/env python3
"""Writes reports of plans and opens them in real browsers.

    python3 cases/report_pages.py SAS [COMMAND]

COMMAND is `sas-report`; that of the repository where none is named. Without a browser: its exit statuses and messages, files that can be
read only once, where it finds `sas` and its own files, and the library in place of the program; each verdict and each kind of line that
docs/MEANING.md, docs/WHY.md and docs/FORMATS.md list has a page with all that `sas` printed, and so has each that a later version prints.
In Chromium and in Firefox: those pages; the states of random plans with axioms, which fail at each step, against `sas trace`, and what
their steps need against oracles/links.py; names that would do harm; keys where the focus is, buttons, pointer, searches, filters, links;
several plans and what differs in them; how pages look, on screens, on paper and in the dark, which is in report_looks.py; and a plan of
100,000 steps over 5,000 variables, whose bounds are some times what it takes. For a browser that isn't there it prints a line that begins
with `without`.

No proof knows these pages. One that shows another state than the trace, or runs what a name says,
would be found here alone.
"""
import contextlib
import functools
import gzip
import html
import importlib.util
import itertools
import os
import random
import re
import shutil
import signal
import subprocess
import sys
import tempfile
import threading
import time
import urllib.parse

import harness
import report_looks as looks
import why
from browsers import Browser, Chromium, Firefox, comes
from harness import differs, ended, is_there
from large import turning_files
from oracles.links import links_of, unneeded_steps
from oracles.refusals import HINTS
from oracles.tasks import plan_text, text_of as task_text
from oracles.traces import folded
from texts import TOP, as_bytes, bytes_of_file, put, table, text_of, with_line
from walks import operated_task, walk, walked_task

sys.path.insert(0, os.path.join(TOP, "bench"))
from gripper import Gripper
from sas_text import plan_pieces, task_pieces

SEED = 7
# random tasks with axioms whose plans have at least so many steps, and the most variables that the page shows at once
TASKS, STEPS, VARIABLES = 8, 3, 12
# bounds for 100,000 steps over 5,000 variables, and what was measured beside other work: 3 s, 92 MB, 903 kB, 2 s and 0.2 s. The seconds
# are those of processors, and times in a browser are the best of several, since other tests may run beside this one
LARGE = {"seconds": 15, "megabytes": 200, "bytes": 1000000, "picture": 20, "key": 3}
# how many bytes of memory a report of what is too long may have: a little more than a page is made of
MOST_MEMORY = 450_000_000
# plans of examples, by short names
EXAMPLES = {"valid": ("fuses.sas", "fuses.plan"), "short": ("fuses.sas", "fuses-short.plan"), "elevator": ("elevator.sas", "elevator.plan")}
HARM = "</script><script>document.title='harm'</script><img src=x onerror=\"document.title='harm'\">"
NAMES = (HARM, "&lt;b&gt;", "a\u202eb\u2066c", "\x1b[31mred", "'\"`${1}{{data}}", "constructor", "__proto__", "x" * 300, "é ✓", "%s \\1")

# the forms of lines that docs/MEANING.md, docs/WHY.md and docs/FORMATS.md list
FORMS = [*table("reason_forms.json"), *(f"hint {words}" for words in HINTS)]


def example(name):
    return [bytes_of_file(f"examples/{file}") for file in EXAMPLES[name]]


def package():
    """Returns the module of the command. Its package has the name of a script of this folder, so it gets another one."""
    place = importlib.util.spec_from_file_location("sas_report", f"{TOP}/report/__init__.py", submodule_search_locations=[f"{TOP}/report"])
    sys.modules["sas_report"] = importlib.util.module_from_spec(place)
    return importlib.import_module("sas_report.command")


def split(paths):
    """Returns the folder of files, and their names."""
    return os.path.dirname(paths[0]), [os.path.basename(path) for path in paths]


@contextlib.contextmanager
def within(folder):
    """Works in a folder, and prints nothing there."""
    before, out = os.getcwd(), os.dup(1)
    with open(os.devnull, "wb") as null:
        os.dup2(null.fileno(), 1)
    os.chdir(folder)
    try:
        yield
    finally:
        os.chdir(before)
        os.dup2(out, 1)
        os.close(out)


class Reports:
    """Writes reports into a folder. `command` is how a user starts it, `main` the same in this process, which is faster."""

    def __init__(self, sas, command, folder):
        self.sas, self.command, self.folder, self.main = os.path.abspath(sas), command, folder, package().main
        self.count = 0

    def files(self, task, *plans):
        """Writes the files of a task and of plans, and returns their paths. A plan may be a pair of a name and bytes."""
        place = os.path.join(self.folder, str(self.count))
        self.count += 1
        os.mkdir(place)
        pairs = [("t.sas", task), *(plan if isinstance(plan, tuple) else (f"p.{i}", plan) for i, plan in enumerate(plans, 1))]
        return [put(os.path.join(place, name), data) for name, data in pairs]

    def page(self, task, *plans, module=None):
        """Returns the path of a report, and the exit status. Its files are named as they are called in their folder."""
        folder, names = split(self.files(task, *plans))
        words = [] if module else ["--sas", self.sas]
        with within(folder):
            return os.path.join(folder, "report.html"), self.main([*names, *words], module)

    def run(self, *words, **more):
        return ended(*self.command, *words, **more)

    def printed(self, request, *paths):
        ran = ended(self.sas, *request, *paths)
        return ran.stdout.decode("latin-1").splitlines()


# Without a browser


def statuses(reports):
    """The exit status says how it ended, and a message names the file."""
    task, plan, short = reports.files(*example("valid"), example("short")[1])
    folder, sas = os.path.dirname(task), ["--sas", reports.sas]
    page, gone = os.path.join(folder, "r.html"), os.path.join(folder, "gone")
    expected = (
        ([task, plan, "-o", page, *sas], 0, ""), ([task, short, "-o", page, *sas], 1, ""), ([plan, task, "-o", page, *sas], 1, ""),
        ([task, plan, short, "-o", page, *sas], 1, ""), ([task], 2, "PLAN"), ([], 2, "TASK"), (["-", "-"], 2, "standard input used twice"),
        ([task, plan, "--other"], 2, "--other"), ([gone, plan, *sas], 3, gone), ([task, gone, *sas], 3, gone),
        ([folder, plan, *sas], 3, folder),
        ([task, plan, "-o", os.path.join(gone, "r"), *sas], 3, gone), ([task, plan, "--sas", gone], 3, gone),
        ([task, plan, "-o", "/dev/full", *sas], 3, "No space"), ([task, plan, "--sas", "/bin/false"], 3, "/bin/false"), (["--help"], 0, ""),
        ([task, plan, "--sas", "/bin/true"], 3, "sas-report: "),
        ([task, plan, "-o", task, *sas], 2, f"the report would replace {task}"),
        ([task, plan, short, "-o", f"{folder}/./p.2", *sas], 2, f"the report would replace {short}"),
    )
    wrong = []
    for words, status, message in expected:
        ran = reports.run(*words, cwd=folder)
        wrong += differs(ran.returncode, status, f"{words} status")
        wrong += [] if message in ran.stderr.decode() else [f"{words}: {ran.stderr.decode()[-200:]}"]
    wrong += differs([bytes_of_file(it) for it in (task, short)], [example("valid")[0], example("short")[1]], "the inputs")
    page = " ".join(reports.run("--help").stdout.decode().split())
    return wrong + [f"--help lacks {word}" for word in ("0 if", "1 if", "2 for", "3 if", "--sas", "-o FILE") if word not in page]


def said(reports):
    """The name of the report and the verdict are printed, or those of several plans in short; and the version."""
    task, plan, short, broken = reports.files(*example("valid"), ("sas_plan.10", example("short")[1]), ("sas_plan.2", b"x"))
    folder, wrong = os.path.dirname(task), []
    for plans, words, line in (
        ([plan], ["-o", "r.html"], "r.html: plan valid: 4 steps, cost 4"), ([short], [], "report.html: plan invalid: step 2: not applicable"),
        ([short, broken, plan], [], f"report.html: 3 plans, 1 valid, best cost 4: {plan}"), ([short, broken], [], "report.html: 2 plans, 0 valid"),
    ):
        ran = reports.run(task, *plans, *words, "--sas", reports.sas, cwd=folder)
        wrong += differs((ran.stdout.decode(), ran.stderr), (line + "\n", b""), f"{plans} {words}")
    version = reports.printed(["--version"])[0]
    os.symlink(reports.sas, f"{folder}/sas")
    path = {"PATH": f"{folder}:{os.environ['PATH']}"}
    for word in ("--version", "-V"):
        ran = reports.run(word, env={**os.environ, **path})
        own = re.fullmatch(rb"sas-report, with sas [\d.]+\n", ran.stdout)
        wrong += [] if (ran.returncode, bool(own), version[:4]) == (0, True, "sas ") else [f"{word}: {ran}"]
    return wrong


def names_of_plans(reports):
    """A plan is called as on the command line, so files of one name are told apart; numbers in names are sorted as numbers."""
    task, plan = reports.files(*example("valid"))
    folder, names = os.path.dirname(task), ["t.10/sas_plan", "t.9/sas_plan", "./t.2/sas_plan"]
    for name in names:
        os.makedirs(os.path.join(folder, os.path.dirname(name)))
        shutil.copy(plan, os.path.join(folder, name))
    ran = reports.run("t.sas", *names, "-o", "-", "--sas", reports.sas, cwd=folder)
    found = re.findall(r'<p class="files"><bdi>(.*?)</bdi>', ran.stdout.decode())
    return differs(found, ["./t.2/sas_plan", "t.9/sas_plan", "t.10/sas_plan"], "names")


COUNTED = '#!/bin/sh\necho "$1 $2" >> runs\nexec "$SAS" "$@"\n'


def one_run(reports):
    """sas is run once for each plan, and once for its version."""
    paths = reports.files(*example("short"), example("valid")[1])
    folder = os.path.dirname(paths[0])
    counted = put(os.path.join(folder, "counted"), COUNTED)
    os.chmod(counted, 0o755)
    ran = reports.run(*paths, "-o", "-", "--sas", counted, cwd=folder, env={**os.environ, "SAS": reports.sas})
    runs = text_of(os.path.join(folder, "runs")).splitlines()
    wrong = differs((ran.returncode, ran.stdout[:15]), (1, b"<!DOCTYPE html>"), "the page")
    return wrong + differs(runs, ["--version ", "trace --why", "trace --why"], "runs")


# lines that a later version of sas prints
LATER = """plan invalid: step 2: not applicable
  step 2 take f2
  operator 9 line 186
    requires 6 0 Atom handempty()
    actual 6 1 NegatedAtom handempty()
    since step 1 take f1
  if made anyway 2 of 3 later steps fail
    step 4 put f2 feed
    step 5 if made anyway
  if made anyway 1 of 1 goal facts fail
"""
UNKNOWN = """plan invalid: step 1: no operator of that name
  step 1 Go-to (x)
  similar operator 0 line 24 go to x
  step 3 goal fact 7
  3 of 5 steps name no operator
  hint the plan may be of another task
"""
REFUSED = """task refused: line 9: number
  at variable 0
  expected number 0 to 5: axiom layer
  found x
  hint a number is written without a sign
"""


def later_lines(reports):
    """Lines that a later version of sas prints are shown, and the facts that fail are those of the step that fails."""
    answer, task, verdict = (importlib.import_module(f"sas_report.{it}") for it in ("answer", "task", "verdict"))
    wrong = []
    for said, missing, operators in ((LATER, [(6, 0)], [9]), (UNKNOWN, [], []), (REFUSED, [], [])):
        plan = answer.Plan("p", b"(a)\n(b)\n", task.lines(said.encode()), answer.Moves())
        table_of = html.unescape(re.sub("<[^>]*>", " ", verdict.table(plan.reasons, "")))
        words = {word for line in said.splitlines()[1:] for word in re.sub(r"goal fact (?=\d+$)", "", line).split()}
        wrong += differs(sorted(words - set(re.split(r"\s+", table_of))), [], said.splitlines()[0])
        wrong += differs((plan.facts("requires"), plan.operators()), (missing, operators), said.splitlines()[0])
    links = re.findall(r'href="#plan-1-step-(\d+)', verdict.table(answer.Plan("p", b"", task.lines(LATER.encode()), answer.Moves()).reasons, "plan-1-"))
    return wrong + differs(links, ["2", "1", "4", "5"], "links to steps") if reports else wrong


def read_once(reports):
    """Pipes and standard input are read once, and the page is the one of files."""
    task, plan = example("valid")
    paths = reports.files(task, plan)
    expected = reports.run(*paths, "-o", "-", "--sas", reports.sas).stdout
    wrong = [] if b"plan valid: 4 steps, cost 4" in expected else ["no page on standard output"]
    for place in (0, 1):
        words = [*paths[:place], "-", *paths[place + 1:]]
        found = reports.run(*words, "-o", "-", "--sas", reports.sas, input=(task, plan)[place]).stdout
        wrong += differs(b"<h1>plan valid: 4 steps, cost 4</h1>" in found, True, f"{words[place - 1]} beside standard input")
    pipes = [path + ".pipe" for path in paths]
    for pipe, data in zip(pipes, (task, plan)):
        os.mkfifo(pipe)
        threading.Thread(target=lambda pipe=pipe, data=data: open(pipe, "wb").write(data), daemon=True).start()
    found = reports.run(*pipes, "-o", "-", "--sas", reports.sas).stdout
    return wrong + differs(b"<h1>plan valid: 4 steps, cost 4</h1>" in found, True, "named pipes")


def closed_streams(reports):
    """A stream that is closed at the start isn't replaced by a file. Where it is needed, there is no report."""
    task, plan = reports.files(*example("valid"))
    page, sas, wrong = os.path.join(os.path.dirname(task), "r.html"), ["--sas", reports.sas], []
    for words, needed, status in (
        ([task, plan, "-o", page, *sas], "", 0), ([task, plan, "-o", "-", *sas], "1", 0), (["-", plan, "-o", page, *sas], "0", 0),
        ([task, "-", "-o", "-", *sas], "01", 1), (["--help"], "1", 0), (["--other"], "", 2), ([task, page + "none", *sas], "", 3),
    ):
        for closed in itertools.chain.from_iterable(itertools.combinations("012", count) for count in range(4)):
            script = "".join(f"exec {it}>&-; " for it in closed) + 'exec "$0" "$@"'
            with open(task, "rb") as given:
                command = ["sh", "-c", script, *reports.command, *words]
                ran = ended(*command, stdin=given)
            expected = 3 if set(needed) & set(closed) else status
            wrong += differs(ran.returncode, expected, f"{words}, closed: {closed}: status")
            is_line = ran.stderr.startswith(b"sas-report: ") and ran.stderr.count(b"\n") == 1
            wrong += [f"{words}, closed: {closed}: {ran.stderr}"] * (expected == 3 and "2" not in closed and not is_line)
    return wrong


WAITING = "#!/bin/sh\ncase $1 in --version) exec \"$SAS\" --version;; esac\ncat \"$3\" \"$4\" > seen\nkill -$SIGNAL $PPID\n"


def signals(reports):
    """A signal ends it, and leaves nothing in the temporary folder."""
    task, plan = reports.files(*example("valid"))
    folder, wrong = os.path.dirname(task), []
    place, waiting = os.path.join(folder, "temporary"), os.path.join(folder, "waiting")
    os.mkdir(place)
    put(waiting, WAITING)
    os.chmod(waiting, 0o755)
    for name in ("TERM", "HUP", "INT", "KILL"):
        env = {**os.environ, "TMPDIR": place, "SIGNAL": name, "SAS": reports.sas}
        ran = reports.run(task, plan, "-o", "-", "--sas", waiting, env=env, cwd=folder)
        wrong += differs(ran.returncode, -getattr(signal, f"SIG{name}"), f"SIG{name}")
        wrong += differs(os.listdir(place), [], f"what SIG{name} leaves")
        wrong += differs(bytes_of_file(os.path.join(folder, "seen")), b"".join(example("valid")), "what sas was given")
    command = ["env", "--ignore-signal=CHLD", *reports.command, task, plan, "--sas", "/bin/false"]
    ran = subprocess.run(command, capture_output=True, check=False, timeout=60)
    return wrong + differs(ran.stderr, b"sas-report: /bin/false: it ended with status 1\n", "SIGCHLD is ignored")


def limits(reports):
    """An input that is too long, and a plan that is too large to show, have a line that says so. They take little memory."""
    task, plan = example("valid")
    paths, wrong = reports.files(task, plan), []
    page = os.path.join(os.path.dirname(paths[0]), "r.html")
    for most, status, name in ((len(task), 0, ""), (len(task) - 1, 3, "t.sas"), (len(plan), 3, "t.sas"), (0, 3, "t.sas")):
        ran = reports.run(*paths, "-o", page, "--max-bytes", str(most), "--sas", reports.sas)
        said = f"sas-report: input too long: {paths[0]}\n" if name else ""
        wrong += differs((ran.returncode, ran.stderr.decode()), (status, said), f"--max-bytes {most}")
    wrong += differs(reports.run(*paths, "--max-bytes", "x").returncode, 2, "--max-bytes x")
    endless = f'yes | "$@" - {paths[1]} -o {page} --max-bytes {1 << 24}', "sas-report: input too long: -\n"
    large = reports.files(*turning_files(4000, 10, 4000, 1))
    traced = sum(map(len, subprocess.Popen([reports.sas, "trace", "--why", *large], stdout=subprocess.PIPE).stdout))
    said = f"sas-report: the plan is too large to show: {large[1]}: sas prints {traced} bytes about it\n"
    too_large = f'"$@" {" ".join(large)} -o {page}', said
    for script, said in (endless, too_large):
        limited = f"ulimit -v {MOST_MEMORY // 1024}; {script} --sas {reports.sas}"
        ran = ended("sh", "-c", limited, "", *reports.command)
        wrong += differs((ran.returncode, ran.stderr.decode()), (3, said), script)
    return wrong


def found_programs(reports):
    """`sas` is found beside the command, else on the PATH. The files of the page are found where install.sh puts them."""
    wrong, paths = [], reports.files(*example("valid"))
    top = os.path.join(os.path.dirname(paths[0]), "with a space")
    shutil.copytree(os.path.join(TOP, "report"), f"{top}/share/sas/report")
    os.makedirs(f"{top}/bin")
    os.makedirs(f"{top}/other")
    shutil.move(f"{top}/share/sas/report/sas-report", f"{top}/bin/sas-report")
    shutil.copy(reports.sas, f"{top}/other/sas")
    os.symlink(f"{top}/bin/sas-report", f"{top}/link")
    for place, path in ((None, "/usr/bin:/bin"), (None, f"{top}/other:/usr/bin:/bin"), (f"{top}/bin/sas", "/usr/bin:/bin")):
        if place:
            shutil.copy(reports.sas, place)
        for command in ("bin/sas-report", "link"):
            words = [sys.executable, f"{top}/{command}", *paths, "-o", f"{top}/r.html"]
            ran = ended(*words, env={"PATH": path, "PYTHONDONTWRITEBYTECODE": "1"})
            wrong += differs(ran.returncode, 0 if place or "other" in path else 3, f"{command}, {place}, {path}")
    return wrong


def with_library(reports):
    """The library in place of the program gives the same page, but for the version."""
    sys.path.insert(0, os.path.join(TOP, "library", "python"))
    os.environ.setdefault("LIBSAS", os.path.join(TOP, "library", "out", "libsas.so"))
    try:
        module = importlib.import_module("sas")
    except ImportError:
        print("without the library")
        return []
    pages = [text_of(reports.page(*example("short"), module=module)[0]), text_of(reports.page(*example("short"))[0])]
    return differs(*(page.replace("sas 1", "1") for page in pages), "the page of the library")


def damaged():
    """Yields files that are refused: each line of the task emptied, and the common mistakes."""
    task, plan = example("valid")
    yield from ((with_line("examples/fuses.sas", line, ""), plan) for line in range(1, task.count(b"\n") + 1))
    yield from ((with_line("examples/fuses.sas", line, text), plan) for line, text in ((2, "4"), (9, "x"), (107, "0 6 0 2"), (82, "2")))
    for spoiled in (gzip.compress(task), b"\xef\xbb\xbf" + task, plan, task[:-1], task[:200], task + b"x", b"", task.replace(b"\n", b"\r")):
        yield spoiled, plan
    without_cost = plan.replace(b"; cost = 4 (unit cost)\n", b"")
    for spoiled in (task, plan[:-1], plan[:20], plan + b"x", b"; by hand\n" + plan, without_cost, b"(\n", b"; cost = x\n"):
        yield task, spoiled
    for spoiled in (b"; Cost = 4\n", plan + b"(", plan + b"\n", b"0.0: " + plan):
        yield task, spoiled


def answers(reports):
    """Returns files with the lines that `plan --why` prints of them, of which each has a form of line that those before lack; and the
    forms that none has."""
    forms = {form: re.compile(re.sub(r"\b[A-Z]+\b", ".+", re.escape(form).replace("PDDL", "pddl"))) for form in FORMS}
    kinds = why.written_cases(), why.shared_cases(), itertools.islice(why.random_cases(), 4000)
    listed = (case for case in itertools.chain(*kinds) if case["words"][1] == "--why" and case["status"] == 1)
    given = ((case["files"]["t.sas"], case["files"]["p.txt"]) for case in listed)
    chosen = []
    for task, plan in itertools.chain([example("valid")], damaged(), given):
        task, plan = as_bytes(task), as_bytes(plan)
        lines = reports.printed(["plan", "--why"], *reports.files(task, plan))
        said = [re.sub(r"^(task refused: (?=op|rule)| +)", "", line).replace("PDDL", "pddl") for line in lines]
        seen = {form for form, pattern in forms.items() if any(map(pattern.fullmatch, said))}
        if seen:
            chosen.append((task, plan, lines))
        forms = {form: pattern for form, pattern in forms.items() if form not in seen}
        if not forms:
            break
    return chosen, sorted(forms)


def every_line(reports, chosen, missing):
    """Each form of a line that the documents list occurs. The page of each has all that `sas` printed, without a script too."""
    documents = "".join(text_of(f"{TOP}/docs/{name}.md") for name in ("MEANING", "WHY", "FORMATS"))
    wrong = [f"no case has the line {form}" for form in missing]
    wrong += [f"no document lists {form}" for form in FORMS if f"{form}`" not in documents]
    for _, _, lines, path, status in chosen:
        page = text_of(path).partition("<article")[2].partition("</article>")[0]
        lead = html.unescape(re.search("<h1>(.*?)</h1>", page, re.S)[1])
        wrong += differs(lead, shown(lines[0]), "the verdict without a script")
        wrong += [f"{lines[0]}: without a script {word} isn't shown" for word in missing_words(lines, html.unescape(re.sub("<[^>]*>", " ", page)))]
        wrong += differs(status, 0 if lines[0].startswith("plan valid") else 1, f"{lines[0]} status")
    return wrong


def missing_words(lines, text):
    """Returns the words of what `sas` printed that a text lacks. `goal fact 0` stands before the row of that fact."""
    wanted = {word for line in lines for word in shown(line).split()}
    return sorted(wanted - set(re.split(r"\s+", text)) - {"goal", "fact"})


def shown(line):
    """Returns a line that `sas` printed, whose characters are bytes, as a page shows it."""
    text = line.encode("latin-1").decode("utf-8", "backslashreplace")
    return "".join(c if c.isprintable() or c == "\n" else "".join(f"\\x{byte:02x}" for byte in c.encode()) for c in text)


# In a browser. READY is true once the script has come to its end


READY = """const is_shown = selector => !document.querySelector(selector).hidden;
    const is_drawn = !is_shown("main") || document.querySelector("#grid svg text");
    return is_drawn && (is_shown("main") || is_shown("#plans") || document.querySelector("article.refused:not([hidden]) .why") !== null)
        || document.getElementById("trouble").textContent !== "";"""
STATE = """[...document.querySelectorAll("#state .row")].reduce((state, row) => {
    state[row.querySelector(".var").hash.match(/fact-(\\d+)/)[1]] = row.lastChild.title;
    return state; }, [])"""
PRESS = """const press = key => document.getElementById("grid").dispatchEvent(new KeyboardEvent("keydown", {key, bubbles: true}));"""
FRAMES = "const frame = () => new Promise(requestAnimationFrame);"


def shown_in(browser, path, address=""):
    """Opens a report, and returns how many seconds the first picture took."""
    if address:  # or the page that is open would stay, and go to the address
        browser.open("about:blank")
    began = time.monotonic()
    browser.open(f"file://{urllib.parse.quote(path)}{address}")
    while not browser.run(READY):
        time.sleep(0.02)
    browser.run(FRAMES + "return frame().then(frame).then(() => 1)")
    return time.monotonic() - began


def text(browser, selector):
    return browser.run("const it = document.querySelector(arguments[0]); return it.innerText ?? it.textContent", selector)


def lines_in(browser, reports, chosen):
    """The page of each form of a line shows the verdict, and each word of the reasons."""
    wrong = []
    for _, _, lines, path, _ in chosen:
        shown_in(browser, path)
        trouble = text(browser, "#trouble")
        found = browser.run("return document.querySelector('article').innerText")
        wrong += [f"{lines[0]}: {trouble}"] if trouble else []
        wrong += [f"{lines[0]}: {word} isn't shown" for word in missing_words(lines, found)]
    return wrong


def random_plans():
    """Yields tasks with axioms, each with a plan, and that plan with a step that fails in each place."""
    chance, count = random.Random(SEED), 0
    while count < TASKS:
        task = operated_task(chance)
        steps, cost, _ = walk(chance, task)
        if any(layer is not None for layer in task["layers"]) and len(steps) >= STEPS and len(task["ranges"]) <= VARIABLES:
            plans = [steps, *([*steps[:place], "no step", *steps[place:]] for place in range(len(steps)))]
            yield task_text({**task, "goal": [(0, 0)]}).encode("latin-1"), [plan_text(plan, cost).encode("latin-1") for plan in plans]
            count += 1


@functools.lru_cache(None)
def random_pages(reports):
    """Returns pages of these, and for each plan the states of its trace."""
    pages = []
    for task, plans in random_plans():
        paths = reports.files(task, *plans)
        traces = [reports.printed(["trace"], paths[0], path)[:-1] for path in paths[1:]]
        pages.append((reports.page(task, *plans)[0], [named_states(lines) for lines in traces]))
    return pages


def states(browser, reports):
    """The state that the page shows after each step is that of `sas trace`, for plans that fail at each step."""
    wrong, count = [], 0
    for page, expected in random_pages(reports):
        shown_in(browser, page)
        found = browser.run(f"""{PRESS} return (async () => {{
            const out = [];
            for (let plan = 1; plan <= arguments[0]; plan++) {{
              const changed = new Promise(resolve => addEventListener("hashchange", resolve, {{once: true}}));
              location.hash = `#plan-${{plan}}-step-0`;
              await changed;
              const states = [], total = document.querySelectorAll("#steps .row").length - 1;
              for (let t = 0; t <= total; t++, press("ArrowRight")) states.push({STATE});
              out.push(states);
            }}
            return out; }})()""", len(expected))
        for plan, states_of_plan in zip(found, expected):
            count += len(states_of_plan)
            wrong += differs(plan[:len(states_of_plan)], states_of_plan, page)
            wrong += [f"{page}: {state} where no step went through" for state in plan[len(states_of_plan):] if state != states_of_plan[-1]]
    return wrong + ([] if count > 100 else [f"only {count} states"])


def named_states(lines):
    """Returns the states of a trace by the names of their values."""
    names = {}
    for line in lines:
        word, *rest = line.split(" ", 3 if line.startswith("initial") else 4)
        if word != "step":
            names[int(rest[0]), int(rest[-2])] = rest[-1]
    return [[names[var, value] for var, value in enumerate(state)] for state in folded(lines)[0]]


def hostile_task():
    """Returns a task and a plan whose names would do harm, if they were read as anything but names."""
    names = [name.encode() for name in NAMES] + [b"\xff\xfe not text", b" spaces "]
    values = [[b"Atom %s(%s)" % (name.replace(b" ", b"_"), names[i - 1]), b"NegatedAtom %s" % name] for i, name in enumerate(names)]
    values[0], values[1] = [b"Atom at(b, %s)" % names[0], b"Atom at(b, %s)" % names[2], b"<none of those>"], [names[1], names[2]]
    lines = [b"begin_version", b"3", b"end_version", b"begin_metric", b"1", b"end_metric", b"%d" % len(names)]
    for name, its in zip(names, values):
        lines += [b"begin_variable", name, b"-1", b"%d" % len(its), *its, b"end_variable"]
    lines += [b"0", b"begin_state", *[b"0"] * len(names), b"end_state", b"begin_goal", b"1", b"0 1", b"end_goal", b"%d" % len(names)]
    for i, name in enumerate(names):
        lines += [b"begin_operator", name, b"1", b"%d 0" % ((i + 1) % len(names)), b"1", b"0 %d -1 1" % i, b"7", b"end_operator"]
    plan = [b"(%s)" % name for name in [*names[2:5], names[0], names[5], HARM.encode()]] + [b"; cost = 9 (general cost)"]
    return b"\n".join([*lines, b"0", b""]), b"\n".join([*plan, b""])


def hostile(browser, reports):
    """Names of files, variables, values and operators run nothing, load nothing, and are shown as text."""
    task, plan = hostile_task()
    page, status = reports.page(task, ("<img src=x onerror=alert(1)>\u202e.plan", plan))
    wrong = differs(status, 1, "status")
    shown_in(browser, page)
    browser.press("End", "ArrowLeft", "Home")
    wrong += differs(text(browser, "#trouble"), "", "trouble")
    wrong += differs(browser.run("return document.title"), "✕ <img src=x onerror=alert(1)>\\xe2\\x80\\xae.plan", "title")
    wrong += differs(browser.run("return document.querySelectorAll('img, iframe, object').length"), 0, "elements")
    wrong += differs(browser.run("return document.scripts.length"), 2, "scripts")
    seen = browser.run("return document.body.innerText + document.getElementById('state').textContent")
    names = HARM, "&lt;b&gt;", "a\\xe2\\x80\\xaeb\\xe2\\x81\\xa6c", "\\x1b[31mred", "\\xff\\xfe not text"
    wrong += [f"{name!r} isn't shown" for name in names if name not in seen]
    wrong += [f"{ord(c):x} is shown" for c in sorted(set(seen)) if not c.isprintable() and c not in "\n\t"]
    loaded = """return new Promise(resolve => {
        const it = Object.assign(new Image(), {onload: () => resolve("loaded"), onerror: () => resolve("blocked")});
        it.src = "data:image/gif;base64,R0lGODlhAQABAAAAACwAAAAAAQABAAA="; })"""
    wrong += differs(browser.run(loaded), "blocked", "an image")
    sets = "try { document.getElementById('trouble').innerHTML = '<i>x</i>'; return 'set'; } catch (fault) { return 'blocked'; }"
    adds = "const it = document.createElement('script'); it.append('document.title = 1'); document.body.append(it); return document.title"
    written = browser.run(adds)
    return wrong + differs(browser.run(sets), "blocked", "markup") + differs(written[:1], "✕", "another script")


def heading(browser):
    return text(browser, "#step h3")


def heads(browser, expected, what):
    """Waits until the selected step has a heading that begins so."""
    return comes(what, lambda: heading(browser)[:len(expected)], expected)


def shows(browser, selector, expected, what):
    """Waits until an element shows this text."""
    return comes(what, lambda: text(browser, selector), expected)


def has(browser, selector, words):
    """Waits until an element shows a text with these words."""
    return comes(f"{words} in {selector}", lambda: words in text(browser, selector), True)


def focus(browser, name):
    browser.run("document.getElementById(arguments[0]).focus()", name)


WIDE = "return parseFloat(document.querySelector('#grid > div').style.width)"


def reached(browser, wanted):
    """Goes on by the tabulator, and returns which of these elements it reaches."""
    found = []
    for _ in range(60):
        if set(wanted) <= set(found):
            break
        browser.run("window.last = document.activeElement")
        browser.press("Tab")
        comes("another focus", lambda: browser.run("return document.activeElement !== window.last"), True, LARGE["picture"])
        found.append(browser.run("return document.activeElement.id"))
    return [name for name in wanted if name in found]


def keys(browser, reports):
    """Keys act where the focus is. They select steps, search, and change the scale; nothing needs a pointer."""
    page, _ = reports.page(*example("elevator"))
    shown_in(browser, page)
    wrong = differs(heading(browser), "Step 1 up f0 f1", "at first")
    for pressed in ("ArrowRight", "End", "PageDown", "f", "+"):  # nothing has the focus
        browser.press(pressed)
    wrong += differs(heading(browser), "Step 1 up f0 f1", "keys of the window")
    focus(browser, "grid")
    for pressed, expected in (("ArrowRight", "Step 2"), ("End", "Step 6"), ("ArrowRight", "Step 6"), ("ArrowLeft", "Step 5"),
                              ("PageUp", "initial"), ("PageDown", "Step 6"), ("Home", "initial")):
        browser.press(pressed)
        wrong += heads(browser, expected, pressed)
    wrong += shows(browser, "#spent", "cost 0 of 7", "cost")
    before = browser.run(WIDE)
    browser.press(*"++++++++")
    wrong += comes("+ makes steps wider", lambda: browser.run(WIDE) > before, True)
    browser.press("f")
    wrong += comes("f", lambda: browser.run(WIDE), before)
    browser.press("/", *"stop", "ArrowRight")
    wrong += shows(browser, "#found", "3 of 6", "a search") + heads(browser, "initial state", "an arrow in a search")
    focus(browser, "steps")
    for pressed, expected in (("ArrowDown", "Step 2"), ("ArrowDown", "Step 4"), ("End", "Step 6"), ("ArrowUp", "Step 4"), ("Home", "Step 2"),
                              ("PageDown", "Step 6"), ("PageUp", "Step 2")):
        browser.press(pressed)
        wrong += heads(browser, expected, f"{pressed} in what is found")
    focus(browser, "at")
    browser.press("ArrowRight")
    said = "const it = document.getElementById('at'); return [it.type, it.max, it.getAttribute('aria-valuetext')]"
    wrong += comes("the slider", lambda: browser.run(said), ["range", "6", "Step 3 of 6: up f1 f2"])
    browser.run("document.activeElement.blur()")
    wanted = ["previous", "play", "next", "at", "narrower", "wider", "fit", "save", "theme", "rows", "which", "order", "only", "grid", "step",
              "find", "steps", "filter", "state"]
    wrong += differs(reached(browser, wanted), wanted, "by the tabulator")
    focus(browser, "state")
    browser.press("ArrowDown", "ArrowDown", "Enter")
    return wrong + comes("a fact by keys", lambda: browser.run("return location.hash.startsWith('#fact-')"), True)


def escape(browser, reports):
    """Escape empties a search field, and what it kept away is there again."""
    page, _ = reports.page(*example("elevator"))
    shown_in(browser, page)
    wrong = []
    for field, count, some, all_of_them in (("filter", "matched", "1 of 5", "5"), ("find", "found", "1 of 6", "6"),
                                            ("rows", "shown", "1 of 5", "5")):
        focus(browser, field)
        browser.press(*("up f1" if field == "find" else "lift"))
        wrong += shows(browser, f"#{count}", some, f"{field}: words")
        browser.press("Escape")
        wrong += shows(browser, f"#{count}", all_of_them, f"{field}: Escape")
        wrong += differs(browser.run("return document.getElementById(arguments[0]).value", field), "", f"{field}: after Escape")
    return wrong


def paged(browser, box, what):
    """Says what is wrong where keys don't page a box. A browser that is busy may take the first key late."""
    down, wrong = "return document.getElementById(arguments[0]).scrollTop", []
    for key, is_there_then in (("PageDown", lambda top: top > 60), ("End", lambda top: top > 60), ("Home", lambda top: top < 5)):
        for _ in range(4):
            browser.press(key)
            end = time.monotonic() + LARGE["picture"] / 4
            while not (is_done := is_there_then(browser.run(down, box))) and time.monotonic() < end:
                time.sleep(0.1)
            if is_done:
                break
        wrong += [] if is_done else [f"{key} in {what}: {browser.run(down, box)}"]
    return wrong


# whether the selected row is in view
IN_VIEW = """const [box, row] = ["#steps", "#steps .on"].map(it => document.querySelector(it)?.getBoundingClientRect());
    return row !== undefined && row.top >= box.top - 1 && row.bottom <= box.bottom + 1;"""


def paging(browser, reports):
    """Each list can be paged where the focus is, also one whose rows aren't all elements; the selected step stays. The order of rows is
    that of the variables, but that those of the step come first. A step that is selected comes into view."""
    wrong = []
    for page, name in ((reports.large, "5,000 variables"), (reports.wide, "300 variables")):
        shown_in(browser, page)
        step = heading(browser)
        for box in ("state", "step", "compared"):
            if not browser.run("const it = document.getElementById(arguments[0]); return it.checkVisibility() && it.scrollHeight > it.clientHeight + 40", box):
                continue
            focus(browser, box)
            wrong += paged(browser, box, f"{name}, {box}")
        wrong += differs(heading(browser), step, f"{name}: the step")
        order = browser.run("return [...document.querySelectorAll('#state .row')].map(it => [it.classList.contains('here'), it.querySelector('.var').hash])")
        numbers = [(not is_here, 0 if is_here else int(re.search(r"fact-(\d+)", address)[1])) for is_here, address in order]
        wrong += [] if numbers == sorted(numbers) else [f"{name}: the order of the state"]
        wrong += [] if order[0][0] else [f"{name}: what the step changes isn't first"]
        for key, address in (("ArrowRight", "#step-701"), ("ArrowLeft", "#step-699"), ("End", "#step-0")):
            shown_in(browser, page, address)
            focus(browser, "grid")
            browser.press(key)
            wrong += comes(f"{name}: the row of the step after {key}", lambda: browser.run(IN_VIEW), True)
    return wrong


def choose(browser, name, value):
    """Sets a field, as typing or choosing does."""
    script = """const it = document.getElementById(arguments[0]);
        it[it.type === "checkbox" ? "checked" : "value"] = arguments[1];
        it.dispatchEvent(new Event("input", {bubbles: true}))"""
    browser.run(script, name, value)


def fields(browser, reports):
    """Filters keep what has the words; the rows and their order are chosen. The step that fails shows what it requires and would do."""
    page, _ = reports.page(*example("short"))
    shown_in(browser, page)
    wrong = differs(heading(browser), "Step 2 take f2", "the failing step")
    rows = browser.run("return [...document.querySelectorAll('#step li.fact')].map(it => it.innerText.replace(/\\s+/g, ' ').trim())")
    wrong += differs(rows, ["✗ Atom handempty() it is NegatedAtom handempty() since step 1", "✓ Atom lying(f2) since the start"], "what it requires")
    wrong += differs("Atom holding(f2)" in text(browser, "#step"), True, "what it would do")
    wrong += differs(browser.run("return document.querySelectorAll('#step .reasons').length"), 0, "reasons are said twice")
    for which, expected in (("all", 8), ("derived", 3), ("goal", 1), ("changing", 2), ("main", 3)):
        choose(browser, "which", which)
        wrong += differs(text(browser, "#shown"), f"{expected} of 8" if expected < 8 else "8", which)
    for order in ("number", "often", "first"):
        choose(browser, "order", order)
    choose(browser, "rows", "hand")
    wrong += differs(text(browser, "#shown"), "1 of 8", "rows")
    choose(browser, "rows", "")
    for words, expected in (("lit", "2 of 8"), ("LYING(F2)", "1 of 8"), ("nothing", "0 of 8"), ("", "8")):
        choose(browser, "filter", words)
        wrong += differs(text(browser, "#matched"), expected, f"filter {words}")
    wrong += has(browser, "#state", "requires true")
    browser.run("document.querySelector('.reasons a[href=\"#step-1\"]').click()")
    wrong += heads(browser, "Step 1 take f1", "a link")
    choose(browser, "only", True)
    wrong += differs([text(browser, "#matched"), text(browser, "#shown")], ["2 of 8", "2 of 8"], "only this step's")
    for words, expected in (("holding(f1)", "1 of 3"), ("take", "2 of 3"), ("", "3")):
        choose(browser, "find", words)
        wrong += differs(text(browser, "#found"), expected, f"find {words}")
    focus(browser, "grid")
    browser.press("End")
    wrong += has(browser, "#step", "Not judged: step 2 fails before it.")
    shown_in(browser, page, "#step-3")
    wrong += differs(heading(browser), "Step 3 put f2 feed", "an address")
    for address, first, marks in (("#fact-0-0", "rule 3", "✗✗"), ("#fact-7-1", "rule 9", "✓")):
        # a derived fact that is false, and a default that another value has replaced
        shown_in(browser, page, address)
        tree = text(browser, "#fact .tree")
        wrong += differs((tree.split("\n")[0].strip(), "".join(re.findall("[✓✗]", tree))[:len(marks)]), (first, marks), f"rules of {address}")
    links = browser.run("return [...document.querySelectorAll('#fact .tree a')].map(it => /^#fact-\\d+(-\\d+)?$/.test(it.hash))")
    return wrong + differs(bool(links) and all(links), True, "links of rules")


def buttons(browser, reports):
    """Buttons go to the next step and back, play the plan, and make steps wider. Who wants no motion isn't offered to play."""
    page, _ = reports.page(*example("elevator"))
    shown_in(browser, page)
    wrong, press = [], "document.getElementById(arguments[0]).click()"
    for name, expected in (("next", "Step 2"), ("next", "Step 3"), ("previous", "Step 2")):
        browser.run(press, name)
        wrong += differs(heading(browser)[:6], expected, name)
    before = browser.run(WIDE)
    browser.run(press, "wider")
    wrong += [] if browser.run(WIDE) > before else ["wider"]
    browser.run(press, "narrower")
    browser.run(press, "play")
    wrong += differs(browser.run("return document.getElementById('play').ariaLabel"), "Pause", "while it plays")
    wrong += heads(browser, "Step 6", "played")
    wrong += comes("played to the end", lambda: browser.run("return document.getElementById('play').ariaLabel"), "Play")
    wrong += differs("Step 6 of 6" in text(browser, "#live"), True, "what is told")
    light = "return getComputedStyle(document.body).backgroundColor"
    before = browser.run(light)
    browser.run(press, "theme")
    wrong += [] if browser.run(light) != before else ["dark is as light"]
    if isinstance(browser, Chromium):
        browser.prefer("prefers-reduced-motion", "reduce")
        wrong += comes("play without motion", lambda: browser.run("return document.getElementById('play').checkVisibility()"), False)
        browser.prefer("forced-colors", "active")
        colours = "const it = getComputedStyle(document.documentElement); return ['card', 'ink'].map(name => it.getPropertyValue('--' + name).trim())"
        wrong += comes("forced colours", lambda: browser.run(colours), ["Canvas", "CanvasText"])
        browser.chrome("Emulation.setEmulatedMedia", features=[])
    return wrong


def pointer(browser, reports):
    """A click on the timeline or on the map selects a step, on a label it shows the variable. The wheel with the control key changes the
    scale."""
    page, _ = reports.page(*example("elevator"))
    shown_in(browser, page)
    bar = browser.run("const it = document.querySelector('#grid svg g path').getBoundingClientRect(); return [it.left, it.right]")

    def place(name, x, y):
        """Returns where a place of an element is now."""
        return browser.run("const {left, top} = document.getElementById(arguments[0]).getBoundingClientRect(); return [left + arguments[1], top + arguments[2]]",
                           name, x, y)

    browser.click(bar[0] + 10, place("grid", 0, 60)[1])
    wrong = heads(browser, "initial state", "the first column")
    browser.click(bar[1] - 10, place("cost", 0, 30)[1])
    wrong += heads(browser, "Step 6", "the end of the map")
    before = browser.run(WIDE)
    browser.wheel(*place("grid", 400, 60), -400)
    wrong += comes("the wheel makes it wider", lambda: browser.run(WIDE) > before, True)
    browser.point(*place("grid", 300, 60))
    wrong += comes("below the pointer", lambda: browser.run("return document.getElementById('grid').title.includes('var')"), True)
    browser.click(*place("grid", 30, 60))
    wrong += has(browser, "#fact", "Changes: 3")
    # the picture is drawn anew while the button is down
    browser.run("const it = document.getElementById('grid'); it.addEventListener('pointerdown', () => it.dispatchEvent(new Event('scroll')))")
    browser.point(*place("grid", 30, 82), *({"type": kind, "button": 0, "duration": 200} for kind in ("pointerDown", "pause", "pointerUp")))
    return wrong + has(browser, "#fact", "variable 1:")


def several(browser, reports):
    """Several plans are listed, the best first, and two of them are compared."""
    task, plan = example("valid")
    short, late = example("short")[1], plan.replace(b"(put f2 feed)", b"(put f2 link)")
    page, status = reports.page(task, ("d.plan", plan), ("b.plan", short), ("c.plan", late), ("a.plan", b"x\n"))
    shown_in(browser, page)
    wrong = differs(status, 1, "status")
    rows = browser.run("return [...document.querySelectorAll('#listed tr')].map(row => [...row.cells].map(cell => cell.textContent))")
    wrong += differs(rows, [
        ["d.plan", "✓ plan valid: 4 steps, cost 4", "4", "4"], ["b.plan", "✕ plan invalid: step 2: not applicable", "3", "–"],
        ["c.plan", "✕ plan invalid: step 4: not applicable", "4", "–"], ["a.plan", "! plan refused: line 1: keyword", "–", "–"],
    ], "the list")
    wrong += differs(text(browser, "#best"), "4 plans, 1 valid, best cost 4: d.plan", "the best")
    wrong += differs(text(browser, "#parts"), "1 only in d.plan", "what differs")
    compared = """return [...document.querySelectorAll("#compared .row")].map(
        row => [...row.children].map(cell => cell.innerText.replace(/\\s+/g, " ").trim()))"""
    steps = [["1 take f1", "1 take f1"], ["2 put f1 link", ""], ["3 take f2", "✕ 2 take f2"], ["4 put f2 feed", "3 put f2 feed"]]
    wrong += comes("side by side", lambda: browser.run(compared), steps)
    browser.run("const it = document.getElementById('other'); it.selectedIndex = 2; it.dispatchEvent(new Event('change'))")
    wrong += differs(text(browser, "#parts"), "1 only in d.plan, 1 only in c.plan", "another pair")
    shown = "return document.querySelector('article:not([hidden]) h1')?.textContent"
    for address, verdict in (("#plan-2", rows[1][1][2:]), ("#plan-1", rows[3][1][2:]), ("#plan-4-step-3", rows[0][1][2:])):
        # the page is late, so that the note of the last selection is due before it follows
        browser.run("const end = performance.now() + 400; while (performance.now() < end); location.hash = arguments[0]", address)
        wrong += comes(address, lambda: browser.run(shown), verdict)
    wrong += heads(browser, "Step 3 take f2", "its step")
    browser.run("document.querySelector('#back a').click()")
    return wrong + comes("back", lambda: browser.run("return document.querySelector('main').hidden"), True)


def moved_steps(browser, reports):
    """Steps that only stand elsewhere are moved, each one difference; what is common is found, however often names repeat."""
    task, chance, wrong = example("valid")[0], random.Random(SEED), []
    names = [f"s{i}" for i in range(12)]
    cases = [(names, [*names[1:7], names[0], *names[7:]], (1, 0, 0)), (list("udududud"), list("dududud"), (0, 1, 0)), (names, names, (0, 0, 0)),
             (names, [*names[:4], "new", *names[4:]], (0, 0, 1)), (list("aab"), list("baa"), (1, 0, 0)), ([], names, (0, 0, 12))]
    for _ in range(12):
        some = [chance.choice("abc") for _ in range(chance.randrange(9))]
        other = [chance.choice("abc") for _ in range(chance.randrange(9))]
        cases.append((some, other, None))
    for some, other, expected in cases:
        plans = [b"".join(b"(%s)\n" % it.encode() for it in steps) + b"; cost = 0 (unit cost)\n" for steps in (some, other)]
        page, _ = reports.page(task, *plans)
        shown_in(browser, page)
        said = text(browser, "#parts")
        found = tuple(int(it[1]) if it else 0 for it in (re.search(rf"(\d+) {words}", said) for words in ("moved", r"only in p\.1", r"only in p\.2")))
        wrong += differs(found, expected, f"{some} and {other}") if expected else []
        rows = browser.run("return [...document.querySelectorAll('#compared .row')].map(row => [...row.children].map(it => it.querySelector('.name')?.textContent ?? null))")
        sides = [[row[side] for row in rows if row[side] is not None] for side in (0, 1)]
        wrong += differs(sides, [some, other], "the steps of both, in their order")
        same = sum(a == b for a, b in rows)
        wrong += differs(same, longest_common(some, other), f"the steps in common of {some} and {other}")
    return wrong


def longest_common(some, other):
    """Returns the length of the longest common subsequence."""
    last = [0] * (len(other) + 1)
    for it in some:
        row = [0]
        for place, its in enumerate(other):
            row.append(last[place] + 1 if it == its else max(row[-1], last[place + 1]))
        last = row
    return last[-1]


@functools.lru_cache(None)
def linked_pages(reports):
    """Returns pages of random plans with goals, with their tasks and the names of their steps."""
    chance, pages = random.Random(SEED), []
    while len(pages) < TASKS:
        task, plans = walked_task(chance)
        names, cost = plans[0]
        has_conditions = any(facts for _, _, effects, _ in task["operators"] for facts, _, _, _ in effects)
        is_small = len(task["ranges"]) <= VARIABLES and len(names) >= STEPS
        if any(layer is not None for layer in task["layers"]) and is_small and has_conditions:
            texts = [it.encode("latin-1") for it in (task_text(task), plan_text(names, cost))]
            pages.append((reports.page(*texts)[0], task, names))
    return pages


# what the page says of each of these addresses of facts
FACTS = """const addresses = arguments[0]; return (async () => {
    const said = [];
    for (const address of addresses) {
      const changed = new Promise(resolve => addEventListener("hashchange", resolve, {once: true}));
      location.hash = address;
      await changed;
      said.push([document.querySelector("#fact h3").innerText, [...document.querySelectorAll("#fact .times li")].map(it => it.innerText)]);
    }
    return said; })()"""


def causal_links(browser, reports):
    """What a page says about what steps need is so, by the meaning of the task, and so are the steps that nothing needs."""
    wrong, count = [], 0
    for page, task, names in linked_pages(reports):
        shown_in(browser, page)
        goal, found = len(names) + 1, set()
        facts = [(var, value) for var, size in enumerate(task["ranges"]) for value in range(size)]
        said = browser.run(FACTS, [f"#fact-{var}-{value}" for var, value in facts])
        for (var, value), (title, lines) in zip(facts, said):
            # a value that doesn't occur isn't in the page
            for line in lines if title == f"Atom v{var}({value})" else []:
                form = re.search(r"(?:made true by step (\d+)|from the start)(?:, needed by (.*?))?(?:, until step \d+)?$", line)
                users = form[2].split(", ") if form and form[2] else []
                found |= {(int(form[1] or 0), var, goal if it == "the goal" else int(it.split()[1])) for it in users}
        expected = links_of(task, names)
        count += len(expected)
        wrong += [f"{page}: {what}: {sorted(them)}" for what, them in (("missing", expected - found), ("too many", found - expected)) if them]
        marked = browser.run("return [...document.querySelectorAll('#steps .row')].filter(it => it.querySelector('.unneeded')).map(it => +it.id.slice(4))")
        wrong += differs(marked, unneeded_steps(task, names), f"{page}: steps that nothing needs")
    return wrong + ([] if count > 30 else [f"only {count} links"])


def edges(browser, reports):
    """Plans and tasks that are hardly there, other line ends, and great costs."""
    minimal, (task, plan) = as_bytes(why.MINIMAL), example("valid")
    wrong, huge = [], 2**64 - 1
    for name, (task, plan), status, words in (
        ("an empty plan", (minimal, b"; cost = 0 (unit cost)\n"), 0, ["plan valid: 0 steps, cost 0", "initial state"]),
        ("an empty plan, not valid", (task, b"; cost = 0 (unit cost)\n"), 1, ["goal fact 0 not reached", "initial state"]),
        ("a failure at step 1", (task, b"(no)\n; cost = 0 (unit cost)\n"), 1, ["step 1: no operator of that name", "Step 1 no"]),
        ("CR LF", [data.replace(b"\n", b"\r\n") for data in (task, plan)], 0, ["plan valid: 4 steps, cost 4", "Step 1 take f1"]),
        ("a great cost", (task, plan.replace(b"4", b"%d" % huge)), 1, [f"plan invalid: cost is 4, not {huge}", f"says {huge}."]),
    ):
        page, found = reports.page(task, plan)
        shown_in(browser, page)
        wrong += differs(found, status, f"{name}: status") + differs(text(browser, "#trouble"), "", f"{name}: trouble")
        seen = re.sub(r"\s+", " ", text(browser, "body"))
        wrong += [f"{name}: {word} isn't shown" for word in words if word not in seen]
        focus(browser, "grid")
        browser.press("ArrowRight", "f", "End", "f", "+", "Home")
        wrong += heads(browser, "initial state", f"{name}: after keys")
    if isinstance(browser, Chromium):  # its scripts see the classes of the page
        sums = """const task = {moves: [[0]], operators: new Map([[0, {cost: 2147483647}]]), variables: [], goal: []};
            const plan = {steps: Array(5e6).fill(0), rest: [], missing: [], clash: []};
            return String(new Run(task, plan).cost[5e6])"""
        wrong += differs(browser.run(sums), str(5000000 * (2**31 - 1)), "a sum of costs")
    return wrong


def paper(browser, reports):
    """Paper is light, and has all steps and rows; afterwards the page is as before. The dark is dark."""
    page, _ = reports.page(*example("elevator"))
    shown_in(browser, page)
    light = "return getComputedStyle(document.body).backgroundColor"
    before = browser.run(light)
    browser.darken(True)
    wrong = comes("the dark isn't light", lambda: browser.run(light) != before, True)
    dark = browser.run(light)
    browser.run("dispatchEvent(new Event('beforeprint'))")
    count = "return ['#steps .row', '#state .row', '#paper tbody tr'].map(it => document.querySelectorAll(it).length)"
    lost = """return [...document.querySelectorAll("#paper path")].map(it => /url.#([^)]+)/.exec(it.getAttribute("fill"))?.[1])
        .filter(id => id && !document.querySelector("#tiles #" + id))"""
    wrong += differs(browser.run(lost), [], "patterns that paper lacks")
    wrong += differs(browser.run(count), [7, 5, 5], "rows on paper")
    browser.run("dispatchEvent(new Event('afterprint'))")
    wrong += differs(browser.run(light), dark, "afterwards") + looks.light_paper(browser, page)
    browser.darken(False)
    labels = [f"var{i}" for i in range(300)]
    wrong += looks.paper_pages(browser, reports.wide, labels, shown_in)
    wrong += looks.printed_at_once(reports.wide, labels) if isinstance(browser, Chromium) else []
    shown_in(browser, reports.large)
    browser.run("dispatchEvent(new Event('beforeprint'))")
    said = browser.run("return [document.getElementById('paper').innerText, document.getElementById('steps').textContent].join()")
    wrong += [] if "95,001 more" in said else ["what is left out on paper isn't said"]
    browser.run("dispatchEvent(new Event('afterprint'))")
    return wrong + comes("the selected row after printing", lambda: browser.run(IN_VIEW), True)


def appearance(browser, reports):
    """How pages look: boxes, names, colours, and the picture that is saved."""
    task, plan = example("valid")
    late = plan.replace(b"(put f2 feed)", b"(put f2 link)")
    pages = [("elevator", reports.page(*example("elevator"))[0]), ("short", reports.page(*example("short"))[0]), ("wide", reports.wide),
             ("long names", long_names(reports)), ("several", reports.page(task, plan, example("short")[1], late)[0]),
             ("refused", reports.page(task, b"(take f1)\n(put\n")[0])]
    wrong = looks.geometry(browser, pages[:5], shown_in) + looks.senses(browser, [pages[i] for i in (0, 1, 3, 4)], shown_in)
    wrong += looks.colours(browser, pages[0][1], shown_in) + looks.patterns(browser, pages[0][1], shown_in)
    wrong += looks.saved(browser, pages[0][1], shown_in)
    some, other = (looks.looks_of(browser, page, shown_in) for page in (pages[0][1], reports.page(*example("elevator"))[0]))
    wrong += differs({name: kinds[0] for name, kinds in some.items()}, {name: kinds[0] for name, kinds in other.items()}, "colours by names")
    browser.resize(1920, 1080)
    shown_in(browser, reports.wide)
    return wrong + comes("the picture is high", lambda: browser.run("return document.getElementById('grid').clientHeight > 800"), True)


def long_names(reports):
    """Returns a page whose names are as long as some are."""
    long = b"transport-the-very-large-container-by-the-northern-ferry"
    task, plan = (data.replace(b"take", long).replace(b"lit(", b"illuminated-by-any-lamp-of-the-house(") for data in example("short"))
    return reports.page(task, plan)[0]


def large_report(reports):
    """A large report takes little processor time and memory, and is small."""
    domain = Gripper(4997)
    pieces = task_pieces(domain), plan_pieces(domain.plan(100000))
    task, plan = reports.files(*("".join(it).encode() for it in pieces))
    page = os.path.join(os.path.dirname(task), "report.html")
    process = subprocess.Popen([*reports.command, task, plan, "-o", page, "--sas", reports.sas], stdout=subprocess.DEVNULL)
    _, status, used = os.wait4(process.pid, 0)
    found = {"seconds": used.ru_utime + used.ru_stime, "megabytes": used.ru_maxrss / 1024, "bytes": os.path.getsize(page)}
    print("large report:", ", ".join(f"{value:.0f} {name}" if value > 9 else f"{value:.1f} {name}" for name, value in found.items()))
    reports.large, domain = page, Gripper(297)
    reports.wide, _ = reports.page(*("".join(it).encode() for it in (task_pieces(domain), plan_pieces(domain.plan(900)))))
    wrong = differs(os.waitstatus_to_exitcode(status), 0, "status")
    return wrong + [f"{value} {name}" for name, value in found.items() if value > LARGE[name]]


def large_page(browser, reports):
    """A large page is there soon, and follows keys. It can be scrolled to its last step at any scale."""
    first = min(shown_in(browser, reports.large, "#step-1") for _ in range(3))
    timed = f"""{PRESS} {FRAMES} return (async () => {{
        const slowest = {{}};
        for (const key of [..."ArrowRight End ArrowLeft PageUp ArrowLeft PageUp f ArrowRight f".split(" "), ..."+".repeat(32), "Home", "End",
                           "Home", "End"]) {{
          await frame();
          const began = performance.now();
          press(key);
          await frame();
          slowest[key] = Math.min(slowest[key] ?? Infinity, performance.now() - began);
        }}
        return Math.max(...Object.values(slowest)) / 1000; }})()"""
    key = browser.run(timed)
    print(f"large page in {type(browser).__name__}: first picture {first:.1f} s, the slowest key {key:.2f} s")
    wrong = [f"the first picture took {first} s"] * (first > LARGE["picture"]) + [f"a key took {key} s"] * (key > LARGE["key"])
    wrong += differs(heading(browser).split(" ")[1], "100,000", "the last step")
    last = browser.run("return document.querySelector('#steps .row.on').innerText.split(/\\s/)[0]")
    rows = browser.run("return document.querySelectorAll('#steps .row').length")
    wrong += differs(last, "100,000", "the last row") + [f"{rows} rows"] * (rows > 200)
    wrong += comes("rows of the state", lambda: browser.run("return document.querySelectorAll('#state .row').length"), 5000)
    box = browser.run("""const it = document.getElementById("grid"), box = it.getBoundingClientRect();
        return [box.left, box.top, it.clientWidth, it.scrollWidth]""")
    browser.click(box[0] + box[2] - 170, box[1] + 60)
    wrong += heads(browser, "Step 100,000", "the column at the right end")
    browser.run("document.getElementById('grid').scrollLeft = arguments[0]", box[3] // 2)
    browser.run(FRAMES + "return frame().then(frame).then(() => 1)")
    browser.click(box[0] + box[2] // 2, box[1] + 60)
    middle = "return Math.abs(document.getElementById('at').value - 50000) < 100"
    return wrong + comes("the middle", lambda: browser.run(middle), True)


ALONE = (statuses, said, names_of_plans, one_run, later_lines, read_once, closed_streams, signals, limits, found_programs, with_library,
         large_report)
IN_BROWSER = (states, causal_links, hostile, keys, escape, paging, fields, buttons, pointer, several, moved_steps, edges, paper, appearance,
              large_page)


def tried(test, *given):
    """Runs a test, and returns its name and what is wrong. One that ends early has failed, and the others go on."""
    began = time.monotonic()
    name = " ".join([test.__name__, *(type(it).__name__ for it in given if isinstance(it, Browser))])
    try:
        wrong = test(*given)
    except Exception as fault:
        wrong = [f"{type(fault).__name__}: {fault}"]
    if "TIMES" in os.environ:
        print(name, round(time.monotonic() - began, 1))
    return name, wrong


def tests(sas, place, *command):
    own = [sys.executable, os.path.join(TOP, "report", "sas-report")]
    reports = Reports(sas, command or own, place)
    for test in ALONE:
        yield tried(test, reports)
    chosen, missing = answers(reports)
    chosen = [(task, plan, lines, *reports.page(task, plan)) for task, plan, lines in chosen]
    yield tried(every_line, reports, chosen, missing)
    for kind in (Chromium, Firefox):
        if all([is_there(it) for it in kind.NEEDS]):
            profile = tempfile.mkdtemp(dir=place)
            with contextlib.closing(kind(profile)) as browser:
                yield tried(lines_in, browser, reports, chosen)
                for test in IN_BROWSER:
                    yield tried(test, browser, reports)


if __name__ == "__main__":
    harness.main(tests)
