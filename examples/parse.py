"""Reads what `sas` prints: verdicts, the reasons in them, the lines of `plans` and of `mutex`, and what --why adds.

    import parse
    parse.verdict("plan invalid: step 2: not applicable")  # ('invalid', {'reason': 'step 2: not applicable'})
    parse.verdict(parse.run(["sas", "plan", "output.sas", "sas_plan"]))

Fields are strings. A cost has at most 64 bits, and may be larger than 2^53.

- Read answers as bytes, or as text with errors="replace": names are bytes, and need not be UTF-8.
- Split lines at LF only: splitlines() also splits at a form feed, which a name may have.
- Each pattern is anchored at both ends. So no name looks like a verdict: names follow `step`, `initial`, `change`, `goal` or two spaces.
- A label of `plans` may be any text without a line end, even `: plan valid: `. The last `: plan ` of a line is the program's. The last line
  of a run is its summary; in several runs, `verdicts` treats a line as a summary if it matches the lines before it.
"""
import re
import subprocess

# a line of `plan`, `check` or `trace`, or a line of `plans` after its label
VALID = r"^plan valid: (?P<steps>\d+) steps, cost (?P<cost>\d+)$"
INVALID = r"^plan invalid: (?P<reason>.+)$"
REFUSED = r"^(?P<file>plan|task) refused: (?P<reason>.+)$"
LAYERED = r"^task layered$"
# the reasons
STEP = r"^step (?P<step>\d+): (?P<why>no operator of that name|not applicable|conflicting effects)$"
GOAL = r"^goal fact (?P<fact>\d+) not reached$"
COST = r"^cost is (?P<sum>\d+), not (?P<cost>\d+)$"
LINE = r"^line (?P<line>\d+): (?P<word>keyword|name|shape|value|end|trailing)$"
LAYERS = r"^(?P<part>operator|rule) (?P<number>\d+): (?P<why>[a-z ]+)$"
# a line of `plans`, and its last line; a line of `mutex`
LABELLED = r"^(?P<label>.+): (?P<answer>plan (?:valid|invalid|refused): .+)$"
SUMMARY = r"^(?P<plans>\d+) plans, (?P<valid>\d+) valid(?:, best cost (?P<cost>\d+): (?P<best>.+))?$"
GROUP = r"^group (?P<group>\d+) (?P<verdict>exclusive|derived|not shown)(?:: (?P<why>initial state|operator \d+))?$"


def run(command):
    """Runs `sas` and returns what it prints. Raises subprocess.CalledProcessError if the exit status isn't that of an answer, 0 or 1."""
    ran = subprocess.run(command, stdout=subprocess.PIPE, check=False)
    if ran.returncode not in (0, 1):
        raise subprocess.CalledProcessError(ran.returncode, command)
    return ran.stdout.decode(errors="replace")


def verdict(answer):
    """Returns the verdict of `plan`, `check` or `trace`, with --why or without, and the fields of its line."""
    for name, pattern in (("valid", VALID), ("invalid", INVALID), ("refused", REFUSED), ("layered", LAYERED)):
        found = re.search(pattern, answer, re.MULTILINE)
        if found:
            return name, found.groupdict()
    return "no answer", {}


def summary(run):
    """Returns the last line of an answer of `plans` with these verdicts."""
    valid = [(int(found["cost"]), label) for label, name, found in run if name == "valid"]
    best = ", best cost %d: %s" % min(valid, key=lambda it: it[0]) if valid else ""
    return f"{len(run)} plans, {len(valid)} valid{best}"


def verdicts(answer):
    """Returns the label and the verdict of each plan, from one answer of `plans` or from several in a row."""
    plans, run = [], []
    for line in answer.split("\n"):
        if re.search(SUMMARY, line) and line == summary(run):
            plans, run = plans + run, []
        elif found := re.search(LABELLED, line):
            run.append((found["label"], *verdict(found["answer"])))
    return plans + run


def reasons(answer):
    """Returns the lines that --why adds."""
    return re.findall(r"^  (.*)$", answer, re.MULTILINE)
