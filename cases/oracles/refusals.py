"""Why a file is refused, computed from its bytes: the first fault of a task file or a plan file, and the lines that `--why` prints
after it. Two spaces stand in front of each.

    at PLACE                  where the refused line of a task stands
    expected WORDS            what is expected there, and of a name or a number what it is; of a plan it follows from the kind of fault
    number K must be A to B   of a task, for `value` on a line of several numbers: the first number that may not stand there
    line K counts N           of a task, where an item of a list is expected, or the line after its last one: the line that has the
                              number of its items, and that number
    found TEXT                the line without its end; for `trailing` the one byte
    empty line                the line was empty
    unfinished TEXT           for `end` the rest after the last line end
    end of file               for `end` where there is no rest
    hint WORDS                what to do, for some mistakes

The lines of a task are read here by what is expected on each, and not by anything of the program. What is expected follows from the
lines that came before.
"""
import re
from collections import namedtuple

import texts
from texts import as_bytes

# the greatest number of a task, and the greatest cost of a plan
MOST, MOST_COST = 2**31 - 1, 2**64 - 1
# how many bytes of what was found are shown
SHOWN = 64
FACT, HEAD = "fact: VAR VALUE", "head: VAR OLD NEW"
EFFECT = "effect: COUNT, COUNT times VAR VALUE, VAR OLD NEW"
STEP, COST = "(NAME)", "; cost = N (unit cost) or ; cost = N (general cost)"
# what is expected in a plan, by the kind of fault
PLAN_EXPECTED = {"name": STEP, "shape": COST, "keyword": f"{STEP} or {COST}", "end": f"{STEP} or {COST}", "trailing": "end of file"}
COST_LINE = b"; cost = 0 (unit cost)\n"
# how compressed files begin: those of gzip, bzip2, xz and zstd
COMPRESSED = (b"\x1f\x8b", b"BZh", b"\xfd7zXZ\0", b"\x28\xb5\x2f\xfd")
# byte order marks: of UTF-8, and two of UTF-16
BYTE_ORDER_MARKS = (b"\xef\xbb\xbf", b"\xff\xfe", b"\xfe\xff")


def spelled(word, most=MOST):
    """Returns the number that these bytes spell, None where they spell none."""
    is_number = re.fullmatch(rb"0|[1-9][0-9]{0,19}", word) and int(word) <= most
    return int(word) if is_number else None


def signed(word):
    """Returns the same, where -1 may stand, too."""
    return -1 if word == b"-1" else spelled(word)


# What is expected on a line, each with its judge: a word, a name, a number, or several numbers of
# variables with these ranges. The slots of a part are its lines: where it stands, what is expected,
# and the count of a list that is before.


def fixed(text):
    return text, lambda line: None if line == text.encode() else ("keyword", [])


def name(what):
    return f"a name: {what}", lambda line: None if line and b"\r" not in line else ("name", [])


def number(what, least=0, most=MOST):
    def judge(line):
        value = signed(line) if least < 0 else spelled(line)
        if value is None:
            return "shape", []
        return None if least <= value <= most else ("value", [])

    return f"number {least} to {most}: {what}", judge


def numbers(expected, ranges):
    return expected, lambda line: words_fault(expected, ranges, line.split(b" "))


def values_of(expected, words):
    """Returns the numbers of a line, -1 where none stands for an old value; None where the line isn't made so."""
    if expected == EFFECT:
        count = spelled(words[0])
        size = None if count is None else 2 * count + 4
    else:
        size = 2 if expected == FACT else 3
    if len(words) != size:
        return None
    old = None if expected == FACT else size - 2
    values = [signed(word) if place == old else spelled(word) for place, word in enumerate(words)]
    return None if None in values else values


def limits(expected, ranges, values):
    """Yields of each word of a line the least and the most that it may be. After one that may not stand there nothing is required."""
    facts = {FACT: values, HEAD: [], EFFECT: values[1:-3]}[expected]
    if expected == EFFECT:
        yield 0, MOST
    for var in facts[::2]:
        yield 0, len(ranges) - 1
        yield 0, ranges[var] - 1
    if expected != FACT:
        yield 0, len(ranges) - 1
        yield -1, ranges[values[-3]] - 1
        yield 0, ranges[values[-3]] - 1


def words_fault(expected, ranges, words):
    values = values_of(expected, words)
    if values is None:
        return "shape", []
    for place, (value, (least, most)) in enumerate(zip(values, limits(expected, ranges, values)), 1):
        if not least <= value <= most:
            return "value", [f"number {place} must be {least} to {most}"]
    return None


def counted(place, what, expected, least=0, before=None):
    """Yields the slots of a count, and of so many lines. The count may itself be the line after a list. Returns the count."""
    line, held = yield place, number(what, least), before
    count = line, int(held)
    for _ in range(int(held)):
        yield place, expected, count
    return count


def one_number(place, least, most):
    yield place, fixed(f"begin_{place}"), None
    yield place, number(place, least, most), None
    yield place, fixed(f"end_{place}"), None


def variable(place, ranges, all_counted):
    yield place, fixed("begin_variable"), all_counted
    yield place, name("variable"), None
    yield place, number("axiom layer", -1), None
    count = yield from counted(place, "range", name("value"), 1)
    yield place, fixed("end_variable"), count
    ranges.append(count[1])


def group(place, ranges, all_counted, word="mutex_group"):
    yield place, fixed(f"begin_{word}"), all_counted
    count = yield from counted(place, "number of facts", numbers(FACT, ranges))
    yield place, fixed(f"end_{word}"), count


def state(place, ranges, variables, before):
    """Yields the slots of the state, which comes after a list. Its values are counted by the number of variables."""
    yield place, fixed("begin_state"), before
    for variable, size in enumerate(ranges):
        yield place, number(f"value of variable {variable}", 0, size - 1), variables
    yield place, fixed("end_state"), variables


def operator(place, ranges, all_counted):
    yield place, fixed("begin_operator"), all_counted
    yield place, name("operator"), None
    count = yield from counted(place, "number of prevail conditions", numbers(FACT, ranges))
    count = yield from counted(place, "number of effects", numbers(EFFECT, ranges), before=count)
    yield place, number("cost"), count
    yield place, fixed("end_operator"), None


def rule(place, ranges, all_counted):
    yield place, fixed("begin_rule"), all_counted
    count = yield from counted(place, "number of conditions", numbers(FACT, ranges))
    yield place, numbers(HEAD, ranges), count
    yield place, fixed("end_rule"), None


def each(part, ranges, least=0, before=None):
    """Yields the slots of a count, and of so many parts. Returns the count."""
    one = part.__name__
    line, held = yield f"{one}s", number(f"number of {one}s", least), before
    count = line, int(held)
    for place in range(int(held)):
        yield from part(f"{one} {place}", ranges, count)
    return count


def task_slots():
    """Yields the slots of a task. Returns the count of the last list."""
    ranges = []
    yield from one_number("version", 3, 3)
    yield from one_number("metric", 0, 1)
    variables = yield from each(variable, ranges, 1)
    count = yield from each(group, ranges, before=variables)
    yield from state("state", ranges, variables, count)
    yield from group("goal", ranges, None, "goal")
    count = yield from each(operator, ranges)
    return (yield from each(rule, ranges, before=count))


def plan_line(line):
    if line.startswith(b"("):
        return None if re.fullmatch(rb"\([^\r\n]+\)", line) else ("name", [])
    if not line.startswith(b"; cost = "):
        return "keyword", []
    cost = re.fullmatch(rb"; cost = ([0-9]+) \((unit|general) cost\)", line)
    return None if cost and spelled(cost[1], MOST_COST) is not None else ("shape", [])


def plan_slots():
    """Yields the slots of a plan, which are alike, up to the line of its cost. What is expected follows from the kind of fault."""
    while not (yield "", ("", plan_line), None)[1].startswith(b";"):
        pass


def first_fault(slots, text):
    """Follows some bytes through the slots. Returns the first fault: its line, its kind, where that stands, what is expected there, what is
    said of its words and of a count, and what was found; None where there is no fault."""
    here, at, line = next(slots), 0, 1
    while here:
        place, (expected, judge), count = here
        end = text.find(b"\n", at)
        if end < 0:
            return line, "end", place, expected, count_said(count), text[at:]
        held = text[at:end].removesuffix(b"\r")
        wrong = judge(held)
        if wrong:
            kind, words = wrong
            return line, kind, place, expected, [*words, *count_said(count)], held
        try:
            here = slots.send((line, held))
        except StopIteration as ended:
            here, count = None, ended.value
        at, line = end + 1, line + 1
    return (line, "trailing", "the end", "end of file", count_said(count), text[at : at + 1]) if text[at:] else None


def count_said(count):
    return ["line {} counts {}".format(*count)] if count else []


def slots_by(what):
    return task_slots() if what == "task" else plan_slots()


# a file that is refused: "task" or "plan", its bytes, and the line, the kind and the text of its fault
Refused = namedtuple("Refused", "what text line kind found")
# the hints in order, each with what it is for; the first that applies is given
HINTS = {
    "the file is empty": lambda it: it.text == b"",
    "the file is compressed": lambda it: it.line == 1 and it.text.startswith(COMPRESSED),
    "the file begins with a byte order mark": lambda it: it.line == 1 and it.text.startswith(BYTE_ORDER_MARKS),
    "line ends are CR alone": lambda it: (it.line, it.kind) == (1, "end") and b"\r" in it.text[:-1],
    "this is a task: the order is TASK PLAN": lambda it: (it.what, it.line, it.kind, it.found) == ("plan", 1, "keyword", b"begin_version"),
    "this is a plan or PDDL: the task is the file output.sas":
        lambda it: (it.what, it.line, it.kind) == ("task", 1, "keyword") and it.found.startswith((b"(", b";")),
    "only version 3 is read": lambda it: (it.what, it.line, it.kind) == ("task", 2, "value"),
    "this isn't the form of a cost line": lambda it: (it.what, it.kind) == ("plan", "keyword") and b"cost" in it.found.lower(),
    "comments aren't read": lambda it: it.what == "plan" and is_comment(it.kind, it.found),
    "the cost line must be the last line": lambda it: (it.what, it.kind, it.found) == ("plan", "trailing", b"("),
    "an empty line follows the last line": lambda it: it.kind == "trailing" and it.found in (b"\n", b"\r"),
    "plan.awk of the examples converts plans of other planners": lambda it: (it.what, it.kind) == ("plan", "keyword"),
    "only the last line end is missing": lambda it: it.kind == "end" and is_text(it.what, it.text + b"\n"),
    "the cost line is missing": lambda it: (it.what, it.kind) == ("plan", "end") and is_text("plan", ended(it.text) + COST_LINE),
    "the file is cut off": lambda it: it.kind == "end",
}


def is_comment(kind, found):
    """Returns whether a plan with this text at a fault of this kind has a comment there."""
    return found.startswith(b";") if kind in ("keyword", "trailing") else kind == "name" and b";" in found


def is_text(what, text):
    return first_fault(slots_by(what), text) is None


def ended(text):
    """Returns the bytes with LF behind them if they don't end with LF."""
    return text if text.endswith(b"\n") or not text else text + b"\n"


def shown(text):
    """Returns a text that was found as it is shown."""
    return texts.shown(text, SHOWN)


def found_line(kind, found):
    if kind == "end":
        return f"unfinished {shown(found)}" if found else "end of file"
    return f"found {shown(found)}" if found else "empty line"


def refusal(what, text):
    """Returns the lines about a file that is refused, a task or a plan; None where it isn't."""
    fault = first_fault(slots_by(what), text)
    if fault is None:
        return None
    line, kind, place, expected, words, found = fault
    shown = [f"at {place}", f"expected {expected}", *words] if what == "task" else [f"expected {PLAN_EXPECTED[kind]}"]
    refused = Refused(what, text, line, kind, found)
    hint = [f"hint {words}" for words, applies in HINTS.items() if applies(refused)][:1]
    said = [*shown, found_line(kind, found), *hint]
    return [f"{what} refused: line {line}: {kind}", *(f"  {it}" for it in said)]


def after_file(said, text):
    """Returns the lines after this line about a file: none, unless it says that the file isn't well formed."""
    refused = re.fullmatch(r"(task|plan) refused: line [0-9]+: [a-z]+", said)
    if not refused:
        return []
    first, *after = refusal(refused[1], as_bytes(text))
    assert first == said, (first, said)
    return after


def answer_of_call(call, given, answer):
    """Returns the answer of a call of calls.json: where it is given a plan and a task, and the reasons are requested, with those after the
    refusal of a file."""
    if not call.endswith("plan-why"):
        return answer
    lines = as_bytes(answer).decode("latin-1").split("\n")
    _, plan, task = as_bytes(given).split(b"|", 2)
    return "\n".join(it for line in lines for it in (line, *after_file(line, task if line.startswith("task ") else plan)))
