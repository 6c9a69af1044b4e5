"""Files that are damaged, for `--why`: cases as in program.json, for run.py. oracles/refusals.py computes why each is refused.
"""
import random
import re

from oracles.refusals import EFFECT, FACT, HEAD, MOST, refusal, task_slots
from oracles.tasks import with_ends
from texts import bytes_of_file, case, table

SEED = 6
# the tasks of which each line is changed, and each end; a plan, and how many tasks and plans are changed at random
LINES_OF = ("cases/tasks/each_part.sas", "cases/tasks/door.sas")
ENDS_OF = ("cases/tasks/trailing_space.sas", "cases/tasks/each_part.sas")
PLAN = b"(go )\n(open door)\n; cost = 2 (unit cost)\n"
TASKS, PLANS = 1500, 300
# bytes that aren't shown as they are, and those beside them
ODD = bytes([0, 31, 32, 91, 92, 93, 126, 127, 128, 255])
# what may stand nowhere but in the place of a name
ANYWHERE = [
    *(b"", b"x", b"\t", ODD, b"\\", b"..", *(b"x" * size for size in (63, 64, 65))),
    *(b" ", b"x" * 63 + b" ", b"x" * 63 + b" x", b"\xff" * 64, ODD * 7, b"x" * 64 + b"\n"),
]
# what may not stand in the place of a name either
NAMELESS = [b"a\rb", b"\r\r", b"\rx", *(b"x" * size + b"\ry" for size in (61, 62, 63, 64)), b"\r" * 65 + b"x"]
# what comes after the end of a file
MORE = [b"\n", b"\r", b"\r\n", b" ", b"x", b"0\n", b"xyz"]
SPELLINGS = [b"-1", b"-0", b"-2", b"00", b"01", b"+1", b"1 ", b" 1", b"1 1", b"1.", b"2147483647", b"2147483648", b"9" * 20, b"9" * 99]


def near_word(expected):
    word = expected.encode()
    near = [word[:-1], word[1:], word + b" ", b" " + word, word + b"s", word.upper(), word + b"\r\r"]
    return [*near, b"begin_goal", b"end_rule", b"0", b"-1"]


def near_number(expected):
    least, most = map(int, re.findall(r"-?[0-9]+", expected.partition(":")[0]))
    return [*SPELLINGS, b"%d" % (least - 1), b"%d" % (most + 1), b"%d" % most, b"%d " % least, b"0%d" % most]


def changes(variables, size):
    """Returns heads of which the last words, or none, are wrong: of so many variables, and so many values of the first one."""
    wrong = [(variables, -1, 0), (0, size, 0), (0, -1, size), (0, size, size), (variables, size, size), (MOST, MOST, MOST)]
    misspelled = [(0, -2, 0), (-1, -1, 0), (0, -1, -1), (MOST + 1, -1, 0)]
    return [*(b"%d %d %d" % it for it in (*wrong, *misspelled)), b"0 -1", b"0 -1 0 0", b"0  -1 0", b"0 -1 0 "]


def near_numbers(expected, variables, size):
    """Returns texts that are nearly a fact, a head or an effect."""
    wrong = ((0, 0), (variables, 0), (0, size), (variables, size), (MOST, MOST), (0, MOST + 1), (-1, 0), (0, -1))
    facts = [b"%d %d" % fact for fact in wrong]
    if expected == FACT:
        return [*facts, b"0", b"0 0 0", b"0  0", b" 0 0", b"0 0 ", b"00 0", b"0,0"]
    heads = changes(variables, size)
    if expected == HEAD:
        return heads
    one = [b"%s %s" % (count, head) for head in heads for count in (b"0", b"1 0 0")]
    two = [b"2 0 0 %s 0 -1 0" % fact for fact in facts] + [b"1 %s 0 %d %d" % (fact, size, size) for fact in facts]
    return [*one, *two, b"1 0 -1 0", b"0 0 0 0 -1 0", b"2147483647 0 -1 0", b"2147483648 0 -1 0", b"-1 0 -1 0", b"1  0 -1 0"]


def near(expected, variables, size):
    """Returns texts for the place of a line where this is expected, most of which may not stand there."""
    if expected.startswith("a name: "):
        return [b"", *NAMELESS]
    if expected in (FACT, HEAD, EFFECT):
        return dict.fromkeys([*ANYWHERE, *near_numbers(expected, variables, size)])
    return dict.fromkeys([*ANYWHERE, *NAMELESS, *(near_number(expected) if expected.startswith("number") else near_word(expected))])


def slots_of(text):
    """Returns what is expected on each line of a task."""
    slots, all_expected = task_slots(), []
    here = next(slots)
    for line in enumerate(text.splitlines(), 1):
        all_expected.append(here[1][0])
        try:
            here = slots.send(line)
        except StopIteration:
            pass
    return all_expected


def with_text(lines, place, text, end):
    """Returns a file with this text in the place of one line, and these ends of lines."""
    return b"".join(line + end for line in (*lines[:place], text, *lines[place + 1 :]))


def damaged_lines():
    """Yields tasks with one line changed: each line of some, in each way."""
    for file in LINES_OF:
        lines = bytes_of_file(file).splitlines()
        variables, size = int(lines[6]), int(lines[10])
        for place, expected in enumerate(slots_of(b"\n".join(lines) + b"\n")):
            for number, text in enumerate(near(expected, variables, size)):
                end = (b"\n", b"\n", b"\r\n")[(place + number) % 3]
                yield f"{file}, line {place + 1}: {text!r}", with_text(lines, place, text, end)


def damaged_ends(held):
    """Yields a file that goes on after its end, or that ends early: in each of its bytes, or after a line with these bytes."""
    for more in (*MORE, *(bytes([byte]) for byte in ODD)):
        yield f"and {more!r} after", held + more
    for length in range(len(held)):
        yield f"{length} bytes", held[:length]
    fronts = [place + 1 for place, byte in enumerate(held) if byte == 10][:-1]
    for number, rest in enumerate((*ANYWHERE[:-1], *NAMELESS, *(bytes([byte]) for byte in ODD))):
        front = fronts[number * 7 % len(fronts)]
        yield f"{front} bytes and {rest!r}", held[:front] + rest


def spoiled(chance, text):
    """Returns a file of which something is changed: a byte, a line, a number, or some of these."""
    lines, place = text.split(b"\n"), chance.randrange(len(text))
    one, two = (chance.randrange(len(lines)) for _ in range(2))
    kind = chance.randrange(8)
    if kind == 0:
        return text[:place] + chance.choice((b"", *MORE, bytes([chance.randrange(256)]))) + text[place + 1 :]
    if kind == 1:
        return text[:place] + chance.choice((b"\r", b"\n", b"\r\n", b" ", b"0", b"1")) + text[place:]
    if kind == 2:
        return b"\n".join(lines[:one] + lines[one + 1 :])
    if kind == 3:
        return b"\n".join([*lines[:one], lines[two], *lines[one:]])
    if kind == 4:
        lines[one], lines[two] = lines[two], lines[one]
        return b"\n".join(lines)
    if kind == 5:
        lines[one] += b"\r" * chance.randint(1, 2)
        return b"\n".join(lines)
    if kind == 6:
        found = chance.choice([*re.finditer(rb"[0-9]+", text)])
        return text[: found.start()] + b"%d" % chance.choice((0, 1, 2, 3, 10, MOST, MOST + 1)) + text[found.end() :]
    return spoiled(chance, spoiled(chance, text) or b"0")


def near_steps():
    steps = [b"()", b"(", b")", b"(a", b"a)", b"(a\rb)", b"(\r)", b"(a) ", b" (a)", b"(a)\r", b"(a", b"(" + ODD, b"(" + ODD + b")"]
    costs = (b"-1", b"01", b"00", b"", b"+1", b"1 ", b" 1", b"18446744073709551615", b"18446744073709551616", b"1" * 64)
    kinds = (b"(unit cost", b"(Unit cost)", b"(unit cost) ", b" (unit cost)", b"(cost)", b"(general cost)\rx", b"")
    long = [front + b"\\" * size for front in (b"(", b"; cost = ", b";") for size in range(54, 66)]
    made = [b"; cost = %s (unit cost)" % cost for cost in costs] + [b"; cost = 1 %s" % kind for kind in kinds]
    neither = [b"; cost =", b"; cost = 1(unit cost)", b"; Cost = 1 (unit cost)", b";cost = 1 (unit cost)"]
    return dict.fromkeys([*ANYWHERE, *NAMELESS, *steps, *made, *long, *neither])


def hinted_plans():
    """Yields plans that get each of the hints, and others that differ from them by little."""
    cost = PLAN.splitlines(True)[-1]
    yield from (b"begin_version\n", b"begin_version \n", b"(a)\nbegin_version\n")
    yield from (b"", b"\n", b"\r", b"\xff\xfe(", b"\xfe\xff(", b"\xff\xff(", b"\xef\xbb\xbf(\n", b"\xef\xbb(\n", b"(a)\n\xff\xfe\n", b"BZh\n", b"BZ\n")
    yield from (b"(a)\r" + cost[:-1], b"(a)\r" + cost[:-1] + b"\r", b"(a)\r", b"(a)\r\r", b"(a)\r\n\r", b"\r" * 70, b"x" * 70 + b"\rx", b"x" * 70 + b"\r")
    yield from (it + b"\n" for it in (b"; Cost = 53", b"; COST", b"; cos t", b"xcOsTx", b"cost", b"cos", b"x" * 70 + b"cost", b"x" * 70 + b"cosu", b";"))
    yield from (it + b"\n" for it in (b"(a) ; x", b"(a) : x", b"(a;b", b"(" + b"x" * 70 + b";", b"(" + b"x" * 70 + b":", b"(a) cost", b"0.0: (a)", b"a"))
    yield from (cost + it for it in (b"(", b")", b";", b"\n", b"\r", b"\r\n", b"x", b"\0"))
    ends = (b"(b)", b"(b", b"b)", b"()", b"(b)\r", b"(b)\r\r", b"\r", b"(" + b"x" * 300 + b")", b"(" + b"x" * 300 + b"\r)", b"(" + b"x" * 300, b"; cost = 1")
    yield from (front + it for front in (b"", b"(a)\n", b"(a)\r\n") for it in ends)


def damaged_plans():
    yield from ((f"{text[:80]!r}", text) for text in hinted_plans())
    lines = PLAN.splitlines()
    for place in range(len(lines)):
        for number, text in enumerate(near_steps()):
            yield f"line {place + 1}: {text!r}", with_text(lines, place, text, (b"\n", b"\r\n")[number % 2])
    for ends, plan in (("LF", PLAN), ("CR LF", PLAN.replace(b"\n", b"\r\n"))):
        yield from ((f"with {ends}, {about}", text) for about, text in damaged_ends(plan))
    chance = random.Random(SEED)
    yield from ((f"spoiled plan {number}", spoiled(chance, PLAN)) for number in range(PLANS))


def damaged_tasks():
    yield from damaged_lines()
    yield from ((f"{text!r}", text) for text in (b"(a)\n", b"; a\n", b" (a)\n", b"begin_version\r3\r", b"\xff\xfeb\n", b"begin_version\n(\n"))
    for file in ENDS_OF:
        for ends, end in (("LF", b"\n"), ("CR LF", b"\r\n")):
            held = bytes_of_file(file).replace(b"\n", end)
            yield from ((f"{file} with {ends}, {about}", text) for about, text in damaged_ends(held))
    chance = random.Random(SEED)
    for number in range(TASKS):
        file = chance.choice(table("tasks.json"))["file"]
        yield f"spoiled task {number}, {file}", spoiled(chance, bytes_of_file(file))


def case_of(name, words, lines, **inputs):
    """Returns the case of a request about a file that is refused, with `--why`."""
    words = [*words, "--why"]
    return case(f"{name}, {' '.join(words)}", words, with_ends(lines), 1, **inputs)


def refusal_cases():
    """Yields files that are damaged, with `--why`: by each request in turn. They could show a fault that isn't the first one, a wrong
    place, and what is expected on another line."""
    for number, (about, text) in enumerate(damaged_tasks()):
        lines = refusal("task", text)
        if lines:
            request = ("check", "print", "show", "mutex", "plan")[number % 5]
            plan = {"p.txt": "x"} if request == "plan" else {}
            files = {"files": plan} if plan else {}
            yield case_of(about, [request, "-", *plan], lines, input=text, **files)
    for number, (about, text) in enumerate(damaged_plans()):
        lines = refusal("plan", text)
        if lines:
            words = (["steps", "-"], ["plan", "t.sas", "-"])[number % 2]
            files = {"files": {"t.sas": {"file": "cases/tasks/minimal.sas"}}} if number % 2 else {}
            yield case_of(f"plan, {about}", words, lines, input=text, **files)
