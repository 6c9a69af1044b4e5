#!/usr/bin/env python3
"""Tests the values of answers in C++ and Rust: the verdict and its numbers, the steps of a trace, the reasons of a plan, why a file is
refused, the summary of a task, and the verdicts on groups.

    python3 cases/values.py

The answers are the texts of the cases of run.py, of which values.cpp and values.rs read the values. Of these they put the text together
again: the same bytes have to come. So nothing is lost, and nothing is taken for something else. No library is called.

Compilers are g++, with its sanitizers where they are there, clang++ and rustc.

values.json: answers.

    shows     a mistake that this one could show
    status    0 where the answer is yes
    lines     its lines
    values    what `values_of` returns of it
"""
import os
import random
import re
import sys
import tempfile
import types

import harness
import run
from harness import differs, is_there
from library import crate, failed, stub_library
from oracles.tasks import with_ends
from texts import TOP, as_bytes, table

REQUESTS = {"plan", "trace", "check", "mutex", "show", "print", "steps"}
WARNINGS = ("-Wall", "-Wextra", "-pedantic", "-Werror")
SANITIZERS = ("-fsanitize=address,undefined", "-fno-sanitize-recover=all", "-D_GLIBCXX_ASSERTIONS")
# how many texts are spoiled, and how many answers a program gets at once
SPOILED, AT_ONCE = 3000, 2000
# lines that a later version may add to reasons
LATER = ("  later", "  later 1 of 2", "    later 1 requires 0 0 x")
LATER += ("  steps", "  step", "  operator 1", "    rule 1", "  hint", "    ", "  ")
# a line of a reason that has a name, and words that say what failed by the end of the reason
NAMED = re.compile(
    rb"  (?:  )?(?:(?:since )?step \d+|similar operator \d+ line \d+|operator \d+ line \d+|(?:requires|actual|derived|holds|may remain) \d+ \d+"
    rb"|(?:effect|rule) \d+ (?:sets|derives|requires) \d+ \d+) (.*)"
)
STEP_FAILURES = ("not applicable", "no operator of that name", "no operator of that number", "conflicting effects")


def readable(text, is_utf8):
    """Returns bytes as they are printed: control characters but LF as `\\xHH`, and in Rust what isn't UTF-8, too."""
    shown = re.sub(rb"[\0-\x09\x0b-\x1f\x7f]", lambda it: b"\\x%02x" % ord(it[0]), text)
    return shown.decode(errors="backslashreplace").encode() if is_utf8 else shown


def verdict_line(text):
    """Returns the line with the verdict: the last one of a trace, else the first."""
    return text.split(b"\n")[-2 if text.startswith(b"initial ") else 0]


def failure_of(line):
    """Returns what fails, by the line with the verdict."""
    if line.startswith("state refused: "):
        return "state"
    found = re.fullmatch(r"plan invalid: (?:(goal) fact|(cost) is|step \d+:) (.*)", line)
    return next((it for it in (found[1], found[2], found[3]) if it in ("goal", "cost", *STEP_FAILURES)), "-") if found else "-"


def shown_names(text):
    """Returns how many names of an answer aren't as they are in the file. Of a file that is refused no name is a value."""
    names = [] if text.startswith((b"initial ", b"metric ")) or b" refused: " in verdict_line(text) else NAMED.findall(text)
    return sum(b"\\" in name or len(name) > 256 for name in names)


def values_of(number, text):
    line = verdict_line(text).decode("latin-1")
    found, shown = re.fullmatch(r"(plan|task|state) (valid|invalid|refused): (.*)", line), shown_names(text)
    if not found:
        groups = re.findall(r"^(?!group \d+ exclusive$)group .*$", text.decode("latin-1"), re.MULTILINE)
        return f"no - - - - - - {shown} {groups[0]}\n-" if number else f"yes - - - - - - {shown} \n-"
    file, verdict, reason = found.groups()
    patterns = (r"step (\d+): .*", r"goal fact (\d+) .*", r"(?:cost is|\d+ steps, cost) (\d+).*", r".*(?:, cost|, not) (\d+)", r"(\d+) steps, .*")
    fields = [re.fullmatch(pattern, reason) if verdict != "refused" else None for pattern in patterns]
    numbers = [it[1] if it else "-" for it in fields]
    if text.startswith(b"initial "):
        numbers[2] = str(sum(map(int, re.findall(rb"^step \d+ \d+ (\d+) ", text, re.MULTILINE))))
    refused = file if verdict == "refused" and file != "state" else "-"
    return f"{verdict} {refused} {' '.join(numbers)} {shown} {'' if verdict == 'valid' else reason}\n{failure_of(line)}"


def put_together(text):
    """Returns what is put together again of an answer: all of one about a plan, of a trace, a summary and groups. Of a task that isn't
    layered it is the verdict, and the line at which the operator or the rule begins."""
    line, *rest = text.split(b"\n")
    if re.match(rb"task refused: (?!line )", text):
        at = re.match(rb"  (?:operator|rule) \d+ (line \d+) ", rest[0])
        return b"".join(b"%s\n" % it for it in [line, *([b"  " + at[1]] if at else [])])
    if re.match(rb"metric \d+\nvariables ", text):
        return text
    return text if re.match(rb"(?:plan|task|state) (?:in)?(?:valid|refused): |initial |group ", text) else b""


def printed(text, is_utf8):
    """Returns how an answer is printed, and after it its reasons, and the values of a trace."""
    parts = [text.removesuffix(b"\n"), b""]
    if re.match(rb"(plan|task) (invalid|refused): ", text):
        parts[1] = text.partition(b"\n")[2].removesuffix(b"\n")
    if text.startswith(b"initial "):
        parts += re.findall(rb"^(?:initial|step \d+|change) (\d.*)$", text, re.MULTILINE)
    return b"".join(b"%s\n" % readable(part, is_utf8) for part in parts)


def answers():
    """Yields the answers of the cases of run.py, each once: the number that the library returns, and the text."""
    with tempfile.TemporaryDirectory() as folder:
        files = (*run.whole_cases(), *run.line_cases(), *run.plan_cases(folder), *run.group_cases())
        cases = (*files, *map(run.with_why, files), *run.verdict_cases(), *run.why_cases(), *run.trace_cases())
    answered = (it for it in cases if it["status"] < 2 and "output" in it and not it.get("error"))
    # of a trace the library has no call with reasons
    answered = (it for it in answered if not {"trace", "--why"} <= set(it["words"]))
    asked = (it for it in answered if (it["words"] or ["steps"])[0] in REQUESTS)
    return dict.fromkeys((it["status"], as_bytes(it["output"])) for it in asked)


def spoiled(chance, text):
    """Returns a text of which a line or a part is gone, twice there, another one or one of a later version."""
    lines, place = text.split(b"\n"), chance.randrange(text.count(b"\n") + 1)
    kind = chance.randrange(5)
    if kind == 0:
        return text[: chance.randrange(len(text) + 1)]
    if kind == 1:
        lines.insert(place, chance.choice(lines))
    elif kind == 2:
        lines.insert(place, as_bytes(chance.choice(LATER)))
    elif kind == 3:
        lines[place] = re.sub(rb"\d", chance.choice((b"", b"-1", b"99999999999999999999", b"x")), lines[place], count=1)
    else:
        del lines[place]
    return b"\n".join(lines)


def parts_of(said):
    """Yields the parts that a program printed, each after a line with its length."""
    place = 0
    while place < len(said):
        end = said.index(b"\n", place)
        place = end + 1 + int(said[place:end])
        yield said[end + 1 : place]


def came_of(program, given):
    """Yields for each answer the three parts that a program prints."""
    for start in range(0, len(given), AT_ONCE):
        part = given[start : start + AT_ONCE]
        packed = b"".join(b"%d %d\n%s" % (number, len(text), text) for number, text in part)
        ran = harness.ended(program, input=packed)
        parts = list(parts_of(ran.stdout))
        if ran.returncode or ran.stderr or len(parts) != 3 * len(part):
            sys.exit(f"{program}: status {ran.returncode}, {ran.stderr[-2000:]}")
        yield from zip(*[iter(parts)] * 3)


def wrong(number, text, came, is_utf8):
    expected = as_bytes(values_of(number, text)), put_together(text), printed(text, is_utf8)
    return [f"{got[:300]!r}, not {it[:300]!r}" for got, it in zip(came, expected) if got != it]


def with_later(text):
    """Yields texts with a line of a later version in each place after the verdict."""
    lines = text.split(b"\n")[:-1]
    for later in LATER[:3]:
        for place in range(1, len(lines) + 1):
            yield b"".join(b"%s\n" % it for it in [*lines[:place], as_bytes(later), *lines[place:]])


def written_tests(program, is_utf8):
    """Yields the answers of the table, which could show what stands there; those with more lines are read as without them."""
    rows = table("values.json")
    given = [(row["status"], as_bytes(with_ends(row["lines"]))) for row in rows]
    for row, answer, came in zip(rows, given, came_of(program, given)):
        is_so = differs(came[0].rpartition(b"\n")[0], as_bytes(row["values"]))
        yield row["shows"], wrong(*answer, came, is_utf8) + is_so
    reasons = [text for _, text in given if re.match(rb"plan invalid: .*\n.", text)]
    more = [(text, later) for text in reasons for later in with_later(text)]
    for (text, later), came in zip(more, came_of(program, [(1, later) for _, later in more])):
        yield f"a line of a later version, {later!r}", [] if came[1] == text else [f"{came[1]!r}"]


def built(library, folder):
    """Yields the programs that are built, each with a name and whether it prints UTF-8."""
    source = os.path.join(TOP, "cases/values")
    for compiler, words in (("g++", SANITIZERS), ("clang++", ())):
        if is_there(compiler):
            flags = ["-std=c++17", *WARNINGS, "-I", os.path.join(TOP, "library"), f"{source}.cpp", "-o", f"{folder}/{compiler}"]
            if words and failed(compiler, *words, *flags):
                print(f"without the sanitizers of {compiler}")
                words = ()
            found = failed(compiler, *words, *flags)
            assert not found, found
            yield f"{folder}/{compiler}", False
    if is_there("rustc"):
        words = ["--edition", "2021", "-D", "warnings", f"{source}.rs", *crate(library, folder), "-o", f"{folder}/rustc"]
        found = failed("rustc", *words)
        assert not found, found
        yield f"{folder}/rustc", True


def tests():
    """Yields each answer in each of the programs, and answers that are spoiled."""
    given, chance = list(answers()), random.Random(5)
    texts = [text for _, text in given if text.isascii() and re.match(rb"plan invalid|initial ", text)]
    broken = [(1, spoiled(chance, chance.choice(texts))) for _ in range(SPOILED)]
    with tempfile.TemporaryDirectory() as folder:
        programs = list(built(stub_library(types.SimpleNamespace(folder=os.path.join(TOP, "library")), folder), folder))
        for program, is_utf8 in programs:
            said = os.path.basename(program)
            yield from ((f"{said}, {name}", found) for name, found in written_tests(program, is_utf8))
            for (number, text), came in zip(given, came_of(program, given)):
                yield f"{said}, {text[:60]!r}", wrong(number, text, came, is_utf8)
        # of texts that no version prints, all programs say the same
        for (_, text), *came in zip(broken, *(came_of(program, broken) for program, _ in programs)):
            yield f"spoiled, {text[:300]!r}", [] if len(set(it[:2] for it in came)) < 2 else [f"{[it[:2] for it in came]}"[:1000]]


if __name__ == "__main__":
    harness.main(tests)
