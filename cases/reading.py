#!/usr/bin/env python3
"""What a definition rests on: the files of definitions that it imports, and that these import, down to the standard library.

    python3 cases/reading.py crates/sas_run/specs/Plans.antt   prints these files, each with its number of lines without imports and
                                                               empty ones
    python3 cases/reading.py                                   tests that docs/READING.md, and after it docs/PROMISES.md, name in each
                                                               section the files in bold and exactly those that they rest on, with
                                                               their numbers of lines; that the sum that READING.md gives for `plan
                                                               valid` is theirs; and that what it quotes of a file stands there, but
                                                               for comments
"""
import os
import re
import sys

import harness
from harness import differs
from texts import TOP, bytes_of_file

PAGES = ("docs/READING.md", "docs/PROMISES.md")
STARTS = 16
# what rests on these files has to be believed for `plan valid`, in at most so many lines
THEOREM, MOST = ("crates/sas_words/specs/Usage.antt", "crates/sas_tool/specs/Held.antt", "crates/sas_tool/specs/Says.antt"), 640
# a heading of a page; a file that the page names; one with its number of lines; one in bold, with which a section starts
HEADING = re.compile(r"^## (.*)$", re.MULTILINE)
FILE = re.compile(r"`(crates/[^`]*)`")
NAMED = re.compile(r"`(crates/\w+/specs/\w+\.antt)`(?:\*\*)? \((\d+)\)")
START = re.compile(r"\*\*`(crates/[^`]*)`\*\*")
# what READING.md quotes of a file, and the number of lines that it gives for `plan valid`
QUOTED = re.compile(r"^```antt (\S+)\n(.*?)^```$", re.MULTILINE | re.DOTALL)
SUM = re.compile(r"(\d+) for `plan valid`")


def text_of(path):
    """Returns the text of a file, which is named from the top of the repository."""
    return bytes_of_file(path).decode()


def imported(path):
    """Yields what a file imports from definitions of a crate: the crate, the module and the names."""
    found = re.findall(r"^(?:pub )?use Rattle\.(sas_\w+)\.specs\.([\w.]+?)(?:\.\{(.*)\}| as \w+)$", text_of(path), re.MULTILINE)
    return [(crate, module, set(re.split(r",\s*", names))) for crate, module, names in found]


def imports(path):
    """Returns the files of definitions that this one imports, in order, past the prelude of a crate. A type of the code is none."""
    found = []
    for crate, module, names in imported(path):
        passed_on = imported(f"crates/{crate}/specs/Prelude.antt") if module == "Prelude" else []
        found += [(crate, it) for _, it, theirs in passed_on if names & theirs] if passed_on else [(crate, module)]
    return [f"crates/{crate}/specs/{module}.antt" for crate, module in found if not module.startswith("declared")]


def closure(path):
    """Returns the file and all that it rests on, nearest first."""
    found = [path]
    for file in found:
        found += [it for it in imports(file) if it not in found]
    return found


def size(path):
    """Returns how many lines a file has without imports and empty lines."""
    lines = text_of(path).splitlines()
    return sum(1 for line in lines if line.strip() and not line.startswith(("use ", "pub use ")))


def wrong_sections(reading):
    """Yields the sections of the pages that name files with which they start, these files, and what is wrong with the files that a
    section names. It need not name what an earlier one names."""
    known = set()
    parts = re.split(HEADING, reading)[1:]
    for heading, text in zip(parts[::2], parts[1::2]):
        starts = START.findall(text)
        named = {path: int(lines) for path, lines in NAMED.findall(text)}
        expected = {path: size(path) for start in starts for path in closure(start) if path not in known}
        known |= set(expected)
        if starts or named:
            apart = [path for path in expected | named if expected.get(path) != named.get(path)]
            wrong = [f"{path}: {expected.get(path)} lines, not {named.get(path)}" for path in apart]
            yield heading, starts, wrong


def code_of(text):
    """Returns the lines of a text that are no comments, each with its end."""
    return "".join(f"{line}\n" for line in text.splitlines() if line.strip() and not line.lstrip().startswith(("--", "//")))


def wrong_quotes(reading):
    """Yields each file that READING.md quotes, with the paragraphs of the quote that don't stand there."""
    for path, quote in QUOTED.findall(reading):
        held = code_of(text_of(path))
        yield path, [part for part in quote.split("\n\n") if code_of(part) not in held]


def wrong_sum(reading):
    """Returns what is wrong with the number of lines that READING.md gives for `plan valid`."""
    files = {file for start in THEOREM for file in closure(start)}
    lines, said = sum(map(size, files)), [int(it) for it in SUM.findall(reading)]
    return ([] if said == [lines] else [f"{lines} lines, not {said}"]) + ([f"{lines} lines, more than {MOST}"] if lines > MOST else [])


def print_closure(path):
    sizes = {path: size(path) for path in closure(path)}
    for path, lines in sizes.items():
        print(f"{lines:4} {path}")
    print(f"{sum(sizes.values()):4} lines in {len(sizes)} files")


def tests():
    reading = "".join(map(text_of, PAGES))
    sections = list(wrong_sections(reading))
    starts = [start for _, found, _ in sections for start in found]
    yield from ((f"the files of the section {heading}", wrong) for heading, _, wrong in sections)
    yield "the number of files with which sections start", differs(len(starts), STARTS)
    quotes = list(wrong_quotes(reading))
    yield from ((f"READING.md, the quote of {path}", wrong) for path, wrong in quotes)
    yield "READING.md quotes the theorem", [it for it in (THEOREM[0], THEOREM[-1]) if it not in dict(quotes)]
    yield "READING.md, the lines for `plan valid`", wrong_sum(reading)
    yield "files that aren't there", [it for it in FILE.findall(reading) if not os.path.exists(f"{TOP}/{it}")]


if __name__ == "__main__":
    print_closure(sys.argv[1]) if sys.argv[1:] else harness.main(tests)
