#!/usr/bin/env python3
"""Runs the commands that the documents and the manual page show, and compares what they print with what stands there.

    python3 cases/shown.py SAS

A command of a document is a line that is set off by four spaces and begins with `$ `; the lines
after it that are set off, too, up to the next command, are what it prints on standard output. If it
ends with `<< 'WORD'`, the lines up to WORD belong to the command. In the manual page they stand in
literal displays. It is run by a shell in a folder that has the documents' examples, what the
commands of the same document have made, and SAS, as `./sas`; the page calls it `sas`.

No proof reads a document. One that shows what the program doesn't print, or no longer prints, would be found here alone.
"""
import glob
import os
import re
import shutil
import tempfile

import harness
from texts import TOP, text_of

PAGE = "man/sas.1"
MARGIN, PROMPT = "    ", "    $ "
# the end of a command that goes on until a line is this word
HERE_DOCUMENT = re.compile(r"<< '(\w+)'$")
# what stands for a character in the manual page
ESCAPES = {r"\-": "-", r"\(aq": "'", r"\e": "\\", r"\(ti": "~", r"\(ha": "^", r"\&": ""}


def documents(top=TOP):
    """Returns the documents of the repository, or of a release in a folder, and the manual page. Installed documents have none beside
    them."""
    pages = [PAGE] if os.path.isdir(os.path.join(top, "man")) else []
    return ["README.md", "SECURITY.md", *sorted(glob.glob("docs/*.md", root_dir=top)), "examples/README.md", *pages]


def lines_of(document, top):
    """Returns the lines of a document, or of the manual page as they would stand in a document."""
    lines = text_of(os.path.join(top, document)).splitlines()
    if document != PAGE:
        return lines
    found, literal = [], False
    for line in lines:
        literal = (literal or line.startswith(".Bd -literal")) and line != ".Ed"
        is_shown = literal and not line.startswith(".Bd")
        found.append(MARGIN + re.sub(r"\\(?:\(..|.)", lambda it: ESCAPES[it[0]], line) if is_shown else "")
    return found


def shown(document, top=TOP):
    return commands_in(lines_of(document, top), document)


def section_of(document, heading):
    return text_of(os.path.join(TOP, document)).partition(f"\n{heading}\n")[2].partition("\n## ")[0]


def transcripts(text):
    """Returns the commands that the consoles in a text show, each with what it prints."""
    blocks = re.findall(r"```console\n(.*?)```", text, re.DOTALL)
    lines = [f"{MARGIN}{line}" for block in blocks for line in block.splitlines()]
    return [(case["command"], case["output"]) for case in commands_in(lines, "")]


def commands_in(lines, document):
    """Returns the commands in these lines of a document, each with what it prints."""
    cases, word, is_inside = [], None, False
    for line in lines:
        is_inside = line.startswith(PROMPT) or (is_inside and line.startswith(MARGIN))
        text = line[len(MARGIN) :]
        if is_inside and word:
            cases[-1]["command"] += f"\n{text}"
            word = None if text == word else word
        elif line.startswith(PROMPT):
            command = line[len(PROMPT) :]
            cases.append({"name": f"{document}: {command}", "command": command, "output": ""})
            here = HERE_DOCUMENT.search(command)
            word = here and here[1]
        elif is_inside:
            cases[-1]["output"] += text + "\n"
    return cases


def wrong(case, folder):
    env = {**os.environ, "PATH": f"{folder}:{os.environ['PATH']}", "LC_ALL": "C"}
    return harness.differs(harness.ended("bash", "-c", case["command"], cwd=folder, env=env, timeout=60).stdout.decode(), case["output"])


def judged(cases, sas, top=TOP):
    """Yields the commands of one document, each with what is wrong with it."""
    with tempfile.TemporaryDirectory() as folder:
        shutil.copytree(os.path.join(top, "examples"), os.path.join(folder, "examples"))
        shutil.copy(sas, os.path.join(folder, "sas"))
        yield from ((case["name"], wrong(case, folder)) for case in cases)


def tests(sas):
    for document in documents():
        yield from judged(shown(document), sas)


if __name__ == "__main__":
    harness.main(tests)
