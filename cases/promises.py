#!/usr/bin/env python3
"""The tables of docs/PROMISES.md: the public functions of each crate with their clauses, and the edits that must fail.

    python3 cases/promises.py --write    writes the tables between the two marker lines of docs/PROMISES.md
    python3 cases/promises.py            tests that they are up to date, and that each edit that the page names is there

A function is public if `src/lib.rt` of its crate has or exports it, or its type or trait, or if it
is exported to C. Its row has the first sentence of its doc comment, and for each `ensures` its
name. An `ensures` without a name is shown by the definitions that it cites.
"""
import glob
import os
import re
import sys

import harness
from texts import TOP, text_of

PAGE = f"{TOP}/docs/PROMISES.md"
BEGIN, END = "<!-- written by cases/promises.py -->\n", "<!-- end of what cases/promises.py writes -->\n"
# what `src/lib.rt` says of modules, what it exports of them, and its own public items
MODULE = re.compile(r"^mod (\w+);", re.MULTILINE)
EXPORT = re.compile(r"^pub use (?:crate::)?(\w+)::(\{[^}]*\}|\w+);", re.MULTILINE)
ITEM = re.compile(r"^pub (?:fn|struct|enum|trait) (\w+)", re.MULTILINE)
# definitions that a file imports from a crate of the repository, other than its types, by their names or by one for all of a file
IMPORT = re.compile(r"ghost use Rattle\.sas_\w+\.specs\.(?!declared)[\w.]+(?:\.\{([^}]*)\}| as (\w+);)")
# types of the code, which the preludes of crates pass on beside definitions
TYPE = re.compile(r"specs\.declared\.[\w.]+\.\{([^}]*)\}")
# an item that has functions in it, and how a function begins; a name of a clause, and a sentence of a comment
OWNER = re.compile(r"^(pub trait|impl)\b(?P<rest>.*)")
FUNCTION = re.compile(r'^(?P<indent> *)(?P<pub>pub )?(?P<extern>extern "C" )?fn (?P<name>\w+)')
CLAUSE = re.compile(r"^ *ensures (\w+)?")
SENTENCE = re.compile(r".+?\.(?= |$)")
# an edit, as the page names it
EDIT = re.compile(r"`(sas_\w+/\w+)`")


def crates():
    """Returns the crates of the product, in the order of crates.txt."""
    lines = text_of(f"{TOP}/crates.txt").splitlines()
    names = [line.split(":")[0].split()[0] for line in lines if line and not line.startswith("#")]
    return [it for it in names if not it.startswith("test_")]


def exports(crate):
    path = f"{TOP}/crates/{crate}/src/lib.rt"
    if not os.path.isfile(path):
        return set()
    text = text_of(path)
    own = set(MODULE.findall(text))
    exported = {name for module, names in EXPORT.findall(text) if module in own for name in re.findall(r"\w+", names)}
    return exported | set(ITEM.findall(text))


def without_brackets(text):
    """Returns a text without what stands in angle brackets, an arrow's `>` apart."""
    text, kept, depth = text.replace("->", ""), "", 0
    for char in text:
        depth += (char == "<") - (char == ">")
        kept += char if depth == 0 and char != ">" else ""
    return kept


def owner_of(line):
    """Returns the type or trait whose functions follow a line, with whether it is a trait; nothing if it is another's trait."""
    found = OWNER.match(line)
    words = without_brackets(found["rest"]).replace(":", " ").split() if found else []
    return (words[0], found[1] == "pub trait") if words and "for" not in words else None


def clauses(lines, place):
    """Returns the clauses of the function that begins on a line, each with its name, which may be empty, and its text."""
    found, depth = [], 0
    for line in lines[place:]:
        clause = CLAUSE.match(line) if depth == 0 else None
        if clause:
            found.append((clause[1] or "", line))
        elif depth and found:
            found[-1] = found[-1][0], found[-1][1] + line
        if depth or clause or line.lstrip().startswith("requires"):
            depth += line.count("{") - line.count("}")
        elif line.endswith(("{", "{}", ";")):
            break
        if depth == 0 and line.endswith(";"):
            break
    return found


def shown(clause, definitions):
    """Returns how a clause is named in a table: by its name, or by the definitions of its file that it cites."""
    name, text = clause
    parts = [it.partition(".") for it in re.findall(r"[\w.]+", text)]
    cited = dict.fromkeys(after or front for front, _, after in parts if front in definitions)
    return f"`{name}`" if name else f"({', '.join(f'`{it}`' for it in cited) or 'unnamed'})"


def comment(lines, place):
    """Returns the first sentence of the doc comment above a line."""
    found = []
    for line in reversed(lines[:place]):
        if line.lstrip().startswith("///"):
            found.insert(0, line.strip("/ "))
        elif not line.lstrip().startswith("#["):
            break
    sentence = SENTENCE.match(" ".join(found))
    return sentence[0] if sentence else ""


def passed_on_types():
    """Returns the types that preludes pass on."""
    texts = map(text_of, glob.glob(f"{TOP}/crates/*/specs/Prelude.antt"))
    return set(re.findall(r"\w+", str([TYPE.findall(text) for text in texts])))


def functions(crate):
    """Yields the public functions of a crate: its name, its comment, how its clauses are named."""
    public, types = exports(crate), passed_on_types()
    for path in sorted(glob.glob(f"{TOP}/crates/{crate}/src/*.rt")):
        text = text_of(path)
        definitions = set(re.findall(r"\w+", str(IMPORT.findall(text)))) - types
        lines, owner = text.splitlines(), None
        for place, line in enumerate(lines):
            owner = None if line == "}" else owner_of(line) if OWNER.match(line) else owner
            found = FUNCTION.match(line)
            if not found:
                continue
            inside = bool(found["indent"])
            is_open = found["pub"] or (inside and owner and owner[1])
            name = owner[0] if inside and owner else found["name"]
            if is_open and (not inside or owner) and (name in public or found["extern"]):
                named = [shown(it, definitions) for it in clauses(lines, place)]
                yield f"{owner[0]}::{found['name']}" if inside else found["name"], comment(lines, place), ", ".join(named) or "none"


def edits(crate):
    """Yields the edits of a crate that must fail: name, and what they break."""
    for path in sorted(glob.glob(f"{TOP}/crates/{crate}/must-fail/*.edit")):
        first = text_of(path).partition("\n")[0]
        yield os.path.basename(path)[: -len(".edit")], first.removeprefix("breaks: ")


def cell(text):
    return text.replace("|", "\\|")


def section(crate):
    text, rows = f"\n### {crate}\n", list(functions(crate))
    if rows:
        text += "\n| Function | What it does | Clauses |\n|---|---|---|\n"
    for name, about, named in rows:
        text += f"| `{name}` | {cell(about)} | {named} |\n"
    broken = list(edits(crate))
    if broken:
        text += "\n| Edit | What it breaks |\n|---|---|\n"
    for name, about in broken:
        text += f"| `{name}` | {cell(about)} |\n"
    return text if rows or broken else ""


def tables():
    return "".join(section(crate) for crate in crates()) + "\n"


def parts():
    """Returns what stands in the page before its tables, the tables, and what stands after them."""
    front, rest = text_of(PAGE).split(BEGIN)
    return front, *rest.split(END)


def write():
    front, _, after = parts()
    with open(PAGE, "w", encoding="utf-8") as file:
        file.write(front + BEGIN + tables() + END + after)


def tests():
    front, written, after = parts()
    expected, lines = set(tables().splitlines()), set(written.splitlines())
    differ = [f"not up to date: {it}" for it in sorted(expected ^ lines)] or ["not in order"]
    yield "PROMISES.md, its tables", [] if written == tables() else differ
    there = {f"{crate}/{name}" for crate in crates() for name, _ in edits(crate)}
    yield "PROMISES.md, the edits that it names", [f"no edit {it}" for it in sorted(set(EDIT.findall(front + after)) - there)]


if __name__ == "__main__":
    write() if sys.argv[1:] == ["--write"] else harness.main(tests)
