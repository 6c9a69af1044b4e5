#!/usr/bin/env python3
"""Holds the pages and files for users against the program.

    python3 cases/pages.py SAS

Each request and each flag that `sas --help` names stands in README.md, in the manual page and in each completion, and none stands there
that it doesn't name. Each line that the program may print on standard error stands in docs/GUIDE.md and in the manual page. The version
is one: that of the program, of the first entry of CHANGELOG.md, of the packages of the library, of CITATION.cff and of the manual page.
CITATION.cff has what it requires. Links of documents lead to files. Each script in Python can be read. The function that docs/ARCHITECTURE.md shows is that of its crate. The
manual page of sas-report has the flags of its help. The completions are tried in bash and in fish and read by zsh, and the manual pages by
mandoc, where these are there; what isn't there is named in a line that begins with `without`.

No proof reads these files. A request that no page names, or a page of another version, would be found here alone.
"""
import glob
import os
import re
import sys

import harness
from harness import differs, is_there, printed
from shown import documents
from texts import TOP, text_of

PAGE, REPORT_PAGE, README, GUIDE = "man/sas.1", "man/sas-report.1", "README.md", "docs/GUIDE.md"
CALLED, CALLER = "docs/ARCHITECTURE.md", "crates/test_verdicts/src/caller.rt"
COMPLETIONS = {"bash": "completions/sas.bash", "zsh": "completions/_sas", "fish": "completions/sas.fish"}
# what is typed after requests and flags, and what bash and fish offer for it
PLAN, DOORWAY = "examples/doorway.p", {"examples/doorway.plan"}
OFFERED = (
    (("plan", "--why", "examples/lam"), {"examples/lamps.sas"}),
    (("plan", "--why", "examples/lamps.sas", PLAN), DOORWAY),
    (("trace", "-", PLAN), DOORWAY),
    (("plans", "examples/lamps.sas", "-", PLAN), DOORWAY),
    (("steps", PLAN), DOORWAY),
)
# what bash offers where a task is expected, and where all files of a request are there
OFFERED_BY_BASH = (
    (("plan", "examples/doorway"), {"examples/doorway.sas"}),
    (("plan", "-", "x", PLAN), set()),
    (("check", "x", PLAN), set()),
    (("steps", "x", PLAN), set()),
    (("help", PLAN), set()),
)
BASH = """. completions/sas.bash
compopt() { if [[ $2 == default ]]; then any=1; fi; }
COMP_WORDS=(sas "$@") COMP_CWORD=$# any=
_sas
if ((${#COMPREPLY[@]})); then printf '%s\\n' "${COMPREPLY[@]}"; elif [[ $any ]]; then compgen -f -- "${!#}"; fi"""


def requests_of(sas):
    """Returns the requests that the help names, each with its flags, and the flags of the program itself under the empty word."""
    page = printed(sas, "--help")[1]
    names = re.findall(r"^  (\w+) ", page.partition("Commands:")[2].partition("Options:")[0], re.MULTILINE)
    return {"": flags_of(page)} | {name: flags_of(printed(sas, name, "--help")[1]) for name in names if name != "help"} | {"help": set()}


def flags_of(page):
    return set(re.findall(r"^ +(?:-\w, )?(--\w+) ", page.partition("Options:")[2], re.MULTILINE))


def named_in_page(page):
    """Returns the requests of the manual page's synopsis, each with its flags."""
    found = {"": set()}
    for part in page.partition(".Sh SYNOPSIS\n")[2].partition(".Sh")[0].split(".Nm\n")[1:]:
        names = re.search(r"^\.Cm (.*)$", part, re.MULTILINE)
        for name in names[1].split(" | ") if names else [""]:
            found.setdefault(name, set()).update(f"--{it}" for it in re.findall(r"Fl Fl (\w+)", part))
    return found


def page_cases(requests):
    """Yields what the manual page and README.md name."""
    page, readme = text_of(os.path.join(TOP, PAGE)), text_of(os.path.join(TOP, README))
    named, body = named_in_page(page), page.partition(".Sh DESCRIPTION\n")[2]
    yield f"requests of {PAGE}", sorted(requests.keys() ^ named.keys())
    for name, flags in requests.items():
        own = flags - {"--help"} if name else flags
        yield f"{PAGE}, flags of {name or 'the program'}", sorted(own ^ named.get(name, set()))
        there = not name or re.search(rf"^\.It Cm {name}\b", body, re.MULTILINE)
        yield f"{PAGE}, {name or 'flags'}", [it for it in flags if f"Fl Fl {it[2:]}" not in body] + ([] if there else [name])
        yield f"{README}, {name or 'flags'}", [it for it in own if it not in readme] + ([] if f"sas {name}" in readme else [name])


def report_cases():
    """Yields the flags of sas-report: those of its help stand in its manual page."""
    flags = set(re.findall(r"--[\w-]+", printed(sys.executable, os.path.join(TOP, "report", "sas-report"), "--help")[1])) - {"--help"}
    named = {f"--{it}" for it in re.findall(r"^\.It Fl Fl ([\w-]+)", text_of(os.path.join(TOP, REPORT_PAGE)), re.MULTILINE)}
    yield f"{REPORT_PAGE}, flags", sorted(flags ^ named) if flags else ["no help"]


def mandoc_cases():
    """Yields what mandoc says of the manual pages. It knows only those that are installed."""
    for page in (PAGE, REPORT_PAGE) if is_there("mandoc") else ():
        lines = printed("mandoc", "-Tlint", page)[1].splitlines()
        said = [(line, re.search(r"referenced manual not found: Xr (\S+) (\d)", line)) for line in lines]
        yield f"mandoc {page}", [line for line, it in said if not it or not os.path.exists(f"{TOP}/man/{it[1]}.{it[2]}")]


def diagnostic_cases():
    """Yields the lines on standard error, as the code has them."""
    code = "".join(text_of(f"{TOP}/crates/sas_tool/src/{it}.rt") for it in ("program", "endings", "plan_files"))
    messages = set(re.findall(r'"(sas: [^"]*[^": ])', code))
    page, guide = text_of(f"{TOP}/{PAGE}"), text_of(f"{TOP}/{GUIDE}")
    named = set(re.findall(r'^\.It "(sas: .*)"$', page, re.MULTILINE))
    yield f"standard error, {PAGE}", sorted(messages ^ named) if messages else ["no line was found in the code"]
    yield f"standard error, {GUIDE}", [it for it in sorted(messages) if it not in guide]


def completion_cases(requests):
    """Yields what the completions name, and what they offer where their shells are there."""
    flags = set().union(*requests.values())
    for shell, file in COMPLETIONS.items():
        text = text_of(os.path.join(TOP, file))
        words = set(re.findall(r"[\w-]+", re.sub(r"^ *#.*", "", text, flags=re.MULTILINE)))
        lacking = [it for it in requests if it and it not in words]
        lacking += [it for it in flags if it not in words and not (shell == "fish" and f"-l {it[2:]}" in text)]
        yield f"{file}, words", lacking
    names = [it for it in requests if it]
    typed = [((it,), {name for name in names if name.startswith(it)}) for it in names]
    typed += [(("help", it), {name for name in names if name.startswith(it)} - {"help"}) for it in names if it != "help"]
    typed += [((it, "--"), requests[it]) for it in names] + [(("--",), requests[""])]
    for shell in filter(is_there, ("bash", "fish")):
        for words, offered in (*typed, *OFFERED, *(OFFERED_BY_BASH if shell == "bash" else ())):
            script = ["bash", "-c", BASH, "bash", *words]
            if shell == "fish":
                script = ["fish", "-N", "-c", f"source completions/sas.fish; complete -C '{' '.join(('sas', *words))}'"]
            got = {line.split("\t")[0] for line in printed(*script)[1].splitlines()}
            yield f"{shell}, {' '.join(words)}", differs(got, offered)
    if is_there("zsh"):
        yield "zsh reads its completion", printed("zsh", "-n", COMPLETIONS["zsh"])[1].splitlines()


def version_cases(sas):
    version = printed(sas, "--version")[1].split()[-1]
    for file, pattern in (
        ("CHANGELOG.md", r"^## (\S+)"),
        ("crates/sas_words/src/grammar.rt", r'^const VERSION: &str = "(.*)";$'),
        ("library/sas.h", r'^#define SAS_VERSION "(.*)"$'),
        ("library/sas.pc", r"^Version: (.*)$"),
        ("library/sasConfigVersion.cmake", r'^set\(PACKAGE_VERSION "(.*)"\)$'),
        ("library/python/sas/__init__.py", r'^__version__ = "(.*)"$'),
        ("library/rust/Cargo.toml", r'^version = "(.*)"$'),
        ("CITATION.cff", r"^version: (.*)$"),
        (PAGE, r"^This page is that of version (.*)\.$"),
    ):
        found = re.search(pattern, text_of(os.path.join(TOP, file)), re.MULTILINE)
        yield f"version of {file}", [] if found and found[1] == version else [f"{found and found[1]}, not {version}"]


def link_cases(top=TOP):
    """Yields the links of each document of the repository, or of a release in a folder."""
    for document in documents(top):
        text, folder = text_of(os.path.join(top, document)), os.path.dirname(os.path.join(top, document))
        links = [it.partition("#")[0] for it in re.findall(r"\]\(([^)]+)\)", text) if "://" not in it]
        yield f"links of {document}", [it for it in links if not os.path.exists(os.path.join(folder, it))]


def file_cases():
    """Yields the fields of CITATION.cff that its schema requires, and the function that
    docs/ARCHITECTURE.md shows: it is that of the crate, which is proved."""
    text = text_of(os.path.join(TOP, "CITATION.cff"))
    fields = ("cff-version: 1.2.0", "message: ", "title: ", "authors:\n  - name: ")
    yield "CITATION.cff", [it for it in fields if f"\n{it}" not in f"\n{text}"]
    shown = re.search(r"^```rust\n(.*?)```$", text_of(os.path.join(TOP, CALLED)), re.MULTILINE | re.DOTALL)
    yield f"the function of {CALLED}", [] if shown and shown[1] in text_of(os.path.join(TOP, CALLER)) else [f"it isn't in {CALLER}"]


def script_cases():
    """Yields the scripts of each folder that aren't Python. Those that take minutes are run by no test."""
    for folder in ("bench", "cases", "library", "release", "report"):
        paths = glob.glob(os.path.join(TOP, folder, "**/*.py"), recursive=True)
        yield f"scripts of {folder}", [it for path in sorted(paths) for it in faults_of(path)]


def faults_of(path):
    try:
        compile(text_of(path), path, "exec")
    except SyntaxError as fault:
        yield str(fault)


def tests(sas):
    requests = requests_of(sas)
    yield from page_cases(requests)
    yield from report_cases()
    yield from diagnostic_cases()
    yield from completion_cases(requests)
    yield from version_cases(sas)
    yield from link_cases()
    yield from file_cases()
    yield from script_cases()
    yield from mandoc_cases()


if __name__ == "__main__":
    harness.main(tests)
