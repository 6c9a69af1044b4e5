#!/usr/bin/env python3
"""Prints how long the prover took for each function and each file of lemmas, slowest first.

    python3 bench/proof_times.py [--least SECONDS] [CRATE ..]

It reads when the last check of a crate wrote each module that it keeps in crates/CRATE/out/incremental, and proves nothing. The times are
right where that check began with nothing, had one processor and ran alone: after `make`, `python3 build.py CRATE --check --jobs 1`.
What a row names last is the kind of module that took most of the time:

- `Lts`: the code, with all drops. A derived `Drop` isn't a call, so each exit of a function drops each part of each value in place.
- `Proof`: the search for goals that no file in proofs/ answers.
- `Tie`, `Answers`, `file`: the borrow checker's part, the answers, and a file of lemmas or definitions.
"""
import argparse
import collections
import os
import re

TOP = os.path.dirname(os.path.dirname(os.path.abspath(__file__)))
# modules of a function whose time is a proof's; others are small, and a long time there was spent on loading
KINDS = ("Lts", "Proof", "Tie", "Answers", "Goals", "Kinds", "Invariants", "Reads", "Layout", "View", "Given")


def kept_modules(crate):
    """Returns the modules that a check kept, in the order in which they were written, each with its time."""
    found = []
    for at, _, names in os.walk(f"{TOP}/crates/{crate}/out/incremental"):
        found += [(os.stat(f"{at}/{it}").st_mtime, it) for it in names if it.endswith(".oantt")]
    return sorted(found)


def owner_of(crate, module):
    """Returns the function or the file that a module is for, and the module's kind."""
    path = re.sub(rf"^Rattle[-.]{crate}[-.]?", "", re.sub(r"(\.decls)?\.oantt$", "", module))
    path = re.sub(r"^(proofs|specs\.contracts|specs)(\.|$)", "", path)
    for folder in ("proofs", "specs"):
        file = f"crates/{crate}/{folder}/{path.replace('.', '/')}.antt"
        if path and os.path.exists(f"{TOP}/{file}") and not path.endswith((".Answers", ".Invariants", ".Proof")):
            return file, "file"
    words, kind = path.split("."), ""
    while len(words) > 1 and words[-1] in KINDS:
        kind = words.pop()
    return "::".join([crate, *filter(None, words)]), kind


def times_of(crate):
    """Returns the seconds of each function and file of a crate, by kinds."""
    modules, found = kept_modules(crate), collections.defaultdict(collections.Counter)
    for (before, _), (after, module) in zip(modules, modules[1:]):
        name, kind = owner_of(crate, module)
        found[name][kind] += after - before
    return found


def main():
    parser = argparse.ArgumentParser(description=__doc__, formatter_class=argparse.RawDescriptionHelpFormatter)
    parser.add_argument("crates", nargs="*", metavar="CRATE", help="all, if left out")
    parser.add_argument("--least", type=float, default=5, metavar="SECONDS", help="the least time that is printed (5)")
    args = parser.parse_args()
    rows = []
    for crate in args.crates or sorted(os.listdir(f"{TOP}/crates")):
        for name, kinds in times_of(crate).items():
            kind, most = kinds.most_common(1)[0]
            rows.append((sum(kinds.values()), f"{name}, {most:.1f} of {kind or 'loading'}"))
    for seconds, row in sorted(rows, reverse=True):
        if seconds >= args.least:
            print(f"{seconds:7.1f} {row}")


main()
