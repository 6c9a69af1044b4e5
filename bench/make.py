#!/usr/bin/env python3
"""Makes task files and plans for measurements, the same bytes each time.

    bench/make.py FOLDER [--scale F] [--only TEXT]          the inputs of all cases, or of those with TEXT in their name
    bench/make.py FOLDER DOMAIN SIZE [--steps N]            one input; with N, a plan of N steps or as many as it needs

DOMAIN is gripper (transport), blocks (blocks world), lift (passengers), wide (operators with many effects), or one with derived
variables: power, tables or building. SIZE is a number with a unit: MB, operators, groups (gripper, blocks, lift), effects (wide)
or rules (the last three), as in 200MB or 100000rules; without a unit it counts balls, blocks, floors, effects, columns, tables
or floors. MB is 1,000,000 bytes, and about.

Each input has a folder of its own in FOLDER, with `task.sas`, `plan` where it has one, and `about.json`, which
describes them. An input that is there already is left as it is; after a change of these scripts remove it.
"""
import json
import os
import re
import shutil
import sys
import zlib
from collections import namedtuple

import machine
from blocks import Blocks
from building import Building
from cases import chosen, wanted_size, wanted_steps
from gripper import Gripper
from lift import Lift
from power import Power
from sas_text import plan_pieces, task_pieces
from tables import Tables
from wide import Wide

DOMAINS = {"gripper": Gripper, "blocks": Blocks, "lift": Lift, "wide": Wide, "power": Power, "tables": Tables,
           "building": Building}
PIECES_AT_ONCE = 4096

Made = namedtuple("Made", "folder task plan about")


def domain_of(name, size, unit):
    """Returns the task of a domain that has this size."""
    domain = DOMAINS[name]
    return domain(max(domain.LEAST, round(domain.UNITS[unit](size))))


def in_batches(pieces):
    """Yields the pieces joined, some thousand at a time, since each write costs more than a piece."""
    batch = []
    for piece in pieces:
        batch.append(piece)
        if len(batch) == PIECES_AT_ONCE:
            yield "".join(batch)
            batch = []
    yield "".join(batch)


def write(path, pieces):
    """Writes a file. Returns how many bytes and lines it has, and a checksum that sets two inputs apart."""
    size, lines, check = 0, 0, 0
    with open(path, "wb") as file:
        for text in in_batches(pieces):
            data = text.encode("latin-1")
            file.write(data)
            size, lines, check = size + len(data), lines + data.count(b"\n"), zlib.crc32(data, check)
    return {"bytes": size, "lines": lines, "crc32": "%08x" % check}


def write_input(folder, name, domain, steps):
    """Writes the files of an input."""
    about = {"domain": name, "objects": domain.objects, **domain.counts()}
    about["task.sas"] = write(os.path.join(folder, "task.sas"), task_pieces(domain))
    if steps is not None:
        about["plan"] = write(os.path.join(folder, "plan"), plan_pieces(domain.plan(steps)))
        about["steps"] = about["plan"]["lines"] - 1
    with open(os.path.join(folder, "about.json"), "w") as file:
        json.dump(about, file, indent=1)


def made_input(top, name, domain, steps):
    """Returns the input of this domain and these steps in the folder. It is made if it isn't there."""
    folder = os.path.join(top, "%s-%d" % (name, domain.objects) + ("" if steps is None else "-steps-%d" % steps))
    if not os.path.isdir(folder):
        # under another name until it is whole, so that a run that was stopped leaves nothing that looks made
        part = folder + ".part"
        shutil.rmtree(part, ignore_errors=True)
        os.makedirs(part)
        print("making", folder, file=sys.stderr, flush=True)
        write_input(part, name, domain, steps)
        os.rename(part, folder)
    with open(os.path.join(folder, "about.json")) as file:
        about = json.load(file)
    return Made(folder, os.path.join(folder, "task.sas"), os.path.join(folder, "plan"), about)


def case_input(top, case, scale):
    """Returns the input of a case at a scale."""
    domain = domain_of(case.domain, wanted_size(case, scale), case.unit)
    return made_input(top, case.domain, domain, wanted_steps(case, scale))


def size_and_unit(domain, text):
    """Returns the number and the unit of a SIZE."""
    units = DOMAINS[domain].UNITS
    parts = re.fullmatch(r"([0-9.]+)([A-Za-z]*)", text)
    if not parts or parts[2] and parts[2] not in units:
        sys.exit("make.py: a size is a number and one of " + ", ".join(units))
    return float(parts[1]), parts[2] or next(iter(units))


def made_line(made):
    """Returns one line about an input."""
    about = made.about
    counts = ", ".join("%d %s" % (about[word], word) for word in ("variables", "groups", "operators", "rules"))
    files = ["%s %d bytes, %d lines, crc32 %s" % (name, *about[name].values())
             for name in ("task.sas", "plan") if name in about]
    return "%s: %s; %s" % (made.folder, counts, "; ".join(files))


def main():
    flags = {"steps": 0, "scale": 1.0, "only": ""}
    given = machine.arguments(__doc__, "folder", "domain?", "size?", **flags)
    if given.domain:
        if given.domain not in DOMAINS or not given.size:
            sys.exit("make.py: a size is needed, and a domain: " + ", ".join(sorted(DOMAINS)))
        domain = domain_of(given.domain, *size_and_unit(given.domain, given.size))
        print(made_line(made_input(given.folder, given.domain, domain, given.steps or None)))
        return
    inputs = (case_input(given.folder, case, given.scale) for case in chosen(given.only))
    # two cases may have one input
    print("\n".join(dict.fromkeys(made_line(made) for made in inputs)))


if __name__ == "__main__":
    main()
