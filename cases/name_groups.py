#!/usr/bin/env python3
"""Tests that a table of names still knows the map that it is made of, a map of the toolchain.

    python3 cases/name_groups.py SAS

`NameTable`, in crates/sas_names/src/name_table.rt, lets only so many names into the map as fit into the group in which the map starts to
look for them. So it has to know how many groups the map has, how many names fit into one, and which is the first for a name. It copies
this from the toolchain, and no promise says it: with another map all answers stay right, and a task can be written that takes a time that
grows as the square of its size.

The numbers and the fold are held against the code of the toolchain. Then SAS is run over tasks of
names that begin in one group, at three sizes, and its instructions a byte may not grow. That needs
valgrind; where it isn't there, a line says so.
"""
import itertools
import os
import re
import subprocess

import growth
import harness
from hard import plan_family
from large import task_with
from texts import TOP, text_of

TABLE = f"{TOP}/crates/sas_names/src/name_table.rt"
# the hasher's two numbers, and the bits of a word
MULTIPLIER, START, WORD = 0x9E3779B97F4A7C15, 0x243F6A8885A308D3, (1 << 64) - 1
# so many groups may the map have; it has a sixth as many as there are names, or more, up to a third
GROUPS = 1024
# what the table copies: its own words, a file of the toolchain, and the words there
COPIED = {
    "names a group before the map grows": (r"LOAD: usize = (\d+);", "index_table/probe.rt", r"GROUP_LOAD: usize = (\d+);"),
    "names that fit into a group": (r"ROOM: u8 = (\d+);", "index_table/group.rt", r"indices: \[u32; (\d+)\],"),
    "the fold of a hash": (r"\((\(hash .*\)) as usize & mask", "map/inner.rt", r"(\(hash .*\)) as u32"),
    "the first group": (r"as usize (&) mask", "index_table/probe.rt", r"hash as usize (&) \(count - 1\)"),
}


def copied_tests():
    """Yields what the table copies. They could show a number that is no longer that of the map."""
    start = subprocess.run(["rt", "doc"], check=True, capture_output=True, encoding="utf-8").stdout
    folder = os.path.join(os.path.dirname(start), "rattle/indexmap/src")
    for name, (own, path, other) in COPIED.items():
        found = [re.findall(pattern, text_of(file)) for pattern, file in ((own, TABLE), (other, f"{folder}/{path}"))]
        yield name, [] if len(found[0]) == 1 and found[0] == found[1] else [f"{found[0]}, and {found[1]} in {path}"]


def hash_of(word):
    """Returns what the hasher makes of eight bytes, given as a number."""
    product = (START ^ word) * (MULTIPLIER ^ 16)
    return (product & WORD) ^ (product >> 64)


def names():
    """Yields names of eight bytes, of which each begins in the first group: the map hashes the digest of a name, and folds that."""
    for place in itertools.count():
        name = "%08x" % place
        found = hash_of(hash_of(int.from_bytes(name.encode("ascii"), "little")))
        if (found ^ (found >> 32)) % GROUPS == 0:
            yield name


def gathered(size):
    """Operators with so many of these names, and a plan of each."""
    found = list(itertools.islice(names(), size))
    return task_with([2], operators=[(name, [], [], 1) for name in found]), found


SHOWS = "names that are sought through all groups that they fill"
FAMILY = plan_family(gathered, SHOWS, 750)


def tests(sas, place):
    yield from copied_tests()
    # the answers alone show nothing of groups
    if harness.is_there("valgrind"):
        yield from growth.judged(sas, place, FAMILY)


if __name__ == "__main__":
    harness.main(tests)
