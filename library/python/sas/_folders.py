"""What folders hold."""
from __future__ import annotations

import os
import re
from typing import Iterator, List, NamedTuple, Tuple, Union


class Listing(NamedTuple):
    """The names in a folder: files, folders, and links that lead to folders. What leads nowhere is a file that can't be read."""

    files: List[str]
    folders: List[str]
    links: List[str]


def listing_of(folder: str) -> Listing:
    """Returns what a folder holds. Raises OSError if it can't be read."""
    held = Listing([], [], [])
    with os.scandir(folder or ".") as entries:
        for entry in sorted(entries, key=lambda it: order(it.name)):
            (held.folders if _is_folder(entry) else held.links if _is_link_to_folder(entry) else held.files).append(entry.name)
    return held


def order(name: str) -> str:
    """Returns what puts `sas_plan.2` before `sas_plan.10`."""
    return re.sub("0*([0-9]*)", lambda it: chr(len(it[1]) + 1) + it[1] if it[0] else "", name) + f"\0{name}"


def _is_folder(entry: os.DirEntry[str]) -> bool:
    try:
        return entry.is_dir(follow_symlinks=False)
    except OSError:
        return False


def _is_link_to_folder(entry: os.DirEntry[str]) -> bool:
    try:
        return entry.is_symlink() and entry.is_dir()
    except OSError:
        return False


def walk(top: str) -> Iterator[Tuple[str, Union[Listing, OSError]]]:
    """Yields a folder and those below it, each with what it holds, or why it can't be read. Links aren't followed."""
    left = [top]
    while left:
        folder = left.pop()
        try:
            listing = listing_of(folder)
        except OSError as fault:
            yield folder, fault
            continue
        yield folder, listing
        left += [os.path.join(folder, name) for name in reversed(listing.folders)]
