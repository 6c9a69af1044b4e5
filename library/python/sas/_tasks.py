"""Which task a plan is of."""
from __future__ import annotations

import os
import re
from typing import Callable, Dict, Iterator, List, Optional, Sequence, Set, Tuple

from ._folders import Listing, walk

# the values of what a pattern names
Named = Dict[str, str]
# gives the file of a task, or "" and why there is none
Find = Callable[[Named], Tuple[str, str]]

_TASK = re.compile(r"(.+)\.sas(?:\.gz|\.bz2|\.xz|\.zst)?", re.DOTALL)


class One:
    """One task for all plans.

    Attributes:
        marks_runs: Whether a folder that has a task is the folder of a run.
    """

    marks_runs = False

    def __init__(self, path: str) -> None:
        self._path = path

    def in_folder(self, _folder: str, _others: Sequence[str]) -> Find:
        """Returns what finds the task of plans in a folder, which has these other files."""
        return lambda _: (self._path, "")


class Beside(One):
    """Each task is beside its plans."""

    marks_runs = True

    def __init__(self) -> None:
        super().__init__("")

    def in_folder(self, folder: str, others: Sequence[str]) -> Find:
        tasks = [name for name in others if _TASK.fullmatch(name)]
        tasks = [name for name in tasks if name.startswith("output.sas")][:1] or tasks
        if len(tasks) == 1:
            return lambda _: (os.path.join(folder, tasks[0]), "")
        return lambda _: ("", f"{len(tasks)} tasks, and none is output.sas" if tasks else "no task")


class Below(One):
    """The tasks below a folder. The name of a task is its path there, without `.sas`, or that of its folder if it is called output.sas.

    Attributes:
        top: The folder.
        faults: The folders below it that can't be read, and why.
    """

    marks_runs = True

    def __init__(self, top: str) -> None:
        super().__init__("")
        self.faults: List[Tuple[str, OSError]] = []
        self._paths: Dict[str, List[str]] = {}
        self._found: Set[str] = set()
        for folder, listing in walk(top):
            if isinstance(listing, Listing):
                self._add(os.path.relpath(folder, top), folder, listing)
            else:
                self.faults.append((folder, listing))
        self._most = max((name.count("/") + 1 for name in self._paths), default=0)

    def _add(self, place: str, folder: str, listing: Listing) -> None:
        words = [] if place == "." else place.split("/")
        for name in listing.files:
            found = _TASK.fullmatch(name)
            if found:
                stem = [] if found[1] == "output" and words else [found[1]]
                self._paths.setdefault("/".join([*words, *stem]), []).append(os.path.join(folder, name))

    def in_folder(self, folder: str, _others: Sequence[str]) -> Find:
        of_folder = self._task_of(os.path.abspath(folder).split("/"))
        return lambda named: self._task_of(name_of(named) or []) if "problem" in named else of_folder

    def _task_of(self, words: Sequence[str]) -> Tuple[str, str]:
        """Returns the task whose name is the longest end of these words."""
        for count in range(min(len(words), self._most), 0, -1):
            name = "/".join(words[-count:])
            paths = self._paths.get(name)
            if paths:
                self._found.add(name)
                return (paths[0], "") if len(paths) == 1 else ("", f"{len(paths)} tasks of that name")
        return "", "no task of that name"

    def left(self) -> Iterator[Tuple[str, Named]]:
        """Yields the tasks of which no folder or plan was found, with the names of their domains and problems."""
        for name, paths in self._paths.items():
            if name not in self._found:
                domain, _, problem = name.rpartition("/")
                yield from ((path, {"domain": domain.rpartition("/")[2], "problem": problem}) for path in paths)


def name_of(named: Named) -> Optional[List[str]]:
    """Returns the name of a task by its domain, if that is named, and its problem; None if that isn't named."""
    return [named[name] for name in ("domain", "problem") if name in named] if "problem" in named else None
