"""Finds what a table is about: plans, and what was passed over."""
from __future__ import annotations

import argparse
import csv
import itertools
import os
from typing import Iterable, Iterator, List, NamedTuple, Sequence, Tuple, Union

from ._folders import Listing, listing_of, walk
from ._patterns import NamePattern, PathPattern
from ._sheets import BEFORE, BEHIND, REASONS, Records
from ._streams import FAULT, INVALID_ARGUMENTS, Stopped, said
from ._tasks import Below, Beside, One

_USUAL = NamePattern.of("sas_plan*")
_OWN = (*BEFORE, *BEHIND, REASONS)
_LINK = "a link to a folder"
# the most plans that a process gets at a time
_TOGETHER = 200

Values = Tuple[str, ...]


class Item(NamedTuple):
    """A plan, or a path that isn't one, or nothing. Beside it are the values of the columns that a pattern or a list names."""

    plan: str
    values: Values = ()


class Found(NamedTuple):
    """What a row is about.

    Attributes:
        task: The file of the task, if one is known.
        item: What is to be judged.
        fault: Why it can't be judged, if that is known.
        is_passed_over: Whether it was never to be judged.
        is_given: Whether a word of the command line names the plan, which then may be a pipe.
    """

    task: str
    item: Item
    fault: str = ""
    is_passed_over: bool = False
    is_given: bool = False


class Work(NamedTuple):
    """What is judged together: the same as Found, of several items."""

    task: str
    items: Sequence[Item]
    fault: str = ""
    is_passed_over: bool = False
    is_given: bool = False


class Search(NamedTuple):
    """What is found.

    Attributes:
        names: The columns that a pattern or a list names.
        found: What rows are about, in order.
        is_trusting: Whether each task is the one beside its plans.
    """

    names: Values
    found: Iterator[Found]
    is_trusting: bool = False


def works_of(found: Iterable[Found]) -> Iterator[Work]:
    """Yields works of a size that processes can share."""
    for _, group in itertools.groupby(found, lambda it: it._replace(item=Item(""))):
        for first in group:
            items = [first.item, *(it.item for it in itertools.islice(group, _TOGETHER - 1))]
            yield Work(first.task, items, *first[2:])


def search(arguments: argparse.Namespace) -> Search:
    """Returns what the words of the command line ask for."""
    if arguments.list is not None:
        return _search_list(arguments.list)
    is_trusting = arguments.task is None and arguments.tasks is None
    if is_trusting and arguments.files and not os.path.isdir(arguments.files[0]):
        return Search((), (Found(arguments.files[0], Item(plan), is_given=True) for plan in arguments.files[1:]))
    tasks = Beside() if is_trusting else One(arguments.task) if arguments.tasks is None else Below(arguments.tasks)
    if arguments.files:
        names = NamePattern.of(arguments.plans) if arguments.plans else _USUAL
        finder = _Finder(tasks, names.names)
        found = [finder.of_word(word, names) for word in arguments.files]
    else:
        pattern = PathPattern.of(arguments.plans)
        finder = _Finder(tasks, pattern.names)
        found = [finder.matching(pattern.top, pattern.levels)]
    return Search(finder.columns, itertools.chain(*found, finder.left()), is_trusting)


class _Finder:
    """Finds plans in folders.

    Attributes:
        columns: The names of the values of what it finds.
    """

    def __init__(self, tasks: One, columns: Values) -> None:
        """Begins a search. Raises Stopped if a column is called as another one of the table."""
        self.columns, self._tasks = columns, tasks
        held = (*_OWN, *columns)
        for name in columns:
            if held.count(name) > 1:
                raise Stopped(INVALID_ARGUMENTS, f"python -m sas table: there are two columns {name}")

    def of_word(self, word: str, names: NamePattern) -> Iterator[Found]:
        """Yields the plan that a word names, or those below a folder."""
        if not os.path.isdir(word):
            task, fault = self._tasks.in_folder(os.path.dirname(word), ())({})
            yield Found(task, Item(word), fault, is_given=True)
            return
        for folder, listing in walk(word):
            if isinstance(listing, OSError):
                yield _unread(folder, listing)
                continue
            yield from self._in_folder(folder, listing, names)
            yield from (_passed_over(os.path.join(folder, name), _LINK) for name in listing.links)

    def matching(self, folder: str, levels: Sequence[NamePattern], values: Values = ()) -> Iterator[Found]:
        """Yields the plans whose paths below a folder match the patterns of each level. A folder that matches all has the plans in it."""
        try:
            listing = listing_of(folder)
        except OSError as fault:
            yield _unread(folder, fault, values)
            return
        first, *rest = levels
        files, folders, links = (dict(first.matches(names)) for names in listing)
        # a folder in the place of a plan has no plans
        odd = [] if rest else [name for name, _ in _USUAL.matches(folders)]
        if not rest and (files or len(odd) == len(folders)):
            yield from self._in_folder(folder, listing, first, values, is_run=True)
        for name, match in folders.items():
            if name not in odd:
                yield from self.matching(os.path.join(folder, name), rest or [_USUAL], (*values, *match))
        others = {**dict.fromkeys(odd, "a folder"), **dict.fromkeys(files if rest else (), "not a folder"), **dict.fromkeys(links, _LINK)}
        yield from (_passed_over(os.path.join(folder, name), why, values) for name, why in others.items())
        if rest and not folders and not others:
            yield _passed_over(folder, f"nothing in it matches {first.text}", values)

    def _in_folder(self, folder: str, listing: Listing, names: NamePattern, values: Values = (), is_run: bool = False) -> Iterator[Found]:
        """Yields the plans in a folder. One without plans has a row if it is of a run, has a task, or has no folders."""
        plans = dict(names.matches(listing.files))
        find = self._tasks.in_folder(folder, [name for name in listing.files if name not in plans])
        for name, match in plans.items():
            task, fault = find(dict(zip(self.columns, (*values, *match))))
            yield Found(task, Item(os.path.join(folder, name), (*values, *match)), fault)
        if plans:
            return
        task, fault = find(dict(zip(self.columns, values)))
        if task and (is_run or self._tasks.marks_runs or not listing.folders):
            # a task beside its plans may be at fault
            yield Found(task, Item("", values), "" if isinstance(self._tasks, Beside) else f"no plan in {folder}")
        elif is_run or not listing.folders:
            yield Found("", Item(folder, values), f"{fault}, and no plan", is_passed_over=not is_run)

    def left(self) -> Iterator[Found]:
        """Yields the tasks of which nothing was found, and the folders of tasks that can't be read."""
        if isinstance(self._tasks, Below):
            yield from (_unread(folder, fault) for folder, fault in self._tasks.faults)
            for path, named in self._tasks.left():
                yield Found(path, Item("", tuple(named.get(name, "") for name in self.columns)), "no plan")


def _unread(folder: str, fault: OSError, values: Values = ()) -> Found:
    return Found("", Item(folder, values), f"folder: {said(fault)}")


def _passed_over(path: str, why: str, values: Values = ()) -> Found:
    return Found("", Item(path, values), why, is_passed_over=True)


def _search_list(path: str) -> Search:
    """Returns the pairs of a task and a plan that a list has."""
    try:
        file = open(0 if path == "-" else path, "rb")
    except OSError as fault:
        raise Stopped(FAULT, f"python -m sas table: {path}: {said(fault)}") from None
    records = Records(file)
    first: Union[List[str], Found] = next(_readable(records, path), [])
    if isinstance(first, Found) or not {"task", "plan"} <= set(first):
        return Search((), _of_list(itertools.chain([first] if first else [], _readable(records, path)), ["task", "plan"], ()))
    names = tuple(name for name in first if name not in _OWN)
    return Search(names, _of_list(_readable(records, path), first, names))


def _readable(records: Records, path: str) -> Iterator[Union[List[str], Found]]:
    """Yields the records of a list that aren't empty, and what is found where one can't be read."""
    while True:
        try:
            yield from filter(None, records)
            return
        except csv.Error as fault:
            yield Found("", Item(path), f"record {records.count}: {fault}")


def _of_list(records: Iterable[Union[List[str], Found]], columns: Sequence[str], names: Values) -> Iterator[Found]:
    """Yields what the records of a list name, which have these columns."""
    for record in records:
        if isinstance(record, Found):
            yield record
            continue
        held = dict(zip(columns, record))
        item = Item(held.get("plan", ""), tuple(held.get(name, "") for name in names))
        yield Found(held.get("task", ""), item, "" if "plan" in held and "task" in held else "no plan")
