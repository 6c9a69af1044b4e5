"""Judges plans for a table, in a process of its own."""
from __future__ import annotations

import collections
import datetime
import os
import stat
from io import FileIO
from typing import Dict, Iterator, List, NamedTuple, Optional, Sequence, Tuple, Union

from . import Answer, InputTooLong, Refused, Task, check_why
from ._files import content_of, open_ordinary
from ._finding import Item, Work
from ._sheets import Row
from ._streams import said

NO_ANSWER, PASSED_OVER = "no answer", "passed over"
# what keeps a file from being judged; a name may have a NUL
_FAULTS = (OSError, MemoryError, InputTooLong, ValueError)
_CHANGED = "task: it changed while its plans were judged"
# how many processes may end while they read a task
_TRIES = 2
_EPOCH = datetime.datetime(1970, 1, 1)


class Seen(NamedTuple):
    """What tells whether a file is as it was: its device and number, how many bytes it has, and when it was written, in ns since 1970."""

    device: int
    number: int
    size: int
    moment: int


class Order(NamedTuple):
    """Work for a process, and how its task was when it was first seen. Without that its file isn't an ordinary one."""

    work: Work
    seen: Optional[Seen]


def seen_at(path: str) -> Optional[Seen]:
    """Returns how a file is. None if it isn't an ordinary one."""
    try:
        return _seen(os.stat(path))
    except (OSError, ValueError):
        return None


def _seen(about: os.stat_result) -> Optional[Seen]:
    if not stat.S_ISREG(about.st_mode):
        return None
    return Seen(about.st_dev, about.st_ino, about.st_size, about.st_mtime_ns)


class Judge:
    """Judges plans of one task after another. The last task is held, so that it is read once for all its plans.

    Attributes:
        names: The columns that a pattern or a list names.
        max_bytes: How many bytes a file may have.
        is_why: Whether reasons are asked for.
        given: The task that a word of the command line names, which may be a pipe.
    """

    def __init__(self, names: Sequence[str], max_bytes: int, is_why: bool, given: Optional[str]) -> None:
        self.names, self.max_bytes, self.is_why, self.given = names, max_bytes, is_why, given
        self._held: Optional[Tuple[str, Union[Task, Answer]]] = None

    def rows(self, order: Order) -> Iterator[Row]:
        """Yields an empty row once the task is read, and then the rows. Each plan is judged once its row is asked for."""
        work = order.work
        fault, task = work.fault, None
        if not fault:
            try:
                task = self._task_of(order)
            except _FAULTS as it:
                fault = f"task: {said(it)}"
        yield {}
        for item in work.items:
            yield self._row(order, item, task) if task is not None else without_answer(self.names, work, item, fault)

    def _task_of(self, order: Order) -> Union[Task, Answer]:
        """Returns the task of a file, or the answer that refuses it."""
        path = order.work.task
        if self._held and self._held[0] == path:
            return self._held[1]
        self._held = None
        file, about = _opened(path, path == self.given)
        with file:
            content = content_of(file, about, path, self.max_bytes)
        try:
            held: Union[Task, Answer] = Task._uncounted(content)
        except Refused as refusal:
            held = check_why(content) if self.is_why else refusal.answer
        self._held = path, held
        return held

    def _row(self, order: Order, item: Item, task: Union[Task, Answer]) -> Row:
        """Returns the row of a plan of a task that was read."""
        row = _row_of(self.names, order.work, item)
        if not item.plan and isinstance(task, Task):
            return without_answer(self.names, order.work, item, "no plan")
        try:
            row.update(_columns_of(task if isinstance(task, Answer) else self._judged(order.work, item.plan, task, row)))
        except _FAULTS as fault:
            row.update(verdict=NO_ANSWER, reason=f"plan: {said(fault)}")
        if order.seen and seen_at(order.work.task) != order.seen:
            return without_answer(self.names, order.work, item, _CHANGED)
        return row

    def _judged(self, work: Work, path: str, task: Task, row: Row) -> Answer:
        """Returns the answer about a plan. Its row gets what the file system says of the file."""
        file, about = _opened(path, work.is_given)
        with file:
            row.update(_file_columns(about))
            content = content_of(file, about, path, self.max_bytes)
        return task.plan_why(content) if self.is_why else task.plan(content)


def _opened(path: str, is_given: bool) -> Tuple[FileIO, os.stat_result]:
    """Opens a file. One that a word of the command line names may be a pipe, or so."""
    if not is_given:
        return open_ordinary(path)
    file = FileIO(path)
    return file, os.fstat(file.fileno())


def _row_of(names: Sequence[str], work: Work, item: Item) -> Row:
    """Returns the row of an item that isn't judged yet."""
    return {"task": work.task, "plan": item.plan, **dict(zip(names, item.values))}


def without_answer(names: Sequence[str], work: Work, item: Item, fault: str) -> Row:
    """Returns the row of what can't be judged."""
    return {**_row_of(names, work, item), "verdict": PASSED_OVER if work.is_passed_over else NO_ANSWER, "reason": fault}


def _file_columns(about: os.stat_result) -> Row:
    """Returns what the file system says of a file. A pipe has neither a size nor a time."""
    if not stat.S_ISREG(about.st_mode):
        return {}
    try:
        modified = _EPOCH + datetime.timedelta(microseconds=about.st_mtime_ns // 1000)
        return {"bytes": about.st_size, "modified": modified.isoformat(timespec="microseconds") + "Z"}
    except OverflowError:
        return {"bytes": about.st_size}


def _columns_of(answer: Answer) -> Row:
    """Returns what an answer says."""
    if answer:
        return {"verdict": "valid", "steps": answer.steps, "cost": answer.cost}
    refused, reasons = answer.refused_file, answer.reasons
    row: Row = {"verdict": str(answer.verdict), "reason": answer.reason, "sum": answer.sum}
    return {**row, "refused_file": refused and str(refused), "reasons": reasons and str(reasons)}


class Orders:
    """Gives works to processes, and says what becomes of one whose process ended.

    Attributes:
        tasks: The tasks so far, and how their files were when they were first seen.
    """

    def __init__(self, names: Sequence[str]) -> None:
        """Begins with none. The rows have columns of these names, too."""
        self.tasks: Dict[str, Optional[Seen]] = {}
        self._names = names
        # how processes ended while they read a task
        self._ends: Dict[str, List[str]] = collections.defaultdict(list)

    def of(self, work: Work) -> Order:
        """Returns a work as a process gets it."""
        if work.task and work.task not in self.tasks:
            self.tasks[work.task] = seen_at(work.task)
        if len(self._ends.get(work.task, ())) >= _TRIES:
            work = work._replace(fault=self._ends[work.task][-1])
        return Order(work, self.tasks.get(work.task))

    def lost(self, order: Order, count: int, status: int) -> Tuple[List[Row], Optional[Order]]:
        """Returns the row of the plan at which a process ended, often by a lack of memory, and what is left of the work. So many results
        had come: an empty one once the task was read, and the rows before. If it ended before that, the work is tried again."""
        work = order.work
        how = f"the process ended by signal {-status}" if status < 0 else f"the process ended with status {status}"
        if count == 0 and order.seen:
            self._ends[work.task].append(f"task: {how}")
            if len(self._ends[work.task]) < _TRIES:
                return [], order
        if count == 0 or not order.seen:
            return [without_answer(self._names, work, item, f"task: {how}") for item in work.items[max(0, count - 1) :]], None
        lost, left = work.items[count - 1 : count], work.items[count:]
        rows = [without_answer(self._names, work, item, f"plan: {how}") for item in lost]
        return rows, order._replace(work=work._replace(items=left)) if left else None
