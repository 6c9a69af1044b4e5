"""Tables of many plans: `python -m sas table`."""
from __future__ import annotations

import argparse
import collections
import contextlib
import itertools
import os
import signal
import time
from typing import Dict, Iterable, Iterator, Optional, Sequence, Union

from ._finding import Work, search, works_of
from ._judging import NO_ANSWER, PASSED_OVER, Judge, Orders, seen_at
from ._options import parsed
from ._scores import Best, Summary
from ._sheets import BEFORE, BEHIND, REASONS, Row, Sheet
from ._streams import FAULT, INVALID_ARGUMENTS, NO, YES, Stopped, replace_closed, write_error
from ._workers import Team, uninterrupted

INTERRUPTED = 128 + signal.SIGINT
TRUSTING = "warning: each task is the one beside its plans, which the planner may have written; --tasks names yours"
# the seconds between two reports on a terminal
_OFTEN = 0.1


def main(words: Sequence[str]) -> int:
    """Prints the table that the words request, and returns the exit status."""
    try:
        arguments = parsed(words)
        replace_closed()
        return _Table(arguments).printed()
    except Stopped as stop:
        write_error(stop.line)
        return stop.status


class _Table:
    """A table that is made: what its rows have come to, and where they go."""

    def __init__(self, arguments: argparse.Namespace) -> None:
        self._arguments = arguments
        self._search = search(arguments)
        names = self._search.names
        columns = (*BEFORE, *names, *BEHIND, *([REASONS] if arguments.why else []))
        self._scores = self._scores_of(names)
        is_shown = arguments.output is not None or self._scores is None
        self._sheet = Sheet(columns, arguments.json, arguments.output, arguments.resume) if is_shown else None
        self._counts: Dict[str, int] = collections.Counter()
        self._orders = Orders(names)

    def _scores_of(self, names: Sequence[str]) -> Union[Best, Summary, None]:
        """Returns what is printed in the end, if anything is asked for."""
        given = self._arguments
        if given.summary:
            return Summary(names, given.tasks is not None, given.reference, given.times)
        return Best() if given.best else None

    def printed(self) -> int:
        """Prints the table and its summary, and returns the exit status."""
        if self._search.is_trusting:
            write_error(f"python -m sas table: {TRUSTING}")
        interrupted = ""
        try:
            self._judge_all()
        except KeyboardInterrupt:
            interrupted = "interrupted: "
        count, passed_over = sum(self._counts.values()), self._counts[PASSED_OVER]
        if not count and not interrupted:
            raise Stopped(INVALID_ARGUMENTS, "python -m sas table: there is no plan and no task")
        numbers = ", ".join(f"{self._counts[word]} {word}" for word in ("valid", "invalid", "refused"))
        numbers += f", {self._counts[NO_ANSWER]} without an answer" + (f", {passed_over} passed over" if passed_over else "")
        if not interrupted:
            self._print_scores()
        write_error(f"{interrupted}{count} rows of {len(self._orders.tasks)} tasks: {numbers}")
        if interrupted:
            return INTERRUPTED
        return FAULT if self._counts[NO_ANSWER] or count == passed_over else NO if set(self._counts) - {"valid", PASSED_OVER} else YES

    def _judge_all(self) -> None:
        """Takes the rows that there are, and judges what is left."""
        progress = _Progress(is_apart=self._arguments.output is not None or not os.isatty(1))
        given = self._arguments.given_task
        # a pipe can be read by one process alone
        jobs = self._arguments.jobs if given is None or seen_at(given) else 1
        judge = Judge(self._search.names, self._arguments.max_bytes, self._arguments.why, given)
        team = Team(map(self._orders.of, self._left(works_of(self._search.found))), judge.rows, self._orders.lost)
        try:
            with contextlib.closing(team.results(jobs)) as rows:
                for row in filter(None, rows):
                    with uninterrupted():
                        self._take(row, self._sheet)
                    progress.show(sum(self._counts.values()))
        finally:
            progress.clear()
            if self._sheet:
                self._sheet.close()

    def _take(self, row: Row, sheet: Optional[Sheet] = None) -> None:
        """Counts a row. It goes to a sheet, unless it is there."""
        if sheet:
            sheet.write(row)
        self._counts[row["verdict"]] += 1
        if self._scores:
            self._scores.add(row)

    def _left(self, works: Iterable[Work]) -> Iterator[Work]:
        """Yields what of the works has no row yet. Raises Stopped if the rows that there are aren't of these works."""
        rows = self._sheet.earlier() if self._arguments.resume and self._sheet else iter(())
        for work in works:
            left = list(work.items)
            for row in itertools.islice(rows, len(left)):
                if (row["task"], row["plan"]) != (work.task, left[0].plan):
                    raise self._differing(row)
                self._take(row)
                del left[0]
            seen = self._orders.of(work).seen
            if self._sheet and len(left) < len(work.items) and seen and seen.moment > self._sheet.moment:
                raise self._unusable(f"{work.task} was written after rows about it")
            if left:
                yield work._replace(items=left)
        for row in rows:
            raise self._differing(row)

    def _differing(self, row: Row) -> Stopped:
        return self._unusable(f"row {sum(self._counts.values()) + 1}, of {row['plan'] or row['task']}, isn't of what is found now")

    def _unusable(self, why: str) -> Stopped:
        return Stopped(INVALID_ARGUMENTS, f"python -m sas table: {self._arguments.output}: {why}")

    def _print_scores(self) -> None:
        """Prints what the rows come to."""
        if self._scores:
            sheet = Sheet(self._scores.columns, self._arguments.json)
            for row in self._scores.rows():
                sheet.write(row)
            for note in self._scores.notes():
                write_error(f"python -m sas table: {note}")


class _Progress:
    """Says on a terminal how much was judged, unless the rows are shown there."""

    def __init__(self, is_apart: bool) -> None:
        self._last = 0.0
        self._is_shown = os.isatty(2) and is_apart

    def show(self, count: int) -> None:
        now = time.monotonic()
        if now - self._last >= _OFTEN:
            self._write(f"\r{count} rows")
            self._last = now

    def clear(self) -> None:
        self._write("\r\x1b[K")

    def _write(self, text: str) -> None:
        if self._is_shown:
            with contextlib.suppress(OSError):
                os.write(2, text.encode())
