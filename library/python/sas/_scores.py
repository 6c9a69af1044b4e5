"""What the rows of a table say together: the best plan of each task, and the scores of planners."""
from __future__ import annotations

import csv
import math
import re
from fractions import Fraction
from typing import Callable, Dict, Iterator, List, Optional, Sequence, Set, Tuple

from ._folders import order
from ._judging import PASSED_OVER
from ._sheets import Records, Row
from ._streams import FAULT, INVALID_ARGUMENTS, Stopped, said

Key = Tuple[str, ...]


def satisficing(best_known: int, cost: int) -> Fraction:
    """Returns the score of a plan of this cost: the best known cost over it, and 1 if both are 0."""
    return Fraction(best_known, cost) if cost else Fraction(1)


def agile(seconds: float) -> float:
    """Returns the score of a run that found a plan in so many seconds: 1 up to a second, 0 from 300 on."""
    return 1 - math.log(min(max(seconds, 1), 300)) / math.log(300)


class Best:
    """The best plan of each task."""

    columns = ("task", "plans", "valid", "best_cost", "best_plan")

    def __init__(self) -> None:
        self._rows: Dict[str, Row] = {}

    def add(self, row: Row) -> None:
        """Takes a row of the table."""
        if row["verdict"] == PASSED_OVER:
            return
        best = self._rows.setdefault(row["task"], {"task": row["task"], "plans": 0, "valid": 0})
        best["plans"] += bool(row["plan"])
        if row["verdict"] == "valid":
            best["valid"] += 1
            cost = int(row["cost"])
            if "best_cost" not in best or cost < best["best_cost"]:
                best.update(best_cost=cost, best_plan=row["plan"])

    def rows(self) -> Iterator[Row]:
        """Yields a row for each task."""
        yield from self._rows.values()

    def notes(self) -> List[str]:
        """Returns nothing: all that it is made of is in the table."""
        return []


class Known:
    """Numbers that a file has about tasks or runs.

    Attributes:
        path: The file.
    """

    def __init__(self, path: str, column: str, columns: Sequence[str], number: Callable[[str], float], form: str) -> None:
        """Reads a file. Its column of numbers has this name and this form, and the others say what they are about."""
        self.path = path
        self._numbers: Dict[Key, float] = {}
        self._unused: Set[Key] = set()
        try:
            with open(path, "rb") as file:
                records = Records(file)
                head: List[str] = next(records, [])
                self._columns = [name for name in head if name != column]
                if column not in head or not self._columns or not set(self._columns) <= set(columns):
                    raise self._wrong(1, f"the columns are {column} and some of {', '.join(columns)}")
                for record in filter(None, records):
                    held = dict(zip(head, record))
                    key = tuple(held.get(name, "") for name in self._columns)
                    if not re.fullmatch(form, held.get(column, "")) or key in self._numbers:
                        raise self._wrong(records.count, f"{column} isn't a number, or is there twice")
                    self._numbers[key] = number(held[column])
        except csv.Error as fault:
            raise self._wrong(records.count, str(fault)) from None
        except OSError as fault:
            raise Stopped(FAULT, f"python -m sas table: {path}: {said(fault)}") from None
        self._unused = set(self._numbers)

    def _wrong(self, count: int, why: str) -> Stopped:
        return Stopped(INVALID_ARGUMENTS, f"python -m sas table: {self.path}, record {count}: {why}")

    def of(self, row: Row) -> Optional[float]:
        """Returns the number about a row of the table, if there is one."""
        key = tuple(str(row.get(name) or "") for name in self._columns)
        self._unused.discard(key)
        return self._numbers.get(key)

    def unused(self) -> int:
        """Returns how many numbers are about no row of the table."""
        return len(self._unused)


class Summary:
    """The scores of each planner, in each domain and in all."""

    def __init__(self, names: Sequence[str], has_own_tasks: bool, reference: Optional[str], times: Optional[str]) -> None:
        """Begins the scores of a table with the columns of these names. One that has tasks of its own has no others."""
        self._named, self._has_own_tasks = set(names), has_own_tasks
        costs, seconds = "[0-9]{1,20}", r"[0-9]+(\.[0-9]*)?([eE][-+]?[0-9]+)?"
        self._reference = None if reference is None else Known(reference, "cost", ("task", *names), int, costs)
        self._times = None if times is None else Known(times, "seconds", ("task", "plan", *names), float, seconds)
        self._known: Dict[Key, int] = {}
        self._tasks: Set[Key] = set()
        self._costs: Dict[str, Dict[Key, int]] = {}
        self._agile: Dict[str, Dict[Key, float]] = {}
        groups = [name for name in ("planner", "domain") if name in self._named]
        self.columns = (*groups, "tasks", "coverage", "score", *(["agile"] if times else []))

    def add(self, row: Row) -> None:
        """Takes a row of the table."""
        key = self._key_of(row)
        if key is None:
            return
        self._tasks.add(key)
        reference = self._reference.of(row) if self._reference else None
        if reference is not None:
            self._know(key, int(reference))
        planner = row.get("planner") or ""
        if planner or "planner" not in self._named:
            self._add_run(planner, key, row)

    def _key_of(self, row: Row) -> Optional[Key]:
        """Returns what tells the problem of a row from others; None if it has none."""
        problem = row["problem" if "problem" in self._named else "task"]
        if row["verdict"] == PASSED_OVER or not problem or (self._has_own_tasks and not row["task"]):
            return None
        return row.get("domain") or "", problem

    def _add_run(self, planner: str, key: Key, row: Row) -> None:
        costs, scores = self._costs.setdefault(planner, {}), self._agile.setdefault(planner, {})
        seconds = self._times.of(row) if self._times else None
        if row["verdict"] == "valid":
            costs[key] = min(int(row["cost"]), costs.get(key, int(row["cost"])))
            self._know(key, costs[key])
            if seconds is not None:
                scores[key] = max(agile(seconds), scores.get(key, 0.0))

    def _know(self, key: Key, cost: int) -> None:
        """Notes a cost that the problem has a plan of."""
        self._known[key] = min(cost, self._known.get(key, cost))

    def rows(self) -> Iterator[Row]:
        """Yields a row for each planner and domain, and for each planner one for all domains."""
        domains = sorted({domain for domain, _ in self._tasks}, key=order)
        groups = [[key for key in self._tasks if key[0] == domain] for domain in domains] if "domain" in self._named else []
        for planner in sorted(self._costs, key=order):
            for domain, keys in zip((*domains[: len(groups)], ""), (*groups, list(self._tasks))):
                yield self._row(planner, domain, keys)

    def _row(self, planner: str, domain: str, keys: Sequence[Key]) -> Row:
        costs, scores = self._costs[planner], self._agile[planner]
        solved = [key for key in keys if key in costs]
        score = sum((satisficing(self._known[key], costs[key]) for key in solved), Fraction())
        row: Row = {"planner": planner, "domain": domain, "tasks": len(keys), "coverage": len(solved), "score": round(float(score), 4)}
        return {**row, "agile": round(math.fsum(scores.get(key, 0.0) for key in keys), 4)}

    def notes(self) -> List[str]:
        """Returns what of the files is about no row of the table."""
        files = [it for it in (self._reference, self._times) if it]
        return [f"{it.path}: {it.unused()} records are about nothing in the table" for it in files if it.unused()]
