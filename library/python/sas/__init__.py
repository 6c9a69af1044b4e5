"""Proved validator of Fast Downward's task files and plans, by libsas.so.

    sas.plan(task, plan)              whether a plan solves a task
    sas.plan_why(task, plan)          the same, with the reasons for a no
    sas.trace(task, plan)             the same, after what each step changes
    sas.plan_files(task, plan)        whether a plan solves a task, by the paths of their files
    sas.Task(task)                    a task that is read once, for many plans: it has plan, plans, plan_operators, plan_why, trace, and run,
                                      run_trace and run_state, which start in any state
    sas.Task.from_file(path)          the same, by the path of its file
    sas.check(task)                   whether a task is layered; sas.check_why(task) adds the reasons for a no
    sas.mutex(task)                   which mutex groups are exclusive; sas.mutex_why(task) adds the reasons
    sas.show(task)                    what a task is about
    sas.print_task(task)              a task in its canonical form; sas.steps(plan) a plan

Each returns a sas.Answer, which is true if the answer is yes:

    answer = sas.plan(task, plan)
    if answer:
        print(answer.steps, answer.cost)
    else:
        print(answer.verdict, answer.failure, answer.refused_file, answer.reason)

    with sas.Task(task) as held:
        answers = held.plans(plans)
        print(held.plan_why(plan).reasons)
        for step in held.trace(plan).trace_steps:
            print(step.name, step.changes)

help(sas.Answer) describes what else an answer has, and help(sas.Reasons), sas.Step, sas.Summary, sas.Group and sas.Refusal its values.

Tasks and plans are bytes, or objects that have bytes, such as a bytearray, a memoryview or an mmap. Only read-only objects that aren't
bytes are copied. `plan_files` and `Task.from_file` read files, also those of gzip, bzip2, xz and, by a program, zstd. Threads may call at
the same time: a call releases the interpreter's lock, and a Task makes one call after another.

Each call raises MemoryError if it is out of memory, and sas.InputTooLong if an input has more than 4,294,967,296 bytes. sas.Task raises
sas.Refused, and sas.NoTask after it was closed. The reasons or the trace of a small task may have gigabytes. So calls whose answer may have
more than one line take `max_answer_bytes`: if the text of the answer has more bytes, they raise sas.AnswerTooLong. Then it isn't copied
from the library, which holds it until the call returns.

The library is libsas.so beside this package or in a folder above, else libsas.so.1 where the system's loader finds it. The environment
variable LIBSAS can name another file.

`python -m sas` answers as the program, and makes tables of many plans: `python -m sas --help`.
"""
from __future__ import annotations

import array
import ctypes
import os
import sys
import threading
import weakref
from typing import Any, Callable, Iterable, List, NoReturn, Optional, Tuple

from . import _streams

# `python -m sas` imports this package before its own module, which so can't catch what goes wrong here
_hook = sys.excepthook
if getattr(sys, "argv", [])[:1] == ["-m"]:
    sys.excepthook = _streams.end_import

from . import _files, _library
# these are public, too; `help` has those that __all__ names
from ._answers import (
    Answer as Answer,
    AnswerTooLong as AnswerTooLong,
    Failure as Failure,
    File as File,
    InputTooLong as InputTooLong,
    NoTask as NoTask,
    Refused as Refused,
    State as State,
    Verdict as Verdict,
)
from ._files import LIMIT, Path
from ._library import LINE_ROOM, USUAL_ROOM, Data, answer_of, given, given_cost, given_numbers, given_run, state_of
from ._task_values import (
    Found as Found,
    Group as Group,
    GroupVerdict as GroupVerdict,
    ListCount as ListCount,
    Refusal as Refusal,
    Summary as Summary,
    WrongNumber as WrongNumber,
)
from ._values import (
    BlockedOperator as BlockedOperator,
    Cause as Cause,
    Change as Change,
    Conflict as Conflict,
    CostFacts as CostFacts,
    CouldAlsoBe as CouldAlsoBe,
    Effect as Effect,
    Fact as Fact,
    GoalFact as GoalFact,
    MadeAnyway as MadeAnyway,
    NamedStep as NamedStep,
    Reasons as Reasons,
    Rule as Rule,
    SimilarOperator as SimilarOperator,
    Step as Step,
    UnknownStep as UnknownStep,
)

__version__ = "1.1.0"
__all__ = [
    "Task", "check", "check_why", "mutex", "mutex_why", "plan", "plan_files", "plan_why", "print_task", "show", "steps", "trace", "version",
]  # fmt: skip
# tracebacks and pickles name the module that users import
for _its in list(globals().values()):
    if isinstance(_its, type) and _its.__module__.startswith(f"{__name__}._"):
        _its.__module__ = __name__


def version() -> str:
    """Returns the version of the library, such as 1.1.0."""
    return str(_library.VERSION().decode())


def plan(task: Data, plan: Data) -> Answer:
    """Checks whether a plan solves a task: `sas plan`.

    Args:
        task: The bytes of a task file, `output.sas`.
        plan: The bytes of a plan file, `sas_plan`.

    Returns:
        Yes if the plan is valid, with its steps and its cost.

    Raises:
        MemoryError: Out of memory.
        InputTooLong: A file has more than 4,294,967,296 bytes.
    """
    return answer_of(_library.PLAN, *given(task), *given(plan))


def plan_files(task: Path, plan: Path, *, max_bytes: int = LIMIT) -> Answer:
    """Checks whether a plan solves a task, both given by the paths of their files. Compressed ones are decompressed.

    Args:
        task: The path of a task file.
        plan: The path of a plan file.
        max_bytes: How many bytes a file may have, decompressed.

    Raises:
        OSError: A file can't be opened or read, or a compressed file is damaged.
        InputTooLong: A file has more than `max_bytes` bytes. It isn't read any further.
    """
    return answer_of(_library.PLAN, *given(_files.read(task, max_bytes)), *given(_files.read(plan, max_bytes)))


def plan_why(task: Data, plan: Data, *, max_answer_bytes: Optional[int] = None) -> Answer:
    """Checks a plan as `plan` does, with the reasons for a no in further lines of the text: `sas plan --why`."""
    return answer_of(_library.PLAN_WHY, *given(task), *given(plan), room=USUAL_ROOM, max_answer_bytes=max_answer_bytes)


def trace(task: Data, plan: Data, *, max_answer_bytes: Optional[int] = None) -> Answer:
    """Checks a plan as `plan` does, and prints what each of its steps changes: `sas trace`."""
    (task_at, task_length), (plan_at, plan_length) = given(task), given(plan)
    room = _trace_room(_initial_size_of(task), plan_length)
    return answer_of(_library.TRACE, task_at, task_length, plan_at, plan_length, room=room, max_answer_bytes=max_answer_bytes)


def _initial_size_of(task: Data) -> int:
    """Returns a guess of how many bytes the initial state of a task has in a trace: 64 for each variable, whose number is on line 7."""
    held = memoryview(task).cast("B")
    line = bytes(held[:200]).split(b"\n")[6:7]
    return min(64 * int(line[0]), len(held)) if line and line[0].strip().isdigit() else 0


def _trace_room(initial_size: int, plan_length: int) -> int:
    """Returns the room that most traces fit in."""
    return USUAL_ROOM + initial_size + 10 * plan_length


def check(task: Data) -> Answer:
    """Checks whether a task is layered: `sas check`."""
    return answer_of(_library.CHECK, *given(task))


def check_why(task: Data, *, max_answer_bytes: Optional[int] = None) -> Answer:
    """Checks a task as `check` does, with the reasons for a no in further lines of the text: `sas check --why`."""
    return answer_of(_library.CHECK_WHY, *given(task), room=USUAL_ROOM, max_answer_bytes=max_answer_bytes)


def mutex(task: Data, *, max_answer_bytes: Optional[int] = None) -> Answer:
    """Checks which mutex groups of a task are exclusive: `sas mutex`.

    Returns:
        Yes if all groups are shown to be exclusive. The text has a line about each.
    """
    return _answer_by_input(_library.MUTEX, task, USUAL_ROOM, max_answer_bytes)


def mutex_why(task: Data, *, max_answer_bytes: Optional[int] = None) -> Answer:
    """Checks mutex groups as `mutex` does, with the reasons for a no in further lines of the text: `sas mutex --why`."""
    return _answer_by_input(_library.MUTEX_WHY, task, USUAL_ROOM, max_answer_bytes)


def show(task: Data, *, max_answer_bytes: Optional[int] = None) -> Answer:
    """Prints a summary of a task: `sas show`."""
    return _answer_by_input(_library.SHOW, task, USUAL_ROOM, max_answer_bytes)


def print_task(task: Data, *, max_answer_bytes: Optional[int] = None) -> Answer:
    """Prints a task file, each line ended by LF: `sas print`."""
    return _answer_by_input(_library.PRINT, task, LINE_ROOM, max_answer_bytes)


def steps(plan: Data, *, max_answer_bytes: Optional[int] = None) -> Answer:
    """Prints a plan file, each line ended by LF: `sas steps`."""
    return _answer_by_input(_library.STEPS, plan, LINE_ROOM, max_answer_bytes)


def _answer_by_input(call: Callable[..., int], data: Data, room: int, max_answer_bytes: Optional[int]) -> Answer:
    """Returns the answer of a call whose answer grows with its input. Its room is so many bytes, and those of the input."""
    at, length = given(data)
    return answer_of(call, at, length, room=room + length, max_answer_bytes=max_answer_bytes)


class Task:
    """A layered task that is read once, for many plans.

    It is freed at the end of a `with`, by `close`, or with its last reference. If a process forks while another thread is inside a call of
    the task, the task is closed in the child.

    Attributes:
        metric: 1 if the operators' cost lines are used, else 0.
        variables, derived, groups, operators, rules: How many the task has; `derived` are those of the variables that rules derive.
        goal_facts: How many facts the goal has.
    """

    metric: int
    variables: int
    derived: int
    groups: int
    operators: int
    rules: int
    goal_facts: int

    def __init__(self, task: Data) -> None:
        """Reads a task, and by `show` its numbers.

        Args:
            task: The bytes of a task file, `output.sas`.

        Raises:
            Refused: They aren't the bytes of a layered task.
            MemoryError: Out of memory.
            InputTooLong: The file has more than 4,294,967,296 bytes.
        """
        self._read(task)
        self._count(show(task).text)

    @classmethod
    def _uncounted(cls, task: Data) -> Task:
        """Reads a task without its numbers, in less time."""
        it = cls.__new__(cls)
        it._read(task)
        return it

    def _read(self, task: Data) -> None:
        self._path: Optional[Path] = None
        self._hold(_library.Held())
        answer = answer_of(_library.TASK_READ, self._held, *given(task))
        if not answer:
            raise Refused(answer.text)
        # how many bytes the initial state has in each trace, which is a guess until the first one is there
        self._initial_size, self._is_measured = _initial_size_of(task), False
        _TASKS.add(self)

    @classmethod
    def from_file(cls, path: Path, *, max_bytes: int = LIMIT) -> Task:
        """Reads a task file. A compressed one is decompressed.

        Args:
            path: The path of a task file.
            max_bytes: How many bytes the file may have, decompressed.

        Raises:
            OSError: The file can't be opened or read, or a compressed file is damaged.
            InputTooLong: The file has more than `max_bytes` bytes. It isn't read any further.
            Refused: It isn't the file of a layered task.
        """
        task = cls(_files.read(path, max_bytes))
        task._path = path
        return task

    def _count(self, summary: bytes) -> None:
        """Reads the numbers of a summary of the task."""
        numbers = {word: int(number) for word, number in (line.split() for line in summary[:200].split(b"\n")[:6])}
        self.metric, self.variables, self.derived = numbers[b"metric"], numbers[b"variables"], numbers[b"derived"]
        self.groups, self.operators, self.rules = numbers[b"groups"], numbers[b"operators"], numbers[b"rules"]
        # their lines follow that of the last variable
        self.goal_facts = summary.count(b"\n", summary.rfind(b"\ninitial ") + 1) - 1

    def _hold(self, held: _library.Held) -> None:
        self._held, self._one_call = held, threading.Lock()
        self._free = weakref.finalize(self, _library.TASK_FREE, held)
        # at exit a thread may still be inside a call
        self._free.atexit = False

    def plan(self, plan: Data) -> Answer:
        """Checks whether a plan solves the task, as the function `plan` does.

        Args:
            plan: The bytes of a plan file, `sas_plan`.

        Returns:
            Yes if the plan is valid, with its steps and its cost.

        Raises:
            NoTask: The task was closed.
            MemoryError: Out of memory.
            InputTooLong: The file has more than 4,294,967,296 bytes.
        """
        return self._answer(_library.TASK_PLAN, given(plan), LINE_ROOM)

    def plans(self, plans: Iterable[Data]) -> List[Answer]:
        """Checks many plans, as `plan` does. The answers are in the order of the plans."""
        return [self.plan(plan) for plan in plans]

    def plan_operators(self, operators: Iterable[int], cost: int) -> Answer:
        """Checks whether the steps that are these operators solve the task at this cost.

        No name is looked up. So a step is its operator, even if others have the same name.

        Args:
            operators: The numbers of the operators. If they are a writable array of 32-bit unsigned numbers, such as array("I") or an
                array of uint32 of numpy, they aren't copied.
            cost: The cost of the plan, of at most 64 bits.
        """
        at, count = given_numbers(operators)
        with self._one_call:
            return answer_of(_library.TASK_PLAN_OPERATORS, self._held, at, count, given_cost(cost))

    def run(self, operators: Iterable[int], cost: int, start: Optional[Iterable[int]] = None) -> Answer:
        """Checks whether the steps that are these operators solve the task at this cost, from a state on.

        Args:
            operators: The numbers of the operators, as in `plan_operators`.
            cost: The cost of the steps, of at most 64 bits.
            start: The state that they start in: a value for each variable, or None for the initial state. Values of derived variables are
                computed anew.

        Returns:
            Yes if they solve the task. If the start isn't a state of the task, it is refused.
        """
        return self._run(_library.TASK_RUN, operators, cost, start, LINE_ROOM)

    def run_trace(
        self, operators: Iterable[int], cost: int, start: Optional[Iterable[int]] = None, *, max_answer_bytes: Optional[int] = None
    ) -> Answer:
        """Checks steps as `run` does, and prints what each of them changes."""
        numbers = array.array("I", operators)
        room = USUAL_ROOM + self._initial_size + 100 * len(numbers)
        return self._run(_library.TASK_RUN_TRACE, numbers, cost, start, room, max_answer_bytes)

    def run_state(self, operators: Iterable[int], start: Optional[Iterable[int]] = None) -> State:
        """Returns the state that the steps lead to that are these operators."""
        run, _kept = given_run(operators, 0, start)
        with self._one_call:
            return state_of(_library.TASK_RUN_STATE, self._held, ctypes.byref(run), variables=self.variables)

    def _run(
        self, call: Callable[..., int], operators: Iterable[int], cost: int, start: Optional[Iterable[int]], room: int, most: Optional[int] = None
    ) -> Answer:
        """Returns the answer of a call about a run, whose room is so many bytes."""
        run, _kept = given_run(operators, cost, start)
        with self._one_call:
            return answer_of(call, self._held, ctypes.byref(run), room=room, max_answer_bytes=most)

    def plan_why(self, plan: Data, *, max_answer_bytes: Optional[int] = None) -> Answer:
        """Checks a plan as `plan` does, with the reasons for a no in further lines of the text: `sas plan --why`.

        The task isn't read again.
        """
        return self._answer(_library.TASK_PLAN_WHY, given(plan), USUAL_ROOM, max_answer_bytes)

    def trace(self, plan: Data, *, max_answer_bytes: Optional[int] = None) -> Answer:
        """Checks a plan as `plan` does, and prints what each of its steps changes: `sas trace`.

        The task isn't read again.
        """
        file = given(plan)
        answer = self._answer(_library.TASK_TRACE, file, _trace_room(self._initial_size, file[1]), max_answer_bytes)
        if not self._is_measured and answer.text.startswith(b"initial "):
            at = answer.text.find(b"\nstep ")
            self._initial_size, self._is_measured = len(answer.text) if at < 0 else at, True
        return answer

    def _answer(self, call: Callable[..., int], plan: Tuple[Any, int], room: int, max_answer_bytes: Optional[int] = None) -> Answer:
        """Returns the answer of a call about a plan, whose room is so many bytes."""
        with self._one_call:
            return answer_of(call, self._held, *plan, room=room, max_answer_bytes=max_answer_bytes)

    def close(self) -> None:
        """Frees the task. It may be closed more than once."""
        with self._one_call:
            self._free()

    def __repr__(self) -> str:
        of = f" of {os.fsdecode(self._path)!r}" if self._path is not None else ""
        counts = f"{self.variables} variables, {self.operators} operators, {self.goal_facts} goal facts"
        return f"<sas.Task{of}: {counts if self._held.is_there else 'closed'}>"

    def __enter__(self) -> Task:
        return self

    def __exit__(self, *_: object) -> None:
        self.close()

    def __reduce__(self) -> NoReturn:
        raise TypeError("a sas.Task can't be pickled or copied; give the bytes of the task, and read them again")


_TASKS: weakref.WeakSet[Task] = weakref.WeakSet()


def _after_fork() -> None:
    """Closes in a forked process each task of which another thread was inside a call. What these tasks hold isn't freed."""
    for task in list(_TASKS):
        if task._one_call.locked():
            task._free.detach()
            task._hold(_library.Held())


os.register_at_fork(after_in_child=_after_fork)
sys.excepthook = _hook
