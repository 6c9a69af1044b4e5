"""Work that several processes share."""
from __future__ import annotations

import contextlib
import multiprocessing
import os
import pickle
import selectors
import signal
from typing import Any, Callable, Dict, Generator, Generic, Iterable, Iterator, List, NoReturn, Optional, Tuple, TypeVar

from ._streams import FAULT, YES, said, write_error

W = TypeVar("W")
R = TypeVar("R")
# how many works may be begun for each process, counted from the one whose results are taken
_AHEAD = 4
# what a process sends behind the results of a work; no result is sent so
_END = b""


@contextlib.contextmanager
def uninterrupted() -> Iterator[None]:
    """Lets an interrupt wait until the end of the block."""
    before = signal.pthread_sigmask(signal.SIG_BLOCK, {signal.SIGINT})
    try:
        yield
    finally:
        signal.pthread_sigmask(signal.SIG_SETMASK, before)


class _Process:
    """A process that does one work after another. An interrupt doesn't reach it.

    Attributes:
        end: Where it is sent works, and sends results.
        work: The number of its work.
        count: How many results of this have come.
    """

    def __init__(self, do: Callable[[Any], Iterable[Any]], ends: Iterable[Any]) -> None:
        """Begins a process. These ends of others stay open in this one alone."""
        self.work, self.count = -1, 0
        self.end, other = multiprocessing.Pipe()
        kept = self.end, *ends
        with uninterrupted():
            self._number = _forked()
            if self._number == 0:
                _do_each(do, other, kept)
        other.close()

    def give(self, number: int, work: Any) -> None:
        """Sends it a work. Where it has ended, its end says so."""
        self.work, self.count = number, 0
        with contextlib.suppress(ConnectionError):
            self.end.send(work)

    def kill(self) -> None:
        """Ends it."""
        os.kill(self._number, signal.SIGKILL)
        self.ended()

    def ended(self) -> int:
        """Waits for its end. Returns its exit status, or the number of a signal with a sign in front."""
        self.end.close()
        status = os.waitpid(self._number, 0)[1]
        return -os.WTERMSIG(status) if os.WIFSIGNALED(status) else os.WEXITSTATUS(status)


def _forked() -> int:
    """Begins a process, and returns its number, or 0 in it. Unlike a Process of multiprocessing it has the same standard input."""
    try:
        return os.fork()
    except OSError as fault:
        raise OSError(fault.errno, f"cannot start a process: {fault.strerror}") from fault


def _do_each(do: Callable[[Any], Iterable[Any]], end: Any, others: Iterable[Any]) -> NoReturn:
    """Does each work that is sent, in a process of its own. It closes the ends of others."""
    status = FAULT
    try:
        _close(others)
        while True:
            _do_next(do, end)
    except (EOFError, ConnectionError):
        status = YES
    except Exception as fault:  # pylint: disable=broad-except
        write_error(f"sas: {said(fault)}")
    finally:
        os._exit(status)


def _close(ends: Iterable[Any]) -> None:
    for end in ends:
        end.close()


def _do_next(do: Callable[[Any], Iterable[Any]], end: Any) -> None:
    """Does the next work that is sent, and sends its results one by one, and then that this was all."""
    for result in do(end.recv()):
        # `send` pickles for several forms of processes, which takes as long as all else of a plan
        end.send_bytes(pickle.dumps(result, pickle.HIGHEST_PROTOCOL))
    end.send_bytes(_END)


class Team(Generic[W, R]):
    """Processes that do works.

    Attributes:
        works: The works. They are asked for one by one, and few before the results of earlier ones were taken.
        do: What is done with each, and gives its results one by one.
        lost: Says what becomes of a work whose process ended, by how many results have come, and by the exit status of the process, or the
            number of a signal with a sign in front: results in place of some that it lacks, and a work for the others, if there are any.
    """

    def __init__(
        self,
        works: Iterable[W],
        do: Callable[[W], Iterable[R]],
        lost: Callable[[W, int, int], Tuple[Iterable[R], Optional[W]]],
    ) -> None:
        self.works, self.do, self.lost = iter(works), do, lost
        # the number of the work whose results are taken, and that of the next one
        self._first = self._next = 0
        self._has_more = True
        self._again: List[Tuple[int, W]] = []
        self._come: Dict[int, List[R]] = {}
        self._begun: Dict[int, W] = {}
        self._busy = selectors.DefaultSelector()
        self._idle: List[_Process] = []

    def results(self, count: int) -> Generator[R, None, None]:
        """Yields the results of each work, in order, each as soon as it comes. So many processes work meanwhile."""
        # where this signal is ignored, nothing tells how a process ended
        signal.signal(signal.SIGCHLD, signal.SIG_DFL)
        try:
            self._begin(count)
            while self._first < self._next:
                yield from self._results_of(self._first, count)
                self._first += 1
                self._begin(count)
        finally:
            for process in self._processes():
                process.kill()
            self._busy.close()

    def _results_of(self, number: int, count: int) -> Iterator[R]:
        """Yields the results of a work as they come."""
        while number in self._begun:
            yield from self._come.pop(number, ())
            for key, _ in self._busy.select():
                self._collect(key.data)
                self._begin(count)
        yield from self._come.pop(number, ())

    def _processes(self) -> List[_Process]:
        """Returns all processes."""
        return [key.data for key in self._busy.get_map().values()] + self._idle

    def _begin(self, count: int) -> None:
        """Gives works to so many processes, if there are works. Where there are no more, the others are ended."""
        while len(self._busy.get_map()) < count and self._has_work(count):
            number, work = self._again.pop()
            self._begun[number] = work
            process = self._idle.pop() if self._idle else _Process(self.do, [it.end for it in self._processes()])
            self._busy.register(process.end, selectors.EVENT_READ, process)
            process.give(number, work)
        while self._idle and not self._has_more:
            self._idle.pop().kill()

    def _has_work(self, count: int) -> bool:
        """Whether there is a work that may be begun. It is noted then."""
        if not self._again and self._has_more and self._next - self._first < _AHEAD * count:
            for work in self.works:
                self._again.append((self._next, work))
                self._next += 1
                return True
            self._has_more = False
        return bool(self._again)

    def _collect(self, process: _Process) -> None:
        """Takes a result of a process. One that has done its work is idle. One that has ended leaves what it lacks to another."""
        come = self._come.setdefault(process.work, [])
        try:
            message = process.end.recv_bytes()
        except (EOFError, OSError):
            self._busy.unregister(process.end)
            results, left = self.lost(self._begun.pop(process.work), process.count, process.ended())
            come.extend(results)
            if left is not None:
                self._begun[process.work] = left
                self._again.append((process.work, left))
            return
        if message != _END:
            come.append(pickle.loads(message))
            process.count += 1
            return
        self._busy.unregister(process.end)
        del self._begun[process.work]
        self._idle.append(process)
