"""The requests of the program `sas`, with its texts and exit statuses. A file is read as a whole before it is judged, and a compressed one is
decompressed."""
from __future__ import annotations

import contextlib
import os
import sys
from io import FileIO
from typing import Callable, Dict, Iterator, List, Optional, Sequence, Tuple

from . import Answer, InputTooLong, Refused, Task, check, check_why, mutex, mutex_why, plan_why, print_task, show, steps
from ._files import NotDecompressed, content_of
from ._streams import FAULT, INVALID_ARGUMENTS, NO, YES, Stopped, replace_closed, said, write_error, write_out

_OVER_ONE: Dict[str, Callable[[bytearray], Answer]] = {
    "mutex": mutex,
    "show": show,
    "check": check,
    "print": print_task,
    "steps": steps,
}
_WHY_OVER_ONE: Dict[str, Callable[[bytearray], Answer]] = {"mutex": mutex_why, "check": check_why}
_OVER_BOTH = ("plan", "trace")
_USAGE = {"plan": "[--why] TASK PLAN", "plans": "[--why] TASK PLAN..", "trace": "[--why] TASK PLAN", "steps": "[--why] PLAN"}
_USAGE.update({request: "[--why] TASK" for request in ("mutex", "show", "check", "print")})
REQUESTS = tuple(_USAGE)
# a task for which a plan that is refused has its reasons
_SMALLEST = b"""\
begin_version\n3\nend_version\nbegin_metric\n0\nend_metric\n1\nbegin_variable\nv\n-1\n1\nv\nend_variable
0\nbegin_state\n0\nend_state\nbegin_goal\n0\nend_goal\n0\n0
"""


class _Input:
    """A file that a request reads; `-` is standard input."""

    def __init__(self, what: str, name: str) -> None:
        self.name, self._file = name, 0
        try:
            if name != "-":
                self._file = os.open(name, os.O_RDONLY | os.O_CLOEXEC)
        except OSError:
            raise Stopped(FAULT, f"sas: cannot open the {what}", name) from None

    @contextlib.contextmanager
    def judged(self) -> Iterator[bytearray]:
        """Gives what the file holds to those who judge it."""
        try:
            if not self._file and sys.stdin is None:
                raise OSError("standard input was closed at the start")
            file = FileIO(self._file, closefd=False)
            yield content_of(file, os.fstat(self._file), self.name)
        except NotDecompressed as fault:
            raise Stopped(FAULT, f"sas: {said(fault)}", self.name) from None
        except OSError:
            raise Stopped(FAULT, "sas: read failed", self.name) from None
        except InputTooLong:
            raise Stopped(FAULT, "sas: input too long", self.name) from None
        finally:
            if self._file:
                os.close(self._file)


def run(request: str, words: Sequence[str]) -> int:
    """Answers a request with these words, and returns the exit status."""
    why = False
    try:
        files, why = _files_of(request, words)
        replace_closed()
        answer = _plans(why, *files) if request == "plans" else _answer(request, files, why)
        write_out(answer.text)
        return YES if answer else NO
    except Stopped as stop:
        write_error(f"{stop.line}\n  {_shown(stop.about)}" if why and stop.about is not None else stop.line)
        return stop.status
    except MemoryError:
        write_error("sas: out of memory")
        return FAULT


def _files_of(request: str, words: Sequence[str]) -> Tuple[List[str], bool]:
    """Returns the files that words name, and whether --why is one of them."""
    if any(0xDC80 <= ord(letter) <= 0xDCFF for word in words for letter in word):
        raise Stopped(INVALID_ARGUMENTS, "sas: an argument isn't valid UTF-8")
    front = words.index("--") if "--" in words else len(words)
    flags = [word for word in words[:front] if word.startswith("-") and word != "-"]
    files = [word for word in words[:front] if word not in flags] + list(words[front + 1 :])
    usage, flag = _USAGE[request], ["--why"] if "--why" in _USAGE[request] else []
    count = len(usage.replace("[--why] ", "").split())
    if flags not in ([], flag) or not (len(files) == count or (len(files) > count and usage.endswith(".."))):
        raise Stopped(INVALID_ARGUMENTS, f"usage: python -m sas {request} {usage}")
    if request == "plans" and any("\n" in label or "\r" in label for label in files[1:]):
        raise Stopped(INVALID_ARGUMENTS, "sas: a plan's name has a line end")
    if files.count("-") > 1:
        raise Stopped(INVALID_ARGUMENTS, "sas: standard input used twice")
    return files, bool(flags)


def _answer(request: str, files: Sequence[str], why: bool) -> Answer:
    """Answers a request about a task, a plan or both."""
    if request in _OVER_BOTH:
        return _answer_over_both(request, _Input("task", files[0]), _Input("plan", files[1]), why)
    with _Input("plan" if request == "steps" else "task", files[0]).judged() as file:
        if why and request in _WHY_OVER_ONE:
            return _WHY_OVER_ONE[request](file)
        answer = _OVER_ONE[request](file)
        if answer or not why:
            return answer
        return plan_why(_SMALLEST, file) if request == "steps" else check_why(file)


def _answer_over_both(request: str, task: _Input, plan: _Input, why: bool) -> Answer:
    """Answers a request about a plan of a task. If the task is refused, the plan isn't read."""
    with task.judged() as file:
        try:
            held = Task._uncounted(file)
        except Refused as refusal:
            return check_why(file) if why else refusal.answer
    with held, plan.judged() as file:
        if request == "plan":
            return held.plan_why(file) if why else held.plan(file)
        return _with_reasons(held.trace(file), held.plan_why(file)) if why else held.trace(file)


def _with_reasons(trace: Answer, plan: Answer) -> Answer:
    """Returns a trace with the reasons behind its verdict, which is the first line of the answer about the plan."""
    verdict, _, reasons = plan.text.partition(b"\n")
    assert trace.text.endswith(verdict + b"\n")
    return Answer(bool(trace), trace.text + reasons)


def _plans(why: bool, task: str, *labels: str) -> Answer:
    """Answers about many plans of a task, as `sas plans`."""
    with _Input("task", task).judged() as file:
        try:
            held = Task._uncounted(file)
        except Refused as refusal:
            return check_why(file) if why else refusal.answer
    lines, valid = [], []
    for label in labels:
        try:
            with _Input("plan", label).judged() as file:
                answer = held.plan_why(file) if why else held.plan(file)
        except Stopped as stop:
            raise Stopped(stop.status, f"{stop.line}: {label}") from None
        lines.append(os.fsencode(label) + b": " + answer.text)
        if answer:
            valid.append((answer.cost or 0, label))
    best = ", best cost %d: %s" % min(valid, key=lambda it: it[0]) if valid else ""
    lines.append(os.fsencode(f"{len(labels)} plans, {len(valid)} valid{best}\n"))
    return Answer(len(valid) == len(labels), b"".join(lines))


def _shown(name: str) -> str:
    """Returns a name as reasons show it: its first 256 bytes, those that aren't printable ASCII or are a backslash in digits."""
    held = os.fsencode(name)
    shown = "".join(chr(it) if 32 <= it < 127 and it != 92 else f"\\x{it:02x}" for it in held[:256])
    if held[256:]:
        shown += " .."
    elif shown.endswith(" "):
        shown = shown[:-1] + "\\x20"
    return shown
