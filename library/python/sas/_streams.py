"""The standard streams of `python -m sas`, and how it ends without an answer."""
from __future__ import annotations

import contextlib
import os
import sys
import types
from typing import Optional, Type

YES, NO, INVALID_ARGUMENTS, FAULT = range(4)


class Stopped(Exception):
    """A run without an answer: its exit status, the line for standard error, and the file that this is about, if any."""

    def __init__(self, status: int, line: str, about: Optional[str] = None) -> None:
        super().__init__(line)
        self.status, self.line, self.about = status, line, about


def write_all(file: int, text: bytes) -> None:
    """Writes a text to an open file. Raises OSError if not all of it can be written."""
    left = memoryview(text)
    while left:
        left = left[os.write(file, left) :]


def write_out(text: bytes) -> None:
    """Writes a text on standard output."""
    try:
        if text and sys.stdout is None:
            raise OSError("standard output was closed at the start")
        write_all(1, text)
    except OSError:
        raise Stopped(FAULT, "sas: write failed") from None


def write_error(line: str) -> None:
    """Writes a line on standard error, if that is possible."""
    if sys.stderr is not None:
        with contextlib.suppress(OSError):
            os.write(2, os.fsencode(f"{line}\n"))


def replace_closed() -> None:
    """Opens /dev/null for each standard stream that was closed at the start. A file would take its place, and be read or written as it."""
    try:
        file = 0
        while file <= 2:
            file = os.open(os.devnull, os.O_RDWR)
        os.close(file)
    except OSError:
        raise Stopped(FAULT, f"sas: cannot open {os.devnull}") from None


def said(fault: BaseException) -> str:
    """Returns in one line what an exception says."""
    if isinstance(fault, MemoryError):
        return "out of memory"
    words = (fault.strerror if isinstance(fault, OSError) else "") or str(fault) or type(fault).__name__
    return " ".join(words.replace("sas: ", "", 1).split())


def end_without_answer(kind: Type[BaseException], fault: BaseException, trace: Optional[types.TracebackType]) -> None:
    """Ends the process where nothing catches an exception, as sys.excepthook. Python's own would end it with status 1, which is a no."""
    if not isinstance(fault, Exception):
        sys.__excepthook__(kind, fault, trace)
        return
    write_error(f"sas: {said(fault)}")
    sys.exit(FAULT)


def end_import(kind: Type[BaseException], fault: BaseException, trace: Optional[types.TracebackType]) -> None:
    """Does so where `python -m` can't import this package. Any other exception has the traceback that it always has."""
    left = trace
    while left and str(left.tb_frame.f_globals.get("__name__")).startswith(("runpy", "importlib.", "_frozen_importlib")):
        left = left.tb_next
    is_own = left and left.tb_frame.f_globals.get("__name__") == __package__
    (end_without_answer if is_own else sys.__excepthook__)(kind, fault, trace)
