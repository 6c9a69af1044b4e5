"""python -m sas: what the library offers on the command line.

    python -m sas plan [--why] TASK PLAN      and plans, trace, mutex, show, check, print and steps: as the program sas
    python -m sas table TASK PLAN..           a table of many plans, as CSV or JSON lines: python -m sas table --help
    python -m sas table FOLDER..
    python -m sas report TASK PLAN..          a page that shows plans: python -m sas report --help

The exit status is 0 for yes, 1 for no, 2 for invalid arguments or this help, 3 if there is no answer.
"""
from __future__ import annotations

import sys

from . import __version__, _streams

# in place of a traceback and of status 1, which is a no
if __name__ == "__main__":
    sys.excepthook = _streams.end_without_answer

import importlib
import importlib.util
import os
from typing import Sequence

from ._program import REQUESTS, run
from ._streams import INVALID_ARGUMENTS, YES, write_error, write_out
from ._values import readable


def main(words: Sequence[str]) -> int:
    """Does what the words of the command line say, and returns the exit status."""
    command, rest = (words[0], words[1:]) if words else ("", words)
    if command in REQUESTS:
        return run(command, rest)
    if command == "table":
        return int(importlib.import_module("sas._table").main(rest))
    # the report isn't in a checkout, but in what is built of it
    if command == "report" and importlib.util.find_spec("sas.report"):
        return int(importlib.import_module("sas.report.command").main(list(rest), importlib.import_module("sas")))
    if command == "report":
        write_error("python -m sas report: it isn't installed")
        return INVALID_ARGUMENTS
    if words in (["--version"], ["-V"]):
        write_out(f"sas {__version__}\n".encode())
        return YES
    if words and words[0] not in ("--help", "-h"):
        write_error(f"python -m sas: there is no command {readable(os.fsencode(command))}; these are there:\n")
    write_error(str(__doc__).rstrip())
    return INVALID_ARGUMENTS


if __name__ == "__main__":
    try:
        sys.exit(main(sys.argv[1:]))
    except KeyboardInterrupt:
        sys.exit(130)
