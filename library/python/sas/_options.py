"""The words of `python -m sas table`."""
from __future__ import annotations

import argparse
import os
import re
from typing import Any, NoReturn, Sequence

from ._files import LIMIT
from ._streams import INVALID_ARGUMENTS, Stopped, write_out

USAGE = """\
python -m sas table [OPTION..] TASK PLAN..
       python -m sas table [OPTION..] [--task FILE | --tasks FOLDER] PLAN|FOLDER..
       python -m sas table [OPTION..] [--task FILE | --tasks FOLDER] --plans PATTERN
       python -m sas table [OPTION..] --list FILE"""
ABOUT = """\
Judges many plans, and prints a row for each, as soon as it is judged: as CSV, or as JSON lines. What can't be read or
is passed over has a row, too. Files of gzip, bzip2, xz and, if there is a program zstd, of zstd are decompressed.
"""
MORE = """\
PLANS. In each folder below FOLDER, the plans are the files whose names begin with sas_plan, or are of the PATTERN of
--plans. Without words, the PATTERN of --plans is one of paths, such as 'runs/{planner}/{domain}/{problem}'. A folder of
this path has the plans in it that begin with sas_plan. In a PATTERN, *, ? and [..] match as in a shell, also a dot in
front, and never a slash. A part {NAME} matches as little as it can, and its text is in the column NAME. Folders that
are links aren't followed. The FILE of --list is CSV, of a task and a plan each, or of the columns that its first row
names: task, plan and others, which the table gets, too.

TASKS. With --tasks, a task is called as its path below that FOLDER, without .sas: gripper/p01.sas and
gripper/p01/output.sas are both gripper/p01. The task of a plan is the one whose name is the longest end of the path of
the plan's folder, or of DOMAIN/PROBLEM, if PATTERN names {problem} and maybe {domain}. Without --task and --tasks, the
task is the output.sas beside the plans, which a planner may have written, or else the only file *.sas there.

ROWS. The columns are task, plan, those of a PATTERN or a list, verdict, refused_file, steps, cost, sum (what the steps
of a plan cost if only its cost line is wrong), bytes and modified (of the file of the plan; the time is UTC), reason
and, with --why, reasons. The verdict is valid, invalid, refused, "no answer" where a file can't be read, has no task or
no plan, or a task changed meanwhile, or "passed over" where nothing says that there is a plan.

SCORES. --best prints for each task: plans, valid, best_cost and best_plan. --summary prints for each planner and domain
that a PATTERN or a list names, and with an empty domain for all of a planner: tasks, coverage, score and, with --times,
agile. Problems are told apart by domain and problem if these are named, else by the task. score is the sum of the best
known cost over the cost of the planner's best plan; the best known cost is the lowest in the table and in the FILE of
--reference. agile is the sum of 1 - log(t) / log(300), where t is the time of a run with a valid plan in seconds, from
1 to 300. Both FILEs are CSV: cost, or seconds, and columns of the table that say what it is about.

The exit status is 0 if all plans are valid, 1 if one isn't, 2 for invalid arguments, 3 if a row has no answer or no
plan was found, and 130 if the run was interrupted. A summary goes to standard error.
"""


class _Parser(argparse.ArgumentParser):
    """Writes its help and its errors as all else is written."""

    def print_help(self, file: Any = None) -> None:
        write_out(self.format_help().encode())

    def error(self, message: str) -> NoReturn:
        raise Stopped(INVALID_ARGUMENTS, f"{self.format_usage()}{self.prog}: error: {message}")


def parsed(words: Sequence[str]) -> argparse.Namespace:
    """Returns what the words request, and as `given_task` the task that they name. Raises Stopped if they aren't understood."""
    parser = _parser()
    arguments = parser.parse_args(words)
    wrong = _wrong(arguments)
    if wrong:
        parser.error(wrong)
    is_of_words = arguments.tasks is None and arguments.files and not os.path.isdir(arguments.files[0])
    arguments.given_task = arguments.task if arguments.task is not None else arguments.files[0] if is_of_words else None
    return arguments


def _parser() -> _Parser:
    form = argparse.RawDescriptionHelpFormatter
    parser = _Parser("python -m sas table", usage=USAGE, description=ABOUT, epilog=MORE, formatter_class=form, allow_abbrev=False)
    parser.add_argument("--task", metavar="FILE", help="the task of all plans")
    parser.add_argument("--tasks", metavar="FOLDER", help="the tasks, which are found by the names of folders or problems")
    parser.add_argument("--plans", metavar="PATTERN", help="which files are plans")
    parser.add_argument("--list", metavar="FILE", help="pairs of a task and a plan; - is standard input")
    parser.add_argument("-o", "--output", metavar="FILE", help="write the rows to FILE")
    parser.add_argument("--resume", action="store_true", help="go on behind the last row that FILE has")
    parser.add_argument("--why", action="store_true", help="add the reasons for a no")
    parser.add_argument("--json", action="store_true", help="print JSON lines, and not CSV")
    parser.add_argument("--best", action="store_true", help="print a row for each task, after all are judged")
    parser.add_argument("--summary", action="store_true", help="print a row for each planner and domain, after all are judged")
    parser.add_argument("--reference", metavar="FILE", help="costs that are known of tasks")
    parser.add_argument("--times", metavar="FILE", help="the seconds that runs took")
    parser.add_argument("--jobs", type=_count, default=1, metavar="N", help="how many processes judge plans; each holds a task in memory")
    most = f"how many bytes a file may have, decompressed ({LIMIT})"
    parser.add_argument("--max-bytes", type=_size, default=LIMIT, metavar="N", help=most)
    parser.add_argument("files", nargs="*", metavar="TASK PLAN.. | FOLDER", help="a task and its plans, or folders")
    return parser


def _wrong(given: argparse.Namespace) -> str:
    """Returns what is wrong with words that were parsed, or nothing."""
    has_tasks = given.task is not None or given.tasks is not None
    folders = [os.path.isdir(file) for file in given.files]
    for is_wrong, why in (
        (given.task is not None and given.tasks is not None, "give --task or --tasks, not both"),
        (given.list is not None and (has_tasks or given.files or given.plans is not None), "with --list, give no words, tasks or --plans"),
        (given.list is None and given.plans is None and not given.files, "give a task and its plans, folders, --plans or --list"),
        (given.plans is not None and "/" in given.plans and given.files, "with folders, the PATTERN of --plans is one of names"),
        (given.plans == "", "the PATTERN of --plans is empty"),
        (given.tasks is not None and not os.path.isdir(given.tasks), f"{given.tasks} isn't a folder"),
        (not has_tasks and any(folders) and not all(folders), "give a task and its plans, or folders that have a task and plans"),
        (not has_tasks and len(folders) == 1 and not all(folders), "give a task and its plans, or folders that have a task and plans"),
        (given.plans is not None and given.files and not all(folders), "--plans stands without words, or with folders"),
        (given.resume and given.output is None, "--resume needs -o FILE"),
        (given.best and given.summary, "give --best or --summary, not both"),
        ((given.reference or given.times) is not None and not given.summary, "--reference and --times need --summary"),
    ):
        if is_wrong:
            return why
    return ""


def _count(word: str) -> int:
    """Returns a number of processes."""
    if not re.fullmatch("[1-9][0-9]{0,3}", word):
        raise argparse.ArgumentTypeError("N is 1 or more")
    return int(word)


def _size(word: str) -> int:
    """Returns a number of bytes."""
    if not re.fullmatch("[0-9]{1,18}", word):
        raise argparse.ArgumentTypeError("N is a number of bytes")
    return int(word)
