"""How a script of tests runs. Its tests are a function that yields pairs (NAME, FAULTS), where no fault means that it passed. `main` gives
it the words of the command line, prints a line for each test that failed, as soon as that is known, and last 'N passed, M failed'.
"""
import argparse
import functools
import inspect
import os
import shlex
import shutil
import signal
import subprocess
import sys
import tempfile
from collections import deque, namedtuple
from concurrent.futures import ThreadPoolExecutor

from texts import CASES, TOP

# after so many tests a run says how far it is
BETWEEN = 5000
# how long a command may take, in seconds, and how much of a value is shown
SECONDS, SHOWN = 600, 500
# what a `make` that runs a script hands on
OF_MAKE = ("MAKEFLAGS", "MFLAGS", "MAKELEVEL")

Ended = namedtuple("Ended", "returncode stdout stderr")


def main(tests):
    """Runs the tests of a script, and ends with status 0 where none failed. The words of the command line are what the function takes: a
    path for each parameter, any words for the rest, and a flag for each parameter that is named.
    `place` is an empty folder, which is removed in the end."""
    about = sys.modules[tests.__module__].__doc__
    parser = argparse.ArgumentParser(description=about, formatter_class=argparse.RawDescriptionHelpFormatter)
    parameters = inspect.signature(tests).parameters
    for name, it in parameters.items():
        if name == "place":
            continue
        if it.kind == it.KEYWORD_ONLY:
            parser.add_argument(f"--{name}", metavar=name.upper())
        elif it.kind == it.VAR_POSITIONAL:
            parser.add_argument(name, nargs="*")
        else:
            optional = {} if it.default is it.empty else {"nargs": "?", "default": it.default}
            parser.add_argument(name, type=os.path.abspath, **optional)
    # a shell that begins this in the background has these ignored, and so would have what it runs
    signal.signal(signal.SIGINT, signal.default_int_handler)
    signal.signal(signal.SIGHUP, signal.SIG_DFL)
    given, words = inspect.signature(tests).bind_partial(), vars(parser.parse_args())
    # a browser that ends may still write into it
    with tempfile.TemporaryDirectory(ignore_cleanup_errors=True) as place:
        given.arguments.update({"place": place, **words} if "place" in parameters else words)
        end(tests(*given.args, **given.kwargs))


def end(tests):
    """Prints of each test what is wrong with it, where anything is, as soon as that is known, and ends with status 0 where nothing is."""
    done = failed = 0
    for done, (name, found) in enumerate(tests, 1):
        failed += bool(found)
        if found:
            print(f"FAILED {name}: {'; '.join(found)}", flush=True)
        if done % BETWEEN == 0:
            print(f"{done} cases so far, {failed} failed", flush=True)
    print(f"{done - failed} passed, {failed} failed")
    sys.exit(1 if failed else 0)


def chosen(cases, words):
    """Yields the cases whose names contain one of these words; all, where there is no word."""
    found = False
    for case in cases:
        if not words or any(word in case["name"] for word in words):
            found = True
            yield case
    if words and not found:
        sys.exit(f"there is no case whose name contains {' or '.join(words)}")


def side_by_side(judge, cases):
    """Yields each case with what comes of it, in order. As many are judged at once as there are processors, each as soon as it is made."""
    waiting = deque()
    with ThreadPoolExecutor(os.cpu_count()) as pool:
        for case in cases:
            waiting.append((case, pool.submit(judge, case)))
            while waiting and waiting[0][1].done():
                done, found = waiting.popleft()
                yield done, found.result()
        while waiting:
            done, found = waiting.popleft()
            yield done, found.result()


def named(make, *given):
    """Yields the tests that a function makes, each with the function's name before its own."""
    yield from ((f"{make.__name__}: {name}", found) for name, found in make(*given))


def differs(got, expected, what=None):
    """Returns what is wrong where two values differ."""
    if got == expected:
        return []
    return [f"{what}: {got!r:.{SHOWN}}, not {expected!r:.{SHOWN}}" if what else f"{got!r:.{SHOWN}}, not {expected!r:.{SHOWN}}"]


def ended(*command, **more):
    """Returns how a command ended: its status, standard output and standard error. Where it isn't there it has no status."""
    env = {name: value for name, value in os.environ.items() if name not in OF_MAKE}
    more = {"cwd": TOP, "env": env, "timeout": SECONDS, "stdout": subprocess.PIPE, "stderr": subprocess.PIPE} | more
    if "input" not in more:
        more.setdefault("stdin", subprocess.DEVNULL)
    try:
        ran = subprocess.run(command, check=False, **more)
    except OSError as fault:
        return Ended(None, b"", str(fault).encode())
    return Ended(ran.returncode, ran.stdout, ran.stderr)


def printed(*command, **more):
    """Returns how a command ended: its status, and all that it printed, as it came."""
    status, out, errors = ended(*command, **{"stderr": subprocess.STDOUT} | more)
    return status, (out + (errors or b"")).decode(errors="replace")


@functools.lru_cache(None)
def is_there(tool):
    """Whether a tool is there. If it isn't, that is printed once."""
    found = bool(shutil.which(tool))
    if not found:
        print(f"without {tool}", flush=True)
    return found


def c_compiler():
    """Returns the words of the C compiler."""
    return shlex.split(os.environ.get("CC") or "cc")


def built_library(source, folder):
    """Builds a library of a file of cases/ in C, which is loaded before a command. Returns its path."""
    path = os.path.join(folder, f"{source}.so")
    subprocess.run([*c_compiler(), "-O1", "-shared", "-fPIC", "-o", path, os.path.join(CASES, source)], check=True)
    return path
