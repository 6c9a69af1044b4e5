"""Runs one command and reports how long it took, the most memory that it had, and how it ended.

    python3 -I -S launch.py DESCRIPTOR COMMAND WORD..

writes to the descriptor the wall time in seconds, the peak memory in units of 1,024 bytes, and the exit status, or a
number below 0 for the signal that ended it. This is a process of its own, and as small as can be, because the system
counts as a command's peak what the process had that it was forked from: no command is reported to take less than this one,
which is some MB.
"""
import os
import sys
import time


def run(command, report):
    """Becomes the command, in the forked child."""
    os.close(report)
    try:
        os.execvp(command[0], command)
    except OSError as error:
        os.write(2, ("%s: %s\n" % (command[0], error.strerror)).encode())
    os._exit(127)


def main():
    report, command = int(sys.argv[1]), sys.argv[2:]
    began = time.perf_counter()
    child = os.fork()
    if child == 0:
        run(command, report)
    _, status, usage = os.wait4(child, 0)
    wall = time.perf_counter() - began
    os.write(report, b"%.6f %d %d" % (wall, usage.ru_maxrss, os.waitstatus_to_exitcode(status)))


main()
