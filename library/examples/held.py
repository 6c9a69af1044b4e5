"""held.py TASK PLAN..: whether each plan solves the task, which is read once, and why not. Prints the name of each plan and what
`sas plan --why` prints. The exit status is 0 if all are valid, 1 if one isn't or the task is refused, 3 if there is no answer."""
import os
import sys

import sas


def read_file(name):
    with open(name, "rb") as file:
        return file.read()


def main(task, *plans):
    out, status = sys.stdout.buffer, 0
    try:
        with sas.Task(read_file(task)) as held:
            for name in plans:
                answer = held.plan_why(read_file(name))
                out.write(os.fsencode(name) + b": " + answer.text)
                status = status if answer else 1
    except sas.Refused as refusal:
        out.write(refusal.text)
        return 1
    except (OSError, MemoryError, sas.InputTooLong) as fault:
        print(f"held: {fault}", file=sys.stderr)
        return 3
    return status


if len(sys.argv) < 3:
    sys.exit(__doc__)
sys.exit(main(*sys.argv[1:]))
