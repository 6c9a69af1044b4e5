"""monitor.py TASK PLAN: watches a machine that carries out a plan. Before each step, and after the last, it reads a line from standard
input with the values that were sensed, as VARIABLE=VALUE; all others are as expected. It prints whether the rest of the plan is valid
from there, and if it isn't, which step will fail and why. Then the machine should stop: the exit status is 1. It is 0 if nothing is
wrong, 3 if there is no answer."""
import sys

import sas


def sense(line, state):
    """Notes what was sensed in a state."""
    for pair in line.split():
        variable, value = pair.split("=")
        state[int(variable)] = int(value)


def told(answer, steps, place):
    """Returns which of the steps will fail, of which the first ones were made, and why."""
    if answer.failing_step is None:
        return answer.reason
    number = place + answer.failing_step
    name, reason = steps[number - 1].name.decode(errors="backslashreplace"), answer.reason.partition(": ")[2]
    return f"step {number} will fail, {name}: {reason}"


def watch(task, plan):
    """Watches a plan of a task, and returns the exit status."""
    trace = task.trace(plan)
    if not trace:
        print(trace)
        return 1
    steps, state = list(trace.trace_steps), task.run_state([]).values
    for place, line in zip(range(len(steps) + 1), sys.stdin):
        sense(line, state)
        rest, cost = [step.operator for step in steps[place:]], sum(step.cost for step in steps[place:])
        answer = task.run(rest, cost, state)
        print(f"{len(rest)} steps to go: {'valid' if answer else told(answer, steps, place)}", flush=True)
        if not answer:
            return 1
        state = task.run_state(rest[:1], state).values
    return 0


def main(task, plan):
    try:
        with sas.Task.from_file(task) as held, open(plan, "rb") as file:
            return watch(held, file.read())
    except sas.Refused as refusal:
        print(refusal.answer)
        return 1
    except (OSError, MemoryError, sas.InputTooLong, ValueError, IndexError) as fault:
        print(f"monitor: {fault}", file=sys.stderr)
        return 3


if len(sys.argv) != 3:
    sys.exit(__doc__)
sys.exit(main(*sys.argv[1:]))
