"""Traces: what `trace` prints of a task and a plan, computed from the meaning of a task. A task here is as in
tasks.py.

Of a layered task and a plan file that is well formed these lines stand in front of the one that `plan` prints:

    initial VARIABLE VALUE NAME     each variable, in order, with its value in the initial state, which is settled
    step I OPERATOR COST NAME       each step that goes through, counted from 1: which operator it means, what that costs, and the
                                    operator's name
    change VARIABLE OLD NEW NAME    after it each variable, in order, that has another value than before, derived ones too

VALUE, OLD and NEW are numbers, and NAME is the name of the value VALUE or NEW. Of other files that last line is all. The exit
status is that of `plan`.
"""
from oracles.reasons import run_of
from oracles.steps import cost_of, holds, verdict
from oracles.tasks import value_name


def initial_lines(run):
    return [f"initial {var} {value} {value_name(run.task, var, value)}" for var, value in enumerate(run.states[0])]


def step_lines(run, step):
    """Returns the line of a step of a run, and of each variable that it changed."""
    operator = run.operators[step - 1]
    name = run.task["operators"][operator][0]
    values = enumerate(zip(run.states[step - 1], run.states[step]))
    changes = [(var, old, new) for var, (old, new) in values if old != new]
    lines = [f"change {var} {old} {new} {value_name(run.task, var, new)}" for var, old, new in changes]
    return [f"step {step} {operator} {cost_of(run.task, operator)} {name}", *lines]


def lines_of(run):
    steps = range(1, len(run.states))
    return initial_lines(run) + [line for step in steps for line in step_lines(run, step)]


def folded(lines):
    """Returns the states that such lines describe, where each change is made to the values that there are, and of each step its
    operator, its cost and its name."""
    states, steps = [[]], []
    for line in lines:
        word, rest = line.split(" ", 1)
        if word == "initial":
            var, value, _ = rest.split(" ", 2)
            states[0].append(int(value))
            assert len(states[0]) == int(var) + 1 and not steps
        elif word == "step":
            step, operator, cost, name = rest.split(" ", 3)
            assert int(step) == len(states)
            states.append(list(states[-1]))
            steps.append((int(operator), int(cost), name))
        else:
            var, old, new, _ = rest.split(" ", 3)
            assert word == "change" and states[-1][int(var)] == int(old) != int(new)
            states[-1][int(var)] = int(new)
    return states, steps


def assert_tells(run, cost, lines):
    """Compares a trace with what it is for: its changes lead through the states of the run; its operators are those of the
    run, by the names of the plan's steps; in the last state the goal holds exactly if that is what the verdict says; and what
    it says of the cost is the sum of those that are printed. So a trace is right here only if it agrees with states that
    steps.py computed, and the program's is the same to the byte."""
    *front, last = lines
    states, steps = folded(front)
    assert states == run.states and [operator for operator, _, _ in steps] == run.operators
    assert [name for _, _, name in steps] == run.names[: len(steps)]
    goal_holds = len(steps) == len(run.names) and holds(states[-1], run.task["goal"])
    assert goal_holds == last.startswith(("plan valid: ", "plan invalid: cost is "))
    total = sum(cost for _, cost, _ in steps)
    if goal_holds:
        words = f"valid: {len(steps)} steps, cost {cost}" if total == cost else f"invalid: cost is {total}, not {cost}"
        assert last == f"plan {words}"


def traced(task, names, cost):
    """Returns what is printed of a layered task and a plan."""
    run = run_of(task, names)
    lines = [*lines_of(run), verdict(task, names, cost)[0]]
    assert_tells(run, cost, lines)
    return lines
