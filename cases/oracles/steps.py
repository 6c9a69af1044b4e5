"""What operators do and plans are worth, computed from the meaning of a task: a task here is as in tasks.py.

The initial state is that of the state section, settled. An operator is applicable where its prevail conditions hold, and
each of its effects that requires an old value finds it, whether it fires or not. A step means the first operator of its
name that is applicable. Each effect fires whose conditions hold before the step. Where two that fire set one variable to
different values there is no step; else all take place at once, and the rules settle the state.

The goal has to hold after the last step of a plan, and its cost has to be the sum of its operators' costs: of their cost
lines under metric 1, of 1 for each under metric 0.
"""
from oracles.axioms import settled


def holds(state, facts):
    return all(state[var] == value for var, value in facts)


def preconditions(operator):
    """Returns the facts that have to hold for the operator: its prevail conditions, then the old values of its effects."""
    _, prevail, effects, _ = operator
    return [*prevail, *((var, old) for _, var, old, _ in effects if old != -1)]


def meant(task, state, name):
    """Returns the place of the first applicable operator of this name, or a word for why there is none."""
    named = [place for place, operator in enumerate(task["operators"]) if operator[0] == name]
    if not named:
        return "Unknown"
    return next((place for place in named if holds(state, preconditions(task["operators"][place]))), "Blocked")


def conflict(state, operator):
    """Returns the first effect that fires and sets a variable to another value than one before it that fires; None where
    none does."""
    given = {}
    for place, (facts, var, _, new) in enumerate(operator[2]):
        if holds(state, facts) and given.setdefault(var, new) != new:
            return place
    return None


def changed(state, operator):
    """Returns the state after a step of an applicable operator without a conflict, before it is settled."""
    values = list(state)
    for facts, var, _, new in operator[2]:
        if holds(state, facts):
            values[var] = new
    return values


def next_state(task, state, operator):
    """Returns the state after a step of an applicable operator without a conflict."""
    return settled(task, changed(state, operator))


def initial(task):
    return settled(task, task["defaults"])


def cost_of(task, operator):
    return task["operators"][operator][3] if task["metric"] else 1


def verdict(task, names, cost):
    """Returns what the program prints of a plan, and what the call `check_plan` answers."""
    state, chosen = initial(task), []
    for step, name in enumerate(names, 1):
        operator = meant(task, state, name)
        if operator == "Unknown":
            return f"plan invalid: step {step}: no operator of that name", f"NoOperator {{ step: {step} }}"
        if operator == "Blocked":
            return f"plan invalid: step {step}: not applicable", f"NotApplicable {{ step: {step} }}"
        if conflict(state, task["operators"][operator]) is not None:
            fault = f"Conflict {{ step: {step}, operator: {operator} }}"
            return f"plan invalid: step {step}: conflicting effects", fault
        state = next_state(task, state, task["operators"][operator])
        chosen.append(operator)
    for place, fact in enumerate(task["goal"]):
        if not holds(state, [fact]):
            return f"plan invalid: goal fact {place} not reached", f"GoalMissed {{ index: {place} }}"
    total = sum(cost_of(task, operator) for operator in chosen)
    if total != cost:
        return f"plan invalid: cost is {total}, not {cost}", f"CostDiffers {{ sum: {total} }}"
    operators = " ".join(["operators", *map(str, chosen)])
    return f"plan valid: {len(names)} steps, cost {cost}", f"{operators}\ncost {cost}"


def start_fault(task, start):
    """Returns why the values that are given for a start aren't those of a state; None where they are, or where none are given."""
    if start and len(start) != len(task["ranges"]):
        return f"state refused: {len(start)} values, not {len(task['ranges'])}"
    wrong = [var for var, value in enumerate(start) if value >= task["ranges"][var]]
    return f"state refused: variable {wrong[0]}" if wrong else None


def run_by_numbers(task, start, numbers):
    """Returns the states through which operators lead by their numbers, from a state or, with no values, from the initial one, up to the
    first that fails; and what is said of that one, None where none does."""
    states = [settled(task, start or task["defaults"])]
    for number in numbers:
        if number >= len(task["operators"]):
            return states, "no operator of that number"
        operator = task["operators"][number]
        if not holds(states[-1], preconditions(operator)):
            return states, "not applicable"
        if conflict(states[-1], operator) is not None:
            return states, "conflicting effects"
        states.append(next_state(task, states[-1], operator))
    return states, None


def run_verdict(task, start, numbers, cost):
    """Returns the line about operators, by their numbers, from a start at a cost."""
    if start_fault(task, start):
        return start_fault(task, start)
    states, fault = run_by_numbers(task, start, numbers)
    if fault:
        return f"plan invalid: step {len(states)}: {fault}"
    missed = [place for place, fact in enumerate(task["goal"]) if not holds(states[-1], [fact])]
    if missed:
        return f"plan invalid: goal fact {missed[0]} not reached"
    total = sum(cost_of(task, number) for number in numbers)
    return f"plan valid: {len(numbers)} steps, cost {cost}" if total == cost else f"plan invalid: cost is {total}, not {cost}"


def step_answer(task, state, operator):
    """Returns what comes of the step of an operator in a state, and the state after it."""
    for var, value in preconditions(operator):
        if state[var] != value:
            return f"Err(NotApplicable {{ fact: Fact {{ var: {var}, value: {value} }} }})", state
    effect = conflict(state, operator)
    if effect is not None:
        return f"Err(Conflict {{ effect: {effect} }})", state
    return "Ok(())", next_state(task, state, operator)


def call_answer(task, state, call, word):
    """Returns what a call of a runner answers in a state, and the state after it."""
    if call == "applicable":
        return str(holds(state, preconditions(task["operators"][word]))).lower(), state
    if call == "choose":
        operator = meant(task, state, word)
        return operator if isinstance(operator, str) else f"Found({operator})", state
    if call == "goal":
        missed = [place for place, fact in enumerate(task["goal"]) if not holds(state, [fact])]
        return f"Some({missed[0]})" if missed else "None", state
    return step_answer(task, state, task["operators"][word])


def state_line(state):
    return " ".join(["state", *map(str, state)])
