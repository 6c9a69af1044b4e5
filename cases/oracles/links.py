"""Causal links of a plan, computed from the meaning of a task. A task here is as in tasks.py.

A step requires its operator's preconditions, and the conditions of those of its effects that fire. A goal fact that holds
at the end is required by the goal, which counts as the step behind the last; where a step fails, no goal is reached.
What is required *rests on* its variable in the state before the step, and a variable rests on others: a derived one that
has a rule in the order of derived values on the variables of that rule's conditions, a derived one without a rule on the
variable of the first condition that fails of each of its rules that can fire. A link is the last step that changed a
variable (0: none did), that variable, and the step that rests on it.
"""
from oracles.reasons import order_of, rules_of, run_of
from oracles.steps import holds, preconditions


def required(state, operator):
    """Returns the facts that a step by this operator requires in a state."""
    fired = [facts for facts, _, _, _ in operator[2] if holds(state, facts)]
    return {*preconditions(operator), *(fact for facts in fired for fact in facts)}


def rests_on(task, state, order, var):
    """Returns the variables on which one rests directly."""
    if task["layers"][var] is None:
        return []
    if var in order:
        return [on for on, _ in task["rules"][order[var]][0]]
    fail = ([fact for fact in task["rules"][rule][0] if not holds(state, [fact])] for rule in rules_of(task, var))
    return [facts[0][0] for facts in fail]


def all_rest_on(task, state, start):
    """Returns the variables on which these rest, they themselves among them."""
    found, order = list(start), order_of(task, state)
    for var in found:
        found += [on for on in dict.fromkeys(rests_on(task, state, order, var)) if on not in found]
    return found


def last_change(states, step, var):
    """Returns the last step before this one that changed a variable, or 0."""
    return max((k for k in range(1, step) if states[k - 1][var] != states[k][var]), default=0)


def links_of(task, names):
    """Returns the links of a plan with steps of these names."""
    run = run_of(task, names)
    wants = [required(state, task["operators"][operator]) for state, operator in zip(run.states, run.operators)]
    if len(run.operators) == len(names):
        wants.append({fact for fact in task["goal"] if holds(run.last, [fact])})
    return {
        (last_change(run.states, step, var), var, step)
        for step, facts in enumerate(wants, 1)
        for var in all_rest_on(task, run.states[step - 1], {var for var, _ in facts})
    }


def unneeded_steps(task, names):
    """Returns the steps that nothing needs: no link on a basic variable begins at them. Of a plan with a step that fails
    nothing is said."""
    if len(run_of(task, names).operators) < len(names):
        return []
    needed = {maker for maker, var, _ in links_of(task, names) if task["layers"][var] is None}
    return [step for step in range(1, len(names) + 1) if step not in needed]
