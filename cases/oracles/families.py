"""Mutex groups, computed from the meaning of a small task: which of them are exclusive together, and by themselves. A task is as in
tasks.py.

Two facts contradict each other in a family of groups where they are two values of one variable or two facts of one of these
groups; facts clash where two of them contradict each other. An operator keeps a group if, for any two facts of it on
different variables, what has to hold for two of its effects that set them clashes; and if, for each of its effects that
sets one, the other fact clashes with what has to hold for that, or an effect that then fires as well sets its variable to
another value.

A group with a fact on a derived variable is `Derived`, one with two facts of the state section `Initial`. A family of the
others is kept where each operator keeps each of its groups, facts contradicting each other in the family. Here every family
is tried; the groups of those that are kept are `Exclusive`, and together they are kept too. Each group beside them is
`Broken` by the first operator that doesn't keep it in these and itself. By itself a group is judged as if it were the only
one. No reachable state holds two facts of a group that is exclusive, in either way.
"""
from itertools import chain, combinations

from oracles.steps import conflict, holds, initial, next_state, preconditions


def contradict(f, g, family):
    """Returns whether two facts contradict each other in the family."""
    return f != g and (f[0] == g[0] or any(f in group and g in group for group in family))


def clash(facts, family):
    """Returns whether two of the facts contradict each other in the family."""
    return any(contradict(f, g, family) for f, g in combinations(facts, 2))


def setters(operator, fact):
    return [effect for effect in operator[2] if (effect[1], effect[3]) == fact]


def never_both(operator, f, g, family):
    """Returns whether effects that set the two facts never fire in one step."""
    known = preconditions(operator)
    pairs = ((first, second) for first in setters(operator, f) for second in setters(operator, g))
    return all(clash([*known, *first[0], *second[0]], family) for first, second in pairs)


def gone(operator, f, effect, family):
    """Returns whether the fact doesn't hold after a step in which the effect fires."""
    known = [*preconditions(operator), *effect[0], f]
    if clash(known, family):
        return True
    return any(var == f[0] and new != f[1] and set(facts) <= set(known) for facts, var, _, new in operator[2])


def keeps(operator, group, family):
    pairs = [(f, g) for f in group for g in group if f[0] != g[0]]
    return all(never_both(operator, f, g, family) for f, g in pairs) and all(
        gone(operator, f, effect, family) for f, g in pairs for effect in setters(operator, g)
    )


def first_breaking(task, group, family):
    """Returns the first operator that doesn't keep the group; None where each does."""
    return next((place for place, one in enumerate(task["operators"]) if not keeps(one, group, family)), None)


def are_kept(task, family):
    return all(first_breaking(task, group, family) is None for group in family)


def before_operators(task, group):
    """Returns the verdict on a group whatever the operators are, or None."""
    if any(task["layers"][var] is not None for var, _ in group):
        return "Derived"
    if len({fact for fact in group if holds(task["defaults"], [fact])}) > 1:
        return "Initial"
    return None


def verdict_beside(task, group, family):
    """Returns the verdict on a group in the family and itself."""
    operator = first_breaking(task, group, [*family, group])
    return "Exclusive" if operator is None else f"Broken {{ operator: {operator} }}"


def greatest(task, candidates):
    """Returns the groups, by their places, of all families of these candidates that are kept."""
    groups = task["groups"]
    families = chain.from_iterable(combinations(candidates, size) for size in range(1, len(candidates) + 1))
    kept = {place for family in families if are_kept(task, [groups[place] for place in family]) for place in family}
    assert are_kept(task, [groups[place] for place in kept])
    return kept


def verdicts(task):
    """Returns the joint verdicts on the groups, and those on each by itself."""
    groups = task["groups"]
    first = [before_operators(task, group) for group in groups]
    kept = greatest(task, [place for place, verdict in enumerate(first) if verdict is None])
    family = [groups[place] for place in kept]
    joint = [verdict or verdict_beside(task, group, family) for verdict, group in zip(first, groups)]
    return joint, [verdict or verdict_beside(task, group, []) for verdict, group in zip(first, groups)]


def reachable(task):
    found, left = set(), [initial(task)]
    while left:
        state = left.pop()
        if tuple(state) in found:
            continue
        found.add(tuple(state))
        able = (one for one in task["operators"] if holds(state, preconditions(one)) and conflict(state, one) is None)
        left += [next_state(task, state, one) for one in able]
    return found


def is_invariant(states, group):
    """Returns whether none of the states holds two facts of the group."""
    return all(len({fact for fact in group if holds(state, [fact])}) <= 1 for state in states)


def line_of(place, verdict):
    """Returns the line that `mutex` prints of a group with this verdict."""
    words = {"Exclusive": "exclusive", "Derived": "derived", "Initial": "not shown: initial state"}
    return f"group {place} {words.get(verdict) or 'not shown: operator ' + verdict.split()[3]}\n"
