"""Derived variables: what a state settles to, and the first fault of the layers of a task, which is as in tasks.py.

What a state settles to is computed from the meaning of a task. The basic values stay. Layer after layer, from the
lowest one on, a derived variable has its default, unless a rule that can fire sets it to another value: a rule whose
conditions hold in the values so reached. A rule whose new value is the default can't fire.

A rule has to be of a derived variable. If it can fire, its old value is none or the default, rules before it set its
variable to the same value, and its conditions are on no higher layer; one that requires a default is on a lower layer.
"""


def settled(task, state):
    """Returns the values that a state settles to."""
    layers, defaults = task["layers"], task["defaults"]
    values = [value if layer is None else default for value, layer, default in zip(state, layers, defaults)]
    for layer in sorted({layer for layer in layers if layer is not None}):
        rules = [rule for rule in task["rules"] if layers[rule[1]] == layer and rule[3] != defaults[rule[1]]]
        while True:
            expected = {var: new for facts, var, _, new in rules if all(values[on] == value for on, value in facts)}
            if all(values[var] == new for var, new in expected.items()):
                break
            values = [expected.get(var, value) for var, value in enumerate(values)]
    return values


def layer_fault(task):
    """Returns the first fault of the layers of a task, as the rules stand in its file; None where it is layered."""
    layers, defaults, news = task["layers"], task["defaults"], {}
    for rule, (facts, var, old, new) in enumerate(task["rules"]):
        if layers[var] is None:
            return f"RuleOnBasic {{ rule: {rule} }}"
        if new == defaults[var]:
            continue
        if old not in (-1, defaults[var]):
            return f"OldValue {{ rule: {rule} }}"
        if news.setdefault(var, new) != new:
            return f"TwoValues {{ rule: {rule} }}"
        for place, (on, value) in enumerate(facts):
            highest = layers[var] - 1 if value == defaults[on] else layers[var]
            if layers[on] is not None and layers[on] > highest:
                return f"LayerOrder {{ rule: {rule}, condition: {place} }}"
    return None
