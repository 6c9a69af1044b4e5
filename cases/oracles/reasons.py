"""Why a plan isn't valid, computed from the meaning of a task: the lines that `plan --why` prints after the verdict. Two spaces
stand in front of each, four where it belongs to the line above. A task here is as in tasks.py; `fact` in a line represents
`VARIABLE VALUE NAME`, with the name of the value.

A run is the task, the names of a plan's steps, the operators of those steps that go through, and the states: the initial one, and
the one after each of these steps. A fact fails that doesn't hold in the last of them.

    no operator of that name    for each of the first five steps of which no operator has the name: step S NAME, then
                                `similar operator I line L NAME` of the first operator whose name has the same words in the same order, or
                                else in another, if there is one; how many of all steps these are; a hint where there are two steps or
                                more, all of them are such, and none of the five has a similar operator
    not applicable              step S NAME, then each operator of the name, with the cause of each precondition that fails
    conflicting effects         step S NAME, operator I line L, and two of its effects that fire: E is the first that contradicts one
                                before it, D the first that it contradicts
    goal fact not reached       how many goal facts fail, and each of these with its cause
    cost differs                metric M, steps S, sum of cost lines N, also where the metric doesn't count them; a hint where the
                                plan's cost is the one of the other metric

After the reasons of a step that fails, though it names an operator, comes what follows if it is made anyway, and the steps after it. Each
takes place as the first operator of its name that is applicable, or else as the first of its name; of its effects that fire the last one
counts that sets a variable. A step that names no operator is left out. There is said how many of the later steps fail, the first five of
them, and how many goal facts fail in the end.

L is the line of the file on which the operator begins. Names are shown as texts.py has it. The words of a name stand between spaces,
tabs, and the marks `-`, `_`, `(`, `)` and `,`; capitals from A to Z are the same as small letters.

After each of these comes the first step that went through and could also be an operator after the one that it meant, as
that has the name too and was applicable, with the first such operator.

The cause of a fact that fails: the value that is required, the actual one, and since which step. That is the last one after
which it had another value than before; a step that sets the value that is there changes nothing. Where the variable is derived
and isn't at its default, the rules of its derivation follow. Where it is derived and the required value isn't the default, there
follows for each rule that would derive that the first of its conditions that fails, or that there is no such rule. A line of a rule
that stands further up already isn't said again.

The order of derived values is a list of rules. As long as there is one, the first rule is added that can fire, whose conditions hold,
whose variable has no rule in the list, and each of whose conditions that needs a rule, since it is on a derived variable and not
its default, is on a variable that has one. The derivation of a variable has its rule in the list, and with each one those of the
variables for which this one needs rules; so none rests on itself.
"""
import re
from functools import cached_property

from oracles.layers import fact_said
from oracles.steps import conflict, holds, initial, meant, next_state, preconditions, verdict
from oracles.tasks import operator_line
from texts import shown_name

# how many steps are reported of those that name no operator
REPORTED = 5


class Run:
    """How far the steps of a plan with these names go in a task."""

    def __init__(self, task, names, operators, states):
        self.task, self.names, self.operators, self.states = task, names, operators, states
        self.last = states[-1]

    @cached_property
    def order(self):
        """The order of derived values in the last state."""
        return order_of(self.task, self.last)


def run_of(task, names):
    states, operators = [initial(task)], []
    for name in names:
        operator = meant(task, states[-1], name)
        if isinstance(operator, str) or conflict(states[-1], task["operators"][operator]) is not None:
            break
        operators.append(operator)
        states.append(next_state(task, states[-1], task["operators"][operator]))
    return Run(task, names, operators, states)


def operators_named(task, name):
    return [place for place, operator in enumerate(task["operators"]) if operator[0] == name]


def words(name):
    """Returns the words of a name, with A to Z made small; other letters stay."""
    small = "".join(chr(ord(letter) + 32) if "A" <= letter <= "Z" else letter for letter in name)
    return [word for word in re.split(r"[ \t\-_(),]", small) if word]


def like(task, name):
    """Returns the first operator whose name has the words of this one, or, where none has, the first that has them in another order;
    None where none is."""
    names, sought = [words(operator[0]) for operator in task["operators"]], words(name)
    if sought in names:
        return names.index(sought)
    return next((place for place, its in enumerate(names) if sorted(its) == sorted(sought)), None)


def rules_of(task, var):
    """Returns the rules of a variable that can fire: those whose new value isn't its default."""
    rules = enumerate(task["rules"])
    return [place for place, (_, of, _, new) in rules if of == var and new != task["defaults"][var]]


def needs_rule(task, on, value):
    """Returns whether a fact is on a derived variable, and isn't its default."""
    return task["layers"][on] is not None and value != task["defaults"][on]


def order_of(task, state):
    """Returns the order of derived values in a settled state: the variables that have a rule, each with this rule, in order."""
    order, rest = {}, [rule for var in range(len(state)) for rule in rules_of(task, var) if holds(state, task["rules"][rule][0])]
    while True:
        rest = sorted(rule for rule in rest if task["rules"][rule][1] not in order)
        rests = {rule: [on for on, value in task["rules"][rule][0] if needs_rule(task, on, value)] for rule in rest}
        can = [rule for rule in rest if all(on in order for on in rests[rule])]
        if not can:
            break
        order[task["rules"][can[0]][1]] = can[0]
    assert set(order) == {var for var, value in enumerate(state) if needs_rule(task, var, value)}
    return order


def derivation(run, var):
    """Returns the rules of a variable's derivation, in order; none where it is basic or has its default."""
    found = [run.order[var]] if var in run.order else []
    for rule in found:
        rests = dict.fromkeys(on for on, value in run.task["rules"][rule][0] if needs_rule(run.task, on, value))
        found += [run.order[on] for on in rests if run.order[on] not in found]
    ordered = [rule for rule in run.order.values() if rule in found]
    assert_explains(run, var, ordered)
    return ordered


def assert_explains(run, var, ordered):
    """Compares a derivation with what it is for: each rule requires basic facts, for defaults on lower layers and for variables
    whose rules stand before it, and gives the value that there is; the last is that of the variable."""
    task, before = run.task, set()
    for rule in ordered:
        facts, its, _, new = task["rules"][rule]
        assert new == run.last[its] and holds(run.last, facts)
        for on, value in facts:
            layer = task["layers"][on]
            is_lower_default = layer is not None and value == task["defaults"][on] and layer < task["layers"][its]
            assert layer is None or is_lower_default or on in before
        before.add(its)
    assert not ordered or task["rules"][ordered[-1]][1] == var


def since(run, var):
    """Returns since when a variable has the value of the last state."""
    steps = [step for step in range(1, len(run.states)) if run.states[step - 1][var] != run.states[step][var]]
    return f"since step {steps[-1]} {shown_name(run.names[steps[-1] - 1])}" if steps else "since the initial state"


def given_by(run, var):
    """Returns the rules of a variable's derivation, as they are said."""
    rules = ((rule, run.task["rules"][rule]) for rule in derivation(run, var))
    return [f"rule {rule} derives {fact_said(run.task, its, new)}" for rule, (_, its, _, new) in rules]


def held_back(run, var, value):
    """Returns what holds back the rules that would give a variable this value, as it is said."""
    task = run.task
    if task["layers"][var] is None or value == task["defaults"][var]:
        return []
    rules = [rule for rule in rules_of(task, var) if task["rules"][rule][3] == value]
    if not rules:
        return ["no rule derives it"]
    required = [next(fact for fact in task["rules"][rule][0] if not holds(run.last, [fact])) for rule in rules]
    return [f"rule {rule} requires {fact_said(task, *fact)}" for rule, fact in zip(rules, required)]


def cause(run, fact):
    """Returns the lines of the cause of a fact that fails in the last state."""
    var, value = fact
    said = [f"requires {fact_said(run.task, var, value)}", f"actual {fact_said(run.task, var, run.last[var])}", since(run, var)]
    return [f"    {line}" for line in [*said, *given_by(run, var), *held_back(run, var, value)]]


def clash(state, effects):
    """Returns two effects that fire and set a variable to different values: the second is the first that contradicts one before
    it, and the first one is the first that it contradicts. None where none does."""
    fired = [(place, var, new) for place, (facts, var, _, new) in enumerate(effects) if holds(state, facts)]
    for second, var, new in fired:
        against = [first for first, its, value in fired if first < second and its == var and value != new]
        if against:
            return against[0], second
    return None


def operator_said(task, place):
    return f"operator {place} line {operator_line(task, place)}"


def name_reasons(run):
    """Returns the lines of the first five steps that no operator has the name of, each with the operator whose name is like it, if there
    is one; how many there are; and a hint."""
    unknown = [step for step, name in enumerate(run.names, 1) if not operators_named(run.task, name)]
    said = []
    for step in unknown[:REPORTED]:
        said.append(f"  step {step} {shown_name(run.names[step - 1])}")
        operator = like(run.task, run.names[step - 1])
        if operator is not None:
            said.append(f"  similar {operator_said(run.task, operator)} {shown_name(run.task['operators'][operator][0])}")
    hint = len(run.names) > 1 and len(unknown) == len(run.names) and not any(line.startswith("  similar ") for line in said)
    said.append(f"  {len(unknown)} of {len(run.names)} steps name no operator")
    return [*said, "  hint the plan may be of another task"] if hint else said


def blocked_reasons(run, operator):
    facts = preconditions(run.task["operators"][operator])
    failing = [fact for fact in facts if not holds(run.last, [fact])]
    return [f"  {operator_said(run.task, operator)}", *(line for fact in failing for line in cause(run, fact))]


def conflict_reasons(run, operator):
    said, effects = [f"  {operator_said(run.task, operator)}"], run.task["operators"][operator][2]
    for place in clash(run.last, effects):
        _, var, _, new = effects[place]
        said.append(f"    effect {place} sets {fact_said(run.task, var, new)}")
    return said


def made_anyway(run):
    """Returns what follows if the step that fails is made anyway, and those after it."""
    task, state, failing, first = run.task, run.last, [], len(run.states)
    for step, name in enumerate(run.names[first - 1 :], first):
        operator = meant(task, state, name)
        if step > first and (isinstance(operator, str) or conflict(state, task["operators"][operator]) is not None):
            failing.append(step)
        if operator != "Unknown":
            made = operators_named(task, name)[0] if operator == "Blocked" else operator
            state = next_state(task, state, task["operators"][made])
    missed = sum(not holds(state, [fact]) for fact in task["goal"])
    return [
        f"  if made anyway {len(failing)} of {len(run.names) - first} later steps fail",
        *(f"    step {step} {shown_name(run.names[step - 1])}" for step in failing[:REPORTED]),
        f"  if made anyway {missed} of {len(task['goal'])} goal facts fail",
    ]


def step_reasons(run):
    step = len(run.states)
    name = run.names[step - 1]
    operator = meant(run.task, run.last, name)
    if operator == "Unknown":
        return name_reasons(run)
    if operator == "Blocked":
        said = [line for its in operators_named(run.task, name) for line in blocked_reasons(run, its)]
    else:
        said = conflict_reasons(run, operator)
    return [f"  step {step} {shown_name(name)}", *said, *made_anyway(run)]


def goal_reasons(run):
    """Returns how many goal facts fail, and each of these with its cause; nothing where none fails."""
    failing = [(place, fact) for place, fact in enumerate(run.task["goal"]) if not holds(run.last, [fact])]
    count = [f"  {len(failing)} of {len(run.task['goal'])} goal facts fail"] if failing else []
    return [*count, *(line for place, fact in failing for line in (f"  goal fact {place}", *cause(run, fact)))]


def cost_reasons(run, cost):
    """Returns what the cost of a plan is made of, and what the plan's may be meant to be."""
    metric, steps = run.task["metric"], len(run.names)
    lines = sum(run.task["operators"][operator][3] for operator in run.operators)
    said = [f"  metric {metric}", f"  steps {steps}", f"  sum of cost lines {lines}"]
    if metric and cost == steps:
        said.append("  hint with metric 1 each step costs its operator's cost line")
    if not metric and cost == lines:
        said.append("  hint with metric 0 each step costs 1")
    return said


def could_also_be(run):
    """Returns the line of the first step that could also be a later operator, if there is one."""
    for step, (operator, state) in enumerate(zip(run.operators, run.states), 1):
        named = operators_named(run.task, run.names[step - 1])
        later = [its for its in named if its > operator and holds(state, preconditions(run.task["operators"][its]))]
        if later:
            return [f"  step {step} could also be operator {later[0]}"]
    return []


def said_once(lines):
    """Returns the lines without those of rules that stand further up already."""
    return [line for place, line in enumerate(lines) if not line.startswith("    rule ") or line not in lines[:place]]


def reasons_of(run, cost):
    """Returns the lines after the verdict on the plan of a run, of this cost, that isn't valid."""
    if len(run.operators) < len(run.names):
        said = step_reasons(run)
    else:
        said = goal_reasons(run) or cost_reasons(run, cost)
    return said_once([*said, *could_also_be(run)])


def reasons(task, names, cost):
    """Returns the verdict on a plan, and the lines after it; none where the plan is valid."""
    fault, _ = verdict(task, names, cost)
    return fault, [] if fault.startswith("plan valid") else reasons_of(run_of(task, names), cost)
