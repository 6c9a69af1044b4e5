"""Why a task isn't layered, computed from its file: the lines that `--why` prints after the refusal. Two spaces stand in front of
each. Why a file isn't well formed is computed in refusals.py. A task here is as in tasks.py; `fact` in a line represents
`VARIABLE VALUE NAME`, with the name of the value.

    effect on derived variable    operator I line A NAME, effect E sets fact, on layer L: E is the operator's first such effect
    not on a derived variable     rule I line A derives fact
    old value                     rule I line A derives fact, old value fact, default value fact
    two values                    rule I line A derives fact, rule J line B derives fact: J is the first rule that gives the variable
                                  another value which isn't its default
    layer order                   rule I line A derives fact, on layer L, condition C requires fact, on layer M: C is the first condition
                                  that isn't on a lower layer, or on the same one and no default

A and B are the lines of the file on which the operator or the rule begins. Names are shown as texts.py has it.
"""
import re

from oracles.refusals import after_file
from oracles.tasks import operator_line, rule_line, task_of, value_name, with_ends
from texts import as_bytes, shown_name

REFUSED = "task refused: "
# the words for each fault of a rule
WORDS = {"RuleOnBasic": "not on a derived variable", "OldValue": "old value"}
WORDS |= {"TwoValues": "two values", "LayerOrder": "layer order"}


def fact_said(task, var, value):
    return f"{var} {value} {shown_name(value_name(task, var, value))}"


def operator_said(task, place):
    return f"  operator {place} line {operator_line(task, place)} {shown_name(task['operators'][place][0])}"


def rule_said(task, place):
    _, var, _, new = task["rules"][place]
    return f"  rule {place} line {rule_line(task, place)} derives {fact_said(task, var, new)}"


def looks_down(task, var, on, value):
    """Returns whether a condition of a rule for this variable looks down."""
    here, there = task["layers"][var], task["layers"][on]
    return there is None or there < here or there == here and value != task["defaults"][on]


def operator_reasons(task, place):
    """Returns the lines for an operator with an effect on a derived variable."""
    _, _, effects, _ = task["operators"][place]
    effect, var, new = next((at, var, new) for at, (_, var, _, new) in enumerate(effects) if task["layers"][var] is not None)
    return [operator_said(task, place), f"  effect {effect} sets {fact_said(task, var, new)}", f"  on layer {task['layers'][var]}"]


def rule_reasons(task, place, what):
    """Returns the lines for a rule with this fault."""
    facts, var, old, new = task["rules"][place]
    default, said = task["defaults"][var], rule_said(task, place)
    if what == "not on a derived variable":
        return [said]
    if what == "old value":
        return [said, f"  old value {fact_said(task, var, old)}", f"  default value {fact_said(task, var, default)}"]
    if what == "two values":
        given = (at for at, (_, its, _, other) in enumerate(task["rules"]) if its == var and other not in (default, new))
        return [said, rule_said(task, next(given))]
    condition, (on, value) = next((at, fact) for at, fact in enumerate(facts) if not looks_down(task, var, *fact))
    return [
        said,
        f"  on layer {task['layers'][var]}",
        f"  condition {condition} requires {fact_said(task, on, value)}",
        f"  on layer {task['layers'][on]}",
    ]


def layer_reasons(task, fault):
    """Returns the lines for this fault of a task's layers, in words."""
    part, what = fault.split(": ")
    kind, place = part.split(" ")
    return operator_reasons(task, int(place)) if kind == "operator" else rule_reasons(task, int(place), what)


def after_refusal(said, text):
    """Returns the lines after this line about the file that it is about: none, unless it says that a task isn't layered, or that the
    file isn't well formed."""
    fault = said.removeprefix(REFUSED)
    if fault == said or not fault.startswith(("operator ", "rule ")):
        return after_file(said, text)
    return layer_reasons(task_of(as_bytes(text).decode("latin-1")), fault)


def with_reasons(output, text):
    """Returns the output about a file with the lines after it."""
    said = as_bytes(output)
    lines = after_refusal(said.decode("latin-1").removesuffix("\n"), text)
    return said + with_ends(lines).encode("latin-1")


def fault_said(fault):
    """Returns a fault of axioms.py in words."""
    name, rule = re.match(r"(\w+) \{ rule: (\d+)", fault).groups()
    return f"rule {rule}: {WORDS[name]}"
