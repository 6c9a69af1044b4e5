"""The text of a task file (`output.sas`, version 3), section by section, as the translator of Fast Downward writes it.

A domain is a class of these members. Facts are pairs (VARIABLE, VALUE). An effect is (VARIABLE,
OLD, NEW), where -1 is no old value, and its conditions, if any. All is under metric 0, and each
cost line is 1.

    UNITS                   for each unit of size how many things that makes
    LEAST                   the least number of things
    objects                 how many things its size counts
    counts()                how many `variables`, `groups`, `operators` and `rules` it has
    variables()             of each variable its layer (-1 for none) and the names of its values
    groups()                the facts of each mutex group
    initial()               the value of each variable
    goal()                  facts
    operators()             of each operator its name, the facts of its prevail conditions, and its effects
    rules()                 of each rule its conditions and its effect
    plan(steps)             the names of the steps of a plan that reaches the goal, see the domain for how many
"""

HEAD = "begin_version\n3\nend_version\nbegin_metric\n0\nend_metric\n"


class Domain:
    """A domain without groups and rules."""

    LEAST = 1

    def __init__(self, objects):
        self.objects = objects

    def groups(self):
        return []

    def rules(self):
        return []


def both(layer, atom):
    """Returns a variable that represents whether an atom holds."""
    return layer, ["Atom " + atom, "NegatedAtom " + atom]


def fact_lines(facts):
    """Returns how many facts, and a line for each."""
    return "%d\n" % len(facts) + "".join(["%d %d\n" % fact for fact in facts])


def variable_text(place, variable):
    layer, names = variable
    return "begin_variable\nvar%d\n%d\n%d\n%s\nend_variable\n" % (place, layer, len(names), "\n".join(names))


def group_text(_, facts):
    return "begin_mutex_group\n" + fact_lines(facts) + "end_mutex_group\n"


def effect_line(var, old, new, *conditions):
    return "%d " % len(conditions) + "".join(["%d %d " % fact for fact in conditions]) + "%d %d %d\n" % (var, old, new)


def operator_text(_, operator):
    name, conditions, effects = operator
    lines = "".join([effect_line(*effect) for effect in effects])
    return "begin_operator\n%s\n%s%d\n%s1\nend_operator\n" % (name, fact_lines(conditions), len(effects), lines)


def rule_text(_, rule):
    conditions, effect = rule
    return "begin_rule\n%s%d %d %d\nend_rule\n" % (fact_lines(conditions), *effect)


def listed(count, items, text):
    """Yields a count and the text of each item, piece by piece; the count has to be theirs."""
    yield "%d\n" % count
    seen = 0
    for place, item in enumerate(items):
        yield text(place, item)
        seen += 1
    assert seen == count, (seen, count)


def task_pieces(domain):
    """Yields the text of the task of a domain, piece by piece."""
    counts = domain.counts()
    yield HEAD
    yield from listed(counts["variables"], domain.variables(), variable_text)
    yield from listed(counts["groups"], domain.groups(), group_text)
    yield "begin_state\n" + "".join(["%d\n" % value for value in domain.initial()]) + "end_state\n"
    yield "begin_goal\n" + fact_lines(domain.goal()) + "end_goal\n"
    yield from listed(counts["operators"], domain.operators(), operator_text)
    yield from listed(counts["rules"], domain.rules(), rule_text)


def plan_pieces(steps):
    """Yields the text of a plan of these steps, under unit cost."""
    count = 0
    for step in steps:
        yield "(%s)\n" % step
        count += 1
    yield "; cost = %d (unit cost)\n" % count
