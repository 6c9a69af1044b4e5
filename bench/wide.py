"""Few operators with many effects: each switch of a hall turns all its lamps on, or all off.

With n lamps there are n variables and eight operators, each of n effects. There are no groups and no prevail conditions.
"""
from sas_text import Domain, both

ON, OFF = 0, 1
SWITCHES = 4
WORDS = ("turn-on", "turn-off")


class Wide(Domain):
    """The task with so many lamps."""

    # bytes by what a lamp takes in a file of a MB
    UNITS = {"effects": lambda effects: effects, "MB": lambda megabytes: megabytes * 1e6 / 188}

    def counts(self):
        return {"variables": self.objects, "groups": 0, "operators": len(WORDS) * SWITCHES, "rules": 0}

    def variables(self):
        yield from (both(-1, "on(lamp%d)" % lamp) for lamp in range(self.objects))

    def initial(self):
        return [OFF] * self.objects

    def goal(self):
        return [(lamp, ON) for lamp in range(self.objects)]

    def operators(self):
        for value, word in enumerate(WORDS):
            for switch in range(SWITCHES):
                yield "%s switch%d" % (word, switch + 1), [], [(lamp, -1, value) for lamp in range(self.objects)]

    def plan(self, steps):
        """Yields the steps of a plan: that many, at least one. The last one turns the lamps on."""
        steps = max(1, steps)
        for left in reversed(range(steps)):
            yield "%s switch%d" % (WORDS[left % 2], left // 2 % SWITCHES + 1)
