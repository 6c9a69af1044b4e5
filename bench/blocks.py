"""Blocks world: all blocks lie on the table and shall become one tower, the first on the second, and so on.

Few variables, each with many values: a hand that is empty or not, of each block whether it is clear, and its position,
which is in the hand, on one of the other blocks, or on the table. Operators have old values and no prevail conditions.
The mutex groups are large: the positions of each block, what is on each block, and what is in the hand.

With n blocks it has 2 n + 1 variables, 2 n + 1 groups, each of n + 1 facts, and 2 n^2 operators.
"""
from math import sqrt

from mixing import mixed
from sas_text import Domain

EMPTY = (0, 0)
HELD = 0


class Blocks(Domain):
    """The task with so many blocks."""

    # bytes by what a pair of blocks takes in a file of 200 MB
    UNITS = {
        "blocks": lambda blocks: blocks,
        "MB": lambda megabytes: sqrt(megabytes * 1e6 / 223),
        "operators": lambda operators: sqrt(operators / 2),
        "groups": lambda groups: (groups - 1) / 2,
    }
    LEAST = 3

    def __init__(self, blocks):
        super().__init__(blocks)
        self.table = blocks

    def counts(self):
        many = 2 * self.objects + 1
        return {"variables": many, "groups": many, "operators": 2 * self.objects ** 2, "rules": 0}

    def clear(self, block):
        return 1 + block, 0

    def position(self, block, value):
        return 1 + self.objects + block, value

    def on(self, block, other):
        """Returns the fact that a block lies on another; its positions leave out itself."""
        return self.position(block, other + 1 if other < block else other)

    def pairs(self):
        for block in range(self.objects):
            for other in range(self.objects):
                if other != block:
                    yield block, other

    def variables(self):
        yield -1, ["Atom handempty()", "NegatedAtom handempty()"]
        blocks = range(1, self.objects + 1)
        for block in blocks:
            yield -1, ["Atom clear(b%d)" % block, "NegatedAtom clear(b%d)" % block]
        for block in blocks:
            others = ["Atom on(b%d, b%d)" % (block, other) for other in blocks if other != block]
            yield -1, ["Atom holding(b%d)" % block] + others + ["Atom ontable(b%d)" % block]

    def groups(self):
        blocks = range(self.objects)
        for block in blocks:
            yield [self.position(block, value) for value in range(self.objects + 1)]
        for block in blocks:
            above = [self.on(other, block) for other in blocks if other != block]
            yield [self.clear(block), self.position(block, HELD)] + above
        yield [EMPTY] + [self.position(block, HELD) for block in blocks]

    def initial(self):
        return [0] * (1 + self.objects) + [self.table] * self.objects

    def goal(self):
        return [self.on(block, block + 1) for block in range(self.objects - 1)]

    def operators(self):
        """Yields the operators, sorted by their first word."""
        for block in range(self.objects):
            yield named("pick-up", block), [], self.taken(block, self.table)
        for block in range(self.objects):
            yield named("put-down", block), [], self.laid(block, self.table)
        for block, other in self.pairs():
            on = self.on(block, other)[1]
            yield named("stack", block, other), [], [(1 + other, 0, 1)] + self.laid(block, on)
        for block, other in self.pairs():
            on = self.on(block, other)[1]
            yield named("unstack", block, other), [], [(1 + other, -1, 0)] + self.taken(block, on)

    def taken(self, block, old):
        """Returns the effects of taking a clear block from this position."""
        return [(0, 0, 1), (1 + block, 0, 1), (1 + self.objects + block, old, HELD)]

    def laid(self, block, new):
        """Returns the effects of laying a block there."""
        return [(0, -1, 0), (1 + block, -1, 0), (1 + self.objects + block, HELD, new)]

    def plan(self, steps):
        """Yields the steps of a plan: that many, one more where the number is odd; or the steps of one tower if these
        are more.

        Towers in mixed order are built and taken apart as often as that fits, so that all operators take part; then the
        tower of the goal is built, and its topmost block is taken off and laid back.
        """
        made = 0
        for step in self.towers(steps):
            yield step
            made += 1
        for _ in range(made, steps, 2):
            yield from (named("unstack", 0, 1), named("stack", 0, 1))

    def towers(self, steps):
        height = 2 * (self.objects - 1)
        for turn in range(1, 1 + max(0, (steps - height) // (2 * height))):
            tower = mixed(range(self.objects), turn)
            yield from built(tower)
            yield from taken_apart(tower)
        yield from built(list(reversed(range(self.objects))))


def named(word, *blocks):
    """Returns the name of an operator that handles these blocks."""
    return " ".join([word, *("b%d" % (block + 1) for block in blocks)])


def built(tower):
    """Yields the steps that build a tower of blocks that lie on the table, from the lowest on."""
    for other, block in zip(tower, tower[1:]):
        yield from (named("pick-up", block), named("stack", block, other))


def taken_apart(tower):
    for other, block in reversed(list(zip(tower, tower[1:]))):
        yield from (named("unstack", block, other), named("put-down", block))
