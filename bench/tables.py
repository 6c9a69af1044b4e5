"""Blocks on many tables, with `above`: on each table of a hall lie three blocks, and a hand of its own moves them.

What is above what follows from what lies on what, as a transitive closure, so each table is a small net of 21 rules:

    layer 0     above(X, Y)     where X lies on Y, or on a block that is above Y
                under(X)        where a block lies on X
    layer 1     clear(X)        where X isn't under a block

A move requires clear blocks, and changes one table alone. So of all rules only those of that table have to be looked at.

On each table the blocks are a tower at first, and in the end. With n tables there are 15 n variables, 18 n operators and 21 n
rules.
"""
from mixing import mixed
from sas_text import Domain, both

BLOCKS = 3
TABLE = BLOCKS - 1
# the parts of a table: its positions, then what follows from them
ABOVE, UNDER, CLEAR, VARIABLES = 3, 9, 12, 15
TOWER = (0, 1, TABLE)


def others(block):
    """Returns the two other blocks; a position that is less than TABLE is a place in them."""
    return [other for other in range(BLOCKS) if other != block]


def pairs():
    """Yields each block with each other one."""
    for block in range(BLOCKS):
        for other in others(block):
            yield block, other


def on(block, other):
    """Returns the position of a block that lies on this other one."""
    return others(block).index(other)


def above(block, other):
    """Returns which variable of a table represents whether a block is above another."""
    return ABOVE + list(pairs()).index((block, other))


def place_name(block, position):
    return "the-table" if position == TABLE else "block%d" % others(block)[position]


def move(table, block, old, new):
    """Returns the name of a move from one position to another."""
    return "move table%d block%d %s %s" % (table, block, place_name(block, old), place_name(block, new))


class Tables(Domain):
    """The task with so many tables."""

    # bytes by what a table takes in a file of 21 MB
    UNITS = {
        "tables": lambda tables: tables,
        "MB": lambda megabytes: megabytes * 1e6 / 4500,
        "rules": lambda rules: rules / 21,
        "operators": lambda operators: operators / 18,
    }

    def counts(self):
        return {"variables": VARIABLES * self.objects, "groups": 0, "operators": 18 * self.objects, "rules": 21 * self.objects}

    def variables(self):
        for table in range(self.objects):
            yield from variables_of(table)

    def initial(self):
        return [*TOWER, *[1] * (VARIABLES - BLOCKS)] * self.objects

    def goal(self):
        """Returns the facts that on each table the first block is above the last one, and is clear."""
        firsts = range(0, VARIABLES * self.objects, VARIABLES)
        return [fact for first in firsts for fact in ((first + above(0, 2), 0), (first + CLEAR, 0))]

    def operators(self):
        """Yields the moves of each block from each position to each other one."""
        for table in range(self.objects):
            first = VARIABLES * table
            for block in range(BLOCKS):
                for old in range(BLOCKS):
                    for new in others(old):
                        clear = [block] if new == TABLE else [block, others(block)[new]]
                        facts = [(first + CLEAR + it, 0) for it in clear]
                        yield move(table, block, old, new), facts, [(first + block, old, new)]

    def rules(self):
        """Yields the rules. Each sets its variable from 1, the default of all of them, to 0."""
        for table in range(self.objects):
            first = VARIABLES * table
            for facts, var in RULES:
                yield [(first + its, value) for its, value in facts], (first + var, 1, 0)

    def plan(self, steps):
        """Yields the steps of a plan: that many, or one more where the number is odd.

        On one table after the other, in mixed order, the tower is taken down by a block or two, and built again.
        """
        made, turn = 0, 0
        while made < steps:
            for table in mixed(range(self.objects), turn):
                blocks = 1 if steps - made < 4 else 1 + (table + turn) % 2
                yield from rebuilt(table, blocks)
                made += 2 * blocks
                if made >= steps:
                    break
            turn += 1


def variables_of(table):
    """Yields the variables of a table."""
    for block in range(BLOCKS):
        yield -1, ["Atom at(table%d, block%d, %s)" % (table, block, place_name(block, place)) for place in range(BLOCKS)]
    for block, other in pairs():
        yield both(0, "above(table%d, block%d, block%d)" % (table, block, other))
    for block in range(BLOCKS):
        yield both(0, "under(table%d, block%d)" % (table, block))
    for block in range(BLOCKS):
        yield both(1, "clear(table%d, block%d)" % (table, block))


def rules_of_table():
    """Yields the rules of a table, each with its facts and its variable, counted from the table's first variable."""
    for block, other in pairs():
        yield [(block, on(block, other))], above(block, other)
    for block, other in pairs():
        between = next(it for it in others(block) if it != other)
        yield [(block, on(block, between)), (above(between, other), 0)], above(block, other)
    for block, other in pairs():
        yield [(block, on(block, other))], UNDER + other
    for block in range(BLOCKS):
        yield [(UNDER + block, 1)], CLEAR + block


RULES = list(rules_of_table())


def rebuilt(table, blocks):
    """Yields the steps that take so many blocks off the tower of a table, and lay them back."""
    for block in range(blocks):
        yield move(table, block, TOWER[block], TABLE)
    for block in reversed(range(blocks)):
        yield move(table, block, TABLE, TOWER[block])
