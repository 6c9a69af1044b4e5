"""A power net with derived variables: which buses are fed follows, by rules, from which switches are closed.

The net is a long ladder of two rows of buses. Each line, along a row or across, has a switch; the main line ties the
first bus to the source. Current flows both ways, so the rules go in rings everywhere:

    layer 0     fed(BUS)        where a closed line ties it to the source or to a fed bus
    layer 1     dark(DISTRICT)  where its last bus isn't fed, a district being about a hundred columns
    layer 2     blackout()      where a district is dark

The main switch and the one of the last line are open at first, the others closed. The goal is that there is no
blackout. The rules stand from the far end on, so that whoever goes through them in turn feeds about one column a round.

With n columns it has 3 n - 1 lines, an operator to open and one to close each of them, and about 6 n rules.
"""
from mixing import mixed
from sas_text import Domain, both

MAIN = 0
CLOSED, OPEN = 0, 1
DISTRICT = 100


class Power(Domain):
    """The task with a ladder of so many columns."""

    # bytes by what a column takes in a file of 30 MB
    UNITS = {
        "columns": lambda columns: columns,
        "MB": lambda megabytes: megabytes * 1e6 / 1171,
        "rules": lambda rules: rules / 6.02,
        "operators": lambda operators: operators / 6,
    }
    LEAST = 2

    def __init__(self, columns):
        super().__init__(columns)
        self.lines = lines_of_ladder(columns)
        self.buses = 2 * columns
        self.districts = max(1, columns // DISTRICT)

    def counts(self):
        lines = len(self.lines)
        return {
            "variables": lines + self.buses + self.districts + 1,
            "groups": 0,
            "operators": 2 * lines,
            "rules": 1 + 2 * (lines - 1) + 2 * self.districts,
        }

    def fed(self, bus):
        return len(self.lines) + bus

    def dark(self, district):
        return len(self.lines) + self.buses + district

    def blackout(self):
        return len(self.lines) + self.buses + self.districts

    def last_bus(self, district):
        """Returns the bus of the upper row where a district ends."""
        return 2 * ((district + 1) * self.objects // self.districts - 1)

    def variables(self):
        yield from (both(-1, "closed(line%d)" % line) for line in range(len(self.lines)))
        yield from (both(0, "fed(bus%d)" % bus) for bus in range(self.buses))
        yield from (both(1, "dark(district%d)" % district) for district in range(self.districts))
        yield both(2, "blackout()")

    def initial(self):
        switches = [OPEN] + [CLOSED] * (len(self.lines) - 2) + [OPEN]
        return switches + [1] * (self.buses + self.districts + 1)

    def goal(self):
        return [(self.blackout(), 1)]

    def operators(self):
        """Yields the operators, sorted by their first word."""
        for line in range(len(self.lines)):
            yield "close-switch line%d" % line, [], [(line, OPEN, CLOSED)]
        for line in range(len(self.lines)):
            yield "open-switch line%d" % line, [], [(line, CLOSED, OPEN)]

    def rules(self):
        """Yields the rules. Each sets its variable from 1, the default of all of them, to 0."""
        for line, (bus, other) in reversed(list(enumerate(self.lines))):
            if line == MAIN:
                yield [(MAIN, CLOSED)], (self.fed(other), 1, 0)
            else:
                yield [(line, CLOSED), (self.fed(other), 0)], (self.fed(bus), 1, 0)
                yield [(line, CLOSED), (self.fed(bus), 0)], (self.fed(other), 1, 0)
        for district in range(self.districts):
            yield [(self.fed(self.last_bus(district)), 1)], (self.dark(district), 1, 0)
        for district in range(self.districts):
            yield [(self.dark(district), 0)], (self.blackout(), 1, 0)

    def plan(self, steps):
        """Yields the steps of a plan: that many, at least one.

        After the main switch is closed, one line after the other is opened and closed again; the rings keep the net fed. The
        last line's switch is closed first where the number is even.
        """
        if steps > 0 and steps % 2 == 0:
            yield "close-switch line%d" % (len(self.lines) - 1)
        yield "close-switch line%d" % MAIN
        for line in self.maintained(max(0, steps - 1) // 2):
            yield "open-switch line%d" % line
            yield "close-switch line%d" % line

    def maintained(self, many):
        """Returns so many lines, in mixed order, without the main line and the last one."""
        lines = mixed(range(1, len(self.lines) - 1), 1)
        return (lines[place % len(lines)] for place in range(many))


def lines_of_ladder(columns):
    """Returns the two buses of each line, column after column: 2 k and 2 k + 1 are column k. The main line has bus 0
    alone."""
    lines = [(None, 0)]
    for upper in range(0, 2 * columns, 2):
        if upper > 0:
            lines += [(upper - 2, upper), (upper - 1, upper + 1)]
        lines.append((upper, upper + 1))
    return lines
