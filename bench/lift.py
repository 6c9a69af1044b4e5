"""Miconic: a lift brings each passenger from one floor to another.

Many moves, one from each floor to each other one, and a stop for each floor. The effects of a stop have conditions: who waits
on the floor gets on, and who rides to it gets off. A floor is where one passenger starts and where another one wants to go.
The mutex groups are the floors of the lift, and the states of each passenger.

With n floors it has n passengers, n + 1 variables, n + 1 groups and n^2 operators.
"""
from math import sqrt

from mixing import mixed
from sas_text import Domain

LIFT = 0
WAITS, RIDES, IS_SERVED = 0, 1, 2
STATES = ("waits", "rides", "is-served")


def stop(floor):
    return "stop floor%d" % (floor + 1)


def move(old, new):
    return "%s floor%d floor%d" % ("up" if old < new else "down", old + 1, new + 1)


class Lift(Domain):
    """The task with so many floors."""

    # bytes by what a pair of floors takes in a file of 20 MB
    UNITS = {
        "floors": lambda floors: floors,
        "MB": lambda megabytes: sqrt(megabytes * 1e6 / 69),
        "operators": sqrt,
        "groups": lambda groups: groups - 1,
    }
    LEAST = 2

    def counts(self):
        many = self.objects + 1
        return {"variables": many, "groups": many, "operators": self.objects ** 2, "rules": 0}

    def wanted(self, passenger):
        """Returns the floor to which a passenger wants to go, from the floor of the same number."""
        return (passenger + self.objects // 2) % self.objects

    def variables(self):
        yield -1, ["Atom lift-at(floor%d)" % floor for floor in range(1, self.objects + 1)]
        for passenger in range(1, self.objects + 1):
            yield -1, ["Atom %s(passenger%d)" % (state, passenger) for state in STATES]

    def groups(self):
        yield [(LIFT, floor) for floor in range(self.objects)]
        for passenger in range(self.objects):
            yield [(1 + passenger, value) for value in range(len(STATES))]

    def initial(self):
        return [0] * (1 + self.objects)

    def goal(self):
        return [(1 + passenger, IS_SERVED) for passenger in range(self.objects)]

    def operators(self):
        """Yields the operators, sorted by their first word."""
        floors = range(self.objects)
        for old in floors:
            for new in range(old):
                yield move(old, new), [], [(LIFT, old, new)]
        arriving = {self.wanted(passenger): passenger for passenger in floors}
        for floor in floors:
            yield stop(floor), [(LIFT, floor)], sorted([gets(floor, WAITS), gets(arriving[floor], RIDES)])
        for old in floors:
            for new in range(old + 1, self.objects):
                yield move(old, new), [], [(LIFT, old, new)]

    def plan(self, steps):
        """Yields the steps of a plan: that many, or one more, but at least four for each floor.

        The lift stops on each floor, in mixed order, again and again. Each tour begins on the lowest floor. After two of them all
        passengers are served.
        """
        made, turn, floor = 0, 0, 0
        while made < max(steps, 4 * self.objects):
            for new in mixed(range(self.objects), turn):
                if new != floor:
                    yield move(floor, new)
                    made += 1
                yield stop(new)
                made, floor = made + 1, new
                if turn > 1 and made >= steps:
                    break
            turn += 1


def gets(passenger, old):
    """Returns the effect by which a passenger who waits gets on, or one who rides gets off."""
    return 1 + passenger, -1, old + 1, (1 + passenger, old)
