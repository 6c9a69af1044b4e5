"""A large building whose crew walks about: which rooms are lit follows, by rules, from switches that are left alone meanwhile.

Power comes up a riser from floor to floor, each room has a switch, and nobody walks to a floor that isn't safe:

    layer 0     fed(FLOOR)      where its riser is closed, and the floor below is fed
    layer 1     lit(ROOM)       where its floor is fed, and its switch is closed
    layer 2     dim(FLOOR)      where a room isn't lit
    layer 3     safe(FLOOR)     where it isn't dim

A worker is on one of ten floors, and goes up or down by one. No rule reads where the workers are. So once the lowest riser is
closed, no step changes what a rule reads, though each requires whether a floor is safe.

With n floors there are 24.1 n variables, 23.8 n operators and 22 n rules.
"""
from mixing import mixed
from sas_text import Domain, both

CLOSED, OPEN = 0, 1
HOLDS, NOT = 0, 1
ROOMS = 10
# how many floors a worker walks on
STRETCH = 10


class Building(Domain):
    """The task with so many floors, rounded up to a multiple of ten."""

    # bytes by what a floor takes in a file of 22 MB
    UNITS = {
        "floors": lambda floors: floors,
        "MB": lambda megabytes: megabytes * 1e6 / 4830,
        "rules": lambda rules: rules / 22,
        "operators": lambda operators: operators / 23.8,
    }
    LEAST = STRETCH

    def __init__(self, floors):
        super().__init__(-(-floors // STRETCH) * STRETCH)
        self.rooms = ROOMS * self.objects
        self.workers = self.objects // STRETCH

    def counts(self):
        switches = self.objects + self.rooms
        return {
            "variables": 2 * switches + 2 * self.objects + self.workers,
            "groups": 0,
            "operators": 2 * switches + 2 * (STRETCH - 1) * self.workers,
            "rules": 2 * switches,
        }

    def switch(self, room):
        return self.objects + room

    def worker(self, worker):
        return self.objects + self.rooms + worker

    def fed(self, floor):
        return self.worker(self.workers) + floor

    def lit(self, room):
        return self.fed(self.objects) + room

    def dim(self, floor):
        return self.lit(self.rooms) + floor

    def safe(self, floor):
        return self.dim(self.objects) + floor

    def rooms_of(self, floor):
        return range(ROOMS * floor, ROOMS * (floor + 1))

    def variables(self):
        floors, rooms = range(self.objects), range(self.rooms)
        yield from (both(-1, "closed(riser%d)" % floor) for floor in floors)
        yield from (both(-1, "closed(switch%d)" % room) for room in rooms)
        for worker in range(self.workers):
            yield -1, ["Atom at(worker%d, floor%d)" % (worker, floor) for floor in stretch(worker)]
        yield from (both(0, "fed(floor%d)" % floor) for floor in floors)
        yield from (both(1, "lit(room%d)" % room) for room in rooms)
        yield from (both(2, "dim(floor%d)" % floor) for floor in floors)
        yield from (both(3, "safe(floor%d)" % floor) for floor in floors)

    def initial(self):
        switches = [OPEN] + [CLOSED] * (self.objects + self.rooms - 1)
        return switches + [0] * self.workers + [NOT] * (3 * self.objects + self.rooms)

    def goal(self):
        return [(self.safe(floor), HOLDS) for floor in range(self.objects)]

    def operators(self):
        """Yields the operators, sorted by their first word."""
        switches = [("riser", floor, floor) for floor in range(self.objects)]
        switches += [("switch", room, self.switch(room)) for room in range(self.rooms)]
        for kind, place, var in switches:
            yield "close %s%d" % (kind, place), [], [(var, OPEN, CLOSED)]
        for kind, place, var in switches:
            yield "open %s%d" % (kind, place), [], [(var, CLOSED, OPEN)]
        for worker in range(self.workers):
            floors = stretch(worker)
            for old, floor in enumerate(floors):
                for new in (old - 1, old + 1):
                    if 0 <= new < STRETCH:
                        safe = [(self.safe(floors[new]), HOLDS)]
                        yield walk(worker, floor, floors[new]), safe, [(self.worker(worker), old, new)]

    def rules(self):
        """Yields the rules. Each sets its variable from 1, the default of all of them, to 0."""
        for floor in range(self.objects):
            below = [(self.fed(floor - 1), HOLDS)] if floor > 0 else []
            yield [(floor, CLOSED), *below], (self.fed(floor), NOT, HOLDS)
        for floor in range(self.objects):
            for room in self.rooms_of(floor):
                yield [(self.fed(floor), HOLDS), (self.switch(room), CLOSED)], (self.lit(room), NOT, HOLDS)
        for floor in range(self.objects):
            for room in self.rooms_of(floor):
                yield [(self.lit(room), NOT)], (self.dim(floor), NOT, HOLDS)
        for floor in range(self.objects):
            yield [(self.dim(floor), NOT)], (self.safe(floor), NOT, HOLDS)

    def plan(self, steps):
        """Yields the steps of a plan: that many, at least one.

        The lowest riser is closed. Then one worker after the other, in mixed order, goes up by a floor, up to the last of its
        floors, and down again.
        """
        yield "close riser0"
        workers = mixed(range(self.workers), 1)
        for step in range(steps - 1):
            turn, place = divmod(step, self.workers)
            old, new = bouncing(turn), bouncing(turn + 1)
            floors = stretch(workers[place])
            yield walk(workers[place], floors[old], floors[new])


def stretch(worker):
    """Returns the floors of a worker."""
    return range(STRETCH * worker, STRETCH * (worker + 1))


def bouncing(turn):
    """Returns on which of its floors a worker is that has gone so many steps."""
    place = turn % (2 * (STRETCH - 1))
    return min(place, 2 * (STRETCH - 1) - place)


def walk(worker, old, new):
    return "walk worker%d floor%d floor%d" % (worker, old, new)
