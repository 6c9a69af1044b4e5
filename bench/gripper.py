"""Transport: balls in two rooms, and a robot with two hands. All balls start in rooma and shall be in roomb.

Many variables with few values: the robot has a room, each hand is free or not, each ball is in a room or in a hand.
Picking and dropping have the robot's room as a prevail condition. The mutex groups are the places of each ball (values
of one variable), the rooms of the robot, and for each hand what is in it: nothing, or one of all balls.

With n balls it has n + 3 variables, n + 3 groups and 8 n + 2 operators.
"""
from mixing import mixed
from sas_text import Domain

ROOMS = ("rooma", "roomb")
HANDS = ("left", "right")
ROBOT = 0
FIRST_BALL = 3


def robot_in(room):
    return ROBOT, room


def free(hand):
    return 1 + hand, 0


def ball_in(ball, room):
    return FIRST_BALL + ball, room


def carried(ball, hand):
    return FIRST_BALL + ball, len(ROOMS) + hand


def change(old, new):
    """Returns the effect that turns one fact of a variable into another."""
    return old[0], old[1], new[1]


def pick(ball, room, hand):
    return "pick ball%d %s %s" % (ball + 1, ROOMS[room], HANDS[hand])


def drop(ball, room, hand):
    return "drop ball%d %s %s" % (ball + 1, ROOMS[room], HANDS[hand])


def move(room):
    return "move %s %s" % (ROOMS[room], ROOMS[1 - room])


class Gripper(Domain):
    """The task with so many balls."""

    # bytes by what a ball takes in a file of 200 MB
    UNITS = {
        "balls": lambda balls: balls,
        "MB": lambda megabytes: megabytes * 1e6 / 938,
        "operators": lambda operators: (operators - 2) / 8,
        "groups": lambda groups: groups - 3,
    }
    LEAST = 2

    def counts(self):
        many = self.objects + 3
        return {"variables": many, "groups": many, "operators": 8 * self.objects + 2, "rules": 0}

    def variables(self):
        yield -1, ["Atom at-robby(%s)" % room for room in ROOMS]
        for hand in HANDS:
            yield -1, ["Atom free(%s)" % hand, "NegatedAtom free(%s)" % hand]
        for ball in range(1, self.objects + 1):
            yield -1, (["Atom at(ball%d, %s)" % (ball, room) for room in ROOMS]
                       + ["Atom carry(ball%d, %s)" % (ball, hand) for hand in HANDS])

    def groups(self):
        balls = range(self.objects)
        for ball in balls:
            yield [ball_in(ball, 0), ball_in(ball, 1), carried(ball, 0), carried(ball, 1)]
        yield [robot_in(0), robot_in(1)]
        for hand in range(len(HANDS)):
            yield [free(hand)] + [carried(ball, hand) for ball in balls]

    def initial(self):
        return [0] * (self.objects + FIRST_BALL)

    def goal(self):
        return [ball_in(ball, 1) for ball in range(self.objects)]

    def operators(self):
        """Yields the operators, sorted by their first word."""
        for ball, room, hand in self.handlings():
            in_hand = change(carried(ball, hand), ball_in(ball, room))
            yield drop(ball, room, hand), [robot_in(room)], [(1 + hand, -1, 0), in_hand]
        for room in range(len(ROOMS)):
            yield move(room), [], [change(robot_in(room), robot_in(1 - room))]
        for ball, room, hand in self.handlings():
            in_room = change(ball_in(ball, room), carried(ball, hand))
            yield pick(ball, room, hand), [robot_in(room)], [(1 + hand, 0, 1), in_room]

    def handlings(self):
        """Yields each ball in each room with each hand."""
        for ball in range(self.objects):
            for room in range(len(ROOMS)):
                for hand in range(len(HANDS)):
                    yield ball, room, hand

    def plan(self, steps):
        """Yields the steps of a plan: that many, or the steps of one tour if these are more.

        All balls are carried over, back and over again as often as that fits; then the robot goes to and fro.
        """
        made = 0
        for turn in range(self.tours(steps)):
            for step in self.tour(turn):
                yield step
                made += 1
        for room in range(1, 1 + steps - made):
            yield move(room % 2)

    def tours(self, steps):
        """Returns how many tours fit; an odd number, so that the balls end in the other room."""
        tour = 2 * self.objects + 2 * ((self.objects + 1) // 2)
        return 1 + 2 * max(0, (steps - tour) // (2 * tour))

    def tour(self, turn):
        """Yields the steps that carry all balls into the other room, two at a time. The order and
        the hands differ from turn to turn."""
        start, hands = turn % 2, (1, 0) if turn // 2 % 2 else (0, 1)
        order = mixed(range(self.objects), turn)
        for first in range(0, len(order), 2):
            pair = list(zip(order[first:first + 2], hands))
            if first > 0:
                yield move(1 - start)
            yield from (pick(ball, start, hand) for ball, hand in pair)
            yield move(start)
            yield from (drop(ball, 1 - start, hand) for ball, hand in pair)
