"""What the texts of answers about a task say, as values: its summary, the verdicts on its mutex groups, and why a file is refused."""
import enum
import re
from typing import NamedTuple, Optional, Tuple

from ._values import Effect, Fact, is_shown, readable, shown_fact


class Summary(NamedTuple):
    """What a task is about: the answer of `show`.

    Attributes:
        metric: 1 if the operators' cost lines are used, else 0.
        variables, derived, groups, operators, rules: How many there are. The derived ones are variables, too.
        initial: The value of each variable in the state section.
        goal: The facts of the goal.
    """

    metric: int
    variables: int
    derived: int
    groups: int
    operators: int
    rules: int
    initial: Tuple[Fact, ...]
    goal: Tuple[Fact, ...]


class GroupVerdict(str, enum.Enum):
    """Whether a mutex group is shown to be exclusive. If not, why: it has a fact on a derived variable, two of its facts hold in the initial
    state, or an operator may break it."""

    EXCLUSIVE = "exclusive"
    DERIVED = "derived"
    INITIAL_STATE = "not shown: initial state"
    OPERATOR = "not shown: operator"

    __str__ = str.__str__


class Group(NamedTuple):
    """The verdict on a mutex group. What follows the operator is in answers of `mutex_why` alone.

    Attributes:
        number, verdict: The group, from 0, and its verdict.
        operator: The operator that may break it.
        line, name, shown: The line of the task file at which the operator begins, and its name in bytes. `shown` is as in `Fact`.
        facts: The fact on a derived variable, or the two facts that hold.
        effects: The effects of the operator that set facts of the group: two, or one if a fact may remain.
        may_remain: A fact of the group that may remain.
    """

    number: int
    verdict: GroupVerdict
    operator: Optional[int] = None
    line: Optional[int] = None
    name: Optional[bytes] = None
    shown: bool = False
    facts: Tuple[Fact, ...] = ()
    effects: Tuple[Effect, ...] = ()
    may_remain: Optional[Fact] = None


class Found(str, enum.Enum):
    """What stood where a file is refused: a line with other bytes, an empty line, a line without its end, or the end of the file."""

    TEXT = "found"
    EMPTY_LINE = "empty line"
    UNFINISHED = "unfinished"
    END_OF_FILE = "end of file"

    __str__ = str.__str__


class WrongNumber(NamedTuple):
    """A number of a line that may not stand there: its place in the line, from 1, and the numbers that may."""

    number: int
    lowest: int
    highest: int


class ListCount(NamedTuple):
    """The line of a file that has the number of a list's items, and that number."""

    line: int
    items: int


class Refusal(NamedTuple):
    """Why a file is refused. What follows the word is in answers of `plan_why`, `check_why` and `mutex_why` alone.

    Attributes:
        word: What is wrong, such as `keyword` or `layer order`.
        line: The line of the file. Of a task that isn't layered it is that at which the operator or the rule begins.
        place: The part of the task, such as `operator 3`.
        expected: What was expected.
        wrong_number: The number of the line that may not stand there.
        list_count: Where the items of the list are counted.
        found, text: What stood there. The text of a line is shown: its first 64 bytes, without control characters.
        hint: What may be the mistake.
    """

    word: str
    line: Optional[int] = None
    place: Optional[str] = None
    expected: Optional[str] = None
    wrong_number: Optional[WrongNumber] = None
    list_count: Optional[ListCount] = None
    found: Optional[Found] = None
    text: Optional[str] = None
    hint: Optional[str] = None


_NUMBERS = re.compile(rb"metric (\d+)\nvariables (\d+)\nderived (\d+)\ngroups (\d+)\noperators (\d+)\nrules (\d+)\n")
_FACT = re.compile(rb"^(initial|goal) (\d+) (\d+) (.*)$", re.MULTILINE)
_GROUP = re.compile(rb"^group (\d+) (exclusive|derived|not shown: initial state|not shown: operator)(?: (\d+))?\n((?:  .*\n)*)", re.MULTILINE)
_OPERATOR = re.compile(rb"^  operator (\d+) line (\d+) (.*)$", re.MULTILINE)
_GROUP_FACT = re.compile(rb"^  (derived|holds|may remain|effect (\d+) sets) (\d+) (\d+) (.*)$", re.MULTILINE)
_REFUSED = re.compile(rb"(?:task|plan) refused: (?:line (\d+)|((?:operator|rule) \d+)): (.*)\n")
_AT = re.compile(rb"^  (?:operator|rule) \d+ line (\d+) ", re.MULTILINE)
_PLACE, _EXPECTED, _HINT = (re.compile(rb"^  %s (.*)$" % word, re.MULTILINE) for word in (b"at", b"expected", b"hint"))
_WRONG_NUMBER = re.compile(rb"^  number (\d+) must be (-?\d+) to (-?\d+)$", re.MULTILINE)
_LIST_COUNT = re.compile(rb"^  line (\d+) counts (\d+)$", re.MULTILINE)
_FOUND = re.compile(rb"^  (?:(found|unfinished) (.*)|(empty line|end of file))$", re.MULTILINE)


def summary_of(text: bytes) -> Optional[Summary]:
    """Returns the values of the answer of `show`. None of another answer."""
    found = _NUMBERS.match(text)
    if not found:
        return None
    metric, variables, derived, groups, operators, rules = map(int, found.groups())
    facts = [(word, Fact(int(variable), int(value), name)) for word, variable, value, name in _FACT.findall(text, found.end())]
    initial, goal = (tuple(fact for its, fact in facts if its == word) for word in (b"initial", b"goal"))
    return Summary(metric, variables, derived, groups, operators, rules, initial, goal)


def groups_of(text: bytes) -> Tuple[Group, ...]:
    """Returns the verdicts of the answer of `mutex`. None of another answer."""
    if not text.startswith(b"group "):
        return ()
    return tuple(_group(*found) for found in _GROUP.findall(text))


def _group(number: bytes, verdict: bytes, operator: bytes, reasons: bytes) -> Group:
    """Returns the values of the lines about a group."""
    named, facts = _OPERATOR.match(reasons), _GROUP_FACT.findall(reasons)
    group = Group(
        int(number),
        GroupVerdict(verdict.decode()),
        int(operator) if operator else None,
        facts=tuple(shown_fact(*it) for word, _, *it in facts if word in (b"derived", b"holds")),
        effects=tuple(Effect(int(effect), shown_fact(*it)) for _, effect, *it in facts if effect),
        may_remain=next((shown_fact(*it) for word, _, *it in facts if word == b"may remain"), None),
    )
    return group._replace(line=int(named[2]), name=named[3], shown=is_shown(named[3])) if named else group


def refusal_of(text: bytes) -> Optional[Refusal]:
    """Returns why a file is refused. None of another answer."""
    refused = _REFUSED.match(text)
    if not refused:
        return None
    at, place, expected, hint = (it.search(text) for it in (_AT, _PLACE, _EXPECTED, _HINT))
    number, counted, found = (it.search(text) for it in (_WRONG_NUMBER, _LIST_COUNT, _FOUND))
    line = refused[1] or (at and at[1])
    return Refusal(
        word=readable(refused[3]),
        line=int(line) if line else None,
        place=readable(refused[2] or (place[1] if place else b"")) or None,
        expected=readable(expected[1]) if expected else None,
        wrong_number=WrongNumber(*map(int, number.groups())) if number else None,
        list_count=ListCount(*map(int, counted.groups())) if counted else None,
        found=Found(readable(found[1] or found[3])) if found else None,
        text=readable(found[2]) if found and found[1] else None,
        hint=readable(hint[1]) if hint else None,
    )
