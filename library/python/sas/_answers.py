"""Answers, and the exceptions of calls."""
import array
import enum
import re
from typing import Any, Callable, Iterator, NamedTuple, Optional, Pattern, Tuple, TypeVar

from ._task_values import Group, Refusal, Summary, groups_of, refusal_of, summary_of
from ._values import Fact, Reasons, Step, initial_of, readable, reasons_of, steps_of

_VERDICT = re.compile(rb"(plan|task|state) (valid|invalid|refused): (.*)")
# the line about a mutex group that isn't exclusive
_GROUP = re.compile(rb"^group \d+ (?!exclusive$).*$", re.MULTILINE)
_STEPS = re.compile(rb"plan valid: (\d+) steps, cost \d+")
_COST = re.compile(rb"plan (?:valid: \d+ steps, cost|invalid: cost is \d+, not) (\d+)")
_SUM = re.compile(rb"plan (?:valid: \d+ steps, cost|invalid: cost is) (\d+)(?:, not \d+)?")
_COSTS = re.compile(rb"^step \d+ \d+ (\d+) ", re.MULTILINE)
_FAILING_STEP = re.compile(rb"plan invalid: step (\d+): .*")
_FAILURE = re.compile(rb"(state) refused: .*|plan invalid: (?:step \d+: (.*)|(goal) fact .*|(cost) is .*)")
_GOAL_FACT = re.compile(rb"plan invalid: goal fact (\d+) not reached")


class Verdict(str, enum.Enum):
    """What an answer says: of a plan valid, invalid or refused; of other requests yes, no or refused."""

    VALID = "valid"
    INVALID = "invalid"
    REFUSED = "refused"
    YES = "yes"
    NO = "no"

    __str__ = str.__str__


class File(str, enum.Enum):
    """Which file is refused."""

    TASK = "task"
    PLAN = "plan"

    __str__ = str.__str__


class Failure(str, enum.Enum):
    """What fails: a step that isn't applicable, names no operator, has the number of none, or has effects that conflict; a fact of the goal;
    the cost; or the state that a run starts in."""

    NOT_APPLICABLE = "not applicable"
    NO_SUCH_NAME = "no operator of that name"
    NO_SUCH_NUMBER = "no operator of that number"
    CONFLICT = "conflicting effects"
    GOAL = "goal"
    COST = "cost"
    STATE = "state"

    __str__ = str.__str__


_Value = TypeVar("_Value")


class _Said(NamedTuple):
    is_yes: bool
    text: bytes


class Answer(_Said):
    """The answer of a call. It is true if the verdict is yes, and unpacks as `is_yes, text = answer`. The other attributes are read from the
    text, at the first access.

    Attributes:
        is_yes: Whether the answer is yes, or the text was printed.
        text: What `sas` prints, in bytes.
    """

    def __bool__(self) -> bool:
        return self.is_yes

    def __str__(self) -> str:
        return readable(self.text[:-1])

    def __repr__(self) -> str:
        line, lines = readable(self._line()), self.text.count(b"\n")
        return f"<sas.Answer {line!r}{f', {lines} lines' if lines > 1 else ''}>"

    def __reduce__(self) -> Tuple[Any, ...]:
        return type(self), tuple(self)

    @property
    def verdict(self) -> Verdict:
        """The verdict."""
        found = _VERDICT.fullmatch(self._line())
        if found:
            return Verdict(found[2].decode())
        return Verdict.YES if self.is_yes else Verdict.NO

    @property
    def refused_file(self) -> Optional[File]:
        """Which file is refused, if one is."""
        found = _VERDICT.fullmatch(self._line())
        return File(found[1].decode()) if found and found[2] == b"refused" and found[1] != b"state" else None

    @property
    def failure(self) -> Optional[Failure]:
        """What fails, if the answer is `plan invalid: ..`, or a state is refused."""
        found = _FAILURE.fullmatch(self._line())
        word = found[found.lastindex or 0].decode() if found else ""
        return next((it for it in Failure if it.value == word), None)

    @property
    def reason(self) -> Optional[str]:
        """The reason for a no, such as `step 2: not applicable` or `line 7: name`. None if the answer is yes.

        For `mutex` it is the first line about a group that isn't exclusive.
        """
        if self.is_yes:
            return None
        found = _VERDICT.fullmatch(self._line())
        group = None if found else _GROUP.search(self.text)
        return readable(found[3]) if found else readable(group[0]) if group else None

    @property
    def steps(self) -> Optional[int]:
        """The number of steps if the answer is `plan valid: S steps, cost C`, else None."""
        return self._number(_STEPS)

    @property
    def cost(self) -> Optional[int]:
        """The plan's cost, if the answer is `plan valid: S steps, cost C` or `plan invalid: cost is SUM, not C`, else None."""
        return self._number(_COST)

    @property
    def sum(self) -> Optional[int]:
        """What the steps cost that go through: of a trace, or if the answer is `plan valid: ..` or `plan invalid: cost is SUM, not C`."""
        return self._kept("sum", lambda _: self._sum())

    def _sum(self) -> Optional[int]:
        return sum(map(int, _COSTS.findall(self.text))) if self._is_trace() else self._number(_SUM)

    @property
    def failing_step(self) -> Optional[int]:
        """The step that fails, counted from 1, if the answer is `plan invalid: step S: ..`, else None."""
        return self._number(_FAILING_STEP)

    @property
    def goal_fact(self) -> Optional[int]:
        """The first goal fact that fails, counted from 0, if the answer is `plan invalid: goal fact I not reached`, else None."""
        return self._number(_GOAL_FACT)

    @property
    def initial(self) -> Tuple[Fact, ...]:
        """The initial state, if the answer is a trace, else an empty tuple."""
        return self._kept("initial", lambda text: tuple(initial_of(text)))

    @property
    def trace_steps(self) -> Iterator[Step]:
        """The steps that went through, if the answer is a trace. They are read from the text one by one, at each access anew."""
        return steps_of(self.text) if self._is_trace() else iter(())

    @property
    def reasons(self) -> Optional[Reasons]:
        """The reasons for a no in the answer of `plan_why` or `check_why`. None for a yes, and in other answers."""
        return self._kept("reasons", reasons_of)

    @property
    def refusal(self) -> Optional[Refusal]:
        """Why a file is refused. None if none is."""
        return self._kept("refusal", refusal_of)

    @property
    def groups(self) -> Tuple[Group, ...]:
        """A verdict for each mutex group, with its reasons, if the answer is that of `mutex` or `mutex_why`."""
        return self._kept("groups", groups_of)

    @property
    def summary(self) -> Optional[Summary]:
        """What the task is about, if the answer is that of `show`, else None."""
        return self._kept("summary", summary_of)

    def _kept(self, name: str, read: Callable[[bytes], _Value]) -> _Value:
        """Returns a value, which is read from the text once."""
        if name not in self.__dict__:
            self.__dict__[name] = read(self.text)
        value: _Value = self.__dict__[name]
        return value

    def _is_trace(self) -> bool:
        return self.text.startswith(b"initial ")

    def _line(self) -> bytes:
        """Returns the line with the verdict: the last one of a trace, the first one of other answers."""
        start = self.text.rfind(b"\n", 0, -1) + 1 if self._is_trace() else 0
        return self.text[start : self.text.find(b"\n", start)]

    def _number(self, line: Pattern[bytes]) -> Optional[int]:
        """Returns the number of the line with the verdict, if it has this form."""
        found = line.fullmatch(self._line())
        return int(found[1]) if found else None


class State(NamedTuple):
    """The state behind the steps of a run that go through. It is true if all do.

    Attributes:
        is_yes: Whether all steps go through.
        values: A value for each variable, as an array("I"), which `start` takes. If a step doesn't go through, they are those before it.
            Empty if the start isn't a state of the task.
    """

    is_yes: bool
    values: "array.array[int]"

    def __bool__(self) -> bool:
        return self.is_yes


class Refused(ValueError):
    """The bytes aren't those of a layered task.

    Attributes:
        text: What `sas check` prints, in bytes.
    """

    def __init__(self, text: bytes) -> None:
        super().__init__(text)
        self.text = text

    def __str__(self) -> str:
        return str(self.answer)

    @property
    def answer(self) -> Answer:
        """The answer of `check`, a no."""
        return Answer(False, self.text)


class InputTooLong(ValueError):
    """An input has more than 4,294,967,296 bytes, or a file more than `max_bytes`."""


class AnswerTooLong(ValueError):
    """The text of an answer has more than `max_answer_bytes` bytes.

    Attributes:
        size: How many bytes it has.
    """

    def __init__(self, size: int) -> None:
        super().__init__(size)
        self.size = size

    def __str__(self) -> str:
        return f"sas: answer too long: {self.size} bytes"


class NoTask(ValueError):
    """A plan was given to a task that was closed."""
