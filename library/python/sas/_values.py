"""What the texts of answers say, as values: facts, the steps of a trace, and the reasons why a plan isn't valid."""
import re
from typing import Iterator, List, NamedTuple, Optional, Tuple


_CONTROL = re.compile(r"[\x00-\x09\x0b-\x1f\x7f]")


def readable(text: bytes) -> str:
    """Returns bytes as text. What isn't UTF-8, and control characters but LF, are `\\xHH`."""
    return _CONTROL.sub(lambda it: f"\\x{ord(it[0]):02x}", text.decode(errors="backslashreplace"))


def is_shown(name: bytes) -> bool:
    """Whether a name of a reason isn't as in the file: a byte of it is `\\xHH`, or it is cut off."""
    return b"\\" in name or len(name) > 256


class Fact(NamedTuple):
    """A value of a variable.

    Attributes:
        variable, value: Their numbers.
        name: The name of the value, in bytes.
        shown: Whether a reason shows another name than the file has: without control characters, or cut off after 256 bytes.
    """

    variable: int
    value: int
    name: bytes
    shown: bool = False

    def __str__(self) -> str:
        return f"{self.variable} {self.value} {readable(self.name)}"


class Change(NamedTuple):
    """A variable that a step changed.

    Attributes:
        variable, old, new: The variable, and its values before and after the step.
        name: The name of the new value, in bytes.
    """

    variable: int
    old: int
    new: int
    name: bytes

    def __str__(self) -> str:
        return f"{self.variable} {self.old} {self.new} {readable(self.name)}"


class Step(NamedTuple):
    """A step of a trace.

    Attributes:
        operator, cost: The operator that the step means, and what it costs.
        name: The name of the operator, in bytes.
        changes: What the step changed, by variable.
    """

    operator: int
    cost: int
    name: bytes
    changes: List[Change]

    def __str__(self) -> str:
        return "\n".join([f"{self.operator} {self.cost} {readable(self.name)}", *(f"change {it}" for it in self.changes)])


class NamedStep(NamedTuple):
    """A step of a plan. Steps count from 1. `shown` is as in `Fact`."""

    number: int
    name: bytes
    shown: bool = False


class SimilarOperator(NamedTuple):
    """An operator whose name has the words of a step's name, in the same order or in another. It begins on this line of the task file.
    `shown` is as in `Fact`."""

    operator: int
    line: int
    name: bytes
    shown: bool = False


class Rule(NamedTuple):
    """An axiom rule in a cause.

    Attributes:
        number: The rule.
        is_firing: Whether it derives the fact. If not, it requires the fact, which fails.
        fact: The fact that it derives or requires.
    """

    number: int
    is_firing: bool
    fact: Fact


class Cause(NamedTuple):
    """Why a fact fails that an operator or the goal requires.

    Attributes:
        required, actual: The fact, and what holds in its place.
        since: The last step that changed the variable. None if it has its initial value.
        rules: The derivation of the actual value, then the rules that could derive the required one. A rule that an earlier cause has
            isn't repeated.
        no_rule: Whether no rule derives the required value.
    """

    required: Fact
    actual: Fact
    since: Optional[NamedStep]
    rules: Tuple[Rule, ...]
    no_rule: bool


class BlockedOperator(NamedTuple):
    """An operator that isn't applicable. It begins on this line of the task file, and each cause is about one of its preconditions."""

    operator: int
    line: int
    causes: Tuple[Cause, ...]


class GoalFact(NamedTuple):
    """A goal fact that fails: its number in the goal, and why."""

    index: int  # type: ignore[assignment]
    cause: Cause


class Effect(NamedTuple):
    """An effect of an operator that fires, and the fact that it sets."""

    number: int
    fact: Fact


class Conflict(NamedTuple):
    """Two effects of an operator that set one variable to different values. The operator begins on this line of the task file."""

    operator: int
    line: int
    effects: Tuple[Effect, ...]


class CostFacts(NamedTuple):
    """What the cost of a plan is made of: the metric, the number of steps, and the sum of their operators' cost lines."""

    metric: int
    steps: int
    cost_lines: int


class UnknownStep(NamedTuple):
    """A step whose name no operator has, and an operator that may be meant. `shown` is as in `Fact`."""

    number: int
    name: bytes
    similar_operator: Optional[SimilarOperator]
    shown: bool = False


class CouldAlsoBe(NamedTuple):
    """The first step for which a later operator of its name was applicable, too, and the first such operator."""

    step: int
    operator: int


class MadeAnyway(NamedTuple):
    """What follows if the step that fails is made anyway, and the steps after it.

    Attributes:
        failing_later, later: How many of the later steps fail, and how many there are.
        first_failing: The first five of those that fail, or all.
        failing_goal, goal: How many goal facts fail after the last step, and how many there are.
    """

    failing_later: int
    later: int
    first_failing: Tuple[NamedStep, ...]
    failing_goal: int
    goal: int


class Reasons(NamedTuple):
    """The reasons for a no. Which of the attributes are set depends on the verdict, and the others are None or empty. If a file is refused,
    only the hint and the text are.

    Attributes:
        step: The step that fails.
        similar_operator: An operator that may be meant, if no operator has the step's name.
        further_steps: Up to four of the other steps that name no operator, in their order.
        operators: The operators of the step's name, if none is applicable.
        goal_facts: The goal facts that fail.
        unknown_number: The number of the step, if no operator has it.
        failing, total: How many steps name no operator, or how many goal facts fail; and of how many.
        conflict: The effects that disagree.
        if_made: What follows if the step is made anyway, if an operator has its name.
        cost: What the cost is made of, if it isn't that of the plan.
        could_also_be: Where the plan may mean another operator.
        hint: What may be the mistake.
        text: All lines of the reasons, in bytes. A later version may have others than those above.
    """

    step: Optional[NamedStep] = None
    similar_operator: Optional[SimilarOperator] = None
    further_steps: Tuple[UnknownStep, ...] = ()
    operators: Tuple[BlockedOperator, ...] = ()
    goal_facts: Tuple[GoalFact, ...] = ()
    failing: Optional[int] = None
    total: Optional[int] = None
    conflict: Optional[Conflict] = None
    if_made: Optional[MadeAnyway] = None
    cost: Optional[CostFacts] = None
    could_also_be: Optional[CouldAlsoBe] = None
    hint: Optional[str] = None
    text: bytes = b""
    unknown_number: Optional[int] = None

    def __str__(self) -> str:
        return readable(self.text[:-1])


_INITIAL = re.compile(rb"initial (\d+) (\d+) (.*)\n")
_STEP = re.compile(rb"^step \d+ (\d+) (\d+) (.*)\n((?:change .*\n)*)", re.MULTILINE)
_CHANGE = re.compile(rb"^change (\d+) (\d+) (\d+) (.*)$", re.MULTILINE)
_FAILING_STEP = re.compile(rb"  step (\d+) (.*)\n")
_NUMBERED_STEP = re.compile(rb"  step (\d+) number (\d+)\n")
_UNKNOWN = re.compile(rb"  step (\d+) (.*)\n(?:  similar operator (\d+) line (\d+) (.*)\n)?")
_COUNTS = re.compile(rb"^  (\d+) of (\d+) ", re.MULTILINE)
_OPERATOR = re.compile(rb"^  operator (\d+) line (\d+)\n((?:    .*\n)*)", re.MULTILINE)
_GOAL_FACT = re.compile(rb"^  goal fact (\d+)\n((?:    .*\n)*)", re.MULTILINE)
_EFFECT = re.compile(rb"^    effect (\d+) sets (\d+) (\d+) (.*)$", re.MULTILINE)
_IF_MADE = re.compile(
    rb"^  if made anyway (\d+) of (\d+) later steps fail\n((?:    step .*\n)*)  if made anyway (\d+) of (\d+) goal facts fail$",
    re.MULTILINE,
)
_LATER_STEP = re.compile(rb"^    step (\d+) (.*)$", re.MULTILINE)
_COST = re.compile(rb"^  metric (\d+)\n  steps (\d+)\n  sum of cost lines (\d+)$", re.MULTILINE)
_COULD_ALSO_BE = re.compile(rb"^  step (\d+) could also be operator (\d+)$", re.MULTILINE)
_HINT = re.compile(rb"^  hint (.*)$", re.MULTILINE)
_CAUSE = re.compile(
    rb"^    requires (\d+) (\d+) (.*)\n    actual (\d+) (\d+) (.*)\n    since (?:step (\d+) (.*)|the (?:initial state|start))\n"
    rb"((?:    (?!requires ).*\n)*)",
    re.MULTILINE,
)
_RULE = re.compile(rb"^    rule (\d+) (derives|requires) (\d+) (\d+) (.*)$", re.MULTILINE)


def initial_of(trace: bytes) -> Iterator[Fact]:
    """Yields the facts of the initial state of a trace."""
    found = _INITIAL.match(trace)
    while found:
        yield Fact(int(found[1]), int(found[2]), found[3])
        found = _INITIAL.match(trace, found.end())


def steps_of(trace: bytes) -> Iterator[Step]:
    """Yields the steps of a trace, one after another."""
    for step in _STEP.finditer(trace):
        changes = [Change(int(var), int(old), int(new), name) for var, old, new, name in _CHANGE.findall(step[4])]
        yield Step(int(step[1]), int(step[2]), step[3], changes)


def shown_fact(variable: bytes, value: bytes, name: bytes) -> Fact:
    """Returns a fact of a reason."""
    return Fact(int(variable), int(value), name, is_shown(name))


def _shown_step(number: bytes, name: bytes) -> NamedStep:
    """Returns a step of a reason."""
    return NamedStep(int(number), name, is_shown(name))


def reasons_of(text: bytes) -> Optional[Reasons]:
    """Returns the reasons in the answer about a plan, or about a task that is refused. None if there are none."""
    verdict, _, rest = text.partition(b"\n")
    if not rest.startswith(b"  ") or not verdict.startswith((b"plan ", b"task ")):
        return None
    found = _HINT.search(rest)
    hint = readable(found[1]) if found else None
    if not verdict.startswith(b"plan invalid: "):
        return Reasons(hint=hint, text=rest)
    is_number = verdict.endswith(b": no operator of that number")
    numbered = _NUMBERED_STEP.match(rest) if is_number else None
    step = _FAILING_STEP.match(rest) if verdict.startswith(b"plan invalid: step ") and not is_number else None
    unknown = list(_unknown_steps(rest)) if verdict.endswith(b": no operator of that name") else []
    counts, if_made, cost = (it.search(rest) for it in (_COUNTS, _IF_MADE, _COST))
    # the name of a step may look like this line
    other = _COULD_ALSO_BE.search(rest, counts.end() if unknown and counts else step.end() if step else 0)
    operators = _OPERATOR.findall(rest)
    conflicts = verdict.endswith(b": conflicting effects")
    return Reasons(
        step=_shown_step(step[1], step[2]) if step else NamedStep(int(numbered[1]), b"") if numbered else None,
        unknown_number=int(numbered[2]) if numbered else None,
        similar_operator=unknown[0].similar_operator if unknown else None,
        further_steps=tuple(unknown[1:]),
        operators=() if conflicts else tuple(BlockedOperator(int(it), int(line), _causes(block)) for it, line, block in operators),
        goal_facts=tuple(GoalFact(int(index), cause) for index, block in _GOAL_FACT.findall(rest) for cause in _causes(block)),
        failing=int(counts[1]) if counts else None,
        total=int(counts[2]) if counts else None,
        conflict=_conflict(*operators[0]) if conflicts and operators else None,
        if_made=_made_anyway(*if_made.groups()) if if_made else None,
        cost=CostFacts(int(cost[1]), int(cost[2]), int(cost[3])) if cost else None,
        could_also_be=CouldAlsoBe(int(other[1]), int(other[2])) if other else None,
        hint=hint,
        text=rest,
    )


def _unknown_steps(lines: bytes) -> Iterator[UnknownStep]:
    """Yields the steps at the front of the reasons that name no operator."""
    found = _UNKNOWN.match(lines)
    while found:
        similar = SimilarOperator(int(found[3]), int(found[4]), found[5], is_shown(found[5])) if found[3] else None
        yield UnknownStep(int(found[1]), found[2], similar, is_shown(found[2]))
        found = _UNKNOWN.match(lines, found.end())


def _causes(block: bytes) -> Tuple[Cause, ...]:
    """Returns the causes in the lines about an operator or a goal fact."""
    return tuple(
        Cause(
            shown_fact(it[1], it[2], it[3]),
            shown_fact(it[4], it[5], it[6]),
            _shown_step(it[7], it[8]) if it[7] else None,
            tuple(_rules(it[9])),
            b"    no rule derives it\n" in it[9],
        )
        for it in _CAUSE.finditer(block)
    )


def _rules(lines: bytes) -> Iterator[Rule]:
    """Yields the rules in the lines of a cause."""
    for number, verb, var, value, name in _RULE.findall(lines):
        yield Rule(int(number), verb == b"derives", shown_fact(var, value, name))


def _conflict(operator: bytes, line: bytes, block: bytes) -> Conflict:
    """Returns the effects in the lines about an operator."""
    effects = (Effect(int(it), shown_fact(*fact)) for it, *fact in _EFFECT.findall(block))
    return Conflict(int(operator), int(line), tuple(effects))


def _made_anyway(failing: bytes, later: bytes, block: bytes, failing_goal: bytes, goal: bytes) -> MadeAnyway:
    """Returns what follows if a step is made anyway. The block has the later steps that fail."""
    steps = (_shown_step(number, name) for number, name in _LATER_STEP.findall(block))
    return MadeAnyway(int(failing), int(later), tuple(steps), int(failing_goal), int(goal))
