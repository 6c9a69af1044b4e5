"""What `sas` says about a plan, as records: the verdict, the reasons, and what its steps change."""
import array
import re

from .task import lines, text, unique

# the lines of reasons; the first form that fits counts. A name comes last on its line
FORMS = tuple(re.compile(" +" + form, re.DOTALL) for form in (
    r"(?P<label>(?:(?:effect|condition|(?P<kind>rule)) \d+(?: line \d+)? )?"
    r"(?:requires|derives|sets)|actual|(?:old|default) value) "
    r"(?P<var>\d+) (?P<value>\d+) (?P<name>.*)",
    r"(?P<label>since )(?:step (?P<step>\d+) )?(?P<name>.*)",
    r"(?P<label>)(?P<kind>step) (?P<step>\d+) (?P<name>.*)",
    r"(?P<label>)(?P<name>(?P<kind>goal) fact \d+)",
    r"(?P<label>(?P<kind>operator|similar operator) (?P<number>\d+) line \d+)(?: (?P<name>.*)|)",
    r"(?P<label>(?:number|line) \d+|at|expected|found|unfinished|hint|metric|steps|"
    r"sum of cost lines|on layer) (?P<name>.*)",
    r"(?P<label>)(?P<name>.*)"))


def record(line):
    """Returns a line of reasons as a record: its label and, where it has them, the kind, a number,
    a step, a fact, and the name that stands last."""
    found = next(filter(None, (form.fullmatch(line) for form in FORMS)))
    said = {key: it for key, it in found.groupdict().items() if it is not None}
    said.update((key, int(said[key])) for key in ("number", "step", "var", "value") if key in said)
    return said


class Moves:
    """What the steps of plans do, each thing once: an operator, and each variable that changes with
    its new value.

    Attributes:
        initial: The value of each variable in the initial state.
        found: The number of each move, whose numbers are packed.
        operators: The cost of each operator that occurs.
    """

    def __init__(self):
        self.initial, self.found, self.operators = [], {}, {}

    def number(self, move):
        return self.found.setdefault(array.array("I", move).tobytes(), len(self.found))


class Plan:
    """A plan file with what `sas` says about it.

    Attributes:
        verdict: The line of the verdict; `kind` is valid, invalid or refused.
        said: The lines of the reasons as text; `reasons` has them as records.
        steps: The moves of the steps that went through; `cost` is what they cost.
        rest: The names of the steps after these. The first failed, the others weren't judged.
    """

    def __init__(self, label, data, answer, moves):
        self.label, self.data, self.verdict, self.said = label, data, "", []
        self.steps, self.cost, initial, move = array.array("I"), 0, [], []
        for line in answer:
            word, _, rest = line.partition(b" ")
            if word == b"change":
                var, _, value, _ = rest.split(b" ", 3)
                move += int(var), int(value)
                continue
            if move:
                self.steps.append(moves.number(move))
                move = []
            if word == b"step":
                _, operator, cost, _ = rest.split(b" ", 3)
                move = [int(operator)]
                self.cost += int(cost)
                moves.operators[move[0]] = int(cost)
            elif word == b"initial":
                initial.append(int(rest.split(b" ", 2)[1]))
            elif word:
                self.verdict = text(line, len(line))
            else:
                self.said.append(text(line, len(line)))
        if not self.verdict:
            raise ValueError("sas printed no verdict")
        moves.initial = initial or moves.initial
        self.kind = self.verdict.split(" ")[1].rstrip(":")
        self.reasons = list(map(record, self.said))
        names = [] if self.kind == "refused" else [it for it in lines(data) if it[:1] == b"("]
        self.rest = [text(name[1:-1]) for name in names[len(self.steps):]]

    def operators(self):
        """Returns the numbers of the operators of the step that fails."""
        return unique(it["number"] for it in self.reasons if it.get("kind") == "operator")

    def facts(self, word):
        """Returns the facts of the reasons with this word: what fails, or what effects set."""
        them = (it for it in self.reasons if "var" in it and it.get("kind") != "rule")
        named = (it for it in them if it["label"].split(" ")[-1] == word)
        return unique((it["var"], it["value"]) for it in named)
