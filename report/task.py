"""The files: names as text, lines, and a task."""
import io

SHOWN = 256  # bytes of a name, as in the reasons of `sas`


def text(name, most=SHOWN):
    """Returns bytes as text. What isn't printable, as control and bidirectional characters, is
    \\xHH, and so is a space at the end."""
    shown = name[:most].decode("utf-8", "backslashreplace")
    if not shown.isprintable():
        hidden = ("".join(map("\\x%02x".__mod__, letter.encode())) for letter in shown)
        shown = "".join(it if it.isprintable() else its for it, its in zip(shown, hidden))
    if len(name) > most:
        return shown + " .."
    return shown[:-1] + "\\x20" if shown.endswith(" ") else shown


def lines(data):
    """Yields the lines of bytes without their ends, LF or CR LF."""
    for line in io.BytesIO(data):
        yield line[:-2] if line.endswith(b"\r\n") else line.rstrip(b"\n")


def numbers(*rows):
    return tuple(map(int, b" ".join(rows).split()))


def unique(them):
    return list(dict.fromkeys(them))


def operator(number, name, prevail, effects):
    """Returns an operator as a record: the facts that it requires, and its effects."""
    rows = [numbers(effect)[1:] for effect in effects]
    olds = [row[-3:-1] for row in rows if row[-2] >= 0]
    effects = [(row[-3], row[-1], list(zip(row[:-3:2], row[1:-3:2]))) for row in rows]
    return {"number": number, "name": text(name), "effects": effects,
            "requires": unique([*map(numbers, prevail), *olds])}


class Task:
    """A task that `sas` has accepted as well formed. A fact is a variable and its value.

    Attributes:
        variables: Of each its name, its axiom layer, the names of its values in bytes, and its
            value in the state section: the default of a derived variable.
        goal: Its facts.
        operators: The record of each that is wanted. An effect is a variable, the value that it
            gets, and the conditions.
        rules: The axiom rules as records, which derive the value `k` of the variable `v`. One
            whose value is the default never fires, so it isn't there.
        counts: The numbers that the page has of it.
    """

    def __init__(self, data, wanted):
        self.rows = lines(data)
        self.skip(6)
        variables = [(self.next(1), self.number(), self.listed(1)) for _ in range(self.number())]
        groups = self.number()
        for _ in range(groups):
            self.skip(1)
            self.listed(1)
        self.skip(1)
        self.variables = [(*variable, self.number()) for variable in variables]
        self.skip(2)
        self.goal = unique(map(numbers, self.listed(1)))
        every, self.operators = self.number(), {}
        for number in range(every):
            name, prevail, effects = self.next(1), self.listed(), self.listed(2)
            if number in wanted:
                self.operators[number] = operator(number, name, prevail, effects)
        rules, self.rules = self.number(), []
        for number in range(rules):
            self.skip(1)
            facts, (var, _, value) = list(map(numbers, self.listed())), numbers(self.next())
            self.skip(1)
            if value != self.variables[var][3]:
                self.rules.append({"number": number, "v": var, "k": value, "facts": facts})
        derived = sum(layer >= 0 for _, layer, _, _ in self.variables)
        self.counts = {"variables": len(variables), "derived": derived, "operators": every,
                       "axiom rules": rules, "mutex groups": groups}

    def skip(self, count):
        for _ in range(count):
            next(self.rows)

    def next(self, skipped=0):
        self.skip(skipped)
        return next(self.rows)

    def number(self):
        return int(next(self.rows))

    def listed(self, skipped=0):
        """Returns the lines of a list that begins with their number, and skips some after it."""
        found = [next(self.rows) for _ in range(self.number())]
        self.skip(skipped)
        return found
