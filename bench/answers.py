"""What a request has to print for an input that was made here, so that no wrong answer is measured unnoticed.

It follows from how the input was made: each task is layered, each plan is valid, each group of the tasks with groups is
exclusive, and each file is written in the canonical form. The status is 0 each time.
"""
import hashlib

from make import DOMAINS

PIECE = 1 << 20


def file_pieces(path):
    with open(path, "rb") as file:
        yield from iter(lambda: file.read(PIECE), b"")


def named_lines(word, facts, names):
    return ["%s %d %d %s" % (word, var, value, names[var][value]) for var, value in facts]


def summary_lines(domain):
    """Yields the lines of `show`."""
    counts = domain.counts()
    variables = list(domain.variables())
    names = [values for _, values in variables]
    yield "metric 0"
    yield "variables %d" % counts["variables"]
    yield "derived %d" % sum(layer >= 0 for layer, _ in variables)
    yield from ("%s %d" % (word, counts[word]) for word in ("groups", "operators", "rules"))
    yield from named_lines("initial", enumerate(domain.initial()), names)
    yield from named_lines("goal", domain.goal(), names)


def expected_lines(request, about):
    """Returns the lines of the answer to a request that doesn't print its input."""
    if request == "check":
        return ["task layered"]
    if request == "plan":
        return ["plan valid: %d steps, cost %d" % (about["steps"], about["steps"])]
    if request == "mutex":
        return ["group %d exclusive" % group for group in range(about["groups"])]
    return summary_lines(DOMAINS[about["domain"]](about["objects"]))


def expected(request, made):
    """Returns the expected bytes, in pieces."""
    if request == "print":
        return file_pieces(made.task)
    if request == "steps":
        return file_pieces(made.plan)
    return ((line + "\n").encode("ascii") for line in expected_lines(request, made.about))


def digest(pieces):
    """Returns a digest of an output, by which two outputs are compared."""
    made = hashlib.sha256()
    for piece in pieces:
        made.update(piece)
    return made.hexdigest()


def expected_digest(request, made):
    return digest(expected(request, made))
