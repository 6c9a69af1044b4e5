#!/usr/bin/env python3
"""Tries the patterns of examples/parse.py and of docs/GUIDE.md over the answers that the cases of the program say.

    python3 cases/patterns.py

The code is run, and given each answer of verdicts.json, why.json, traces.json, many.json,
tasks.json and groups.json. What is found, put into the words of the answer again, has to give its
line, and no other pattern may find anything.

No proof reads them. A pattern that takes a name for a verdict, or lacks a form of an answer, would be found here alone.
"""
import os
import re
import types

import harness
from harness import differs
from texts import TOP, as_bytes, table, text_of

CODE, PAGE = "examples/parse.py", "docs/GUIDE.md"
# how a line looks whose fields were found
FORMS = {
    "VALID": "plan valid: {steps} steps, cost {cost}",
    "INVALID": "plan invalid: {reason}",
    "REFUSED": "{file} refused: {reason}",
    "LAYERED": "task layered",
    "STEP": "step {step}: {why}",
    "GOAL": "goal fact {fact} not reached",
    "COST": "cost is {sum}, not {cost}",
    "LINE": "line {line}: {word}",
    "LAYERS": "{part} {number}: {why}",
    "LABELLED": "{label}: {answer}",
}
VERDICTS, REASONS = ("VALID", "INVALID", "REFUSED", "LAYERED"), ("STEP", "GOAL", "COST", "LINE", "LAYERS")
# labels that look like answers
LABELS = ("p.1", "a b: c", "x: plan valid: 1 steps, cost 1", "2 plans, 2 valid, best cost 1: x", "  spaces", "form\x0cfeed", "caf\xe9")


def of_example():
    """Returns the code, run."""
    module = types.ModuleType("parse")
    exec(compile(text_of(os.path.join(TOP, CODE)), CODE, "exec"), module.__dict__)
    return module


def wrong_lab(answer, name, fields):
    """Returns what is wrong with what these find in an answer about a plan, of which the verdict is known."""
    expected = {"steps": fields.get("steps"), "cost": fields.get("cost") if name == "valid" else None}
    expected["why_not"] = fields.get("reason") if fields.get("file") != "task" else None
    # the patterns that the page gives to a parser of Downward Lab
    added = re.findall(r'parser\.add_pattern\("(\w+)", r"(.*?)", ', text_of(f"{TOP}/{PAGE}"))
    found = {key: re.search(pattern, answer, re.MULTILINE) for key, pattern in added}
    got = {key: it and it[1] for key, it in found.items()}
    return differs(got, expected)


def found_by(parse, names, line):
    """Returns which of these patterns find a line, each with what it finds."""
    found = {name: re.search(getattr(parse, name), line) for name in names}
    return {name: it.groupdict() for name, it in found.items() if it}


def wrong_line(parse, line):
    found = found_by(parse, VERDICTS, line)
    parts = [(line, found)]
    parts += [(it["reason"], found_by(parse, REASONS, it["reason"])) for it in found.values() if "reason" in it]
    return [f"{part!r}: {it}" for part, it in parts if [FORMS[name].format(**them) for name, them in it.items()] != [part]]


def wrong_answer(parse, answer):
    """Returns what is wrong with what is found in an answer about a plan: its verdict's line is the first of an answer with reasons,
    and the last of a trace."""
    lines = answer.split("\n")
    line = lines[0] if re.match("plan |task ", answer) else lines[-2]
    name, fields = parse.verdict(answer)
    rebuilt = FORMS.get(name.upper(), name).format(**fields)
    reasons = [it for it in lines if re.match("  ", it)]
    wrong = wrong_line(parse, line) + ([] if rebuilt == line else [rebuilt]) + wrong_lab(answer, name, fields)
    return wrong + [it for it in reasons if it[2:] not in parse.reasons(answer)]


def wrong_plans(parse, lines):
    answer = "".join(f"{it}\n" for it in lines)
    if len(lines) == 1:
        return wrong_line(parse, lines[0])
    found = parse.verdicts(answer)
    rebuilt = [f"{label}: {FORMS[name.upper()].format(**fields)}" for label, name, fields in found]
    last = re.search(parse.SUMMARY, lines[-1])
    valid, costs = [it for it in found if it[1] == "valid"], [int(it[2]["cost"]) for it in found if it[1] == "valid"]
    expected = {"plans": str(len(found)), "valid": str(len(valid)), "cost": None, "best": None}
    if valid:
        expected |= {"cost": str(min(costs)), "best": valid[costs.index(min(costs))][0]}
    wrong = [] if last and last.groupdict() == expected else [f"{last and last.groupdict()}, not {expected}"]
    return wrong + [f"{got!r}, not {line!r}" for got, line in zip(rebuilt, lines[:-1]) if got != line]


def wrong_runs(parse, runs):
    """Returns what is wrong with what is found in several answers of `plans`, one after another."""
    answers = ["".join(f"{it}\n" for it in lines) for lines in runs]
    expected = sum(map(parse.verdicts, answers), [])
    return [] if parse.verdicts("".join(answers)) == expected and len(expected) == sum(map(len, runs)) - len(runs) else [f"{runs}"]


def wrong_groups(parse, lines):
    found = [re.search(parse.GROUP, line) for line in lines]
    if not all(found):
        return [f"nothing found in {lines}"]
    rebuilt = ["group {group} {verdict}".format(**it.groupdict()) + (f": {it['why']}" if it["why"] else "") for it in found]
    return [f"{got!r}, not {line!r}" for got, line in zip(rebuilt, lines) if got != line]


def labelled():
    """Yields the lines of `plans` with labels that look like answers."""
    answers = ["plan valid: 2 steps, cost 18446744073709551615", "plan invalid: step 1: not applicable", "plan refused: line 2: end"]
    for label in LABELS:
        lines = [f"{label}: {it}" for it in answers]
        yield f"labels, {label!r}", [*lines, f"3 plans, 1 valid, best cost 18446744073709551615: {label}"]
        yield f"labels, {label!r}, none valid", [*lines[1:], "2 plans, 0 valid"]


def answers():
    """Yields the answers of the cases, each with who looks at it."""
    for case in table("verdicts.json"):
        yield f"verdicts.json: {case['name']}", as_bytes(case["output"]).decode("latin-1"), wrong_answer
    for case in table("why.json"):
        for plan in case["plans"]:
            yield f"why.json: {plan['shows']}", "".join(f"{it}\n" for it in plan["lines"]), wrong_answer
    for case in table("traces.json"):
        yield f"traces.json: {case['shows']}", "".join(f"{it}\n" for it in case["lines"]), wrong_answer
    for case in table("many.json"):
        yield f"many.json: {case['shows']}", case["lines"], wrong_plans
    for name, lines in labelled():
        yield name, lines, wrong_plans
    yield "several answers of plans", [lines for _, lines in labelled()], wrong_runs
    for case in table("tasks.json"):
        yield f"tasks.json: {case['file']}", f"{case['check']}\n", wrong_answer
        if case["check"] == "task layered":
            yield f"tasks.json: groups of {case['file']}", case["mutex"], wrong_groups
    for case in table("groups.json"):
        lines = as_bytes(case["output"]).decode("latin-1").split("\n")[:-1]
        yield f"groups.json: {case['name']}", lines, wrong_groups if not re.match("task ", "".join(lines)) else wrong_refusals


def wrong_refusals(parse, lines):
    return [it for line in lines for it in wrong_line(parse, line)]


def tests():
    parse = of_example()
    for name, answer, check in answers():
        yield name, check(parse, answer)


if __name__ == "__main__":
    harness.main(tests)
