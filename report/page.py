"""The page: its data, the verdicts, the style and the scripts."""
import array
import base64
import hashlib
import html
import json
import pathlib
import re
import zlib

from .task import Task, text
from .verdict import SIGNS, article, bdi

FOLDER = pathlib.Path(__file__).resolve().parent / "page"
SCRIPTS = ("data causes labels lists geometry drawing paper facts panels plans input").split()
POLICY = ("default-src 'none'; style-src 'sha256-%s'; script-src 'sha256-%s'; base-uri 'none'; "
          "form-action 'none'; require-trusted-types-for 'script'; trusted-types 'none'")
# bytes of data that stand in the page as they are, so that it is whole when it is loaded
PLAIN = 1_000_000


def unpacked(moves):
    """Yields each move as text. It has the difference to the operator before, which is shorter."""
    last = 0
    for packed in moves:
        move = array.array("I")
        move.frombytes(packed)
        operator, *changes = move
        yield "[%s]" % ",".join(map(str, [operator - last, *changes]))
        last = operator


def task_data(task, moves, plans):
    """Returns what the page needs of a task: of variables the values that occur, and the rest."""
    used = [{value} for value in moves.initial or [0] * len(task.variables)]
    facts = [(it["var"], it["value"]) for plan in plans for it in plan.reasons if "var" in it]
    costs = moves.operators
    operators = [{**it, "cost": costs.get(it["number"])} for it in task.operators.values()]
    facts += [fact for it in operators for fact in it["requires"]]
    effects = [effect for it in operators for effect in it["effects"]]
    effects += [(rule["v"], rule["k"], rule["facts"]) for rule in task.rules]
    for var, value, conditions in effects:
        facts += [(var, value), *conditions]
    for packed in moves.found:
        changes = array.array("I", packed)[1:]
        facts += zip(changes[::2], changes[1::2])
    for var, value in facts + task.goal:
        used[var].add(value)
    variables = [[text(name), layer, {it: text(names[it]) for it in sorted(values)}, default]
                 for (name, layer, names, default), values in zip(task.variables, used)]
    return {"goal": task.goal, "rules": task.rules, "initial": moves.initial,
            "operators": operators, "variables": variables}


def summary(plans):
    """Returns what `sas plan` prints of one plan, or the last line of `sas plans` of several."""
    if not plans[1:] or plans[0].verdict.startswith("task"):
        return plans[0].verdict
    valid = [plan for plan in plans if plan.kind == "valid"]
    best = min(valid, key=lambda plan: plan.cost, default=None)
    named = ", best cost %d: %s" % (best.cost, best.label) if best else ""
    return "%d plans, %d valid%s" % (len(plans), len(valid), named)


def ranked(plans):
    """Returns plans with their numbers: valid ones by their costs, then the others."""
    def rank(numbered):
        plan = numbered[1]
        return list(SIGNS).index(plan.kind), plan.cost * (plan.kind == "valid")
    return sorted(enumerate(plans, 1), key=rank)


def listed(plans):
    """Returns the rows of the table of plans."""
    row = '<tr class=%s><td><a href="#plan-%d">%s</a><td>%s %s<td>%s<td>%s'
    return "".join(row % (
        plan.kind, number, bdi(plan.label), SIGNS[plan.kind], html.escape(plan.verdict),
        "–" if plan.kind == "refused" else format(len(plan.steps) + len(plan.rest), ","),
        format(plan.cost, ",") if plan.kind == "valid" else "–") for number, plan in ranked(plans))


def options(plans):
    """Returns the plans that can be compared, as what a field offers."""
    option = "<option value=%d>%s"
    return "".join(option % (number, html.escape(plan.label)) for number, plan in ranked(plans)
                   if plan.kind != "refused")


def part(name):
    return FOLDER.joinpath(name).read_text("utf-8")


def encoded(data):
    return base64.b64encode(data).decode()


def page(version, task_name, task_bytes, plans, moves):
    """Returns the bytes of the page."""
    first = plans[0]
    wanted = {number for plan in plans for number in plan.operators()}
    is_read = not first.verdict.startswith("task refused: line ")
    task = Task(task_bytes, wanted | moves.operators.keys()) if is_read else None
    data = json.dumps({"task": task and task_data(task, moves, plans), "plans": [
        {"label": plan.label, "kind": plan.kind, "verdict": plan.verdict,
         "missing": plan.facts("requires"), "clash": plan.facts("sets"),
         "operators": plan.operators(), "steps": plan.steps.tolist(),
         "rest": plan.rest} for plan in plans]}, separators=(",", ":"))
    data = '{"moves":[%s],%s' % (",".join(unpacked(moves.found)), data[1:])
    is_plain = len(data) <= PLAIN
    articles = [article(i, plan, plans[1:], task_name, task_bytes, task.counts if task else {})
                for i, plan in enumerate(plans, 1)]
    several, single = (len(plans), task_name), (SIGNS[first.kind], first.label)
    title = "%d plans of %s" % several if plans[1:] else "%s %s" % single
    packed = data.replace("<", "\\u003c") if is_plain else encoded(zlib.compress(data.encode(), 9))
    parts = {"title": html.escape(title), "version": html.escape(version),
             "articles": "".join(articles), "listed": listed(plans), "options": options(plans),
             "summary": html.escape(summary(plans)),
             "style": part("style.css"), "script": "".join(part(it + ".js") for it in SCRIPTS),
             "kind": "json" if is_plain else "deflate", "data": packed}
    # only this style and this script are allowed, by their digests, and no address is
    digests = [hashlib.sha256(parts[it].encode()).digest() for it in ("style", "script")]
    parts["policy"] = POLICY % tuple(map(encoded, digests))
    return re.sub(r"\{\{(\w+)\}\}", lambda found: parts[found[1]], part("page.html")).encode()
