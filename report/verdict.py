"""What a reader sees of a plan without a script: the verdict, a sentence about it, the reasons, and
the lines of a refused file."""
import html
import re

from .task import lines, text

LATER = "Later steps weren’t judged."
FAULT = "file isn’t well formed: its first fault is on line {0}."
SENTENCES = (
    ("plan valid", "Every step can be carried out, the goal holds at the end, the cost is right."),
    (r"plan invalid: step (\d+): no op", "No operator has the name of step {0}. " + LATER),
    (r"plan invalid: step (\d+): not", "Step {0} requires what doesn’t hold before it. " + LATER),
    (r"plan invalid: step (\d+)", "Step {0} would set a variable to two values at once. " + LATER),
    ("plan invalid: goal", "Every step can be carried out, but the goal doesn’t hold at the end."),
    (r".* cost is (\d+), not (\d+)", "The steps reach the goal. They cost {0}, the plan says {1}."),
    (r"plan refused: line (\d+)", "The plan " + FAULT + " So the plan wasn’t judged."),
    (r"task refused: line (\d+)", "The task " + FAULT + " So no plan was read."),
    (r"task refused: (\w+) (\d+)", "The axioms aren’t stratified, as {0} {1} shows. So no plan of "
                                   "this task is judged."),
)
SIGNS = {"valid": "✓", "invalid": "✕", "refused": "!"}
PLACE = re.compile(r"(?:\w+ refused: |(?: +(?:operator|rule) \d+)? +)line (\d+)(?: counts|:| |$)")
LONGEST = 5000  # lines of reasons that a page has


def bdi(words):
    """Returns a name as HTML. Its direction of writing doesn't reach what is beside it."""
    return "<bdi>%s</bdi>" % html.escape(words)


def excerpt(data, said):
    """Returns the lines of a refused file around the places that the lines of an answer name."""
    places = [int(found[1]) for found in map(PLACE.match, said) if found]
    wanted = {near for place in places for near in range(place - 3, place + 6)}
    rows, number = [], 0
    for number, line in enumerate(lines(data), 1):
        if number > max(wanted, default=0):
            break
        if number in wanted:
            rows += ["<div>⋯</div>"] * (bool(rows) and number - 1 not in wanted)
            fault = ' class="fault"' * (number == places[0])
            rows.append("<div%s><b>%d</b>%s</div>" % (fault, number, bdi(text(line))))
    if places and number < places[0]:
        rows.append('<div class="fault"><b>%d</b>(the file ends here)</div>' % places[0])
    return '<div class="excerpt">%s</div>' % "".join(rows) if rows else ""


def table(reasons, prefix):
    """Returns the reasons as a table, with a row for each fact that fails."""
    rows, heading, last = [], "", ""
    for it in reasons[:LONGEST]:
        label, name, kind = html.escape(it["label"]), it.get("name") or "", "other"
        shown = '<bdi class="name">%s</bdi>' % html.escape(name)
        shown += "<small> %(var)d = %(value)d</small>" % it if "var" in it else ""
        link = '<a href="#%sstep-%%(step)d">step %%(step)d</a>' % prefix
        link = link % it if "step" in it else ""
        if label == "requires":
            kind = "cause"
            head = ["<tr class=head><th><th>requires<th>actual<th>since"]
            rows += head * (last not in ("cause", "rule"))
            rows.append("<tr><th>%s<td class=requires>%s" % (heading, shown))
        elif label == "actual":
            kind, rows[-1] = last, rows[-1] + "<td class=actual>" + shown
        elif label == "since ":
            kind, since = last, link + " " + shown if link else html.escape(name)
            rows[-1] += "<td>" + since
        elif it.get("kind") == "goal":
            heading, kind = name, last
        else:
            kind = it.get("kind") or kind
            rows.append("<tr class=%s><th>%s<td colspan=3>%s" % (kind, link or label, shown))
        last = kind
    if reasons[LONGEST:]:
        rows.append("<tr><th><td colspan=3>%d more lines: sas plan --why" % len(reasons[LONGEST:]))
    return '<table class="reasons">%s</table>' % "".join(rows) if rows else ""


def article(number, plan, others, task_name, task_bytes, counts):
    """Returns the HTML of a plan, a part of the page."""
    why = table(plan.reasons, "plan-%d-" % number if others else "")
    if plan.kind == "refused":
        is_task = plan.verdict.startswith("task")
        why += excerpt(task_bytes if is_task else plan.data, [plan.verdict, *plan.said])
    frame = '<section class="why" tabindex="0" aria-label="Why">%s</section>\n' % why if why else ""
    judged = {"went through": len(plan.steps), "cost so far": plan.cost}
    total = {"steps": len(plan.steps) + len(plan.rest)}
    steps = {**total, **(judged if plan.rest else {"cost": plan.cost})}
    pair = "<div><dt>%s</dt><dd>%s</dd></div>"
    lists = ["".join(pair % (label, format(it, ",")) for label, it in group.items())
             for group in ({} if plan.kind == "refused" else steps, counts) if group]
    numbers = "".join('<dl class="numbers">%s</dl>' % it for it in lists)
    sentence = next(words.format(*found.groups()) for pattern, words in SENTENCES
                    for found in [re.match(pattern, plan.verdict)] if found)
    return """<article id="plan-%d" class="%s">
<header><div class="sign" aria-hidden="true">%s</div>
<div class="lead"><p class="files">%s for %s</p><h1>%s</h1><p>%s</p></div>%s</header>
%s</article>
""" % (number, plan.kind, SIGNS[plan.kind], bdi(plan.label), bdi(task_name),
       html.escape(plan.verdict), sentence, numbers, frame)
