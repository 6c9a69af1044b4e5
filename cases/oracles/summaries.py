"""What `show` prints of a task, computed from its parts: the lines that docs/MEANING.md lists, in their order.

A few answers, in tasks.json and program.json, are written by hand: what is computed here has to be the same.
"""
from oracles.tasks import value_name, with_ends


def fact_line(word, task, var, value):
    return f"{word} {var} {value} {value_name(task, var, value)}"


def summary(task):
    """Returns the answer about a task."""
    return with_ends([
        f"metric {task['metric']}",
        f"variables {len(task['ranges'])}",
        f"derived {sum(layer is not None for layer in task['layers'])}",
        f"groups {len(task['groups'])}",
        f"operators {len(task['operators'])}",
        f"rules {len(task['rules'])}",
        *(fact_line("initial", task, var, value) for var, value in enumerate(task["defaults"])),
        *(fact_line("goal", task, var, value) for var, value in task["goal"]),
    ])
