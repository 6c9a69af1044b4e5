"""What the scripts of this folder share: the texts of the cases, and their tables.

A text of a case is one of

    a string     of which each character is a byte
    a list       of texts, and of pairs [TEXT, TIMES]
    {"file": NAME, ..}   what the file of that name holds, a path from the top of the repository, with changes:

        "line 7": TEXT   in place of that line, its end apart; null: the line is left out
        "ends": TEXT     in place of LF at each line's end
        "from": 20       without so many bytes at the front
        "first": 20      without what comes after so many bytes
        "then": TEXT     what follows

    {"parts": NAME, ..}   the words of the parts of that name of parts.json, with other fields: a list is its length and its items,
                          and `;` ends a word

    {"summary": TEXT}     what `show` prints of the task whose file this text is, as oracles/summaries.py computes it
"""
import functools
import json
import os

from oracles.summaries import summary
from oracles.tasks import task_of

CASES = os.path.dirname(os.path.abspath(__file__))
TOP = os.path.dirname(CASES)


def case(name, words, output, status, **inputs):
    """Returns a case as in program.json."""
    return {"name": name, "words": words, "output": output, "status": status, **inputs}


def made_by(*makers):
    """Yields what each of these functions makes."""
    for make in makers:
        yield from make()


def table(name):
    return json.loads(text_of(os.path.join(CASES, name)))


def text_of(file):
    with open(file, encoding="utf-8") as it:
        return it.read()


def put(path, held):
    """Writes a file, of bytes or of a text, and returns its path."""
    with open(path, "wb") as file:
        file.write(held if isinstance(held, bytes) else held.encode())
    return path


def bytes_of(*path):
    with open(os.path.join(*path), "rb") as file:
        return file.read()


@functools.lru_cache(None)
def bytes_of_file(name):
    """Returns what a file of the repository holds that nothing changes."""
    return bytes_of(TOP, name)


def as_bytes(text):
    """Returns the bytes of a text, or of bytes."""
    if isinstance(text, bytes):
        return text
    if isinstance(text, str):
        return text.encode("latin-1")
    if not isinstance(text, dict):
        pairs = (part if is_repeated(part) else (part, 1) for part in text)
        return b"".join(as_bytes(part) * times for part, times in pairs)
    if "summary" in text:
        return as_bytes(summary(task_of(latin(text["summary"]))))
    if "parts" in text:
        fields = {name: it for name, it in text.items() if name != "parts"}
        return as_bytes(words_of({**table("parts.json")[text["parts"]], **fields}))
    return changed(text)


def latin(text):
    """Returns a text as a string of which each character is a byte."""
    return as_bytes(text).decode("latin-1")


def is_repeated(part):
    return isinstance(part, list) and len(part) == 2 and isinstance(part[1], int)


def changed(text):
    held = bytes_of_file(text["file"])
    lines = held.split(b"\n")
    for key, line in text.items():
        if key.startswith("line "):
            lines[int(key[5:]) - 1] = None if line is None else as_bytes(line)
    held = as_bytes(text.get("ends", "\n")).join(line for line in lines if line is not None)
    return held[text.get("from", 0) : text.get("first")] + as_bytes(text.get("then", ""))


def words_of(part):
    if isinstance(part, dict):
        return "".join(map(words_of, part.values()))
    if isinstance(part, list):
        return f"{len(part)};" + "".join(map(words_of, part))
    return f"{'none' if part is None else part};"


def shown(held, most):
    """Returns a text as lines with two spaces in front show it: its first bytes, and ` ..` after them if there are more, or a space at its
    end as `\\x20`. Bytes from 32 to 126 stay, but for the backslash, and all others are shown by their numbers."""
    first = "".join(chr(byte) if 32 <= byte <= 126 and byte != 92 else f"\\x{byte:02x}" for byte in held[:most])
    if held[most:]:
        return f"{first} .."
    return f"{first[:-1]}\\x20" if held[-1:] == b" " else first


def shown_name(name):
    """Returns a name as such lines show it."""
    return shown(name.encode("latin-1"), 256)


def with_line(name, line, text):
    """Returns a file with one line replaced."""
    return {"file": name, f"line {line}": text}


def fault(line, answer):
    """Returns the fault that the answer of a changed line names: its word alone where it is on that line."""
    return answer if answer.startswith("line ") else f"line {line}: {answer}"


def changed_lines():
    """Yields each row of lines.json: the file with its line replaced, its fault, or None where the text may stand there, and
    the fault of its layers, or None where the task is layered."""
    for group in table("lines.json"):
        rows = group.get("changes") or [
            (line, text, group["answer"]) for line in group["lines"] for text in group["texts"]
        ]
        for line, text, answer, *layers in rows:
            yield {
                "name": f"{group['file']}, line {line}: {group['about']}",
                "task": with_line(group["file"], line, text),
                "fault": None if answer == "kept" else fault(line, answer),
                "layers": layers[0] if layers else None,
                "memory": group.get("memory"),
            }


def early_end(front):
    """Returns the fault of a front of a file: it ends on its last line."""
    return "line %d: end" % (1 + front.count(b"\n"))
