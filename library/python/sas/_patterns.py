"""Patterns of names and of paths."""
from __future__ import annotations

import re
from typing import Iterable, Iterator, List, NamedTuple, Pattern, Tuple
from ._streams import INVALID_ARGUMENTS, Stopped

_WILD = re.compile(r"(\*|\?|\[!?[^]]+\]|\{\w+\})")


class NamePattern(NamedTuple):
    """A pattern of names: `*`, `?` and `[..]` as in a shell, and parts such as `{planner}`, which match as little as they can.

    Attributes:
        text: How it is written.
        form: What a name that it matches is of.
        names: What its parts are called, in order.
    """

    text: str
    form: Pattern[str]
    names: Tuple[str, ...]

    @classmethod
    def of(cls, text: str) -> NamePattern:
        """Returns the pattern that is written so. Raises Stopped if it has a range that ends before it begins."""
        pieces = _WILD.split(text)
        names = tuple(piece[1:-1] for piece in pieces[1::2] if piece[0] == "{")
        try:
            return cls(text, re.compile("".join(map(_form_of, pieces)), re.DOTALL), names)
        except re.error as fault:
            raise Stopped(INVALID_ARGUMENTS, f"python -m sas table: {text}: {fault}") from None

    def matches(self, names: Iterable[str]) -> Iterator[Tuple[str, Tuple[str, ...]]]:
        """Yields the names that are of this pattern, each with what the parts match."""
        for name in names:
            found = self.form.fullmatch(name)
            if found:
                yield name, found.groups()


def _form_of(piece: str) -> str:
    """Returns a piece of a pattern as a regular expression."""
    if not _WILD.fullmatch(piece):
        return re.escape(piece)
    if piece[0] == "[":
        is_other = piece[1] == "!" and len(piece) > 3
        return ("[^" if is_other else "[") + re.sub(r"([\\^[&~|])", r"\\\1", piece[1 + is_other : -1]) + "]"
    return {"*": ".*", "?": "."}.get(piece, "(.+?)")


class PathPattern(NamedTuple):
    """A pattern of paths.

    Attributes:
        top: The folder below which they are.
        levels: The patterns of their names below that, one for each folder, and the last for the file.
        names: What the parts of all are called, in order.
    """

    top: str
    levels: Tuple[NamePattern, ...]
    names: Tuple[str, ...]

    @classmethod
    def of(cls, text: str) -> PathPattern:
        """Returns the pattern that is written so."""
        words: List[str] = text.rstrip("/").split("/")
        fixed = next((at for at, word in enumerate(words) if _WILD.search(word)), len(words))
        at = min(fixed, len(words) - 1)
        levels = tuple(NamePattern.of(word) for word in words[at:])
        names = tuple(name for level in levels for name in level.names)
        return cls("/".join(words[:at]) or ("/" if text.startswith("/") else ""), levels, names)
