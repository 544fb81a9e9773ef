"""Texts of both languages: comments, brackets, and what every definition has."""

from __future__ import annotations

from dataclasses import dataclass
from typing import NamedTuple

# The first line of the comment of a definition that needs a pin.
MARKS = ("constant", "table", "formula")


class Comment(NamedTuple):
    """The lines of a comment right above what it is about, without their signs."""

    lines: tuple[str, ...] = ()

    @property
    def mark(self) -> str:
        """The mark for bin/evidence, or nothing."""
        return next((line for line in reversed(self.lines) if line in MARKS), "")

    @property
    def told(self) -> tuple[str, ...]:
        """The lines below the mark."""
        return self.lines[self.lines.index(self.mark) + 1 :] if self.mark else self.lines

    @property
    def text(self) -> str:
        return "\n".join(self.told)


@dataclass(eq=False)
class Definition:
    """What a definition has in either language; `first` is its first line, and `size` counts its lines of code."""

    kind: str
    name: str
    path: str
    line: int
    comment: Comment
    first: str
    size: int

    @property
    def place(self) -> str:
        return f"{self.path}:{self.line}"


def as_line(text: str) -> str:
    return " ".join(text.split())


def open_brackets(text: str) -> int:
    """How many curly brackets of a text are open at its end."""
    return text.count("{") - text.count("}")


def closing(text: str) -> int:
    """The place after the bracket that closes the one with which the text begins."""
    depth = 0
    for place, sign in enumerate(text, 1):
        depth += (sign in "([{<") - (sign in ")]}>")
        if sign in ")]}>" and depth == 0:
            return place
    return len(text)


def outer_parts(text: str) -> list[str]:
    """The parts of a text between its outer commas."""
    parts, depth, begin = [], 0, 0
    for place, sign in enumerate(text):
        depth += (sign in "([{<") - (sign in ")]}>")
        if sign == "," and depth == 0:
            parts.append(text[begin:place].strip())
            begin = place + 1
    rest = text[begin:].strip()
    return [*parts, rest] if rest else parts
