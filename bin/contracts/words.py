"""The words of a text of the proof language, each with whether it is bound there."""

from __future__ import annotations

import re
from typing import Callable, Iterable, Iterator, NamedTuple

STRING = re.compile(r'"[^"]*"')
WORD = re.compile(r"""[(){}=:]|[\w.@'"\\`-]+""", re.ASCII)
IDENTIFIER = re.compile(r"[A-Za-z_]")
BOUND_NAME = re.compile(r"[A-Za-z_][\w'-]*", re.ASCII)
ALWAYS = -1  # the depth of what is bound in the whole text


class Word(NamedTuple):
    """A name, the name after its first dot, and whether the name is bound there."""

    name: str
    second: str
    is_bound: bool


class Bound(NamedTuple):
    name: str
    depth: int


def words_of(text: str) -> list[str]:
    """Words and brackets; `@` stands for the lambda."""
    return WORD.findall(STRING.sub(" ", text).replace("λ", " @ ").replace("==", " "))


class Text:
    """One clause, type or list of fields, read word by word."""

    def __init__(self, words: list[str], bound: Iterable[str] = ()) -> None:
        self.words = [*words, ""]
        self.at = self.depth = 0
        self.bound = [Bound(name, ALWAYS) for name in bound]
        self.kept = 0  # how many bound names no bracket ends
        self.binds: list[list[str]] = []  # of each open bracket the names that hold from its end on
        self.declared: str | None = None

    def read(self) -> Iterator[Word]:
        """Its words in their order, without signs and without names that it declares or binds."""
        last = len(self.words) - 1
        while self.at < last:
            word, following = self.words[self.at : self.at + 2]
            if word in ("(", "{"):
                self.open_bracket()
            elif word in (")", "}"):
                self.close_bracket()
            elif word == "@":
                yield from self.open_lambda()
            elif word == "let":
                self.at += 1
                self.bind(following)
            elif following == ":" and self.depth == 0:
                self.declare(word)
            elif following != "=":
                yield from self.word(word)
            self.at += 1

    def word(self, word: str) -> Iterator[Word]:
        if IDENTIFIER.match(word):
            name, _, rest = word.partition(".")
            is_bound = any(bound.name == name for bound in self.bound)
            yield Word(name, rest.partition(".")[0], is_bound)

    def bind(self, name: str) -> None:
        self.bound.append(Bound(name, self.depth))

    def open_bracket(self) -> None:
        """Names that a bracket binds, as `(a b : T)`, hold from its end to the end of the bracket around it."""
        self.depth += 1
        end = self.at + 1
        while BOUND_NAME.fullmatch(self.words[end]):
            end += 1
        is_binding = end > self.at + 1 and self.words[end] == ":"
        self.binds.append(self.words[self.at + 1 : end] if is_binding else [])
        if is_binding:
            self.at = end

    def close_bracket(self) -> None:
        while len(self.bound) > self.kept and self.bound[-1].depth >= self.depth:
            self.bound.pop()
        self.depth -= 1
        for name in self.binds.pop() if self.binds else []:
            self.bind(name)

    def open_lambda(self) -> Iterator[Word]:
        """`λ a b.` and `λ (a : T).` bind to the end of the bracket around them."""
        is_type = False
        for at in range(self.at + 1, len(self.words) - 1):
            word = self.words[at]
            is_type = (is_type or word == ":") and word != ")"
            name = word.removesuffix(".")
            if is_type:
                yield from self.word(name)
            elif IDENTIFIER.match(name):
                self.bind(name)
            if name != word:
                self.at = at
                return

    def declare(self, name: str) -> None:
        """A declared field or constructor: what its own type binds ends here; the field before it is known from here on."""
        if self.declared is None:
            self.kept = len(self.bound)
        del self.bound[self.kept :]
        if self.declared is not None:
            self.bound.append(Bound(self.declared, ALWAYS))
            self.kept = len(self.bound)
        self.declared = name


def equation(text: str, is_constructor: Callable[[str], bool]) -> Iterator[Word]:
    """`name PATTERN .. = TEXT`: constructors in the patterns are words, and all other names there are bound in the text."""
    words, level = words_of(text), 0
    bound: list[str] = []
    for at, word in enumerate(words[1:], 1):
        if word == "=" and level == 0:
            yield from Text(words[at + 1 :], bound).read()
            return
        level += (word in ("(", "{")) - (word in (")", "}"))
        if "." in word or is_constructor(word):
            pattern = Text([])
            pattern.bound = [Bound(name, ALWAYS) for name in bound]
            yield from pattern.word(word)
        elif IDENTIFIER.match(word):
            bound.append(word)
