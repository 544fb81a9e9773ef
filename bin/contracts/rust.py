"""Reads a file of Rust, NAME.rt: what it imports and exports, its items, its blocks with their ghost items, and its functions
with their contracts."""

from __future__ import annotations

import re
from dataclasses import dataclass, field
from functools import cached_property
from typing import Callable, Iterator, NamedTuple

from .antt import Imports
from .texts import Comment, Definition, closing, open_brackets, outer_parts

VISIBLE = r"(pub(?:\(\w+\))? )?"
ITEM = re.compile(VISIBLE + r"(struct|enum|trait|const|static|type) (\w+)")
FUNCTION = re.compile(r"( {4})?" + VISIBLE + r"(?:const )?(?:unsafe )?fn (\w+)")
USE = re.compile(VISIBLE + r"use ")
CLAUSE = re.compile(r"\s+(requires|ensures)\b")
GHOST = re.compile(r"    ghost (\w+)")


@dataclass(eq=False)
class Item(Definition):
    """A struct, an enum, a const, a static or a name for a type; `code` has its lines."""

    file: RustFile
    is_pub: bool
    code: list[str]


@dataclass
class Ghost:
    """A ghost item: declared by a trait, or given by an impl. `text` is what its brackets hold."""

    name: str
    comment: Comment
    written: str
    text: str
    size: int


@dataclass(eq=False)
class Block(Definition):
    """A trait (its kind is `trait`), or an impl: of a model (`model`), of another trait (`impl`) or of none (`methods`)."""

    file: RustFile
    is_pub: bool
    owner: str
    trait: str = ""
    generics: str = ""
    imports: Imports = field(default_factory=Imports)
    ghosts: list[Ghost] = field(default_factory=list)
    parts: list[Ghost | Function] = field(default_factory=list)  # what whoever reaches the block reaches too

    @property
    def declared(self) -> set[str]:
        """The ghost items that a trait declares."""
        return {ghost.name for ghost in self.ghosts} if self.kind == "trait" else set()

    def add_ghost(self, ghost: Ghost, first: str) -> None:
        self.ghosts.append(ghost)
        if self.is_part(ghost):
            self.parts.append(ghost)
            self.size += ghost.size
            self.first = self.first or first.strip()

    def is_part(self, ghost: Ghost) -> bool:
        """What an impl gives is a definition if it is no proof; of a model these three are."""
        if self.kind == "model":
            return ghost.name in ("Value", "view", "invariant")
        return self.kind == "trait" or ghost.name != "laws"

    def drop(self, ghost: Ghost) -> None:
        """What is given by a proved law is no definition."""
        self.size -= ghost.size
        ghost.text, ghost.size = "", 0


class Clause(NamedTuple):
    name: str
    text: str


@dataclass
class Function:
    """A function: the lines of its signature, those of its clauses and of notes between them, and where its body stands."""

    name: str
    file: RustFile
    line: int
    block: Block | None
    is_pub: bool
    comment: Comment
    head: list[str]
    contract: list[str]
    body: range

    @property
    def owner(self) -> str:
        return self.block.owner if self.block else ""

    @property
    def path(self) -> str:
        """As `Converter::feed`."""
        return f"{self.owner}::{self.name}" if self.block else self.name

    @property
    def signature(self) -> str:
        """From its name on, as one line."""
        line = " ".join(line.strip() for line in code_of(self.head))
        return line[line.index(f"fn {self.name}") + 3 :]

    @property
    def clauses(self) -> list[Clause]:
        clauses: list[Clause] = []
        for line in code_of(self.contract):
            if CLAUSE.match(line):
                name, bracket, text = line.partition("{")
                clauses.append(Clause(" ".join(name.split()[1:2]), bracket + text))
            else:
                clauses[-1] = Clause(clauses[-1].name, f"{clauses[-1].text} {line}")
        return clauses

    def has(self, text: str) -> bool:
        """Does its body have a text? The last line of a signature without clauses counts too."""
        return text in "\n".join(self.file.lines[self.body.start : self.body.stop])


class RustFile:
    """A file of Rust, read from top to bottom."""

    def __init__(self, path: str, crate: str, module: str, text: str) -> None:
        self.path, self.crate, self.module = path, crate, module
        self.lines = text.split("\n")
        self.head: list[str] = []
        self.imports = Imports()
        self.written_uses: list[str] = []
        self.modules: set[str] = set()
        self.items: dict[str, Item | Block] = {}
        self.blocks: list[Block] = []
        self.functions: list[Function] = []
        self.free_functions: set[str] = set()
        self.block: Block | None = None
        self.comment: list[str] = []
        self.at = 0
        while self.at < len(self.lines):
            self.read_line(self.lines[self.at])
            self.at += 1

    @cached_property
    def uses(self) -> dict[str, str]:
        """The names that `use` of Rust brings, each with its path."""
        return {name: path for use in self.written_uses for name, path in used_names("", use.partition("use ")[2])}

    @property
    def exports(self) -> list[str]:
        """The names that `pub use` brings."""
        return [name for use in self.written_uses if use.startswith("pub use ") for name, _ in used_names("", use[8:])]

    def read_line(self, line: str) -> None:
        text = line.strip()
        sign = text[:2]
        if sign == "//":
            self.read_comment(text)
        elif not sign:
            self.comment = []
        elif sign[0] != "#":
            self.read_code(line)
            self.comment = []

    def read_comment(self, text: str) -> None:
        if text.startswith("//!"):
            self.head.append(text[3:].removeprefix(" "))
        else:
            self.comment.append(text[2:].removeprefix("/").removeprefix(" "))

    def read_code(self, line: str) -> None:
        if line == "}":
            self.block = None
        elif line.lstrip(" ").startswith("ghost use "):
            (self.block or self).imports.uses.append(self.statement())
        elif USE.match(line):
            self.written_uses.append(self.statement().partition(";")[0])
        elif line.startswith("pub mod "):
            self.modules.add(line[8:].partition(";")[0])
        elif line.startswith(("impl", "unsafe impl")):
            self.read_impl()
        elif found := FUNCTION.match(line):
            self.read_function(found[1] or "", found[2] == "pub ", found[3])
        elif found := ITEM.match(line):
            self.read_item(found[1] == "pub ", found[2], found[3])
        elif self.block and (found := GHOST.match(line)):
            self.read_ghost(self.block, found[1])
        elif self.block and self.block.kind == "trait":
            self.block.size += 1

    def rest(self, is_last: Callable[[str], bool]) -> list[str]:
        """The lines from this one to the last, which is none of a comment; that one is the next to be passed."""
        begin = self.at
        while not is_code(self.lines[self.at]) or not is_last(self.lines[self.at]):
            self.at += 1
        return self.lines[begin : self.at + 1]

    def statement(self) -> str:
        """The same up to a semicolon, as one line."""
        line = self.lines[self.at]
        return line if line.endswith(";") else " ".join(self.rest(lambda line: line.endswith(";")))

    def take_comment(self) -> Comment:
        return Comment(tuple(self.comment))

    def read_item(self, is_pub: bool, kind: str, name: str) -> None:
        first, number = self.lines[self.at].strip(), self.at + 1
        if kind == "trait":
            self.begin_block(Block(kind, name, self.path, number, self.take_comment(), first, 2, self, is_pub, name))
            self.items[name] = self.blocks[-1]
            return
        is_type = kind in ("struct", "enum")
        code = code_of(self.rest(lambda line: line.endswith(";") or (is_type and line.endswith("}") and line[0] != " ")))
        self.items[name] = Item(kind, name, self.path, number, self.take_comment(), first, len(code), self, is_pub, code)

    def begin_block(self, block: Block) -> None:
        self.blocks.append(block)
        self.block = None if self.lines[self.at].endswith("}") else block

    def read_impl(self) -> None:
        """`impl<GENERICS> TRAIT for TYPE {` or `impl<GENERICS> TYPE {`"""
        header = " ".join(line.strip() for line in self.rest(lambda line: line.endswith(("{", "}"))))
        text = re.sub(r"^(unsafe )?impl *| *\{\}?$", "", header.replace("->", ""))
        end = closing(text) if text.startswith("<") else 0
        generics = text[1 : end - 1] if end else ""
        first, separator, second = text[end:].strip().partition(" for ")
        trait, owner = (first.partition("<")[0], second) if separator else ("", first)
        owner = owner.partition(" where ")[0].partition("<")[0]
        kind = "methods" if not trait else "model" if trait == "Model" else "impl"
        name = f"{trait} for {owner}" if kind == "impl" else owner
        self.begin_block(Block(kind, name, self.path, self.at + 1, self.take_comment(), "", 0, self, False, owner, trait, generics))

    def read_ghost(self, block: Block, name: str) -> None:
        depth = 0

        def is_last(line: str) -> bool:
            nonlocal depth
            depth += open_brackets(line)
            return depth <= 0 and line.endswith(";")

        written = self.rest(is_last)
        code = code_of(written)
        text = "\n".join(code).partition("{")[2].rpartition("}")[0]
        block.add_ghost(Ghost(name, self.take_comment(), "\n".join(written), text, len(code)), code[0])

    def read_function(self, indent: str, is_pub: bool, name: str) -> None:
        begin = self.at
        head = self.read_signature()
        contract = self.read_contract(indent)
        end, body = self.at, range(0)
        if not self.lines[end].endswith((";", "}")):
            self.at = self.lines.index(indent + "}", end)
            body = range(end, self.at + 1)
        block = self.block
        function = Function(name, self, begin + 1, block, is_pub, self.take_comment(), head, contract, body)
        self.functions.append(function)
        if not block:
            self.free_functions.add(name)
        elif block.kind == "trait":
            block.parts.append(function)
            block.size += len(code_of(self.lines[begin : end + 1]))

    def read_signature(self) -> list[str]:
        """The lines of a signature; the reader is then at the last one."""
        begin = self.at
        while not CLAUSE.match(self.lines[self.at + 1]):
            if is_code(self.lines[self.at]) and self.lines[self.at].endswith(("{", "}", ";")):
                break
            self.at += 1
        return self.lines[begin : self.at + 1]

    def read_contract(self, indent: str) -> list[str]:
        """The clauses below this line, and the notes between them; the reader is then at the line with the body's bracket, or in a
        trait at the last one."""
        begin, depth, end = self.at + 1, 0, self.at + 1
        if not CLAUSE.match(self.lines[self.at + 1]):
            return []
        while True:
            self.at += 1
            line = self.lines[self.at]
            if not is_code(line):
                continue
            if not depth and line in (indent + "{", indent + "{}"):
                break
            depth += open_brackets(line)
            end = self.at + 1
            if not depth and line.endswith(";"):
                break
        return [line for line in self.lines[begin:end] if line.strip()]


def used_names(prefix: str, use: str) -> Iterator[tuple[str, str]]:
    """Each name that a `use` of Rust brings, with its path; lists may stand in lists."""
    head, bracket, names = use.strip().partition("{")
    if bracket:
        for part in outer_parts(names[: closing("{" + names) - 2]):
            yield from used_names(prefix + head, part)
    elif words := head.split():
        yield words[2] if len(words) == 3 else words[0].split("::")[-1], prefix + words[0]


def is_code(line: str) -> bool:
    return line.lstrip()[:2] not in ("", "//")


def code_of(lines: list[str]) -> list[str]:
    """Lines without blank ones and comments."""
    return [line for line in lines if is_code(line)]
