"""Reads a file of definitions, NAME.antt: what it imports, and its definitions with their comments, marks and sources."""

from __future__ import annotations

import re
from dataclasses import dataclass
from functools import cached_property
from itertools import takewhile

from .texts import Comment, Definition

SOURCE = re.compile(r"Source: (RTCM 10403[.]3|RINEX 3[.]05|IERS|ICD GLONASS), [^ ]")
CHOICE = "this project's"
# The marks, the kind and the name of what a line begins to define. A law has no mark but `pub`, and a colon behind its name.
HEAD = re.compile(r"((?:pub )?(?:(abbrev|unfoldable) )?(?:pub )?)(?:(record|data) )?(\S+)( :(?!\S))?")
CONSTRUCTOR = re.compile(r" +([^ ]+) :")


class Imports:
    """What `use` of the proof language brings into a file or a block. Most files are asked for no name, so they are read late."""

    def __init__(self) -> None:
        self.uses: list[str] = []

    @cached_property
    def names(self) -> dict[str, tuple[str, str]]:
        """What `use PATH.{a, b as c}` brings: each name with its module's path and its name there."""
        found = {}
        for use in self.uses:
            path, _, names = use.partition("use ")[2].partition(".{")
            for name in names.partition("}")[0].split(","):
                if words := name.split():
                    found[words[-1]] = path.strip(), words[0]
        return found

    @cached_property
    def modules(self) -> dict[str, str]:
        """What `use PATH as alias` brings: a name that stands for a whole module."""
        found = {}
        for use in self.uses:
            if "{" not in use:
                words = use.partition("use ")[2].replace(";", "").split()
                found[words[2] if len(words) == 3 else words[0].split(".")[-1]] = words[0]
        return found

    def has(self, name: str, second: str) -> bool:
        """Is a name imported, or does it stand for a module and is followed by a name of it?"""
        return name in self.names or (second != "" and name in self.modules)

    def place(self, name: str, second: str) -> tuple[str, str]:
        """The module and the name there of an imported name."""
        return self.names.get(name) or (self.modules[name], second)


@dataclass(eq=False)
class Spec(Definition):
    """A definition of the proof language. Its parts are its type, or its fields, and then its clauses."""

    file: SpecFile
    marks: str
    section: str
    parts: list[str]

    def add(self, line: str) -> None:
        """A line that goes on with its last part, or begins one."""
        self.size += 1
        if line.startswith(" "):
            self.parts[-1] += " " + line
        else:
            self.parts.append(line)


class SpecFile:
    """A file of definitions."""

    def __init__(self, path: str, crate: str, module: str, text: str) -> None:
        self.path, self.crate, self.module = path, crate, module
        self.lines = text.split("\n")
        self.head = [plain(line) for line in takewhile(lambda line: line.startswith("--"), self.lines)]
        self.has_source = any(SOURCE.search(line) for line in self.head)
        self.imports = Imports()
        self.definitions: list[Spec] = []
        self.names: dict[str, Spec] = {}
        self.constructors: set[str] = set()
        self.comment: list[str] = []
        self.section = self.use = ""
        for number, line in enumerate(self.lines, 1):
            self.read_line(number, line)

    def read_line(self, number: int, line: str) -> None:
        if self.use or line.startswith(("use ", "pub use ")):
            self.read_use(line)
        elif line.startswith("--"):
            self.comment.append(plain(line))
            self.section = line if line.startswith("-- ----") else self.section
        elif not line.strip():
            self.comment = []
        elif line.startswith(" "):
            self.go_on(line)
        elif (found := HEAD.match(line)) and any(found.group(2, 3, 5)):
            self.begin(number, line, found)
        elif self.definitions:
            self.definitions[-1].add(line)

    def read_use(self, line: str) -> None:
        self.use += " " + line
        if "{" not in self.use or "}" in self.use:
            self.imports.uses.append(self.use)
            self.use = ""

    def begin(self, number: int, line: str, found: re.Match[str]) -> None:
        marks, mark, record, name, _ = found.groups()
        comment, self.comment = Comment(tuple(self.comment)), []
        parts, kind = [line[found.end(4) :]], record or mark or "law"
        self.names[name] = Spec(kind, name, self.path, number, comment, line.strip(), 1, self, marks, self.section, parts)
        self.definitions.append(self.names[name])

    def go_on(self, line: str) -> None:
        """A line of a definition that begins with a blank; comments may stand there too."""
        if not self.definitions or line.lstrip(" ").startswith("--"):
            return
        definition = self.definitions[-1]
        definition.add(line)
        if definition.kind == "data" and (found := CONSTRUCTOR.match(line)):
            self.names[found[1]] = definition
            self.constructors.add(found[1])


def plain(line: str) -> str:
    """A line of a comment without its sign."""
    return line[3:]

