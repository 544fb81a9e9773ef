"""Writes out/INDEX.md: what each crate promises, made from the sources.

Per crate, in the order of crates.txt, it has the files, the public calls and the definitions. A file has the first
paragraph of its `//!` lines and stands after the files that it imports. A type has its comment. A call has the first
sentence of its comment, its clauses as they are written, the definitions that they name, and the must-fail edits of its
body. A definition has its comment.
"""

from __future__ import annotations

import re
import sys
from functools import cached_property
from pathlib import Path
from typing import NamedTuple

from .antt import Spec, SpecFile
from .rust import Function, RustFile, code_of
from .texts import Definition, as_line
from .tree import Tree, enter_root

HEAD = """# Index

`bin/index` makes this page from the sources. A crate's files come first, in the order of their imports. Then comes each
public call with its clauses, the definitions that the clauses name, and the mistakes in its body that the prover must
refuse. All definitions of the crate come last. `bin/believe CALL` prints what the definitions of a call name in their turn,
and `bin/evidence NAME` the tests that pin a definition.
"""
ARTICLES = {"struct": "A", "enum": "An", "trait": "A"}
IDENTIFIER = re.compile(r"(?<![\w.])(?:[A-Z]\w*\.)*[^\W\d]\w*")
SHORT = 200  # characters of a definition that says itself what it is


class Edit(NamedTuple):
    """A must-fail edit: the function that it changes, the mistake, and the first line that it replaces."""

    function: str
    mistake: str
    why: str
    file: str
    old: str

    def line(self, place: str = "") -> str:
        return f"- refused: {place}{self.mistake.replace('_', ' ')}: {self.why}"

    def is_of(self, function: Function) -> bool:
        return self.function == function.name and self.file == Path(function.file.path).name and function.has(self.old.strip())


def edits_of(name: str) -> list[Path]:
    """The edits of a crate: those that the gate tries, and those that are tried before a release."""
    folders = Path("crates", name, "must-fail"), Path("tests/outside/edits.d", name)
    return sorted((path for folder in folders for path in folder.glob("*.edit")), key=lambda path: path.name)


def read_edit(path: Path) -> Edit:
    function, mistake = path.name.split(".")[:2]
    parts = dict(re.findall(r"(?ms)^(why|file|old|new): ?(.*?)(?=^(?:why|file|old|new):|\Z)", path.read_text()))
    return Edit(function, mistake, as_line(parts["why"]), parts["file"].strip().split("/")[-1], parts["old"].split("\n")[0])


# ---------------------------------------------------------------- texts


def head_text(file: RustFile) -> str:
    return "\n".join(file.head)


def first_paragraph(text: str) -> str:
    return as_line(text.split("\n\n")[0])


def sentence(text: str) -> str:
    """The first sentence of a comment."""
    line = first_paragraph(text)
    found = re.match(r".*?[^.][.](?=\s+[A-Z0-9`'\"]|$)", line)
    return found.group(0) if found else line


def told_of(spec: Spec) -> str:
    """Its comment. A definition without one says itself what it is: what stands below its type, if that is short."""
    if comment := as_line(spec.comment.text):
        return comment
    lines = spec.file.lines[spec.line :]
    text = as_line("\n".join(lines[: lines.index("")] if "" in lines else lines))
    return f"`{text}`" if 0 < len(text) <= SHORT else ""


def with_told(name: str, told: str) -> str:
    return f"- {name}: {told}" if told else f"- {name}"


def anchor(spec: Spec) -> str:
    return f"{spec.file.crate}.{spec.file.module}.{spec.name}"


def link(path: str) -> str:
    return f"[{Path(path).name}](../{path})"


def contract_text(function: Function) -> str:
    """A contract as it is written, from the left edge."""
    indent = " " * (8 if function.block else 4)
    return "\n".join(line.removeprefix(indent) for line in function.contract).rstrip(";")


# ---------------------------------------------------------------- a crate


class Crate:
    def __init__(self, tree: Tree, name: str) -> None:
        self.tree, self.name = tree, name
        self.specs: list[SpecFile] = tree.specs_of(name)
        self.edits = [read_edit(path) for path in edits_of(name)]
        self.root = tree.sources[name, ""]

    @cached_property
    def sources(self) -> list[RustFile]:
        """Its files: each after those that it uses; of two that use one another, one is the first."""
        order: list[RustFile] = []
        begun: set[RustFile] = set()

        def put(file: RustFile) -> None:
            if file in begun:
                return
            begun.add(file)
            used = {path.split("::")[1] for path in file.uses.values() if path.startswith("crate::")}
            for module in sorted(used - {""}):
                if (self.name, module) in self.tree.sources:
                    put(self.tree.sources[self.name, module])
            order.append(file)

        for file in sorted(self.tree.sources_of(self.name), key=lambda file: (file.module == "laws", file.module or "lib")):
            put(file)
        return order

    def calls(self) -> list[Function]:
        return [function for file in self.sources for function in file.functions if self.tree.is_public(function)]

    def definitions(self) -> list[Spec]:
        return [spec for file in self.specs for spec in file.definitions if spec.kind != "law"]


# ---------------------------------------------------------------- the page


class Index:
    def __init__(self) -> None:
        tree = Tree(only_listed=True)
        self.crates = [Crate(tree, name) for name in tree.listed]
        self.by_place: dict[tuple[str, str], Spec] = {(f"Rattle.{crate.name}.specs.{spec.file.module}", spec.name): spec
            for crate in self.crates for spec in crate.definitions()}
        self.out: list[str] = []

    def text(self) -> str:
        self.out = [HEAD, "The crates: " + ", ".join(f"[{crate.name}](#{crate.name})" for crate in self.crates) + ".\n"]
        for crate in self.crates:
            self.write_crate(crate)
        return "\n".join(self.out)

    def end_list(self) -> None:
        """A blank line below a list."""
        if self.out[-1].startswith("- "):
            self.out.append("")

    def write_crate(self, crate: Crate) -> None:
        self.out.append(f"## {crate.name}\n\n{sentence(head_text(crate.root))}\n")
        for file in crate.sources:
            if file is not crate.root:
                name = file.path.split("/", 3)[3]
                self.out.append(f"- [{name}](../{file.path}): {first_paragraph(head_text(file))}")
        self.end_list()
        self.write_calls(crate)
        if crate.definitions():
            self.out.append(f"### Definitions of {crate.name}\n")
            for spec in crate.specs:
                self.write_definitions(spec)

    def write_calls(self, crate: Crate) -> None:
        told: set[Edit] = set()
        written: set[str] = set()
        for function in crate.calls():
            edits = [edit for edit in crate.edits if edit.is_of(function)]
            told.update(edits)
            if edits or not function.block or function.block.kind in ("trait", "methods"):
                self.write_owner(function, written)
                self.write_call(function, edits)
        if rest := [edit for edit in crate.edits if edit not in told]:
            self.out.append("### Mistakes in private functions\n")
            self.out += [edit.line(f"`{edit.function}` in {edit.file}, ") for edit in rest] + [""]

    def write_owner(self, function: Function, written: set[str]) -> None:
        """What a type or a trait is, before its first call."""
        file, owner = function.file, function.owner
        item = file.items.get(owner)
        if owner in written or not item or item.kind not in ARTICLES:
            return
        written.add(owner)
        self.out.append(f"### `{owner}`\n\n{as_line(item.comment.text)} {ARTICLES[item.kind]} {item.kind} of {link(file.path)}.\n")
        for block in file.blocks:
            if block.kind == "model" and block.owner == owner and block.comment.lines:
                self.out.append(as_line(block.comment.text) + "\n")
            if block is item:
                for ghost in block.ghosts:
                    declared = re.sub(r"^ghost (\w+): \{ (.*) \};$", r"\1 : \2", as_line(ghost.written))
                    self.out.append(with_told(f"`{declared}`", as_line(ghost.comment.text)))
        self.end_list()

    def write_call(self, function: Function, edits: list[Edit]) -> None:
        block, file = function.block, function.file
        is_of_trait = block is not None and block.kind in ("model", "impl")
        told = f"It keeps the clauses of `{block.trait}::{function.name}`." if block and is_of_trait else sentence(function.comment.text)
        item = file.items.get(function.owner)
        place = "" if item and item.kind in ARTICLES else f" In {link(file.path)}."
        self.out.append(f"#### `{function.path}`\n\n{told}{place}\n")
        if function.contract:
            self.out.append(f"```text\n{contract_text(function)}\n```\n")
        for spec in self.cited(function):
            self.out.append(with_told(f"[`{spec.name}`](#{anchor(spec)})", told_of(spec)))
        self.out += [edit.line() for edit in edits]
        self.end_list()

    def cited(self, function: Function) -> list[Spec]:
        """The definitions that the clauses name, in the order in which they name them."""
        imports = function.file.imports.names | (function.block.imports.names if function.block else {})
        names = IDENTIFIER.findall("\n".join(code_of(function.contract)))
        places = dict.fromkeys(imports[name] for name in names if name in imports)
        return [self.by_place[place] for place in places if place in self.by_place]

    def write_definitions(self, file: SpecFile) -> None:
        definitions = [spec for spec in file.definitions if spec.kind != "law"]
        if not definitions:
            return
        name = file.module.replace(".", "/") + ".antt"
        self.out.append(f"[{name}](../{file.path})\n")
        self.out += [with_told(f'<a id="{anchor(spec)}"></a>`{spec.name}`', told_of(spec)) for spec in definitions] + [""]


def main() -> None:
    enter_root()
    if sys.argv[1:]:
        sys.exit("usage: bin/index")
    Path("out").mkdir(exist_ok=True)
    Path("out/INDEX.md").write_text(Index().text())
