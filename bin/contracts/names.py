"""What a name of the proof language stands for, where it stands."""

from __future__ import annotations

import sys
from typing import NamedTuple

from .antt import Imports, Spec, SpecFile
from .rust import Block, Ghost, Item, RustFile
from .texts import Comment, Definition
from .tree import Declared, Tree


class Place(NamedTuple):
    """Where a text stands: in a file, and in it within a block or not."""

    file: SpecFile | RustFile
    block: Block | None = None


class Names:
    """The names of a tree. A name that leads to no definition of a module is told; then `are_known` is false."""

    def __init__(self, tree: Tree) -> None:
        self.tree = tree
        self.models: dict[Declared, Block] = {}
        self.types: dict[Block, Declared] = {}
        self.are_known = True
        for block in self.blocks("model"):
            if found := tree.declared(block.file, block.name):
                self.models[found], self.types[block] = block, found
        for block in self.blocks("impl"):
            self.drop_laws(block)

    def blocks(self, kind: str) -> list[Block]:
        return [block for file in self.tree.sources.values() for block in file.blocks if block.kind == kind]

    def drop_laws(self, block: Block) -> None:
        """What an impl gives by a proved law is no definition."""
        for ghost in block.parts:
            if isinstance(ghost, Ghost) and len(words := ghost.text.split()) == 1:
                law = self.lookup(Place(block.file, block), words[0])
                if law and is_law(law):
                    block.drop(ghost)

    def comment_of(self, definition: Definition) -> Comment:
        """A model without a comment has that of its type."""
        if not definition.comment.lines and isinstance(definition, Block) and definition in self.types:
            return self.types[definition].comment
        return definition.comment

    def of_type(self, file: RustFile, word: str) -> Definition | None:
        """What a type of Rust stands for: its model, if it has one."""
        found = self.tree.declared(file, word)
        return self.models.get(found, found) if found else None

    def lookup(self, place: Place, name: str, second: str = "") -> Definition | None:
        """What a name stands for: first as the block imports it, then as the file declares it, then as the file imports it."""
        file, block = place
        if block and block.imports.has(name, second):
            return self.imported(file, block.imports, name, second)
        if isinstance(file, SpecFile) and name in file.names:
            return file.names[name]
        if file.imports.has(name, second):
            return self.imported(file, file.imports, name, second)
        return self.tree.declared(file, name) if isinstance(file, RustFile) else None

    def imported(self, file: SpecFile | RustFile, imports: Imports, name: str, second: str) -> Definition | None:
        """The definition that a module of specs has under a name; modules in `declared` hold Rust's types."""
        path, name = imports.place(name, second)
        parts = path.split(".")
        if parts[0] != "Rattle" or parts[2:3] != ["specs"] or parts[1] not in self.tree.crates:
            return None
        found: Definition | None
        if parts[3:4] in (["declared"], ["contracts"]):
            found = self.of_rust(parts[1], parts[4:], name)
            if parts[3] == "contracts" and parts[-1] != "TheConstants":
                return self.models.get(found) if isinstance(found, (Item, Block)) else None
        else:
            specs = self.tree.specs.get((parts[1], ".".join(parts[3:])))
            found = specs.names.get(name) if specs else None
        if not found and parts[-1] != "TheConstants":
            self.are_known = False
            print(f"believe: {file.path}: nothing is found for {path}.{name}", file=sys.stderr)
        return found

    def of_rust(self, crate: str, parts: list[str], name: str) -> Declared | None:
        """The type to which a path below `declared` leads, or the constant that it names there."""
        if parts[-1] == "TheConstants":
            return self.tree.declared(self.tree.sources.get((crate, ".".join(parts[:-1]))), name)
        *module, last = parts[:-1] if parts[-1] == "TheVariants" else parts
        return self.tree.declared(self.tree.sources.get((crate, ".".join(module))), last)

    def is_constructor(self, file: SpecFile, name: str) -> bool:
        """Is a name that of a constructor? Others bind where they stand in a pattern."""
        if name in file.constructors:
            return True
        if name not in file.imports.names:
            return False
        path, name = file.imports.names[name]
        parts = path.split(".")
        found = self.tree.specs.get((parts[1], ".".join(parts[3:]))) if len(parts) > 3 else None
        return parts[-1] == "TheVariants" or (found is not None and name in found.constructors)


def is_law(definition: Definition) -> bool:
    """A law that is proved is nothing to believe."""
    return isinstance(definition, Spec) and definition.kind == "law"
