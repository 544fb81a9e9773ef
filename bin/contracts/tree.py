"""The repository, read whole: the crates that crates.txt lists, and their files; and what the names of Rust stand for."""

from __future__ import annotations

import os
import re
from pathlib import Path
from typing import Union

from .antt import SpecFile
from .rust import Block, Function, Item, RustFile

Declared = Union[Item, Block]


def enter_root() -> None:
    """All paths are those from the repository's root."""
    os.chdir(Path(__file__).resolve().parent.parent.parent)


def module_of(path: str) -> str:
    """`crates/C/specs/A/B.antt` is the module A.B of C, `crates/C/src/a/b.rt` is a.b, and `lib.rt` the one without a name."""
    name = os.path.splitext(path)[0].split("/", 3)[3].replace("/", ".")
    return "" if path.endswith(".rt") and name in ("lib", "main") else name


class Tree:
    """All files of the crates: of those that crates.txt lists, or of all that are there. A file is found by its crate and its
    module; an item of Rust also by its name."""

    def __init__(self, only_listed: bool = False) -> None:
        self.listed = re.findall(r"(?m)^([a-z][^:\n]*)", Path("crates.txt").read_text())
        names = self.listed if only_listed else [path.name for path in Path("crates").iterdir()]
        specs = sorted(str(path) for name in names for path in Path("crates", name, "specs").glob("**/*.antt"))
        sources = sorted(str(path) for name in names for path in Path("crates", name, "src").glob("**/*.rt"))
        self.specs: dict[tuple[str, str], SpecFile] = {}
        self.sources: dict[tuple[str, str], RustFile] = {}
        for path in specs:
            place = path.split("/")[1], module_of(path)
            self.specs[place] = SpecFile(path, *place, Path(path).read_text())
        for path in sources:
            place = path.split("/")[1], module_of(path)
            self.sources[place] = RustFile(path, *place, Path(path).read_text())
        self.crates = {crate for crate, _ in [*self.specs, *self.sources]}
        self.exported = self.find_exported()

    def specs_of(self, crate: str) -> list[SpecFile]:
        """A crate's files of definitions; those of a folder stand together."""
        return sorted((file for file in self.specs.values() if file.crate == crate), key=lambda file: Path(file.path))

    def sources_of(self, crate: str) -> list[RustFile]:
        return sorted((file for file in self.sources.values() if file.crate == crate), key=lambda file: Path(file.path))

    # ------------------------------------------------------------ names of Rust

    def find(self, file: RustFile, path: str) -> tuple[RustFile, str] | None:
        """The file and the name of the item to which a path leads; none if it is not of this repository."""
        *parts, name = path.split("::")
        crate, module, at = file.crate, file.module.split(".") if file.module else [], 0
        if parts and parts[0] in ("self", "super"):
            while at < len(parts) and parts[at] in ("self", "super"):
                module = module[:-1] if parts[at] == "super" else module
                at += 1
        elif parts and (parts[0] == "crate" or parts[0] in self.crates):
            crate, module, at = parts[0] if parts[0] in self.crates else crate, [], 1
        found = self.sources.get((crate, ".".join(module + parts[at:])))
        return self.item(found, name) if found else None

    def item(self, file: RustFile, name: str) -> tuple[RustFile, str] | None:
        """The same, of a name that stands in a file."""
        if name in file.items or name in file.free_functions:
            return file, name
        return self.find(file, file.uses[name]) if name in file.uses and name not in self.crates else None

    def key(self, file: RustFile, word: str) -> tuple[RustFile, str] | None:
        """The same, of a name or a path as a file writes it."""
        first, separator, rest = word.partition("::")
        if not separator:
            return self.item(file, word)
        return self.find(file, file.uses.get(first, first) + separator + rest)

    def declared(self, file: RustFile | None, word: str) -> Declared | None:
        """The item, without a function, for which a name or a path stands."""
        found = self.key(file, word) if file else None
        return found[0].items.get(found[1]) if found else None

    # ------------------------------------------------------------ public calls

    def find_exported(self) -> set[tuple[RustFile, str]]:
        """What lib.rt exports by name, and all that its public modules declare as public."""
        exported = {(file, name) for file in self.sources.values() for name, item in file.items.items()
            if item.is_pub and self.is_public_file(file)}
        for file in self.sources.values():
            if not file.module:
                exported.update(found for name in file.exports if (found := self.item(file, name)))
        return exported

    def is_public_file(self, file: RustFile) -> bool:
        root = self.sources.get((file.crate, ""))
        return root is not None and file.module.partition(".")[0] in root.modules

    def is_public(self, function: Function) -> bool:
        block, file = function.block, function.file
        if not block:
            return function.is_pub and ((file, function.name) in self.exported or self.is_public_file(file))
        return self.key(file, block.owner) in self.exported and (function.is_pub or block.kind in ("trait", "model", "impl"))
