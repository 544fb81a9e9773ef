"""Which tests stand against a wrong definition and a wrong body: tables in out/, made from comment lines of the tests.

    bin/evidence            writes out/PINS.md and out/REFUSED.md
    bin/evidence WORD..     prints the definitions, and the wrong bodies, whose name or text has one of these words

A line above a test says what it pins or refuses; `//` is `#` in Python and shell. In the head of a file, it speaks of all
tests of the file.

    // pins: crc, generator
    // refuses: a `feed` that calls itself for each candidate

A pin is the name of a definition in crates/*/specs or of a constant in crates/*/src. Its file stands before it where several
files have the name, as in `Msm1074.table`, and its crate too where these files have one name, as in
`rtk_chart.Laws.mean_of_strengths`. A definition with the mark `-- constant`, `-- table` or `-- formula` as the first line of its
comment must have a pin.
"""

from __future__ import annotations

import os
import re
import sys
from pathlib import Path
from typing import Iterable, Iterator, NamedTuple

from .antt import Spec
from .rust import Item
from .tree import Tree, enter_root

NOTE = re.compile(r" *(?://|#) (pins|refuses): (.*)$")

# How a line of code names the test that it begins.
STRING = r'"([^"]*)"'
RUST = r"fn (\w+)\(", r"(?:const|static) (\w+)", STRING
PYTHON = r"(?:def|class) (\w+)", r"yield \w+\((.*)\)", STRING
SHELL = (r"\b(?:fails|finds|leaves|expect|header|marker|refused_alike|bad|bad_\w+|follow|same|right|as_at_a_pipe|well|kept|absent) ([\w\"'${}.-]+)",)


class Pinnable(NamedTuple):
    """A definition or a constant that a test may pin; its kind is its mark."""

    name: str
    file: str
    line: int
    kind: str
    told: str


class Test(NamedTuple):
    name: str
    file: Path
    line: int


# ---------------------------------------------------------------- definitions


def read_definitions() -> Iterator[Pinnable]:
    """Those of all crates, in the order of crates.txt."""
    tree = Tree(only_listed=True)
    for crate in tree.listed:
        for specs in tree.specs_of(crate):
            yield from (pinnable(spec, specs.head) for spec in specs.definitions if spec.marks)
        for source in tree.sources_of(crate):
            yield from (pinnable(item, source.head) for item in source.items.values() if isinstance(item, Item) and item.kind == "const")


def pinnable(one: Spec | Item, head: list[str]) -> Pinnable:
    """It has its comment, else that of its file."""
    told = " ".join(line.lstrip("-/ ") for line in one.comment.told) or " ".join(line.lstrip("-/! ") for line in head)
    return Pinnable(one.name, one.path, one.line, one.comment.mark, told)


def stem(path: str) -> str:
    return os.path.splitext(os.path.basename(path))[0]


def by_names(definitions: Iterable[Pinnable]) -> dict[str, list[Pinnable]]:
    """Each definition by its name, by its file and its name, and by its crate, its file and its name; a name that several have is no name of one."""
    found: dict[str, list[Pinnable]] = {}
    for one in definitions:
        found.setdefault(one.name, []).append(one)
        found.setdefault(f"{stem(one.file)}.{one.name}", []).append(one)
        found.setdefault(f"{Path(one.file).parts[1]}.{stem(one.file)}.{one.name}", []).append(one)
    return found


# ---------------------------------------------------------------- tests


def read_notes() -> Iterator[tuple[str, str, Test | None]]:
    """Each line that pins or refuses: its word, its text and its test; the test is None if it stands above none."""
    for path in sorted(Path("tests").rglob("*")):
        if path.is_file() and "__pycache__" not in path.parts and not path.is_symlink():
            lines = path.read_text(errors="replace").split("\n")
            for at, line in enumerate(lines):
                if found := NOTE.match(line):
                    yield found.group(1), found.group(2), test_below(path, lines, at)


def test_below(path: Path, lines: list[str], at: int) -> Test | None:
    """The test that begins below a line: the whole file in its head, else what the first line of code names."""
    if at < head_of(lines):
        return Test(path.name, path, at + 1)
    below = [(number, line) for number, line in enumerate(lines[at:], at + 1) if is_code(line)]
    forms = RUST if path.name.endswith(".rt.in") else PYTHON if path.suffix == ".py" else SHELL
    for number, line in below[:3]:
        for form in forms:
            if found := re.search(form, line):
                return Test(re.sub(r"[\"'()[\]]", "", found.group(1)), path, number)
    return None


def is_code(line: str) -> bool:
    return line.strip() != "" and not line.strip().startswith(("//", "# ", "#["))


def head_of(lines: list[str]) -> int:
    """How many lines a file's first comment has, with the blank line and the notes after it."""
    at, is_text = 0, False
    while at < len(lines) and (is_text or re.match(r"#|//|$|\"\"\"", lines[at])):
        if lines[at].count('"""') == 1:
            is_text = not is_text
        at += 1
    return at


# ---------------------------------------------------------------- what they say together


class Evidence:
    """The tests that pin each definition with a mark, the tests that refuse each wrong body, and all that is wrong."""

    def __init__(self) -> None:
        definitions = list(read_definitions())
        self.names = by_names(definitions)
        self.pins: dict[Pinnable, list[Test]] = {one: [] for one in definitions if one.kind}
        self.refused: dict[str, list[Test]] = {}
        self.wrong: list[str] = []
        for word, text, test in read_notes():
            if test is None:
                self.wrong.append(f"`{word}: {text}` stands above no test")
            elif word == "refuses":
                self.refused.setdefault(text, []).append(test)
            else:
                for name in text.split(", "):
                    self.add_pin(name, test)
        self.wrong += [f"{one.file}:{one.line}: {one.kind} {one.name} has no pin" for one, tests in self.pins.items() if not tests]

    def add_pin(self, name: str, test: Test) -> None:
        found = self.names.get(name, [])
        if len(found) != 1:
            self.wrong.append(f"{test.file}:{test.line}: {name} is the name of {len(found)} definitions")
        elif not found[0].kind:
            self.wrong.append(f"{found[0].file}:{found[0].line}: {name} has a pin and no mark")
        else:
            self.pins[found[0]].append(test)

    def write_tables(self) -> None:
        Path("out").mkdir(exist_ok=True)
        rows = [(link(one.name, one.file, one.line), one.kind, one.told.replace("|", "\\|"), tests_text(tests)) for one, tests in self.pins.items()]
        Path("out/PINS.md").write_text(table("Constants, tables and formulas, and the tests that pin them", "pins",
            ("Definition", "Kind", "It says", "Pinned by"), rows))
        bodies = [(text[0].upper() + text[1:], tests_text(tests)) for text, tests in self.refused.items()]
        Path("out/REFUSED.md").write_text(table("Wrong bodies that the contracts let through, and the tests that refuse them", "refuses",
            ("Body", "Refused by"), bodies))

    def print_words(self, words: list[str]) -> bool:
        """Prints each with its tests; is there one?"""
        word = re.compile(rf"(?<!\w)({'|'.join(map(re.escape, words))})(?!\w)")
        texts = [(f"{one.kind} {one.name}, {one.file}:{one.line}: {one.told}", tests) for one, tests in self.pins.items()]
        found = [(text, tests) for text, tests in [*texts, *self.refused.items()] if word.search(text)]
        for title, tests in found:
            print("\n    ".join([title, *(f"{test.file}:{test.line}: {test.name}" for test in tests)]))
        return found != []


def link(name: str, file: str | Path, line: int) -> str:
    return f"[`{name}`](../{file}#L{line})"


def tests_text(tests: list[Test]) -> str:
    return ", ".join(link(*test) for test in tests)


def table(title: str, origin: str, head: Iterable[str], rows: Iterable[Iterable[str]]) -> str:
    heads = list(head)
    return "\n".join([f"# {title}\n", f"Made by `bin/evidence` from the lines `{origin}:` of the tests.\n",
        f"| {' | '.join(heads)} |", "|---" * len(heads) + "|", *(f"| {' | '.join(row)} |" for row in rows), ""])


def main() -> None:
    enter_root()
    evidence = Evidence()
    if evidence.wrong:
        sys.exit("\n".join(f"bin/evidence: {line}" for line in evidence.wrong))
    if sys.argv[1:]:
        sys.exit(not evidence.print_words(sys.argv[1:]))
    evidence.write_tables()
    print(f"{len(evidence.pins)} constants, tables and formulas, each with a pin; {len(evidence.refused)} wrong bodies that a test refuses")
