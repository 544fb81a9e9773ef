"""Which definitions must be believed by whoever reads the contract of a call.

    bin/believe CALL                  the definitions that the clauses of a public call reach, each with its comment
                                      and with what named it first: a clause or a definition
    bin/believe CALL CLAUSE           the same of one clause, by its name
    bin/believe --list CALL [CLAUSE]  the same, one a line: FILE:LINE KIND NAME
    bin/believe --own CALL [CLAUSE]   those of them that restate no standard, or make a choice there, one a line
    bin/believe --public CRATE        those that all public calls of a crate reach, taken together, one a line
    bin/believe --private CRATE       those of the crate's specs that no public call of any crate reaches, one a line

The last line is 'N definitions, M lines'. Lines are counted without blank ones and comments. Of a call, three lines before
it say how many of these restate RTCM 10403.3 or RINEX 3.05, how many of them make a choice of this project there, and how
many are this project's own.

The mark. `Source: STANDARD, PLACE` says that the text or the table of a standard at this place has what the definition says.
The standards are RTCM 10403.3, RINEX 3.05, IERS and ICD GLONASS. It stands in the comment of a definition, or as a line of the
head of a file of specs, for all definitions of the file, also for the small ones that its sentences are made of. Own are all
others. A definition of such a file makes a choice of this project if its comment, or the `-- ----` line above it, has the words
"this project's".

What reaches what, and the order, stand in reach.py.
"""

from __future__ import annotations

import signal
import sys
from collections import Counter
from typing import Iterable, NamedTuple, NoReturn

from .antt import CHOICE, SOURCE, Spec
from .names import Names, is_law
from .reach import Reach, Reached
from .rust import Function
from .texts import Definition
from .tree import Tree, enter_root

USAGE = """\
usage: bin/believe CALL                  the definitions that the clauses of a public call reach
       bin/believe CALL CLAUSE           those that one clause reaches
       bin/believe --list CALL [CLAUSE]  the same, one a line
       bin/believe --own CALL [CLAUSE]   those of them that restate no standard, one a line
       bin/believe --public CRATE        those that all public calls of a crate reach
       bin/believe --private CRATE       those of the crate's specs that no public call of any crate reaches
CALL is a function or TYPE::METHOD; its crate, and in it the module, may stand before it. A function's name alone means a
free function, if there is one. As: check, Converter::feed, rtk_convert::run. CLAUSE is a clause's name, as: run headline.
"""
OWN, RESTATED, CHOSEN = range(3)  # what a definition is, by its mark


class Sum(NamedTuple):
    """How many definitions there are, and how many lines they have."""

    definitions: int
    lines: int

    def __str__(self) -> str:
        return f"{self.definitions} definitions, {self.lines} lines"


def sum_of(definitions: Iterable[Definition]) -> Sum:
    sizes = [definition.size for definition in definitions]
    return Sum(len(sizes), sum(sizes))


def entry(definition: Definition) -> str:
    kind = "const" if definition.kind == "static" else definition.kind
    return f"{definition.place} {kind} {definition.name}"


def refuse(why: str) -> NoReturn:
    """The words mean nothing here."""
    print(f"believe: {why}", file=sys.stderr)
    sys.exit(2)


def refuse_usage(why: str = "") -> NoReturn:
    print(f"believe: {why}\n{USAGE}" if why else USAGE, end="", file=sys.stderr)
    sys.exit(2)


# ---------------------------------------------------------------- public calls


class Calls:
    """The public calls of a tree."""

    def __init__(self, tree: Tree) -> None:
        self.tree = tree
        self.all = [function for file in tree.sources.values() for function in file.functions if tree.is_public(function)]

    def of_crate(self, crate: str) -> list[Function]:
        """Those of a crate that crates.txt lists, or of all."""
        return [call for call in self.all if call.file.crate in self.tree.listed and crate in ("", call.file.crate)]

    def find(self, name: str) -> Function:
        """The one that a name means: a free function, and if there is none a method."""
        meant = [call for call in self.all if is_meant(call, name)]
        found = [call for call in meant if not call.block] or meant
        if not found:
            refuse_usage(f"{name} is no public call")
        if len(found) > 1:
            places = [f"\n  {call.file.crate}::{call.path}  {call.file.path}:{call.line}" for call in found]
            refuse(f"{name} may mean{''.join(places)}")
        return found[0]


def is_meant(call: Function, name: str) -> bool:
    """The crate, and in it the module, may stand in front."""
    crate, module = call.file.crate, call.file.module.replace(".", "::")
    return name in (call.name, call.path, f"{crate}::{call.path}", f"{module}::{call.path}", f"{crate}::{module}::{call.path}")


def check_clause(call: Function, wanted: str) -> None:
    """Has the call the clause that is wanted? Else the clauses that there are."""
    names = [clause.name for clause in call.clauses if clause.name]
    if wanted and wanted not in names:
        refuse(f"{call.path} has no clause {wanted}; it has {', '.join(names) or 'none with a name'}")


# ---------------------------------------------------------------- the answer


class Answer:
    """What is printed of the definitions that are reached."""

    def __init__(self, names: Names, reached: list[Reached]) -> None:
        self.names, self.reached = names, reached
        self.kinds = {one.definition: self.kind_of(one.definition) for one in reached}
        self.same_name = Counter(one.definition.name for one in reached)

    def kind_of(self, definition: Definition) -> int:
        """Does a definition restate a standard? And does it make a choice of this project there?"""
        told = " ".join(self.names.comment_of(definition).lines)
        spec = definition if isinstance(definition, Spec) else None
        if not SOURCE.search(told) and not (spec and spec.file.has_source):
            return OWN
        return CHOSEN if CHOICE in f"{spec.section if spec else ''} {told}" else RESTATED

    def sums(self) -> list[str]:
        def sum_if(*kinds: int) -> Sum:
            return sum_of(definition for definition, kind in self.kinds.items() if kind in kinds)

        return [f"of RTCM 10403.3 and RINEX 3.05: {sum_if(RESTATED, CHOSEN)}",
            f"among these, choices of this project: {sum_if(CHOSEN)}",
            f"this project's own: {sum_if(OWN)}",
            str(sum_if(OWN, RESTATED, CHOSEN))]

    def short(self, only_own: bool) -> list[str]:
        return [entry(one) for one, kind in self.kinds.items() if not only_own or kind != RESTATED] + self.sums()

    def full(self, wanted: str) -> list[str]:
        """Each with its comment and what named it first, by steps from the clauses."""
        lines, step = [], 0
        clauses = f"the clause {wanted}" if wanted else "the clauses"
        for one in self.reached:
            if one.step != step:
                step = one.step
                lines.append(f"== named by {clauses}" if step == 1 else f"\n== named by those, {step} steps from {clauses}")
            comment = [f"    {line}" for line in self.names.comment_of(one.definition).lines]
            lines += ["", entry(one.definition), *comment, f"    named by {self.namer_of(one)}", f"        {one.definition.first}"]
        return [*lines, "", *self.sums()]

    def namer_of(self, one: Reached) -> str:
        """A clause, or a definition by its name, with its place if another one has the same name."""
        if isinstance(one.named_by, str):
            return one.named_by
        is_only = self.same_name[one.named_by.name] == 1
        return one.named_by.name if is_only else f"{one.named_by.name}, {one.named_by.place}"


def private(tree: Tree, reach: Reach, crate: str) -> list[str]:
    left = [definition for file in tree.specs.values() if file.crate == crate
        for definition in file.definitions if not is_law(definition) and definition not in reach.found]
    return [entry(definition) for definition in left] + [str(sum_of(left))]


def answer_of_crate(mode: str, crate: str, names: Names) -> list[str]:
    tree, reach = names.tree, Reach(names)
    if crate not in tree.listed:
        refuse_usage(f"crates.txt has no crate {crate}")
    for call in Calls(tree).of_crate(crate if mode == "public" else ""):
        reach.function(call)
    reach.add_all()
    if mode == "private":
        return private(tree, reach, crate)
    return Answer(names, list(reach.found.values())).short(False)


def answer_of_call(mode: str, name: str, wanted: str, names: Names) -> list[str]:
    call, reach = Calls(names.tree).find(name), Reach(names)
    check_clause(call, wanted)
    reach.function(call, wanted)
    reach.add_all()
    answer = Answer(names, list(reach.found.values()))
    return answer.full(wanted) if mode == "full" else answer.short(mode == "own")


def main() -> None:
    signal.signal(signal.SIGPIPE, signal.SIG_DFL)
    words, mode = sys.argv[1:], "full"
    if words and words[0] in ("--list", "--own", "--public", "--private"):
        mode = words.pop(0)[2:]
    is_of_crate = mode in ("public", "private")
    if not 1 <= len(words) <= (1 if is_of_crate else 2) or any(word == "" or word.startswith("-") for word in words):
        refuse_usage()
    enter_root()
    names = Names(Tree())
    lines = answer_of_crate(mode, words[0], names) if is_of_crate else answer_of_call(mode, words[0], "".join(words[1:]), names)
    print("\n".join(lines))
    sys.exit(not names.are_known)
