"""Which definitions the clauses of a contract reach, in the order in which they are named.

First stand the definitions that the clauses name, in the order in which the clauses name them; then those that these name, in the
order of the list; and so on. So each stands once, after the one that named it first, and the nearer to the clauses, the earlier.

- A clause reaches the definitions that it names. With `self`, `result` or a parameter it reaches the types of that value,
  and with a ghost item of a bound, as `R.given`, the trait.
- A type with a model stands for its model: `Value`, `view` and `invariant`. A model reaches what these name, and the types
  of the fields that they name. A struct or an enum without one reaches the types of its parts.
- A constructor reaches its type; a trait all its ghost items and the clauses of its functions.
- A method of `impl TRAIT for TYPE` reaches the trait, and the ghost items that the impl gives.

What is no definition: what the kit and other libraries declare, proofs, laws with their proof, bound names, and the names
of fields.
"""

from __future__ import annotations

import re
from dataclasses import dataclass
from typing import Iterable

from .antt import Spec
from .names import Names, Place, is_law
from .rust import Block, Function, Item, RustFile
from .texts import Definition, closing, outer_parts
from .words import Text, Word, equation, words_of

VISIBLE = r"(?:pub(?:\([a-z]+\))? )?"
FIELD = re.compile(rf"    {VISIBLE}([a-z_0-9]+): (.*)")
FIELD_NAME = re.compile(rf"^ *{VISIBLE}[a-z_0-9]+: ")


@dataclass
class Reached:
    """A definition that is reached: by how many steps, and what named it first: a clause or a definition."""

    definition: Definition
    step: int
    named_by: str | Definition


class Scope:
    """Where a text stands, and the types of Rust that its names have there: values, generics and fields."""

    def __init__(self, place: Place) -> None:
        self.place = place
        self.values: dict[str, str] = {}
        self.generics: dict[str, str] = {}
        self.fields: dict[str, str] = {}
        self.declared = place.block.declared if place.block else set()
        self.add_generics(place.block.generics if place.block else "")

    def add_generics(self, text: str) -> None:
        """`R: Source, O: Sink`: the bounds of each."""
        for part in outer_parts(text):
            name, colon, traits = part.partition(":")
            if colon:
                self.generics[name.strip()] = f"{self.generics.get(name.strip(), '')} {traits}"

    def add_signature(self, signature: str) -> None:
        """The types of the parameters, of self and of the result."""
        text = re.sub(r" *[{;]\}?$", "", re.sub(r"^\w+", "", signature.replace("->", "\2"), flags=re.ASCII))
        if text.startswith("<"):
            end = closing(text)
            self.add_generics(text[1 : end - 1])
            text = text[end:]
        end = closing(text)
        for part in outer_parts(text[1 : end - 1]):
            name, _, type_ = part.partition(":")
            if name.endswith("self"):
                self.values["self"] = "Self"
            else:
                self.values[name.removeprefix("mut ").strip()] = type_ or part
        result, _, bounds = text[end:].replace("\2", " ").partition(" where ")
        self.add_generics(bounds)
        self.values["result"] = result

    def types_of(self, word: Word) -> str | None:
        """The types that a name brings: of a bound one those of the field behind it; none if it is no value's."""
        if word.is_bound or word.name in self.declared:
            return self.fields.get(word.second, "")
        return self.values.get(word.name, self.generics.get(word.name))


class Reach:
    """What is reached, from the first call on."""

    def __init__(self, names: Names) -> None:
        self.names = names
        self.found: dict[Definition, Reached] = {}
        self.step = 0
        self.namer: str | Definition = ""

    def add_all(self) -> None:
        """What those reach that are found, and those that they find."""
        waiting = list(self.found.values())
        for reached in waiting:
            known = len(self.found)
            self.namer, self.step = reached.definition, reached.step
            self.definition(reached.definition)
            waiting += list(self.found.values())[known:]

    def add(self, definition: Definition | None) -> None:
        if definition and definition not in self.found and not is_law(definition):
            self.found[definition] = Reached(definition, self.step + 1, self.namer)

    # ------------------------------------------------------------ texts

    def words(self, scope: Scope, words: Iterable[Word]) -> None:
        for word in words:
            types = scope.types_of(word)
            if types is None:
                self.add(self.names.lookup(scope.place, word.name, word.second))
            elif types and isinstance(scope.place.file, RustFile):
                self.types(scope.place.file, scope.place.block, types)

    def text(self, scope: Scope, text: str, bound: Iterable[str] = ()) -> None:
        self.words(scope, Text(words_of(text), bound).read())

    def types(self, file: RustFile, block: Block | None, text: str) -> None:
        """The types that a Rust type names: of each the model, if there is one."""
        for word in re.sub(r"[^A-Za-z0-9_:]+", " ", re.sub(r"'[a-z_]+", " ", text)).replace(": ", " ").split():
            self.add(self.names.of_type(file, block.owner if block and word == "Self" else word))

    # ------------------------------------------------------------ definitions

    def definition(self, definition: Definition) -> None:
        """What a definition names. A constant names nothing: the types and names that it is made of are Rust's, and numbers."""
        if isinstance(definition, Spec):
            self.spec(definition)
        elif isinstance(definition, Block):
            self.block(definition)
        elif isinstance(definition, Item) and definition.kind not in ("const", "static"):
            self.item(definition)

    def spec(self, spec: Spec) -> None:
        scope = Scope(Place(spec.file))
        self.text(scope, spec.parts[0])
        for part in spec.parts[1:]:
            self.words(scope, equation(part, lambda word: self.names.is_constructor(spec.file, word)))

    def item(self, item: Item) -> None:
        """The types of a struct's fields or an enum's variants, and what a struct's ghost conditions name."""
        scope = Scope(Place(item.file))
        scope.fields = fields_of(item)
        for line in item.code:
            if line.lstrip(" ").startswith("ghost "):
                self.text(scope, "".join(line.partition("{")[1:]), scope.fields)
            elif not line.lstrip(" ").startswith("#"):
                self.types(item.file, None, variant_types(line) if item.kind == "enum" else field_types(line))

    def block(self, block: Block) -> None:
        """A model, an impl or a trait: its ghost items, and of a trait the contracts too."""
        for part in block.parts:
            if isinstance(part, Function):
                self.function(part)
                continue
            scope = Scope(Place(block.file, block))
            type_ = self.names.types.get(block)
            if isinstance(type_, Item):
                scope.fields = fields_of(type_)
            self.text(scope, part.text)

    def function(self, function: Function, wanted: str = "") -> None:
        """Its clauses, and the trait to which it belongs. Of the call itself, the clauses and the call are what names."""
        block, is_call = function.block, self.step == 0
        scope = Scope(Place(function.file, block))
        scope.add_signature(function.signature)
        for name, text in function.clauses:
            if not is_call or wanted in ("", name):
                self.namer = self.namer if not is_call else f"the clause {name}" if name else "a clause without a name"
                self.text(scope, text)
        self.namer = "the call itself" if is_call else self.namer
        if block and block.kind == "impl":
            self.add(self.names.tree.declared(block.file, block.trait))
        if block and block.kind in ("impl", "trait") and block.parts:
            self.add(block)


def fields_of(item: Item) -> dict[str, str]:
    """The fields of a struct, each with its type."""
    return {found[1]: found[2] for line in item.code if (found := FIELD.match(line))}


def field_types(line: str) -> str:
    """The types of a field, or those behind the name of a struct or a type."""
    return FIELD_NAME.sub("", re.sub(r"^.*(struct|type) [A-Za-z0-9_]+", "", line))


def variant_types(line: str) -> str:
    """The parts of a variant, without its name and the names of its fields."""
    if line.startswith(("pub", "enum", "}")):
        return ""
    if line.startswith("     "):
        return re.sub(r"^[^:]*: ", "", line)
    return re.sub(r"[a-z_0-9]+: ", "", re.sub(r"^ *[A-Za-z0-9_]+", "", line))
