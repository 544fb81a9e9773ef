"""The slow model of a file of which some systems alone are kept: the lines of the others are left out."""
# pins: kept_table, first_absent

from __future__ import annotations

from random import Random

from mixed_parts import some_file
from parts import END, FIRST, TYPES, Part, part_of, widths_of
from systems import LETTERS

SEED = 6907
SHIFT = "SYS / PHASE SHIFT"
OF_GLONASS = ("GLONASS SLOT / FRQ #", "GLONASS COD/PHS/BIS", "LEAP SECONDS")


def is_kept(line: str, before: str, systems: str) -> bool:
    """Whether a line of the header stays; a line that goes on has the system of the line before."""
    name = line[60:].rstrip()
    if name in OF_GLONASS:
        return "R" in systems
    if name == TYPES:
        return (line[0] if line[0] != " " else before) in systems
    return name != SHIFT or line[0] in systems


def kept_header(header: str, systems: str) -> list[str]:
    lines, before = [], " "
    for line in header.splitlines(keepends=True):
        before = line[0] if line[60:].startswith(TYPES) and line[0] != " " else before
        lines += [line] if is_kept(line, before, systems) else []
    here = [letter for letter in LETTERS if letter in systems]
    lines[0] = lines[0][:40] + (here[0] if len(here) == 1 else "M") + lines[0][41:]
    return lines


def kept_records(body: str, systems: str) -> list[str]:
    """The records that have a satellite left."""
    records = []
    for record in body.split("> ")[1:]:
        first, *rows = record.splitlines(keepends=True)
        left = [row for row in rows if row[0] in systems]
        if left:
            records.append(f"> {first[:-4]}{len(left):3}\n" + "".join(left))
    return records


def time_of(record: str) -> str:
    """The time of a record as the header has it."""
    year, month, day, hour, minute, second = record[2:].split()[:6]
    return "".join(f"{int(it):6}" for it in (year, month, day, hour, minute)) + f"{second:>13}     GPS"


def kept(text: str, systems: str) -> str:
    """The file with these systems alone."""
    header, end, body = text.partition(END)
    records = kept_records(body, systems)
    lines = kept_header(header, systems)
    if records:
        lines = [f"{time_of(records[0]):60}{FIRST:20}\n" if FIRST in line else line for line in lines]
    return "".join(lines) + end + "".join(records)


def absent(text: str, systems: str) -> str | None:
    """The first letter of these, in the order of a file, that the header does not have."""
    header = widths_of(text.partition(END)[0])
    return next((letter for letter in LETTERS if letter in systems and letter not in header), None)


def some_systems(rng: Random, text: str) -> str:
    """Mostly letters that the file has, in any order, perhaps one twice."""
    here = list(widths_of(text.partition(END)[0]))
    letters = rng.sample(here, rng.randint(1, len(here))) + rng.choice(([], [], [rng.choice(here)], [rng.choice(LETTERS)]))
    rng.shuffle(letters)
    return "".join(letters)


def some_part(rng: Random) -> tuple[str, Part]:
    """A file, and a part of it, perhaps all, with some systems."""
    text, part = some_file(rng)
    part = rng.choice((part, part, Part(None, None, None)))
    return text, part._replace(systems=some_systems(rng, text))


def kept_part(text: str, part: Part) -> str:
    """The systems are kept first, and then the part is cut."""
    return part_of(kept(text, part.systems), part)
