"""Mixed files that are changed in one to three places, as one may write them wrong, or anywhere.

    mixed_damages.py FOLDER COUNT    writes FOLDER/stdin with so many texts as hex text, a line each, and FOLDER/stdout with what
                                     tests/values/headers.rt.in is due to print of them; two of three texts are headers alone, and
                                     the files of mixed_cases.py follow
"""

from __future__ import annotations

import sys
from pathlib import Path
from random import Random
from typing import Callable

import mixed_cases
from damages import any_byte, changed, cut_short, deleted, ended, inserted, revalued, timed
from mixed_checker import Heading, header_fault, mixed_fault
from mixed_tables import some_table
from systems import BY_LETTER, LETTERS, SATELLITES

Change = Callable[[Random, bytes], bytes]
SEED = 6767


def with_count(rng: Random, line: bytes) -> bytes:
    """A line of the header with another count in its columns 1 to 3, 4 to 6 or 1 to 6."""
    at, width = rng.choice(((0, 3), (3, 3), (0, 6)))
    count = rng.choice((0, 1, 3, 8, 9, 27, 28, 48, 51, 99, 100, rng.randrange(1000)))
    return line[:at] + b"%*d" % (width, count) + line[at + width :]


def with_letter(rng: Random, line: bytes) -> bytes:
    """With another letter of a system, in column 1 or in column 41."""
    at = rng.choice((0, 0, 40))
    return line[:at] + rng.choice(LETTERS + "MXg ").encode() + line[at + 1 :]


def with_type(rng: Random, line: bytes) -> bytes:
    """A line of types with another type, or with two that changed places."""
    at, other = (7 + 4 * rng.randrange(13) for _ in range(2))
    if rng.random() < 0.5:
        code = rng.choice(BY_LETTER[rng.choice(LETTERS)].codes)
        return line[:at] + (rng.choice("CLSD") + code).encode() + line[at + 3 :]
    one, two = line[at : at + 3], line[other : other + 3]
    line = line[:at] + two + line[at + 3 :]
    return line[:other] + one + line[other + 3 :]


def with_slot(rng: Random, line: bytes) -> bytes:
    """A line of slots with another slot or channel, or one more or less."""
    at = 4 + 7 * rng.randrange(8)
    slot = b"R%02d" % rng.choice((0, 1, 8, 20, 26, 27, 28, rng.randrange(100)))
    channel = rng.choice((b"-8", b"-7", b" 6", b" 7", b"+1", b"-0", b" 0", b"6 "))
    word = line[at : at + 7]
    other = rng.choice((slot + word[3:], word[:4] + channel + b" ", b" " * 7, slot + b" " + channel + b" "))
    return line[:at] + other + line[at + 7 :]


def renamed(rng: Random, line: bytes) -> bytes:
    """A satellite line with another satellite, which may be none."""
    any_name = rng.choice(LETTERS) + f"{rng.randrange(100):02}"
    name = rng.choice((rng.choice(SATELLITES), any_name, "G33", "R28", "E37", "C64", "S19"))
    return name.encode() + line[3:]


def of_other_width(rng: Random, line: bytes) -> bytes:
    """A satellite line with the columns of one code more or less, or with a blank at its end."""
    more = b"         1.000"
    other = rng.choice((line[:-1] + more, line[:-1].ljust(51) + more, line[:51], line[:-1] + b" "))
    return other.rstrip(b"\n") + b"\n"


def recounted(rng: Random, line: bytes) -> bytes:
    """An epoch line with another count, good or bad."""
    count = rng.choice((0, 1, 2, 4, 14, 15, 27, 28, 32, 33, 59, 60, 63, 64, 221, 222, rng.randrange(300)))
    return b"%s%3d\n" % (line[:32], count)


ANYWHERE: tuple[Change, ...] = (changed, changed, inserted, deleted, cut_short)
OF_LABELS: dict[bytes, tuple[Change, ...]] = {
    b"RINEX VERSION / TYPE": (with_letter,),
    b"SYS / # / OBS TYPES": (with_letter, with_count, with_type, with_type),
    b"SYS / PHASE SHIFT": (with_letter,),
    b"GLONASS SLOT / FRQ #": (with_count, with_slot, with_slot),
    b"LEAP SECONDS": (with_count,),
}
OF_EPOCHS: tuple[Change, ...] = (recounted, recounted, timed)
OF_SATELLITES: tuple[Change, ...] = (renamed, renamed, of_other_width, revalued, revalued)


def own_changes(line: bytes) -> tuple[Change, ...]:
    """How a line of its kind may be changed."""
    if len(line) == 81 and line[60:80].rstrip() in OF_LABELS:
        return OF_LABELS[line[60:80].rstrip()]
    if line.startswith(b"> "):
        return OF_EPOCHS
    return OF_SATELLITES if line[:1].decode("latin-1") in LETTERS and len(line) > 4 else ()


def other_line(rng: Random, line: bytes) -> bytes:
    for _ in range(rng.choice((1, 1, 2))):
        own = own_changes(line)
        line = rng.choice(own if own and rng.random() < 0.8 else ANYWHERE)(rng, line)
    return line


def damage(rng: Random, lines: list[bytes], at: int) -> None:
    """Changes the lines at this one."""
    kind = rng.randrange(12)
    if kind == 0:
        del lines[at]
    elif kind == 1:
        lines.insert(at, lines[at])
    elif kind == 2:
        other = min(max(at + rng.randint(-3, 3), 0), len(lines) - 1)
        lines[at], lines[other] = lines[other], lines[at]
    elif kind == 3:
        lines.insert(at + 1, other_line(rng, lines[at]))
    else:
        lines[at] = other_line(rng, lines[at])


def places(lines: list[bytes]) -> list[int]:
    """The lines, those that only mixed files have more often."""
    told = [at for at, line in enumerate(lines) if own_changes(line)]
    return [*range(len(lines)), *told, *told, *told]


def damaged_mixed(rng: Random, text: bytes) -> bytes:
    """The text with none to three changes, most of them near each other; it may end early."""
    lines = text.splitlines(keepends=True)
    near = rng.choice(places(lines))
    for turn in range(rng.choice((0, 1, 1, 1, 2, 3))):
        at = near if turn == 0 else rng.choice((near + rng.randint(-2, 2), rng.choice(places(lines) or [0])))
        if lines:
            damage(rng, lines, min(max(at, 0), len(lines) - 1))
    return ended(rng, lines, near) if lines else any_byte(rng)


def due_line(text: bytes) -> str:
    """What the test program prints of a text: the fault of its header, or what the header says and then the fault of the records
    or their numbers."""
    found = header_fault(text)
    if not isinstance(found, Heading):
        return f"line {found[0]}: {found[1]}"
    codes = [letter + code for letter, its in found.codes.items() for code in its]
    slots = [f"{slot}:{channel}" for slot, channel in sorted(found.channels.items())]
    leap = "-" if found.leap is None else found.leap
    return " ".join(["header", str(found.first), ",".join(codes), str(leap), *slots, due_records(text)])


def due_records(text: bytes) -> str:
    """The fault of the records after a good header, or how many records and rows they are."""
    fault = mixed_fault(text)
    if fault is not None:
        return f"line {fault[0]}: {fault[1]}"
    records = text[text.index(b"END OF HEADER       \n") :].splitlines()[1:]
    epochs = sum(line.startswith(b">") for line in records)
    return f"{epochs} {len(records) - epochs}"


def main() -> None:
    folder, count = Path(sys.argv[1]), int(sys.argv[2])
    rng = Random(SEED)
    tables = [some_table(rng) for _ in range(count)]
    wholes = [table.text if turn % 3 == 2 else table._replace(records=[]).text for turn, table in enumerate(tables)]
    texts = [damaged_mixed(rng, it) for it in wholes]
    texts += [mixed_cases.changed(case) for case, _ in mixed_cases.HEADER_CASES + mixed_cases.RECORD_CASES]
    texts += [mixed_cases.file_of_one(letter) for letter in LETTERS]
    (folder / "stdin").write_text("".join(f"{text.hex()}\n" for text in texts))
    (folder / "stdout").write_text("".join(f"{due_line(text)}\n" for text in texts))


if __name__ == "__main__":
    main()
