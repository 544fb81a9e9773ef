"""Mixed files with the fields of a label and with lines of their records, some of them changed in these lines or behind them."""

from __future__ import annotations

from random import Random
from typing import NamedTuple

from mixed_checker import mixed_fault
from mixed_damages import damaged_mixed
from mixed_files import header_line
from mixed_parts import some_file
from time_lines import FRONT, lines_due, wrong_line

SEED = 7373
SOLID = [chr(it) for it in range(0x21, 0x7F)]


class Fields(NamedTuple):
    """The fields of a label by their lines, as they stand in their columns; the marker's number has a line of its own."""

    run_by: str
    number: str
    observer: str
    receiver: str
    antenna: str
    offsets: list[str]


def some_field(rng: Random, width: int) -> str:
    """No field, or printable characters that neither begin nor end with a blank, in this width."""
    count = rng.choice((0, 0, 1, 2, width, rng.randint(1, width)))
    inner = "".join(rng.choices([*SOLID, " "], k=max(count - 2, 0)))
    return "".join(rng.choices(SOLID, k=min(count, 1)) + [inner] + rng.choices(SOLID, k=count > 1)).ljust(width)


def some_offset(rng: Random, is_free: bool) -> str:
    """No offset, or a sign, one to four digits, a point and four digits."""
    digits = f"{rng.randrange(10 ** rng.randint(1, 4))}.{rng.randrange(10_000):04}"
    return rng.choice(("", "+" + digits, "-" + digits)) if is_free else ""


def some_fields(rng: Random, has_height: bool) -> Fields:
    texts = ["".join(some_field(rng, width) for width in widths) for widths in ((20,), (20,), (20, 40), (20, 20, 20), (20, 20))]
    offsets = [some_offset(rng, is_free) for is_free in (not has_height, True, True)]
    return Fields(*texts, offsets)


def labelled(front: list[str], fields: Fields) -> list[str]:
    """The first nine lines of a file with these fields."""
    columns = [front[8][at : at + 14] for at in (0, 14, 28)]
    offsets = "".join(f"{new:>14}" if new else old for new, old in zip(fields.offsets, columns))
    return [
        front[0],
        front[1][:20] + fields.run_by + front[1][40:],
        front[2],
        *([header_line(fields.number, "MARKER NUMBER")] if fields.number.strip() else []),
        front[3],
        header_line(fields.observer, "OBSERVER / AGENCY"),
        header_line(fields.receiver, "REC # / TYPE / VERS"),
        header_line(fields.antenna, "ANT # / TYPE"),
        front[7],
        offsets + front[8][42:],
    ]


def some_lines(rng: Random, text: str) -> list[str]:
    """Lines of the records of a file, perhaps none, one of them perhaps with another character in its columns."""
    lines = lines_due(text, rng.random() < 0.5, rng.random() < 0.5)
    if lines and rng.random() < 0.2:
        at, column = rng.randrange(len(lines)), rng.randrange(60)
        lines[at] = lines[at][:column] + rng.choice([*SOLID, " "]) + lines[at][column + 1 :]
    return lines


def fault_of(plain: bytes, told: list[str], has_number: bool) -> tuple[int, str] | None:
    """The first wrong line of a text and its cause, by the text without its fields and lines."""
    fault = mixed_fault(plain)
    if fault is not None:
        return fault[0] + (fault[0] > 3 and has_number) + (fault[0] > FRONT) * len(told), fault[1]
    wrong = wrong_line(told, plain.decode())
    return None if wrong is None else (FRONT + 1 + has_number + wrong, "C1 HeaderLine")


def some_text(rng: Random) -> tuple[bytes, bytes, tuple[int, str] | None]:
    """A text, the same without its fields and lines, and the first wrong line of the text and its cause, if one is wrong."""
    file = some_file(rng)[0]
    lines = file.splitlines()
    front, rest = lines[:FRONT], "".join(f"{line}\n" for line in lines[FRONT:]).encode()
    fields = some_fields(rng, float(front[8][:14]) != 0)
    told = some_lines(rng, file)
    rest = damaged_mixed(rng, rest) if rng.random() < 0.7 else rest
    plain, text = ("".join(f"{line}\n" for line in its).encode() + rest for its in (front, labelled(front, fields) + told))
    return text, plain, fault_of(plain, told, bool(fields.number.strip()))
