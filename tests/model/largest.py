"""The file whose picture is the largest: 32 satellites and 16 codes, with each mark in each column. And files of a given
size."""

from __future__ import annotations

from collections.abc import Iterator

import model
from messages import CODES
from pictures import SIGNS

COLUMNS = 1_440
SATELLITES = 32
# Each of these characters takes five in SVG.
MARKER = "&" * 60
NOON, MADE = model.moment("2024-05-17T12:00:00"), model.moment("2024-05-17T13:00:00")

# Of a code a phase with a slip and an open half cycle, and one without; of the first code a strength of the digits 1 and 2, which stand before it.
PHASE = " " * 16 + " 110804903.5473 " + " " * 16
SOUND = " " * 16 + " 110804903.547  " + " " * 16
STRENGTHS = "1         8.000", "2        12.000"


def header(codes: list[str]) -> bytes:
    """That of a file whose first record is at noon."""
    lines = model.header(model.Setup(0, NOON, MADE, MARKER, tuple(codes), 64), {}, NOON)
    return "".join(f"{line}\n" for line in lines).encode()


def epoch_line(second: int, satellites: int) -> str:
    """That of so many seconds after noon."""
    return f"{model.epoch_line(NOON + 1000 * second, satellites)}\n"


def rows(cells: str) -> str:
    return "".join(f"G{number:02}{cells}\n" for number in range(1, SATELLITES + 1))


def largest(columns: int = COLUMNS) -> Iterator[bytes]:
    """Its text: of four seconds of a column the first has each phase, the second one of the first code with a strength, the
    third one of the second code, and the last is missing."""
    yield header(CODES)
    phases = rows((PHASE * len(CODES)).rstrip())
    firsts = [rows(SOUND[:31] + strength) for strength in STRENGTHS]
    second_code = rows((" " * 48 + SOUND).rstrip())
    for column in range(columns):
        for second, lines in enumerate((phases, firsts[column % 2], second_code)):
            yield f"{epoch_line(4 * column + second, SATELLITES)}{lines}".encode()


# The same in characters: with so many of these columns the file has 395 seconds, so each second has a column of its own.
CHARACTERS = 99


def largest_in_characters() -> bytes:
    """The picture, 400 characters wide: a satellite has a slip and a half cycle, twice missing codes and nothing, again and again;
    and each fourth epoch is missing. The first bits 0 are rises. Ticks are 15 columns apart, the last one without room for its label."""
    row = "H" + ("B-- " * CHARACTERS)[1:-1]
    ticks = range(0, len(row), 15)
    labels = "".join(f"{model.civil(NOON + 1000 * it):%H:%M:%S}".ljust(15) for it in ticks[:-1])
    lines = [f"marker {MARKER}", "from 2024-05-17 12:00:00.000 GPS time", "until 2024-05-17 12:06:34.000 GPS time"]
    lines += ["interval 1.000", "column 1.000", f"records {3 * CHARACTERS}", f"satellites {SATELLITES}"]
    lines.append(f"slips {(CHARACTERS - 1) * SATELLITES * len(CODES)}")
    lines += ["returns 0", f"rises {SATELLITES * len(CODES)}", f"missing {CHARACTERS - 1}"]
    lines.append("GPS")
    lines += [f"G{number:02}|{row}|" for number in range(1, SATELLITES + 1)]
    lines.append(f"gap|{('   x' * CHARACTERS)[:-1]}|")
    lines.append("    " + "".join("+" if it in ticks else "-" for it in range(len(row))))
    lines.append("    " + labels.ljust(len(row)))
    return "".join(f"{line}\n" for line in [*lines, *SIGNS]).encode()


# What a satellite shows: a range, which may have a phase after it.
RANGE = "  20000000.000"
WITH_PHASE = RANGE + "   100000000.000"


def filled(size: int, records: int) -> Iterator[bytes]:
    """A file of just so many bytes, and of so many records a second apart: each has a range of satellite 5, and the first ones
    a phase, as many as fill it up; the first record has a range of satellite 6 too."""
    first, last = (f"G05{shown}\n" for shown in (WITH_PHASE, RANGE))
    least = len(header(CODES[:1])) + records * len(epoch_line(0, 1) + last) + len(last)
    phases, rest = divmod(size - least, len(first) - len(last))
    assert rest == 0 and 0 < phases <= records
    yield header(CODES[:1])
    yield f"{epoch_line(0, 2)}{first}G06{RANGE}\n".encode()
    for second in range(1, records):
        yield f"{epoch_line(second, 1)}{first if second < phases else last}".encode()
