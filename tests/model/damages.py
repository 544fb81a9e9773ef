"""Files that are damaged in one to three places, near each other or anywhere.

A damage is made at a line, and answers the lines that stand there afterwards. What comes about may be
a file again.
"""

from __future__ import annotations

from random import Random
from typing import Callable

Lines = list[bytes]  # each with its LF

BYTES = (b" ", b"0", b"1", b"9", b"-", b".", b"G", b">", b"\n", b"\r", b"\0", b"\xb2", b"\xff")


def any_byte(rng: Random) -> bytes:
    return rng.choice((rng.choice(BYTES), b"%d" % rng.randrange(10), rng.randbytes(1)))


def place_in(rng: Random, line: bytes) -> int:
    return rng.randrange(len(line) or 1)


def changed(rng: Random, line: bytes) -> bytes:
    at = place_in(rng, line)
    return line[:at] + any_byte(rng) + line[at + 1 :]


def inserted(rng: Random, line: bytes) -> bytes:
    at = place_in(rng, line)
    return line[:at] + rng.choice((any_byte(rng), line[at : at + 1])) + line[at:]


def deleted(rng: Random, line: bytes) -> bytes:
    at = place_in(rng, line)
    return line[:at] + line[at + 1 :]


def cut_short(rng: Random, line: bytes) -> bytes:
    return line[: place_in(rng, line)] + b"\n"


def counted(rng: Random, line: bytes) -> bytes:
    """An epoch line with another count, good or bad."""
    count = rng.choice((0, 33, 32, 1, 2, rng.randrange(100)))
    return b"%s%3d\n" % (line[:32], count)


def timed(rng: Random, line: bytes) -> bytes:
    """An epoch line with other digits of its time, and maybe another count."""
    at = rng.choice((5, 8, 11, 14, 17, 20, 22, 24, 25))
    line = line[:at] + b"%d" % rng.randrange(10) + line[at + 1 :]
    return rng.choice((line, counted(rng, line)))


def renamed(rng: Random, line: bytes) -> bytes:
    """A satellite line with another satellite, 00 and those above 32 among them."""
    return b"G%02d" % rng.choice((0, 0, 1, 32, 33, rng.randrange(100))) + line[3:]


def lengthened(rng: Random, line: bytes) -> bytes:
    """A satellite line with some columns more, or with more than any line has."""
    more = rng.choice((b" ", b"xxx", b"         1.000", b" " * 768 + b"x", line[3:-1] * 50 + b"1"))
    return line[:-1] + more + b"\n"


def emptied(rng: Random, line: bytes) -> bytes:
    """Three columns, maybe of another satellite or of none."""
    return rng.choice((line[:3], line[:3], b"G33", b"xyz", b"G00", b"G01")) + b"\n"


def revalued(rng: Random, line: bytes) -> bytes:
    """A satellite line with another value or another digit behind it."""
    places = range(3, len(line) - 15, 16)
    if not places:
        return line[:3] + b"         0.000\n"
    at = rng.choice(places)
    value = rng.choice((0, 1, -1, 249, 250, 45_000, 45_100, 63_750, 64_000, rng.randrange(10**13)))
    text = b"%10d.%03d" % divmod(value, 1000)
    return rng.choice((
        line[:at] + text + line[at + 14 :],
        line[: at + 14] + any_byte(rng) + line[at + 15 :],
        line[: at + 15] + any_byte(rng) + line[at + 16 :],
        line[:at] + b" " * 16 + line[at + 16 :],
    ))  # fmt: skip


ANYWHERE = (changed, changed, inserted, deleted, cut_short)
OF_EPOCHS = (counted, counted, timed)
OF_SATELLITES = (renamed, renamed, lengthened, emptied, revalued, revalued)


def other_line(rng: Random, line: bytes) -> bytes:
    """A line that is changed as one of its kind may be, once or twice."""
    for _ in range(rng.choice((1, 1, 2))):
        own: tuple[Callable[[Random, bytes], bytes], ...] = ()
        if line.startswith(b"> "):
            own = OF_EPOCHS
        elif line.startswith(b"G") and len(line) != 81:
            own = OF_SATELLITES
        line = rng.choice(own if own and rng.random() < 0.7 else ANYWHERE)(rng, line)
    return line


def damage(rng: Random, lines: Lines, at: int) -> None:
    """Damages the lines at this one."""
    line = lines[at]
    kind = rng.randrange(10)
    if kind == 0:
        del lines[at]
    elif kind == 1:
        lines.insert(at, line)
    elif kind == 2:
        other = min(max(at + rng.randint(-3, 3), 0), len(lines) - 1)
        lines[at], lines[other] = lines[other], line
    elif kind in (3, 4):  # a line again, and not as before
        lines.insert(at + 1, other_line(rng, line))
    elif kind == 5:  # the last epoch line again, after its record
        begin = next((row for row in range(at, -1, -1) if lines[row][:2] == b"> "), at)
        end = next((row for row in range(at + 1, len(lines)) if lines[row][:2] == b"> "), len(lines))
        lines.insert(end, rng.choice((lines[begin], other_line(rng, lines[begin]))))
    else:
        lines[at] = other_line(rng, line)


def ended(rng: Random, lines: Lines, at: int) -> bytes:
    """The text, which may end early, also soon after this line, or without its last LF."""
    text = b"".join(lines)
    kind = rng.randrange(12)
    if kind == 0:
        return text[:-1]
    if kind == 1:
        return text[: rng.randint(0, len(text))]
    if kind == 2:
        return b"".join(lines[: at + rng.randint(0, 3)])
    if kind == 3:
        return b"".join(lines[: at + rng.randint(1, 3)])[:-1]
    if kind == 4:
        return text + rng.choice((any_byte(rng), b"\n", b"> 20", b"G", lines[-1][:-1]))
    return text


def damaged_file(rng: Random, text: bytes) -> bytes:
    """The file with one to three damages: most of them near the first one, few in the header, and
    many in the last record."""
    lines = text.splitlines(keepends=True)
    records = 1 + next(at for at, line in enumerate(lines) if b"END OF HEADER" in line)
    count = len(lines)
    begin = rng.choice((0, records, records, records, max(records, count - 6)))
    places = range(begin if begin < count else 0, count)
    near = rng.choice(places)
    for turn in range(rng.choice((1, 2, 2, 3))):
        at = near if turn == 0 else rng.choice((near, near + rng.randint(-2, 2), rng.choice(places)))
        if lines:
            damage(rng, lines, min(max(at, 0), len(lines) - 1))
    return ended(rng, lines, near) if lines else b""
