"""The report of a conversion: the late, conflicting and refused messages, what is told of systems, and the counts."""

from __future__ import annotations

import re
from dataclasses import dataclass, fields
from datetime import datetime
from typing import Dict, List, Optional, Sequence, Tuple

from .faults import FormError


@dataclass(frozen=True)
class LateMessage:
    """A message that came too late for the file.

    `link` counts from 1, in the order of the command, and `message` is the number of the message. `epoch` is its GPS time, or None
    for a 1005 or 1006.
    """

    link: int
    message: int
    epoch: Optional[datetime]


@dataclass(frozen=True)
class Conflict:
    """A cell, or a 1005 or 1006, that differs from its first copy. The file has the first copy.

    `link` is the link of the later copy, counted from 1. `epoch` is the GPS time, `satellite` a name such as `G05`, and `code` a
    signal such as `1C`. These three are None for a 1005 or 1006.
    """

    link: int
    message: int
    epoch: Optional[datetime]
    satellite: Optional[str]
    code: Optional[str]


@dataclass(frozen=True)
class RefusedMessage:
    """A frame that cannot be read. `fault` is M1, M3, M4 or M5, and `message` the number of the message, or None if it has none."""

    link: int
    fault: str
    message: Optional[int]


@dataclass(frozen=True)
class Counts:
    """The nine counts of a report.

    Each of the `frames` also counts in exactly one of the seven counts from `other` to `late`. `epochs` is the number of records in
    the file.
    """

    frames: int
    other: int
    refused: int
    foreign: int
    taken: int
    repeat: int
    conflict: int
    late: int
    epochs: int


@dataclass(frozen=True)
class Report:
    """What became of the messages of a conversion. The first three lists are in the order in which the messages came.

    `other_channel` names the slots of GLONASS, such as `R09`, of which messages told another frequency channel than the option
    `channels`. `no_channel` names those that messages had and `channels` lacks. `no_message` has the letters of the systems that have
    codes, but no message that was taken. These three are empty with codes of GPS alone.
    """

    counts: Counts
    late: Tuple[LateMessage, ...] = ()
    conflicts: Tuple[Conflict, ...] = ()
    refused: Tuple[RefusedMessage, ...] = ()
    other_channel: Tuple[str, ...] = ()
    no_channel: Tuple[str, ...] = ()
    no_message: Tuple[str, ...] = ()


COUNTS = [field.name for field in fields(Counts)]
MOMENT = r"(\d{4}-\d\d-\d\d \d\d:\d\d:\d\d\.\d{3})"
LATE = re.compile(rf"link (\d+) late (\d+) (?:{MOMENT}|-)", re.ASCII)
CONFLICT = re.compile(rf"link (\d+) conflict (\d+) (?:{MOMENT} ([GRECJSI]\d\d) (\w\w)|-)", re.ASCII)
REFUSED = re.compile(r"link (\d+) refused (M\d) (?:(\d+)|-)", re.ASCII)
OF_SYSTEMS = re.compile(r"(?:(?:other|no)-channel (?:-|R\d\d(?: R\d\d)*)|no-message [GRECJSI](?: [GRECJSI])*)", re.ASCII)


def moment_of(text: Optional[str]) -> Optional[datetime]:
    """The GPS time of a text with milliseconds, or None if there is no text."""
    return datetime.strptime(text, "%Y-%m-%d %H:%M:%S.%f") if text else None


def whole(text: Optional[str]) -> Optional[int]:
    """The number of these digits, or None if there are none."""
    return int(text) if text else None


def read_report(lines: Sequence[str], first: int = 1) -> Report:
    """Reads the lines of a report. `first` is the number of the first one in the whole text, for the line of a fault."""
    found: Dict[str, int] = {}
    late: List[LateMessage] = []
    conflicts: List[Conflict] = []
    refused: List[RefusedMessage] = []
    names: Dict[str, Tuple[str, ...]] = {}
    for number, line in enumerate(lines, first):
        if match := LATE.fullmatch(line):
            late.append(LateMessage(int(match[1]), int(match[2]), time_in(number, line, match[3]) if match[3] else None))
        elif match := CONFLICT.fullmatch(line):
            epoch = time_in(number, line, match[3]) if match[3] else None
            conflicts.append(Conflict(int(match[1]), int(match[2]), epoch, match[4], match[5]))
        elif match := REFUSED.fullmatch(line):
            refused.append(RefusedMessage(int(match[1]), match[2], whole(match[3])))
        elif OF_SYSTEMS.fullmatch(line) and not found:  # before the counts
            word, *told = line.split(" ")
            names[word.replace("-", "_")] = () if told == ["-"] else tuple(told)
        else:
            found.update([count_of(number, line, len(found))])
    if len(found) != len(COUNTS):
        raise FormError(first + len(lines), "the report ends before its last count")
    return Report(Counts(**found), tuple(late), tuple(conflicts), tuple(refused), **names)


def time_in(number: int, line: str, text: str) -> datetime:
    """The time that this text of a line is."""
    try:
        return datetime.fromisoformat(text)
    except ValueError as fault:
        raise FormError(number, f"{line!r} has no time") from fault


def count_of(number: int, line: str, before: int) -> Tuple[str, int]:
    """The name and the value of a count, which is the next one in the order of the counts."""
    name, _, value = line.partition(" ")
    if before == len(COUNTS) or name != COUNTS[before] or not re.fullmatch("[0-9]+", value):
        raise FormError(number, f"{line!r} is no line of a report")
    return name, int(value)
