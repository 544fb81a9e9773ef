"""What `rtcm2rinex summary` tells of captures: the channels of the slots of GLONASS, and the systems whose clocks are wrong.

A conversion can't learn either from its stream, so a run asks before it, and the list of the file has the answers.
"""

from __future__ import annotations

import re
from collections import Counter
from pathlib import Path
from typing import Dict, Iterable, Iterator, List, Mapping, NamedTuple, Sequence, Set, Tuple, TypeVar

from .captures import Unread, pieces_of
from .ends import Again, Refused
from .program import Program, fault_of
from .systems import GLONASS, channels_of, words_of_channels
from .table import Row

CHANNELS, UNCHECKED, DATE = " channels ", " unchecked ", " date "
CLOCK = r" clock ([A-Z]) ([+-])([0-9]+)\.([0-9]{3}) ([0-9]+) of ([0-9]+)"
EPOCHS = r" epochs (1[0-9][0-9])[0-9] ([0-9]+)"
SYSTEMS = {"101": GLONASS, "108": GLONASS, "109": "E", "110": "S", "111": "J", "112": "C", "113": "I"}  # by the first digits of numbers
RIGHT = 0  # ms that a clock is off if it is right
WRONG_MS = 500  # from which on a clock makes the messages of others late
MOST_OFF = 0.01  # of the messages of a capture: a few
HOUR = 11  # characters of the name of a capture that tell its hour

Key = TypeVar("Key", int, str)


class Summary:
    """What captures tell of a station: how many of them tell a channel of a slot, how many clocks of a system are off by so many ms, and
    the systems whose clocks were not compared."""

    def __init__(self) -> None:
        self.channels: Counter[Tuple[int, int]] = Counter()
        self.clocks: Counter[Tuple[str, int]] = Counter()
        self.unchecked: Set[str] = set()

    def add(self, other: Summary, but: Iterable[str] = ()) -> None:
        """Adds what another capture tells, but for clocks of these systems."""
        self.channels.update(other.channels)
        self.clocks.update({it: count for it, count in other.clocks.items() if it[0] not in but})
        self.unchecked |= other.unchecked

    def clock(self, system: str) -> Dict[int, int]:
        """How many clocks of a system are off by how many ms."""
        return {ms: count for (it, ms), count in self.clocks.items() if it == system}


class Told(NamedTuple):
    """A row as captures tell it, and what they tell of clocks: how wrong those are of the systems that are left out, and of systems that are
    taken; of which captures which systems are left out, because another link tells them right; and the systems whose clocks were not
    compared."""

    row: Row
    left_out: Mapping[str, str] = {}
    taken: Mapping[str, str] = {}
    of_captures: Mapping[Path, Mapping[str, str]] = {}
    unchecked: str = ""

    @property
    def doubts(self) -> List[str]:
        """What is told of clocks of systems that are taken."""
        unchecked = [f"unchecked {' '.join(self.unchecked)}"] if self.unchecked else []
        return [*(f"clock {system} {it} taken" for system, it in self.taken.items()), *unchecked]

    @property
    def report(self) -> str:
        """The lines of a report that say so."""
        lines = [f"clock {system} {it}" for system, it in self.left_out.items()]
        for path, systems in self.of_captures.items():
            lines += [f"clock {system} {it} {path.parent.name}/{path.name}" for system, it in systems.items()]
        return "".join(f"{line}\n" for line in [*lines, *self.doubts])


# ---------------------------------------------------------------- captures


def lines_of_station(text: str, station: str) -> Iterator[str]:
    """The lines of a station in a text of `summary`."""
    is_own = False
    for line in text.split("\n"):
        if not line.startswith(" "):
            is_own = line == f"station {int(station)}"
        elif is_own:
            yield line


def read_summary(text: str, station: str) -> Summary:
    """What a text of `summary` tells of a station. A system without a line of its clocks was never off, so each of its epochs counts, unless
    they were not compared. GLONASS is not compared either if nothing tells the leap seconds."""
    found = Summary()
    epochs: Counter[str] = Counter()
    is_dated = False
    for line in lines_of_station(text, station):
        if line.startswith(CHANNELS):
            found.channels.update(pair for word in line[len(CHANNELS):].split(",") for pair in channels_of(word).items())
        elif match := re.fullmatch(CLOCK, line):
            ms, count = int(match[2] + match[3] + match[4]), int(match[5])
            found.clocks.update({(match[1], ms): count, (match[1], RIGHT): int(match[6]) - count})
        elif (match := re.fullmatch(EPOCHS, line)) and match[1] in SYSTEMS:
            epochs[SYSTEMS[match[1]]] += int(match[2])
        elif line.startswith(UNCHECKED):
            found.unchecked.update(line[len(UNCHECKED):].split())
        is_dated = is_dated or line.startswith(DATE)
    told = {*(system for system, _ in found.clocks), *found.unchecked}
    found.clocks.update({(system, RIGHT): count for system, count in epochs.items() if system not in told})
    found.unchecked -= set() if is_dated else {GLONASS}
    return found


def ask(program: Program, path: Path, station: str) -> Summary:
    """What a capture tells, which may be gzipped."""
    try:
        given = b"".join(pieces_of(path)) if path.suffix == ".gz" else None
    except Unread as fault:
        raise Again(str(fault)) from None
    ran = program.ran(["summary", str(path) if given is None else "stdin"], given=given)
    if ran.status != 0:
        raise fault_of("summary", ran)
    return read_summary(ran.out, station)


# ---------------------------------------------------------------- a row


def told_of(program: Program, row: Row, own: Sequence[Path], beside: Sequence[Path], known: Mapping[int, int]) -> Told:
    """A row as the captures of a span tell it. Those of the hours beside count for a slot or system of which these tell nothing. A channel
    that is known stays."""
    if not row.asks_captures:
        return Told(row)
    told = {path: ask(program, path, row.station) for path in (*own, *beside)}
    systems = [it for it in row.systems if has_clock(row, it)]
    of_captures = wrong_captures(told, systems)
    of_span, of_hours = Summary(), Summary()
    span = set(own)
    for path, it in told.items():
        (of_span if path in span else of_hours).add(it, of_captures.get(path, ()))
    clocks = counts_of(of_hours.clocks, of_span.clocks)
    off = {system: text for system in systems if (text := offset_of(clocks.get(system, {})))}
    left_out = {system: text for system, text in off.items() if is_wrong(clocks[system])}
    taken = {system: text for system, text in off.items() if system not in left_out}
    channels = {slot: most_frequent(it) for slot, it in counts_of(of_hours.channels, of_span.channels).items()}
    as_told = row.as_told(words_of_channels({**channels, **known}), "".join(left_out))
    if not as_told.codes:
        raise Refused("the clocks of all systems of the row are wrong: " + ", ".join(f"{it} {text}" for it, text in left_out.items()))
    unchecked = [it for it in systems if it in of_span.unchecked and it not in clocks and len(row.systems) > 1]
    return Told(as_told, left_out, taken, of_captures, "".join(unchecked))


def wrong_captures(told: Mapping[Path, Summary], systems: Sequence[str]) -> Dict[Path, Dict[str, str]]:
    """Of which captures which systems are left out, and how wrong their clocks are: those whose clock is off in more than a few messages,
    where a capture of the same hour of another link tells the system right."""
    found: Dict[Path, Dict[str, str]] = {}
    for system in systems:
        clocks = {path: clock for path, it in told.items() if (clock := it.clock(system))}
        right = {path.name[:HOUR] for path, clock in clocks.items() if not is_doubtful(clock)}
        for path, clock in clocks.items():
            if is_doubtful(clock) and path.name[:HOUR] in right:
                found.setdefault(path, {})[system] = offset_of(clock)
    return found


def is_doubtful(clock: Mapping[int, int]) -> bool:
    """Whether a clock is off in more than a few messages."""
    total = sum(clock.values())
    return total - clock.get(RIGHT, 0) > MOST_OFF * total


def counts_of(*parts: Mapping[Tuple[Key, int], int]) -> Dict[Key, Dict[int, int]]:
    """The counts of each slot or system, of the last part that has it."""
    found: Dict[Key, Dict[int, int]] = {}
    for part in parts:
        counts: Dict[Key, Dict[int, int]] = {}
        for (key, value), count in part.items():
            counts.setdefault(key, {})[value] = count
        found.update(counts)
    return found


def most_frequent(counts: Mapping[int, int]) -> int:
    """The value that counts most, of two alike the lesser."""
    return max(counts, key=lambda it: (counts[it], -it))


def has_clock(row: Row, system: str) -> bool:
    """Whether `summary` dates a system as a conversion of the row does. It does not know the leap seconds of a row."""
    return not (system == GLONASS and "leap_seconds" in row.glonass)


def most_off(clock: Mapping[int, int]) -> int:
    """By how many ms a clock is off in most messages in which it is; 0 if it never is. Of two alike it is the lesser."""
    off = {ms: count for ms, count in clock.items() if ms != RIGHT and count}
    return max(off, key=lambda ms: (off[ms], -abs(ms), -ms), default=RIGHT)


def is_wrong(clock: Mapping[int, int]) -> bool:
    """Whether a clock is off by half a second or more, and in more messages than it is right."""
    most = most_off(clock)
    return abs(most) >= WRONG_MS and clock[most] > clock.get(RIGHT, 0)


def offset_of(clock: Mapping[int, int]) -> str:
    """By how much a clock is off in how many messages, in the words of `summary`; nothing if it never is."""
    most = most_off(clock)
    return f"{most / 1000:+.3f} {clock[most]} of {sum(clock.values())}" if most else ""
