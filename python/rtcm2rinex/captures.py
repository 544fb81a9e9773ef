"""What a capture holds, as `summary` says it."""

from __future__ import annotations

import re
from dataclasses import dataclass, field
from datetime import datetime
from typing import Dict, List, Match, Optional, Tuple, cast

from .faults import FormError
from .inputs import Input, is_open, word_of
from .program import Location, lines_of, run
from .reports import time_in, whole


@dataclass(frozen=True)
class Date:
    """A date that messages of a station tell: the first such UTC time, the number of the messages, and how many of them tell one."""

    time: datetime
    message: int
    count: int


@dataclass(frozen=True)
class ClockOffset:
    """By how many milliseconds (ms) the clock of a system is ahead, in so many (`count`) of the clocks that were compared (`compared`)."""

    ahead_ms: int
    count: int
    compared: int


@dataclass
class StationSummary:
    """What a capture holds of one station.

    `messages` says how many messages of each number came. `first_tow` and `last_tow` are the times of week of the first and the last
    observation message of GPS, Galileo, QZSS, SBAS or NavIC in milliseconds (ms), or None. `changes_of_time` says how often the time of
    week changes from one such message to the next. `equipment` has what messages told last, by the names `antenna-type`,
    `antenna-serial`, `antenna-setup`, `receiver-type`, `receiver-version` and `receiver-serial`. `changes` says how often such a value
    changed. A byte that cannot be printed is written as in `\\x0A`.

    `satellites` and `codes` have a range, a phase or a strength. `epochs` says at how many epochs the MSM of each number of another system
    than GPS have values, and `channels` which frequency channels messages tell for each slot of GLONASS. `clocks` has the systems whose
    clocks are apart, by their letters. `second_frequency` is 2P if the capture has 2P and not 2W, or else
    None. `other_msm` says at how many epochs other MSM have values. `next` and `auto` are the commands of the shell that convert the
    capture, or None.
    """

    station: int
    messages: Dict[int, int] = field(default_factory=dict)
    first_tow: Optional[int] = None
    last_tow: Optional[int] = None
    changes_of_time: int = 0
    dates: List[Date] = field(default_factory=list)
    equipment: Dict[str, str] = field(default_factory=dict)
    changes: Dict[str, int] = field(default_factory=dict)
    satellites: Tuple[str, ...] = ()
    codes: Tuple[str, ...] = ()
    epochs: Dict[int, int] = field(default_factory=dict)
    channels: Dict[int, Tuple[int, ...]] = field(default_factory=dict)
    clocks: Dict[str, ClockOffset] = field(default_factory=dict)
    second_frequency: Optional[str] = None
    other_msm: Dict[int, int] = field(default_factory=dict)
    next: Optional[str] = None
    auto: Optional[str] = None


@dataclass
class Summary:
    """What a capture holds.

    `bytes` is its length, `outside_frames` the number of its bytes that are in no frame, and `frames` the number of frames. If there is
    no frame, `looks_like` says what the file looks like, such as `gzip`. `stations` has the stations by their numbers.

    `weeks` says how many 1019 name a week, modulo 1,024. `system_weeks` says how many 1042, 1045 and 1046 do, by the number of the
    message: weeks of BeiDou modulo 8,192, and of Galileo modulo 4,096. `other` says how many messages came of each number that is not
    converted, and `untaken` how many GPS observation messages of such numbers. `refused` says how many frames with a fault and a number
    (or None) cannot be read. `has_codes` says whether a station has a code.
    """

    bytes: int = 0
    outside_frames: int = 0
    frames: int = 0
    looks_like: Optional[str] = None
    stations: Dict[int, StationSummary] = field(default_factory=dict)
    weeks: Dict[int, int] = field(default_factory=dict)
    system_weeks: Dict[int, Dict[int, int]] = field(default_factory=dict)
    other: Dict[int, int] = field(default_factory=dict)
    untaken: Dict[int, int] = field(default_factory=dict)
    refused: Dict[Tuple[str, Optional[int]], int] = field(default_factory=dict)
    has_codes: bool = True


def summary(capture: Input, *, program: Optional[Location] = None) -> Summary:
    """Says what a capture holds, and how to convert it. `capture` is a name or an open binary file.

    Raises `WorkError` if the capture cannot be read.
    """
    if not is_open(capture) and "\n" in word_of(cast(str, capture)):
        with open(cast(str, capture), "rb") as file:  # whose name the line `next` could not have
            return summary(file, program=program)
    return read_summary(run(program, ["summary"], [capture]).text())



EQUIPMENT = ("antenna-type", "antenna-serial", "antenna-setup", "receiver-type", "receiver-version", "receiver-serial")
NUMBER, TWO, ANY = r"(\d+)", r"(\d+) (\d+)", "(.*)"

# What follows the first word of a line: of the whole capture, and of a station
OF_CAPTURE = {
    "bytes": NUMBER,
    "outside-frames": NUMBER,
    "frames": NUMBER,
    "looks-like": r"(\S+)",
    "station": NUMBER,
    "week": rf"{NUMBER} (1019|104[256]) {NUMBER}",
    "other": TWO,
    "untaken": rf"\w+ {TWO}",
    "refused": rf"(M\d) (?:(\d+)|-) {NUMBER}",
    "nothing": "taken",
}
OF_STATION = {
    "message": TWO,
    "time-of-week": f"{TWO}|-",
    "changes-of-time": NUMBER,
    "date": rf"(\S{{19}}) {TWO}",
    **{name: ANY for name in EQUIPMENT},
    **{f"changes-of-{name}": NUMBER for name in EQUIPMENT},
    "satellites": r"([A-Z]\d\d(?: [A-Z]\d\d)*)|-",
    "codes": r"(\w{2,3}(?:,\w{2,3})*)|-",
    "epochs": TWO,
    "channels": r"(\d+:-?\d(?:,\d+:-?\d)*)",
    "clock": r"([A-Z]) ([+-])(\d+)\.(\d{3}) (\d+) of (\d+)",
    "second-frequency": r"(\w\w)",
    "other-msm": TWO,
    "next": ANY,
    "auto": ANY,
}


def read_summary(text: str) -> Summary:
    """Reads the lines of a summary. A line of a station begins with a blank."""
    found, station = Summary(), None
    for number, line in enumerate(lines_of(text), 1):
        is_of_station = line.startswith(" ")
        word, _, rest = line[is_of_station:].partition(" ")
        form = (OF_STATION if is_of_station else OF_CAPTURE).get(word)
        match = re.fullmatch(form, rest, re.ASCII) if form else None
        if match is None or (is_of_station and station is None):
            raise FormError(number, f"{line!r} is no line of a summary")
        if station and is_of_station and word == "date":
            station.dates.append(Date(time_in(number, line, match[1]), int(match[2]), int(match[3])))
        elif station and is_of_station:
            keep_of_station(station, word, match)
        elif word == "station":
            station = found.stations[int(match[1])] = StationSummary(int(match[1]))
        else:
            keep(found, word, match)
    return found


def keep(found: Summary, word: str, match: Match[str]) -> None:
    """Keeps what a line says of the whole capture."""
    if word in ("bytes", "outside-frames", "frames"):
        setattr(found, word.replace("-", "_"), int(match[1]))
    elif word == "looks-like":
        found.looks_like = match[1]
    elif word == "week":
        weeks = found.weeks if match[2] == "1019" else found.system_weeks.setdefault(int(match[2]), {})
        weeks[int(match[1])] = int(match[3])
    elif word == "other":
        found.other[int(match[1])] = int(match[2])
    elif word == "untaken":
        found.untaken[int(match[1])] = int(match[2])
    elif word == "refused":
        found.refused[match[1], whole(match[2])] = int(match[3])
    else:
        found.has_codes = False


def keep_of_station(found: StationSummary, word: str, match: Match[str]) -> None:
    """Keeps what a line says of a station."""
    if word == "message":
        found.messages[int(match[1])] = int(match[2])
    elif word == "other-msm":
        found.other_msm[int(match[1])] = int(match[2])
    elif word == "time-of-week":
        found.first_tow, found.last_tow = whole(match[1]), whole(match[2])
    elif word == "changes-of-time":
        found.changes_of_time = int(match[1])
    elif word in EQUIPMENT:
        found.equipment[word] = match[1]
    elif word.startswith("changes-of-"):
        found.changes[word[len("changes-of-") :]] = int(match[1])
    elif word == "satellites":
        found.satellites = tuple((match[1] or "").split())
    elif word == "codes":
        found.codes = tuple(match[1].split(",")) if match[1] else ()
    elif word == "epochs":
        found.epochs[int(match[1])] = int(match[2])
    elif word == "channels":
        for slot, channel in (it.split(":") for it in match[1].split(",")):
            found.channels[int(slot)] = (*found.channels.get(int(slot), ()), int(channel))
    elif word == "clock":
        ms = 1000 * int(match[3]) + int(match[4])
        found.clocks[match[1]] = ClockOffset(-ms if match[2] == "-" else ms, int(match[5]), int(match[6]))
    else:
        setattr(found, word.replace("-", "_"), match[1])
