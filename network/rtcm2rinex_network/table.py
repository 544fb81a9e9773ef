"""The table of stations: its rows, what is wrong with them, and the row of a station at a time."""

from __future__ import annotations

import os
import re
from pathlib import Path
from typing import Dict, Iterator, List, NamedTuple, Optional, Tuple

from .ends import Refused
from .names import Name
from .settings import HOUR, Settings
from .systems import (AUTO, DEFAULT_KIND, GLONASS, GPS, KINDS, NO_KINDS, WITH_1012, by_slots, fault_of_channels, fault_of_codes,
    kinds_of, system_of, systems_of, type_of_data, words_of_kinds)
from .times import LENGTHS, Span, ms_of, text_of, time_of

COLUMNS = "station marker name9 interval codes window directory"
NAME9 = r"[A-Z0-9]{4}[0-9]{2}[A-Z]{3}"
FIRST, LAST = 0, 1 << 40  # the times of what has no date


class Dates(NamedTuple):
    """From when until when a row or a label holds: `begin` is in it, and `end` is not."""

    begin: int = FIRST
    end: int = LAST

    def has(self, at: float) -> bool:
        """Whether it holds at a time."""
        return self.begin <= at < self.end

    def meets(self, other: Dates) -> bool:
        """Whether there is a time at which both hold."""
        return self.begin < other.end and other.begin < self.end


class Row(NamedTuple):
    """A row of the table of stations, with the number of its line.

    `text` has its seven columns as the list of a file keeps them. `glonass` has its words channels=, which is auto by default if a code is
    of GLONASS, leap_seconds= and with-1012=. `fault` says what is wrong with the row, and is empty if nothing is.
    """

    number: int
    text: str
    station: str
    marker: str
    name9: str
    interval: str
    codes: str
    window: str
    directory: Path
    own_msm: Optional[str]
    glonass: Dict[str, str]
    dates: Dates
    fault: str

    @property
    def interval_ms(self) -> int:
        """The interval in ms."""
        return ms_of(self.interval) or 0

    @property
    def place(self) -> str:
        """Its directory without links, by which rows have the same one."""
        return os.path.realpath(self.directory)

    def is_of(self, word: str) -> bool:
        """Whether this is its number or its name."""
        return word in (self.station, self.name9)

    @property
    def code_names(self) -> Tuple[str, ...]:
        """Its codes, one by one."""
        return tuple(self.codes.split(","))

    @property
    def systems(self) -> str:
        """The systems of its codes."""
        return systems_of(self.code_names)

    @property
    def has_auto_channels(self) -> bool:
        """Whether captures tell its channels of GLONASS."""
        return self.glonass.get("channels") == AUTO

    @property
    def asks_captures(self) -> bool:
        """Whether captures tell how it is converted. The clock of GPS times the others, so codes of GPS alone ask nothing."""
        return self.systems != GPS

    def as_told(self, channels: str, left_out: str) -> Row:
        """The row as it is converted: without the systems that are left out, and with these channels in place of auto."""
        codes = ",".join(it for it in self.code_names if system_of(it) not in left_out)
        glonass = {name: channels if it == AUTO else it for name, it in self.glonass.items()}
        if GLONASS in left_out:
            glonass = {name: it for name, it in glonass.items() if name == "leap_seconds"}
        return self._replace(codes=codes, glonass=glonass)

    @property
    def has_1012(self) -> bool:
        """Whether messages 1012 are taken."""
        return WITH_1012 in self.glonass

    def near(self, span: Span) -> str:
        """The time near which the captures of a span are dated: its begin, or with 1012, which tell no day, the middle of its hour. All
        captures of an hour and of those beside it are within half a day of this time."""
        return text_of(span.own_hours[0] + HOUR // 2) if self.has_1012 else span.start

    def refuse_long(self, length: str) -> None:
        """Refuses spans of this length if messages 1012 are taken and could get the wrong day."""
        if self.has_1012 and LENGTHS[length] > HOUR:
            raise Refused(f"{WITH_1012}=yes is for spans of an hour or less, because a 1012 tells no day")

    def name(self, span: Span) -> Name:
        """The name of the file of a span."""
        return Name(self.name9, span, self.interval, type_of_data(self.code_names))

    def msm(self, settings: Settings) -> str:
        """Which MSM is converted of each system, beside 1004: what the row says, else what the settings say."""
        words = self.own_msm if self.own_msm is not None else settings.msm
        return words_of_kinds(kinds_of(words, self.code_names))

    @property
    def codes_and_channels(self) -> List[str]:
        """Its codes as options of `convert`, and what is told of GLONASS."""
        words = [[f"--{name.replace('_', '-')}", *([] if name == WITH_1012 else [it])] for name, it in self.glonass.items()]
        return ["--codes", self.codes, *(word for its in words for word in its)]

    def options(self, msm: str) -> List[str]:
        """Its options of `convert`, but for the window, with this MSM."""
        return ["--station", self.station, "--marker", self.marker, *self.codes_and_channels,
            *([] if msm == DEFAULT_KIND else ["--msm", msm])]


def lines_of_table(path: Path) -> Iterator[Tuple[int, str]]:
    """Each row of a table with the number of its line, without comments, empty lines and line ends of other systems."""
    try:
        text = path.read_text(encoding="utf-8", errors="surrogateescape")
    except OSError:
        raise Refused(f"can't read the table {path}") from None
    for number, line in enumerate(text.split("\n"), 1):
        line = line[:-1] if line.endswith("\r") else line
        if not re.match(r"[ \t]*(#|$)", line):
            yield number, line.strip(" \t")


def read_table(path: Path) -> List[Row]:
    """The rows of a table of stations."""
    return [read_row(number, line, path.resolve().parent) for number, line in lines_of_table(path)]


def read_row(number: int, line: str, beside: Path) -> Row:
    """A row. A directory that does not begin with / lies beside the table."""
    columns = re.split(r"[ \t]+", line, maxsplit=6) + [""] * 7
    directory, words, twice = split_words(columns[6], "msm", "channels", "leap_seconds", WITH_1012, "from", "until")
    dates, fault = read_dates(words)
    station, marker, name9, interval, codes, window = columns[:6]
    fault = fault_of(columns[:6], directory) or (f"{twice}= is there twice" if twice else "") or fault or fault_of_words(words, codes)
    glonass = {}
    if not fault and GLONASS in systems_of(codes.split(",")):
        glonass["channels"] = by_slots(words.get("channels", AUTO))
    glonass.update({name: words[name] for name in ("leap_seconds", WITH_1012) if name in words})
    return Row(number, " ".join([*columns[:6], directory]), station, marker, name9, interval, codes, window, beside / directory,
        words.get("msm"), glonass, dates, fault)


def split_words(text: str, *names: str) -> Tuple[str, Dict[str, str], str]:
    """A text that may have blanks, the words NAME=VALUE with these names at its end, and a name that is there twice, if one is."""
    words: Dict[str, str] = {}
    twice = ""
    form = re.compile(rf"(?s)(?:(.*?)[ \t]+|)({'|'.join(names)})=([^ \t]*)")
    while match := form.fullmatch(text):
        text = match[1] or ""
        twice = match[2] if match[2] in words else twice
        words[match[2]] = match[3]
    return text, words, twice


def read_dates(words: Dict[str, str]) -> Tuple[Dates, str]:
    """The dates of words from= and until=, and what is wrong with them."""
    times = {}
    for word, default in (("from", FIRST), ("until", LAST)):
        at = time_of(words[word]) if word in words else default
        if at is None:
            return Dates(), f"{word}={words[word]} is no GPS time like 2024-05-17 or 2024-05-17T12:00:00"
        times[word] = at
    dates = Dates(times["from"], times["until"])
    return dates, "" if dates.begin < dates.end else f"from={words.get('from')} is not before until={words.get('until')}"


def fault_of(columns: List[str], directory: str) -> str:
    """What is wrong with the columns of a row; nothing if they are good. Another path can't be read by the program."""
    station, marker, name9, interval, codes, window = columns
    if not directory:
        return f"it has fewer columns than {COLUMNS}"
    if not re.fullmatch("[0-9]{1,4}", station) or int(station) > 4095:
        return f"station {station!r} is no number from 0 to 4095"
    if not re.fullmatch("[!-~]{1,60}", marker):
        return f"marker {marker!r} is not 1 to 60 printable characters of ASCII"
    if not re.fullmatch(NAME9, name9):
        return f"name9 {name9!r} is not like BASE00XXX"
    if ms_of(interval) is None:
        return f"interval {interval!r} is not like 01S, 30S or 10Z"
    if fault := fault_of_codes(codes):
        return fault
    if not re.fullmatch("[0-9]{1,4}", window) or not 2 <= int(window) <= 4096:
        return f"window {window!r} is no number from 2 to 4096"
    if re.search("[\x00-\x1f\x7f]", directory):
        return "the directory has control characters"
    return "the directory is not UTF-8" if re.search("[\ud800-\udfff]", directory) else ""


def fault_of_words(words: Dict[str, str], codes: str) -> str:
    """What is wrong with the words msm=, channels=, leap_seconds= and with-1012= of a row with these codes; nothing if they are good."""
    if not re.fullmatch(KINDS, words.get("msm", DEFAULT_KIND)):
        return f"msm={words['msm']} is {NO_KINDS}"
    if not re.fullmatch("[1-9]?[0-9]", words.get("leap_seconds", "0")):
        return f"leap_seconds={words['leap_seconds']} is no number from 0 to 99"
    if words.get(WITH_1012, "yes") != "yes":
        return f"{WITH_1012}={words[WITH_1012]} is not yes"
    if WITH_1012 in words and GLONASS not in systems_of(codes.split(",")):
        return f"{WITH_1012}=yes is there without a code of R"
    return fault_of_channels(words.get("channels"), codes.split(","))


def rows_of_station(path: Path, word: str) -> List[Row]:
    """All rows of the station with this number or name. Refuses if there is none."""
    if not re.fullmatch("[A-Z0-9]{1,9}", word):
        raise Refused("STATION is no number and no name of nine characters")
    found = [row for row in read_table(path) if row.is_of(word)]
    if not found:
        raise Refused(f"{word} is not in the table {path}")
    return found


def find_row(path: Path, word: str, at: float) -> Row:
    """The row of the station with this number or name that holds at a time. Refuses if there is none or more than one."""
    found = [row for row in rows_of_station(path, word) if row.dates.has(at)]
    if not found:
        raise Refused(f"no row of {word} in the table {path} holds at {text_of(at)}")
    if len(found) > 1:
        raise Refused(f"{word} is in the table {path} more than once")
    if found[0].fault:
        raise Refused(f"the row of {word} in the table {path}: {found[0].fault}")
    return found[0]


def rows_with_faults(path: Path) -> Iterator[Tuple[Row, str]]:
    """Each row of a table, and what is wrong with it, also beside the rows above."""
    above: List[Row] = []
    for row in read_table(path):
        is_twice = any(row.name9 == it.name9 and row.dates.meets(it.dates) for it in above)
        yield row, row.fault or (f"a row above has the name {row.name9} too" if is_twice else "")
        above.append(row)
