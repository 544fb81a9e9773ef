"""How a station is: its links, its newest files, the last day and week, and what to look at."""

from __future__ import annotations

import os
import re
import stat
from dataclasses import dataclass, field
from pathlib import Path
from typing import Dict, FrozenSet, Iterator, List, NamedTuple, Optional, Set, Tuple

from .captures import is_capture
from .ends import Ended
from .lists import MADE, Record, list_of
from .names import LINKS, Name, capture_name, hour_of_capture, read_name
from .places import folder_with, names_below
from .placing import NOTES, UNREAD, failures
from .settings import DAY, HOUR, Settings
from .systems import NO_CHANNELS
from .table import Row
from .times import LENGTHS, Span, age_of

FILE_AGES = {"15M": 3 * HOUR, "01H": 3 * HOUR, "01D": 30 * HOUR}  # after which the newest file is an alarm
GRACES = {"15M": 2 * HOUR, "01H": 2 * HOUR, "01D": 26 * HOUR}  # after which a file is due
WINDOWS = {"24 h": DAY, "7 d": 7 * DAY}
UNUSED = 10 * DAY  # a length whose newest file is so much older than that of another one is left out
OFTEN = 2  # runs of a file that failed, after which it is an alarm
CAPTURE = re.compile(r"(?m)^(?:unread )?(link\d+/\d{11}\.rtcm)\b", re.ASCII)
COUNTED = ("late", "conflict", "refused", "foreign")
CLOCK = "clock"  # a line of a report for each system whose clock is wrong, or in a capture
NAMED = ("other-channel", "no-channel", "no-message", "unchecked", CLOCK)  # lines of a report that name slots of GLONASS or systems
KINDS = ("capture", "file", "missing", "epochs", "unread", *COUNTED, "repeat", *NAMED, "position", "not-made", "table")


class Alarm(NamedTuple):
    """What to look at, by one of the kinds, and in words."""

    kind: str
    text: str


class Link(NamedTuple):
    """A link: the stamp of its newest capture, and the seconds since its last byte, if it has any."""

    number: int
    capture: Optional[str]
    age: Optional[float]


class File(NamedTuple):
    """A file that was made: its name, its epochs, whether it has a position, how many links it is of, the counts of its report, the slots
    or systems that lines of the report name, and the captures that could not be read."""

    name: Name
    epochs: int
    has_position: bool
    links: int
    counts: Dict[str, int]
    named: Dict[str, Tuple[str, ...]]
    unread: Tuple[str, ...]


@dataclass
class Window:
    """The spans of a length of the last day or week, by their begins: how many files are due and made, their epochs, and those that are
    expected. `missing` has captures and no file, and the files of `old` lack captures that are there."""

    window: str
    length: str
    begins: range
    due: int = 0
    made: int = 0
    epochs: int = 0
    expected: int = 0
    missing: List[Span] = field(default_factory=list)
    old: List[Span] = field(default_factory=list)


class Listed(NamedTuple):
    """What the list of a file says: how many epochs it has, and of which captures it was made, or was to be made."""

    epochs: int
    captures: FrozenSet[str]


class Clock(NamedTuple):
    """The time at which stations are looked at: UTC, and GPS time."""

    utc: float
    gps: float


class Station:
    """What the folders of a row of the table tell."""

    def __init__(self, settings: Settings, row: Row, live: Set[int], clock: Clock) -> None:
        self.settings, self.row, self.clock = settings, row, clock
        self.links: List[Link] = []
        self.captures: Set[str] = set()
        self.names: Dict[Span, List[Name]] = {}  # with lists, that of the type of data of the row first
        self.files: List[File] = []
        self.windows: List[Window] = []
        self.not_made: List[str] = []
        self.alarms: List[Alarm] = []
        try:
            self.look_at_links(live)
            self.look_at_files(row.directory / "rinex")
        except (OSError, ValueError, Ended) as fault:
            self.alarm("file", str(fault))

    def alarm(self, kind: str, text: str) -> None:
        """Notes an alarm."""
        self.alarms.append(Alarm(kind, text))

    # ------------------------------------------------------------ links

    def look_at_links(self, live: Set[int]) -> None:
        """Looks at each link that has a folder, as one that is not mounted now, or a source."""
        self.links = [self.link(it, it in live) for it in LINKS if it in live or os.path.lexists(self.row.directory / f"link{it}")]
        if not self.links:
            self.alarm("capture", "no link has a capture")

    def link(self, number: int, is_live: bool) -> Link:
        """A link, by its newest capture. A capture that is copied late has no bytes from after its hour."""
        folder = self.row.directory / f"link{number}"
        names = captures_in(folder)
        self.captures.update(f"{folder.name}/{it[:11]}.rtcm" for it in names)
        if not names:
            self.alarm("capture", f"link{number}: no capture")
            return Link(number, None, None)
        last, written = next(((it, at) for it in reversed(names) if (at := time_of_write(folder / it)) is not None), ("", None))
        if written is None:
            self.alarm("capture", f"link{number}: no capture can be read")
            return Link(number, None, None)
        hour = hour_of_capture(f"{folder.name}/{last}") or 0
        age = max(0.0, self.clock.utc - written, self.clock.gps - hour - HOUR)
        limit = self.settings.number("LIVE_AGE", 300) if is_live else self.settings.number("CAPTURE_AGE", 7200)
        if age > limit:
            self.alarm("capture", f"link{number}: the last byte came {age_of(age)} ago")
        return Link(number, last[:11], age)

    # ------------------------------------------------------------ files

    def look_at_files(self, folder: Path) -> None:
        """Looks at the newest files, and at all of the last days."""
        texts = [it for it in names_below(folder) if it.startswith(f"{self.row.name9}_S_")]
        known = [read_name(text[:-len(".captures")]) for text in texts if text.endswith(".captures")]
        listed = [it for it in known if it and it.interval == self.row.interval]  # and no thinned file
        for it in sorted(listed, key=lambda it: it != self.row.name(it.span)):
            self.names.setdefault(it.span, []).append(it)
        found = {}
        for length in LENGTHS:
            spans = sorted(it for it in self.names if it.length == length)
            newest = self.newest(folder, spans)
            if newest:
                found[length] = (newest, spans)
        last = max((it.name.span.end for it, _ in found.values()), default=0)
        for length, (newest, spans) in found.items():
            if newest.name.span.end > last - UNUSED:
                self.files.append(newest)
                for kind, text in self.faults(newest):
                    self.alarm(kind, text)
                self.look_back(folder, length, spans, newest)
        if not self.files:
            self.alarm("file", "there is no file")
        if folder.is_dir() and not folder.stat().st_mode & stat.S_IWUSR:
            self.alarm("file", f"{folder} may not be written")
        self.look_at_unread(folder, texts)
        self.look_at_notes(folder, texts)

    def newest(self, folder: Path, spans: List[Span]) -> Optional[File]:
        """The newest file that is made and whose span is over."""
        ended = (it for it in reversed(spans) if it.end <= self.clock.gps)
        return next(filter(None, (self.file(folder, it) for it in ended)), None)

    def file(self, folder: Path, span: Span) -> Optional[File]:
        """What is told of the file of a span. If it has lists of two types of data, the first one counts in which it is made."""
        return next(filter(None, (self.file_of(folder, it) for it in self.names.get(span, []))), None)

    def file_of(self, folder: Path, name: Name) -> Optional[File]:
        """What the list and the report of a file tell; None if it is not made."""
        folder = folder_with(folder, name)
        record = list_of(text_if_there(folder / f"{name}.captures"))
        made = record.made.get(str(name))
        if made is None:
            return None
        lines = [line.split() for line in text_if_there(folder / f"{name}.report").split("\n")]
        counts = {words[0]: int(words[1]) for words in lines if len(words) == 2 and words[1].isdecimal()}
        counts.pop("epochs", None)
        return File(name, made.epochs, ["position", "none"] not in lines, links_of(record), counts, named_by(lines, record),
            tuple(sorted(record.unread)))

    def faults(self, it: File) -> Iterator[Tuple[str, str]]:
        """What is to look at in a file: the kind of the alarm, and the text."""
        since = self.clock.gps - it.name.span.end
        if since > FILE_AGES[it.name.span.length]:
            yield "file", f"the newest file of {it.name.span.length} is {it.name}, which ended {age_of(since)} ago"
        if not it.name.epochs <= it.epochs <= it.name.most_epochs:
            yield "epochs", f"{it.name}: {it.epochs} epochs of {it.name.epochs}"
        yield from self.faults_of_report(it)

    def faults_of_report(self, it: File) -> Iterator[Tuple[str, str]]:
        """What the list and the report of a file tell."""
        for word in COUNTED:
            if it.counts.get(word):
                yield word, f"{it.name}: {word} {it.counts[word]}"
        repeats, taken = it.counts.get("repeat", 0), it.counts.get("taken", 0)
        if it.links > 1 and 4 * repeats < repeats + taken:
            yield "repeat", f"{it.name}: repeat {repeats} and taken {taken}, of {it.links} links"
        for word, names in it.named.items():
            yield word, f"{it.name}: {word} {(', ' if word == CLOCK else ' ').join(names)}"
        if not it.has_position:
            yield "position", f"{it.name}: no position"

    # ------------------------------------------------------------ the last days

    def look_back(self, folder: Path, length: str, spans: List[Span], newest: File) -> None:
        """Counts the files of the last day and week, and tells once of each kind what is to look at in those of the last day."""
        first = spans[0].begin
        lists: Dict[Span, Optional[Listed]] = {}
        for window in WINDOWS:
            self.windows.append(self.count(folder, window, length, first, lists))
        week = self.windows[-1]
        if week.missing:
            self.alarm("missing",
                f"{len(week.missing)} spans of {length} of the last 7 d have captures and no file, the first is {week.missing[0].start}")
        if week.old:
            self.alarm("missing",
                f"{len(week.old)} files of {length} of the last 7 d lack captures that came later, the first is {week.old[0].start}")
        self.look_at_day(folder, length, newest, lists)

    def count(self, folder: Path, window: str, length: str, first: int, lists: Dict[Span, Optional[Listed]]) -> Window:
        """The counts of a window. It begins with the first file of the station. `lists` keeps each list that was read. A link may begin
        in the last quarters of an hour, so a capture of the hour need not have the first ones."""
        size = LENGTHS[length]
        end = int(self.clock.gps - GRACES[length]) // size * size
        found = Window(window, length, range(max(first, end - WINDOWS[window]), end, size))
        for begin in found.begins:
            span = Span(begin, length)
            if span not in lists:
                lists[span] = next(filter(None, (list_if_made(folder, name) for name in self.names.get(span, []))), None)
            it = lists[span]
            found.due += 1
            found.made += it is not None
            found.epochs += it.epochs if it else 0
            found.expected += self.row.name(span).epochs
            if it is None and self.has_captures(span):
                found.missing.append(span)
            if it and size >= HOUR and self.has_captures(span, it.captures):
                found.old.append(span)
        return found

    def has_captures(self, span: Span, but: FrozenSet[str] = frozenset()) -> bool:
        """Whether a link has a capture of the span itself, beside these."""
        names = {capture_name(link.number, hour) for link in self.links for hour in span.own_hours}
        return any(is_capture(self.row.directory / name) for name in (names & self.captures) - but)

    def look_at_day(self, folder: Path, length: str, newest: File, lists: Dict[Span, Optional[Listed]]) -> None:
        """Tells of the files of the last day but for the newest one, which is told of already."""
        day = next(it for it in self.windows if it.length == length)
        found: Dict[str, List[str]] = {}
        for span in sorted(it for it in lists if it.begin in day.begins and it != newest.name.span):
            it = self.file(folder, span)
            for kind, text in self.faults_of_report(it) if it else []:
                found.setdefault(kind, []).append(text)
        lacking = day.expected - day.epochs
        if lacking > 0 and not (lacking == newest.name.epochs - newest.epochs and newest.name.span in lists):
            self.alarm("epochs", f"the last 24 h of {length} lack {lacking} epochs of {day.expected}: {day.made} of {day.due} files are made")
        for kind, texts in found.items():
            self.alarm(kind, f"{len(texts)} earlier files of the last 24 h, as {texts[0]}")

    def look_at_unread(self, folder: Path, texts: List[str]) -> None:
        """Looks at the files, however old, that lack a capture which could not be read. A capture that is gone is none to look at. A file
        counts once, under whichever names it has notes."""
        found: Dict[Tuple[Span, str], str] = {}
        for text in texts:
            known = read_name(text[:-len(UNREAD)]) if text.endswith(UNREAD) else None
            it = self.file_of(folder, known) if known else None
            there = [name for name in it.unread if is_capture(self.row.directory / name)] if it else []
            if it and there:
                found.setdefault((it.name.span, it.name.interval), f"{it.name}: {' '.join(there)} can't be read")
        if found:
            first = next(iter(found.values()))
            self.alarm("unread", first if len(found) == 1 else f"{len(found)} files, the first is {first}")

    def look_at_notes(self, folder: Path, texts: List[str]) -> None:
        """Looks at the notes of runs that failed. One that may be mended by another run counts when it failed again."""
        for text in texts:
            name, dot, end = text.rpartition(".")
            known = read_name(name)
            if dot + end not in NOTES or not known:
                continue
            place = folder_with(folder, known)
            count, since = failures(place / name)
            if end == "again" and count < OFTEN:
                continue
            self.not_made.append(text)
            often = f" ({count} times since {since})" if since else ""
            self.alarm("not-made", f"{name}: {text_if_there(place / text).split(chr(10))[0]}{often}")


def list_if_made(folder: Path, name: Name) -> Optional[Listed]:
    """What the list of a file says; None if the file is not made. Many lists are looked at, and this alone is read of them."""
    text = text_if_there(folder_with(folder, name) / f"{name}.captures")
    at = text.find(f"\nmade {name} ") + 1
    line, is_whole, _ = text[at:].partition("\n")
    made = MADE.fullmatch(line) if is_whole else None
    return Listed(int(made[3]), frozenset(CAPTURE.findall(text, 0, at))) if made else None


def named_by(lines: List[List[str]], record: Record) -> Dict[str, Tuple[str, ...]]:
    """The slots or systems that lines of a report name, and the lines of clocks. A row whose word is channels=none wants no channels."""
    row = record.row()
    wanted = [it for it in NAMED if it != CLOCK and not (it == "no-channel" and row and row.channels == NO_CHANNELS)]
    found = {words[0]: tuple(words[1:]) for words in lines if words and words[0] in wanted and words[1:] != ["-"]}
    clocks = tuple(" ".join(words[1:]) for words in lines if words and words[0] == CLOCK)
    return {**found, **({CLOCK: clocks} if clocks else {})}


def captures_in(folder: Path) -> List[str]:
    """The names of the captures of a link, sorted."""
    if not folder.is_dir():
        return []
    return sorted(it for it in os.listdir(folder) if is_name_of_capture(f"{folder.name}/{it}"))


def is_name_of_capture(name: str) -> bool:
    """Whether a capture has this name, of a day that there is."""
    try:
        return hour_of_capture(name) is not None
    except ValueError:
        return False


def time_of_write(path: Path) -> Optional[float]:
    """When a file was written; None of one that went, or of a link that leads nowhere."""
    try:
        return os.stat(path).st_mtime
    except OSError:
        return None


def links_of(record: Record) -> int:
    """How many links a file is made of."""
    return len({name.partition("/")[0] for name in record.captures})


def text_if_there(path: Path) -> str:
    """The text of a file; none if it is not there, or a folder has its name."""
    try:
        return path.read_text(errors="replace")
    except (FileNotFoundError, IsADirectoryError):
        return ""
