"""Conversions: `auto` finds the options in the captures, and `convert` takes them as they are given."""

from __future__ import annotations

import re
import tempfile
from dataclasses import dataclass
from datetime import datetime
from pathlib import Path
from typing import Dict, List, Optional, Sequence, Tuple, Union, cast

from .faults import CapturesError, FormError, NoRecordError
from .inputs import Input, Name, Readable, is_open, listed, pieces_of, word_of
from .program import Location, Ran, fail, lines_of, run
from .reports import COUNTS, Report, read_report, time_in
from .words import Channels, Codes, Kinds, Time, Value, channel_word, code_word, gps_word, kind_word, option_words, present, utc_word
from .writing import Written, output_of

SPAN = re.compile(r" from (\S{19}) until (\S{19}) by (\S+(?: of station \d+)?)(?: \(or (.*)\))?", re.ASCII)
BY_HAND = " the same by hand:"
OF_REPORT = ("link ", "other-channel ", "no-channel ", "no-message ", "frames ")  # one of these begins the first line of a report
WROTE = "wrote "


@dataclass(frozen=True)
class Conversion(Written):
    """A file that `convert` wrote, and its report."""

    report: Report


@dataclass(frozen=True)
class Found:
    """What `auto` found in the captures.

    `first` and `last` are the GPS times of the first and the last epoch, or None without a record. `dated_by` names what dated them, such
    as `1013`, `1029 of station 7`, `1045` or `--near`. A 1019 names the week only modulo 1,024, and then `other_dates` has the days 1,024 weeks before and after.

    `convert` is the command of the shell that writes the same file, and `label` the command that labels it, or None. `notes` has the
    lines of the program about the file, such as `late 3: ..` or `not in the file: GLONASS 1012, 84 messages`.
    """

    first: Optional[datetime]
    last: Optional[datetime]
    dated_by: Optional[str]
    other_dates: Tuple[str, ...]
    convert: str
    label: Optional[str]
    notes: Tuple[str, ...]


@dataclass(frozen=True)
class AutoConversion(Conversion):
    """A file that `auto` wrote, its report, and what `auto` found in the captures."""

    found: Found


def convert_words(station: int, near: Time, made: Optional[Time], marker: str, codes: Codes, window: int, msm: Kinds,
                  channels: Optional[Channels], leap_seconds: Optional[int], with_1012: bool, doppler: bool) -> List[str]:
    """The words of `convert` before its links."""
    return ["convert", *option_words({"station": station, "near": gps_word(near), "made": utc_word(made or present()), "marker": marker,
        "codes": code_word(codes), "window": window, "msm": kind_word(msm), "channels": channel_word(channels),
        "leap_seconds": leap_seconds, "with_1012": with_1012, "doppler": doppler})]


def convert(links: Union[Input, Sequence[Input]], *, station: int, near: Time, marker: str, codes: Codes, made: Optional[Time] = None,
            window: int = 64, msm: Kinds = 4, channels: Optional[Channels] = None, leap_seconds: Optional[int] = None,
            with_1012: bool = False, doppler: bool = False, output: Optional[Name] = None, force: bool = False,
            program: Optional[Location] = None) -> Conversion:
    """Converts the captures of one station by the options that you give.

    `links` is one capture or several, each a name or an open binary file, and each a link. `station` is the ID of the reference
    station, and `near` a GPS time within half a week of all messages. `marker` names the marker. `made` is the UTC time of making, or
    the present time if it is not given. `window` is how many epochs are kept open. A time is a `datetime` or a text such as
    `2024-05-17T12:00:00`.

    `codes` lists the signals, as `"1C,2W,E1X"` or `["1C", "2W", "E1X"]`. A code of GPS has two characters, and a code of another system
    begins with the letter of the system.

    `msm` is the kind of MSM that is converted, from 4 (MSM4) to 7. It may differ between systems, as in `{"G": 7, "E": 5}`, where a
    system that is left out has MSM4. The text `"7,E4"` stands for MSM7 of all systems but MSM4 of Galileo.

    With codes of GLONASS, `channels` must have the frequency channel of each slot, as `{1: 1, 9: -6}`. A satellite whose slot it lacks
    gets no phases, and with an empty mapping no slot has a channel. `leap_seconds` says how many seconds GPS time is ahead of UTC, by
    which clocks of GLONASS are dated. Without it the program takes them from a table. `with_1012` converts 1012 too, which tell no day,
    so all messages must lie within half a day of `near`.

    `doppler` writes the Doppler of MSM5 and MSM7, one of which each system with a listed code must have by `msm`.

    The file goes to `output`, which gets its name when it is whole, or else into `text` of the result. A file that is there is
    replaced only with `force`.

    Raises `WorkError` or `WordsError` if the program ends with a fault, and `FileExistsError` if `output` is there.
    """
    given = listed(links)
    words = convert_words(station, near, made, marker, codes, window, msm, channels, leap_seconds, with_1012, doppler)
    with output_of(output, force, given) as file:
        ran = run(program, words, given, out=file)
        report = read_report(lines_of(ran.told))
    return Conversion(None if output is not None else ran.out, None if output is None else Path(output), report)


def auto(captures: Union[Input, Sequence[Input]], *, output: Optional[Name] = None, force: bool = False, label: bool = False,
         near: Optional[Time] = None, made: Optional[Time] = None, marker: Optional[str] = None, station: Optional[int] = None,
         codes: Optional[Codes] = None, systems: Optional[str] = None, msm: Optional[int] = None, channels: Optional[Channels] = None,
         leap_seconds: Optional[int] = None, window: Optional[int] = None, links_as_given: bool = False, skip_empty: bool = False,
         report: bool = True, doppler: bool = False, program: Optional[Location] = None) -> AutoConversion:
    """Converts the captures of one station, and finds the options of `convert` in them.

    `captures` is one capture or several, in any order, each a name or an open binary file. The program reads each capture twice, so an
    open file is first copied into a temporary file. The options are those of the command `auto`, and an option that is given is not
    looked for. `systems` has the letters of the systems that are converted, as `"GRE"`, and excludes `codes`. Without `report` the
    lists of late, conflicting and refused messages stay empty. `doppler` writes the Doppler of MSM5 and MSM7, and raises
    `CapturesError` where a system has another MSM. `label` needs `output`.

    The file goes to `output`, which gets its name when it is whole, or else into `text` of the result. A file that is there is
    replaced only with `force`.

    Raises `CapturesError` if the captures do not tell enough, `NoRecordError` if no record came, and `WorkError` or `WordsError` for
    other faults. Without a record the file is a header alone, but a file that is there stays.
    """
    options: Dict[str, Value] = {"output": None if output is None else file_word(output), "force": force, "label": label,
        "near": gps_word(near), "made": utc_word(made), "marker": marker, "station": station, "codes": code_word(codes),
        "systems": systems, "msm": msm, "channels": channel_word(channels), "leap_seconds": leap_seconds, "window": window,
        "links_as_given": links_as_given, "skip_empty": skip_empty, "report": report,
        "doppler": doppler}
    with tempfile.TemporaryDirectory(prefix="rtcm2rinex-") as folder:
        given = [named(it, Path(folder), number) for number, it in enumerate(listed(captures), 1)]
        ran = run(program, ["auto", *option_words(options)], given, accepted=(0, 3), third=CapturesError)
    return conversion_of(ran, output)


def file_word(output: Name) -> str:
    """The name of a file as the program takes it, which refuses `-`."""
    name = str(Path(output))
    return "./-" if name == "-" else name


def named(given: Input, folder: Path, number: int) -> Name:
    """The name of a capture, or of a copy of an open file."""
    if not is_open(given):
        if "\n" in word_of(cast(Name, given)):
            raise ValueError("the name of a capture has a line feed, so what auto says of it cannot be read back")
        return cast(Name, given)
    copy = folder / f"{number}.rtcm"
    with open(copy, "wb") as file:
        for piece in pieces_of(cast(Readable, given)):
            file.write(piece)
    return copy


def conversion_of(ran: Ran, output: Optional[Name]) -> AutoConversion:
    """What `auto` wrote and said. Status 3 is a fault, also if no record came."""
    lines = lines_of(ran.told)
    if ran.status == 3 and lines[0] != BY_HAND:
        fail(ran.status, ran.told, CapturesError)
    if lines[-1].startswith(WROTE):
        lines.pop()
    if ran.status == 3:
        lines.pop()
    begin = first_line(lines, OF_REPORT)
    end = first_line(lines, (COUNTS[-1],)) + 1
    report = read_report(lines[begin:end], begin + 1)
    for number, line in enumerate(lines[end:], end + 1):
        if not line.startswith(" "):
            raise FormError(number, f"{line!r} is no note of auto")
    found = found_of(lines[:begin], tuple(line[1:] for line in lines[end:]))
    conversion = AutoConversion(None if output is not None else ran.out, None if output is None else Path(output), report, found)
    if ran.status == 3:
        raise NoRecordError(ran.status, ran.told, conversion)
    return conversion


def first_line(lines: Sequence[str], starts: Tuple[str, ...]) -> int:
    """The place of the first line that begins so."""
    for at, line in enumerate(lines):
        if line.startswith(starts):
            return at
    raise FormError(len(lines) + 1, f"no line begins with {starts[-1]!r}")


def found_of(lines: Sequence[str], notes: Tuple[str, ...]) -> Found:
    """What the lines before the report say, and those behind it."""
    if not lines or lines[0] != BY_HAND:
        raise FormError(1, f"{lines[:1]!r} does not introduce the commands")
    commands = list(lines[1:])
    label = commands.pop() if commands and commands[-1].startswith("rtcm2rinex label ") else None
    match = SPAN.fullmatch(f" {notes[0]}") if notes else None
    if match is None:
        return Found(None, None, None, (), "\n".join(commands), label, notes)
    others = tuple(match[4].split(", ")) if match[4] else ()
    first, last = (time_in(1, notes[0], it) for it in (match[1], match[2]))
    return Found(first, last, match[3], others, "\n".join(commands), label, notes[1:])
