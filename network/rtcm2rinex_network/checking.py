"""The command table: what is wrong with the tables, and their good rows for other programs."""

from __future__ import annotations

import sys
import time
from typing import Dict, Iterator, List, Optional, Sequence, Tuple

from .after import check_after
from .ends import DONE, REFUSED, Ended, Refused, Usage
from .labels import Label, checked_options, labels_beside, read_labels, strays
from .making import check_every
from .names import read_name
from .places import names_below
from .program import Program, find_program
from .settings import Settings, read_settings, strange_lines
from .sources import faults_of_sources
from .systems import NO_CHANNELS
from .table import Row, find_row, read_table, rows_with_faults


def run_table(words: Sequence[str]) -> int:
    """The command table."""
    settings = read_settings()
    if list(words) == ["--check"]:
        return check(settings)
    if list(words) == ["--rows"]:
        return print_rows(settings)
    if len(words) == 2 and words[0] == "--rows":
        at = time.time() + settings.leap_seconds
        print(columns_of(find_row(settings.stations, words[1], at), settings))
        return DONE
    if list(words) == ["--program"]:
        print(find_program(settings))
        return DONE
    raise Usage


def columns_of(row: Row, settings: Settings) -> str:
    """A row as --rows prints it."""
    return "\t".join([row.name9, row.station, row.marker, row.interval, str(row.interval_ms), row.codes, row.window, row.msm(settings),
        str(row.directory), *(row.glonass.get(name, "-") for name in ("channels", "leap_seconds", "with-1012"))])


def print_rows(settings: Settings) -> int:
    """Prints the good rows that hold now, and says why others are bad."""
    at, status = time.time() + settings.leap_seconds, DONE
    for row, fault in rows_with_faults(settings.stations):
        if fault:
            print(f"{settings.stations}:{row.number}: {fault}", file=sys.stderr)
            status = REFUSED
        elif row.dates.has(at):
            print(columns_of(row, settings))
    return status


def check(settings: Settings) -> int:
    """Says of each bad row, label, source and setting why, and counts the rows."""
    rows, lines, bad = read_table(settings.stations), [], 0
    for row, fault in faults_of_rows(settings):
        bad += bool(fault)
        if fault:
            lines.append(f"{settings.stations}:{row.number}: {fault}")
        else:
            lines += [f"{settings.stations}:{row.number}: note: {note}" for note in notes_of(row, rows)]
    others = list(faults_of_others(settings, rows))
    for line in [*lines, *(text for text, _ in others)]:
        print(line)
    print(f"{len(rows)} rows: {len(rows) - bad} good, {bad} bad")
    return REFUSED if bad or not all(is_note for _, is_note in others) else DONE


def faults_of_rows(settings: Settings) -> Iterator[Tuple[Row, str]]:
    """What is wrong with each row, its codes and its label; nothing with a good one. Without a program the codes are not looked at."""
    program = program_if_there(settings)
    path = labels_beside(settings.stations)
    if program is None and path.exists():
        raise Refused("there is no program rtcm2rinex")
    known: Dict[Tuple[str, ...], str] = {}
    for row, fault in rows_with_faults(settings.stations):
        if not fault and program:
            options = tuple(row.as_told(NO_CHANNELS, "").codes_and_channels)
            if options not in known:
                known[options] = program.fault_of_codes(options)
            fault = known[options] or fault_of_label(program, settings, row)
        yield row, fault or fault_of_days(row)


def fault_of_days(row: Row) -> str:
    """What is wrong with a row that takes messages 1012, but whose station has spans of days; nothing if it is good."""
    if not row.has_1012:
        return ""
    try:
        names = [read_name(it[:-len(".captures")]) for it in names_below(row.directory / "rinex") if it.endswith(".captures")]
    except OSError as fault:
        return f"{fault.filename}: {fault.strerror}"
    for name in filter(None, names):
        if name.name9 == row.name9 and name.span.length == "01D" and row.dates.has(name.span.begin):
            return f"with-1012=yes is for spans of an hour, and the station has the day file {name}"
    return ""


def program_if_there(settings: Settings) -> Optional[Program]:
    """The program, if there is one."""
    try:
        return Program(find_program(settings))
    except Refused:
        return None


def fault_of_label(program: Program, settings: Settings, row: Row) -> str:
    """What is wrong with the labels of a row; nothing if they are good."""
    path = labels_beside(settings.stations)
    try:
        mine = [it for it in read_labels(path) if row.is_of(it.word) and it.dates.meets(row.dates)]
        for it in mine:
            check_label(program, settings, row, it)
        if any(it.dates.meets(other.dates) for at, it in enumerate(mine) for other in mine[:at]):
            return f"{path} has more than one line of {row.name9}"
        return ""
    except Ended as end:
        return str(end)


def check_label(program: Program, settings: Settings, row: Row, label: Label) -> None:
    """Refuses a label that is bad."""
    path = labels_beside(settings.stations)
    why = label.fault or ("" if label.text else "it has no options")
    if why:
        raise Refused(f"the label of {row.name9} in {path}: {why}")
    checked_options(program, path, row, label.text)


def notes_of(row: Row, rows: List[Row]) -> Iterator[str]:
    """What may be as it should, but is rare."""
    if not row.directory.is_dir():
        yield f"there is no folder {row.directory}"
    others = {it.name9 for it in rows if it.place == row.place and it.name9 != row.name9 and it.number < row.number}
    if others:
        yield f"{' '.join(sorted(others))} has the folder {row.directory} too"


def faults_of_others(settings: Settings, rows: List[Row]) -> Iterator[Tuple[str, bool]]:
    """What is wrong with settings and with lines of labels and sources, and whether it is a note alone."""
    yield from strange_lines()
    for setting in faults_of_settings(settings):
        yield f"setting: {setting}", False
    path = labels_beside(settings.stations)
    for number, fault in strays(path, rows):
        yield f"{path}:{number}: {fault}", False
    if settings.sources.exists():
        for number, fault, is_note in faults_of_sources(settings.sources, rows):
            yield f"{settings.sources}:{number}: {fault}", is_note


def faults_of_settings(settings: Settings) -> Iterator[str]:
    """What is wrong with settings, so that runs would be refused."""
    yield from settings.faults()
    for look in (check_every, check_after):
        try:
            look(settings)
        except Refused as fault:
            yield str(fault)
