"""The command delete-captures: the captures that no file needs any more."""

from __future__ import annotations

import fcntl
import os
import re
import sys
import time
from dataclasses import dataclass, field
from pathlib import Path
from typing import Dict, List, NamedTuple, Optional, Sequence, Set, Tuple

from .captures import Sum, Unread, is_capture, sum_of
from .ends import DONE, REFUSED, Refused, Usage, say
from .guards import count_of
from .lists import Record, read_list
from .names import Name, hour_of_capture, read_name
from .places import folder_with, form_of, forms_of, is_compact, names_below, plain_name
from .placing import is_at
from .settings import DAY, HOUR, Settings, read_settings
from .table import Row, rows_of_station, rows_with_faults
from .times import LENGTHS, Span

SCRIPT = "delete-captures"
LOOKED_AT = ("late", "conflict")  # counts of a report for which somebody may want the captures


class Options(NamedTuple):
    """The words of the command: before which time a span is old, what is to be done, and which lengths count."""

    before: float
    deletes: bool
    is_moved: bool
    takes_faulty: bool
    lengths: Tuple[str, ...]


@dataclass
class Folder:
    """The captures and lists of a folder, which may be that of several rows.

    `captures` has the files of each hour, and `lists` and `files` those of each span. `sums` keeps each sum that was taken.
    """

    rinex: Path
    captures: Dict[int, List[Path]] = field(default_factory=dict)
    names: Set[str] = field(default_factory=set)
    lists: Dict[Span, List[str]] = field(default_factory=dict)
    files: Dict[Span, Set[str]] = field(default_factory=dict)
    sums: Dict[Path, Optional[Sum]] = field(default_factory=dict)

    def sum(self, path: Path) -> Optional[Sum]:
        """The size and sum of a file; None if it can't be read."""
        if path not in self.sums:
            try:
                self.sums[path] = sum_of(path)
            except Unread:
                self.sums[path] = None
        return self.sums[path]

    def place_of(self, file: str) -> Path:
        """The folder in which a file and its list lie."""
        name = read_name(file)
        return folder_with(self.rinex, name) if name else self.rinex

    def lists_of(self, row: Row, span: Span) -> List[str]:
        """The lists of a span of a row. An empty one is a lock alone, and counts if there is no other one."""
        lists = [it for it in self.lists.get(span, []) if it.startswith(f"{row.name9}_")]
        return [it for it in lists if (self.place_of(it[:-len(".captures")]) / it).stat().st_size] or lists

    def captures_of(self, hours: Sequence[int]) -> List[Path]:
        """The captures of these hours."""
        return [path for hour in hours for path in self.captures.get(hour, [])]


def name_of(path: Path) -> str:
    """A capture as lists have it."""
    name = f"{path.parent.name}/{path.name}"
    return name[:-3] if name.endswith(".gz") else name


def read_folder(row: Row) -> Folder:
    """What lies in the folder of a row."""
    found = Folder(row.directory / "rinex")
    for path in row.directory.glob("link*/*.rtcm*"):
        hour = hour_of_capture(f"{path.parent.name}/{path.name}")
        if hour is not None and path.is_file():
            found.captures.setdefault(hour, []).append(path)
    found.names = set(names_below(found.rinex))
    for text in found.names:
        name = read_name(plain_name(text))
        if name and text == f"{name}.captures":
            found.lists.setdefault(name.span, []).append(text)
        elif name and text in {it.name for it in forms_of(Path(str(name)))}:
            found.files.setdefault(name.span, set()).add(str(name))
    return found


def spans_of(hour: int, lengths: Sequence[str]) -> List[Span]:
    """The spans to which a capture belongs."""
    found = set()
    for length in lengths:
        size = LENGTHS[length]
        for at in range(hour - HOUR, hour + 2 * HOUR, min(size, HOUR)):
            found.add(Span(at // size * size, length))
    return sorted(found)


# ---------------------------------------------------------------- which spans are final


def fault_of_span(folder: Folder, row: Row, span: Span, options: Options) -> str:
    """Why a span is not final for a row; nothing if it is. If a file has lists of two types of data, a run that gives it another one was
    ended, so both must be final."""
    if span.end > options.before:
        return "it is young"
    faults: Dict[str, str] = {}
    lists = folder.lists_of(row, span)
    for it in lists:
        interval = it.split("_")[4]
        faults[interval] = faults.get(interval) or fault_of_file(folder, span, it, options)
    if not faults:
        return "there is no file" if folder.captures_of(span.own_hours) else ""
    return fault_of_others(folder, row, span, lists) if "" in faults.values() else next(iter(faults.values()))


def fault_of_others(folder: Folder, row: Row, span: Span, lists: Sequence[str]) -> str:
    """Whether a file is there under another type of data whose list was lost, which may have what that of the list has not."""
    known = {it[:-len(".captures")] for it in lists}
    intervals = {it.split("_")[4] for it in known}
    others = {it for it in folder.files.get(span, ()) if it.startswith(f"{row.name9}_") and it.split("_")[4] in intervals} - known
    if others:
        others -= {made for it in lists for made in read_list(folder.place_of(it[:-len(".captures")]) / it).made}
    return f"{min(others)} has no list" if others else ""


def fault_of_file(folder: Folder, span: Span, list_name: str, options: Options) -> str:
    """Why the file of this list does not make the span final."""
    file = list_name[:-len(".captures")]
    name, place = read_name(file), folder.place_of(file)
    record = read_list(place / list_name)
    made = record.made.get(file)
    if not name or not made or not made.sum:
        return "there is no file"
    for end, what in ((".refused", "refused"), (".again", "broken off")):
        if file + end in folder.names:
            return f"a run was {what}: {file}{end} says why"
    form = form_of(place / file)
    if not form.is_file() and not options.is_moved:
        return f"{file} is gone"
    if form.is_file() and not is_compact(form) and folder.sum(form) != made.sum:
        return f"{file} was changed"
    return fault_of_captures(folder, span, file, record) or ("" if options.takes_faulty else fault_of_content(place, name, made.epochs))


def fault_of_captures(folder: Folder, span: Span, file: str, record: Record) -> str:
    """Whether the file lacks a capture that is there."""
    paths = folder.captures_of(span.hours)
    unread = {it for it in record.unread if is_capture(folder.rinex.parent / it)}
    if unread:
        return f"{file} is made without {' '.join(sorted(unread))}, which could not be read"
    for path in paths:
        sums = {record.captures.get(it) for it in (name_of(path), f"{name_of(path)}.gz")} - {None}
        if folder.sum(path) not in sums:
            return f"{file} is not made of {path.parent.name}/{path.name}"
    return ""


def fault_of_content(place: Path, name: Name, epochs: int) -> str:
    """Whether somebody may want the captures, because the file lacks something that they may have."""
    report = place / f"{name}.report"
    text = report.read_text(errors="replace") if report.is_file() else ""
    for word in LOOKED_AT:
        if count := count_of(text, word):
            return f"{name} has {word} {count}"
    return f"{name} has {epochs} epochs of {name.epochs}" if epochs < name.epochs else ""


def lengths_of(folder: Folder, row: Row, options: Options) -> List[str]:
    """The lengths of the files that a row has, or those that were chosen."""
    there = {span.length for span, lists in folder.lists.items() if any(it.startswith(f"{row.name9}_") for it in lists)}
    return [it for it in LENGTHS if it in (options.lengths or there)]


def rows_of_span(folder: Folder, rows: Sequence[Row], span: Span) -> List[Row]:
    """The rows that may need the captures of a span: those that hold then, and those that have a list of it. If there is none, nobody knows
    whose the captures are, so all may."""
    return [it for it in rows if it.dates.has(span.begin) or folder.lists_of(it, span)] or list(rows)


def unneeded(folder: Folder, rows: Sequence[Row], options: Options) -> List[Path]:
    """The captures that may go: each span is final to which they belong, for each row with this folder that may need them. Tells of the old
    spans that are not final. A row that has no file yet may need all of its time."""
    known: Dict[Tuple[str, Span], str] = {}
    found = []
    lengths = {row.name9: lengths_of(folder, row, options) for row in rows}
    every = [it for it in LENGTHS if any(it in of_row for of_row in lengths.values())]
    for name9 in (it for it, of_row in lengths.items() if folder.captures and not of_row):
        print(f"{name9}: there is no file yet, so the captures of its time stay")
    for hour, paths in sorted(folder.captures.items()):
        spans = [(span, rows_of_span(folder, rows, span)) for span in spans_of(hour, every)]
        keys = [(row, span) for span, needing in spans for row in needing if span.length in lengths[row.name9]]
        for row, span in keys:
            if (row.name9, span) not in known:
                known[row.name9, span] = why = fault_of_span(folder, row, span, options)
                if why and span.end <= options.before:
                    print(f"{row.name9} {span}: not final: {why}")
        has_all = bool(keys) and all(lengths[row.name9] for _, needing in spans for row in needing)
        if has_all and not any(known[row.name9, span] for row, span in keys):
            found += paths
    return found


# ---------------------------------------------------------------- the deletion


def append(text: str, path: Path) -> bool:
    """Adds lines to a list if there is room for all of them. It is a lock too, and a run may have put another one in its place meanwhile."""
    lines = text.encode()
    while True:
        with open(path, "r+b", buffering=0) as file:
            fcntl.flock(file, fcntl.LOCK_EX)
            if is_at(file, path):
                end = file.seek(0, os.SEEK_END)
                if file.write(lines) == len(lines):
                    return True
                file.truncate(end)
                return False


def has_noted(path: Path, captures: Set[str]) -> bool:
    """Whether a list could be told that captures were deleted."""
    try:
        return append("".join(f"deleted {it}\n" for it in sorted(captures & set(read_list(path).captures))), path)
    except OSError:
        return False


def delete(folder: Folder, paths: Sequence[Path]) -> None:
    """Deletes captures, and says so before in each list that has them. On a full disk a list may have room for it only then. A run is
    refused if its list lacks the line."""
    deleted: Dict[Path, Set[str]] = {}
    for path in paths:
        for span in spans_of(hour_of_capture(f"{path.parent.name}/{path.name}") or 0, list(LENGTHS)):
            for name in folder.lists.get(span, []):
                deleted.setdefault(folder.place_of(name[:-len(".captures")]) / name, set()).update((name_of(path), f"{name_of(path)}.gz"))
    left = [path for path, captures in deleted.items() if not has_noted(path, captures)]
    for path in paths:
        path.unlink(missing_ok=True)
    for path in left:
        has_noted(path, deleted[path])


def has_deleted(row: Row, rows: Sequence[Row], options: Options) -> bool:
    """Deletes the captures of a station that no file needs, or says why it can't; then the others are gone on with."""
    try:
        folder = read_folder(row)
        paths = unneeded(folder, [it for it in rows if it.place == row.place], options)
        size = sum(path.stat().st_size for path in paths)
        if options.deletes:
            delete(folder, paths)
    except OSError as fault:
        say(SCRIPT, f"refused: {row.name9}: {fault.filename}: {fault.strerror}")
        return False
    except ValueError as fault:
        say(SCRIPT, f"refused: {row.name9}: {fault}")
        return False
    kept = sum(map(len, folder.captures.values())) - len(paths)
    did = "deleted" if options.deletes else "to delete"
    print(f"{row.name9}: {len(paths)} captures {did}, {size / 1e6:.1f} MB; {kept} stay")
    return True


def rows_wanted(settings: Settings, words: Sequence[str]) -> Tuple[List[Row], List[Row]]:
    """The rows that are wanted, one of each station, also of one that retired; and all rows. Refuses if a row is bad, since it may need
    captures too."""
    rows = []
    for row, fault in rows_with_faults(settings.stations):
        if fault:
            raise Refused(f"{settings.stations}:{row.number}: {fault}")
        rows.append(row)
    wanted = [] if words else rows
    for word in words:
        mine = rows_of_station(settings.stations, word)
        if any(it.name9 != other.name9 and it.dates.meets(other.dates) for it in mine for other in mine):
            raise Refused(f"{word} is in the table {settings.stations} more than once")
        wanted += mine
    return list({(row.name9, row.directory): row for row in wanted}.values()), rows


def delete_captures(words: Sequence[str]) -> int:
    """The command delete-captures."""
    options = {word for word in words if word.startswith("-")}
    days, *wanted = [word for word in words if word not in options] or [""]
    only = tuple(it for it in LENGTHS if f"--only={it}" in options)
    if options - {"--delete", "--moved", "--faulty", *(f"--only={it}" for it in only)} or not re.fullmatch("[1-9][0-9]{0,3}", days):
        raise Usage
    settings = read_settings()
    now = time.time() + settings.leap_seconds
    chosen = Options(now - DAY * int(days), "--delete" in options, "--moved" in options, "--faulty" in options, only)
    rows, every = rows_wanted(settings, wanted)
    done = [has_deleted(row, every, chosen) for row in rows]
    sys.stdout.flush()
    return DONE if all(done) else REFUSED
