"""The command status: how the stations are, for a person and for programs."""

from __future__ import annotations

import json
import sys
import time
from pathlib import Path
from typing import Callable, Dict, List, Optional, Sequence, Tuple

from .checking import faults_of_others, faults_of_rows
from .ends import ALARM, DONE, Ended, Refused, Usage
from .placing import write_whole
from .settings import Settings, read_settings
from .sources import live_links
from .stations import COUNTED, KINDS, NAMED, Clock, File, Station
from .table import Row, find_row, read_table, rows_with_faults
from .times import age_of


Form = Callable[[Sequence[Station], Sequence[str], Clock], str]


class Metrics:
    """The text of Prometheus's node exporter: each name of a metric with what it means, and its lines."""

    def __init__(self) -> None:
        self.lines: Dict[Tuple[str, str], List[str]] = {}

    def add(self, name: str, about: str, value: object, **labels: object) -> None:
        """Adds a line."""
        text = ",".join(f'{label}="{it}"' for label, it in labels.items())
        self.lines.setdefault((name, about), []).append(f"rtcm2rinex_{name}{'{' + text + '}' if text else ''} {value}")

    def text(self) -> str:
        """All lines."""
        return "".join(f"# HELP rtcm2rinex_{name} {about}\n# TYPE rtcm2rinex_{name} gauge\n" + "\n".join(lines) + "\n"
            for (name, about), lines in self.lines.items())


def for_a_person(stations: Sequence[Station], faults: Sequence[str], clock: Clock) -> str:
    """A row for each station and each length of its files, a line for its last day and week, and a line for each alarm."""
    rows = [["station", "bytes came ago", "newest file", "epochs", *COUNTED]]
    for it in stations:
        links = ", ".join(f"link{link.number} {'never' if link.age is None else age_of(link.age)}" for link in it.links) or "-"
        files: List[Optional[File]] = [*it.files]
        for file in files or [None]:
            cells = ["-"] * (2 + len(COUNTED))
            if file:
                counts = [str(file.counts.get(word, "-")) for word in COUNTED]
                cells = ["_".join(str(file.name).split("_")[2:4]), f"{file.epochs} of {file.name.epochs}", *counts]
            rows.append([it.row.name9, links, *cells])
    widths = [max(len(row[at]) for row in rows) for at in range(len(rows[0]))]
    lines = ["  ".join(cell.ljust(width) for cell, width in zip(row, widths)).rstrip() for row in rows]
    lines += [f"{it.row.name9} the last {window.window} of {window.length}: {window.made} of {window.due} files, "
        f"{100 * window.epochs / window.expected:.1f} % of the epochs" for it in stations for window in it.windows if window.due]
    lines += [f"alarm {it.row.name9} {alarm.kind}: {alarm.text}" for it in stations for alarm in it.alarms]
    lines += [f"alarm table: {fault}" for fault in faults]
    bad = sum(bool(it.alarms) for it in stations)
    return "\n".join([*lines, f"{len(stations)} stations: {len(stations) - bad} without an alarm, {bad} with alarms"]) + "\n"


def for_programs(stations: Sequence[Station], faults: Sequence[str], clock: Clock) -> str:
    """The same and all counts, as JSON."""
    told = []
    for it in stations:
        links = [{"link": link.number, "capture": link.capture, "age": None if link.age is None else round(link.age)} for link in it.links]
        files = [{"name": str(file.name), "span": file.name.span.length, "end": file.name.span.end, "epochs": file.epochs,
            "expected": file.name.epochs, "position": file.has_position, "counts": file.counts,
            **{word.replace("-", "_"): list(file.named.get(word, ())) for word in NAMED}, "links": file.links,
            "unread": list(file.unread)} for file in it.files]
        windows = [{"window": window.window, "span": window.length, "due": window.due, "made": window.made, "epochs": window.epochs,
            "expected": window.expected, "missing": [span.start for span in window.missing],
            "old": [span.start for span in window.old]} for window in it.windows]
        alarms = [{"alarm": alarm.kind, "text": alarm.text} for alarm in it.alarms]
        told.append({"station": it.row.name9, "number": int(it.row.station), "links": links, "files": files, "windows": windows,
            "not_made": it.not_made, "alarms": alarms})
    return json.dumps({"time": int(clock.utc), "stations": told, "table": list(faults)}, indent=1) + "\n"


def for_prometheus(stations: Sequence[Station], faults: Sequence[str], clock: Clock) -> str:
    """The metrics. Ages stand still if this is not written any more, so times are there too."""
    metrics = Metrics()
    for it in stations:
        add_links(metrics, it, clock)
        add_files(metrics, it, clock)
        name = it.row.name9
        metrics.add("not_made_files", "Files that runs failed to make.", len(it.not_made), station=name)
        metrics.add("alarms", "Alarms of a station.", len(it.alarms), station=name)
        kinds = {alarm.kind for alarm in it.alarms}
        for kind in KINDS:
            if kind != "table":
                metrics.add("alarm", "1 if a station has an alarm of this kind, else 0.", int(kind in kinds), station=name, alarm=kind)
    metrics.add("table_bad_rows", "Rows of the tables, and labels, that are bad.", len(faults))
    metrics.add("status_time_seconds", "When this was written.", int(clock.utc))
    return metrics.text()


def add_links(metrics: Metrics, it: Station, clock: Clock) -> None:
    """The metrics of the links of a station."""
    for link in it.links:
        age = "+Inf" if link.age is None else round(link.age)
        metrics.add("capture_age_seconds", "Seconds since the last byte of a link.", age, station=it.row.name9, link=link.number)
        if link.age is not None:
            metrics.add("capture_timestamp_seconds", "When the last byte of a link came.", round(clock.utc - link.age),
                station=it.row.name9, link=link.number)


def add_files(metrics: Metrics, it: Station, clock: Clock) -> None:
    """The metrics of the files of a station."""
    shift = clock.gps - clock.utc
    for file in it.files:
        labels = {"station": it.row.name9, "span": file.name.span.length}
        end = file.name.span.end
        metrics.add("file_age_seconds", "Seconds since the end of the span of the newest file.", int(clock.gps - end), **labels)
        metrics.add("file_end_timestamp_seconds", "The end of the span of the newest file.", round(end - shift), **labels)
        metrics.add("file_epochs", "Epochs of the newest file.", file.epochs, **labels)
        metrics.add("file_epochs_expected", "Epochs of the span of the newest file.", file.name.epochs, **labels)
        metrics.add("file_has_position", "1 if the newest file has a position, else 0.", int(file.has_position), **labels)
        for word, count in file.counts.items():
            metrics.add("file_messages", "Messages that the report of the newest file counts.", count, **labels, kind=word)
        for word in NAMED:
            metrics.add("file_named", "Slots of GLONASS, or systems, that the report of the newest file names.",
                len(file.named.get(word, ())), **labels, kind=word)
    for window in it.windows:
        labels = {"station": it.row.name9, "span": window.length, "window": window.window.replace(" ", "")}
        metrics.add("window_files", "Files that are made of the last time.", window.made, **labels)
        metrics.add("window_files_due", "Files that are due of the last time.", window.due, **labels)
        metrics.add("window_epochs", "Epochs of the files of the last time.", window.epochs, **labels)
        metrics.add("window_epochs_expected", "Epochs of the spans of the last time.", window.expected, **labels)


FORMS: Dict[str, Form] = {"--json": for_programs, "--prometheus": for_prometheus}


def rows_wanted(settings: Settings, words: Sequence[str], at: float) -> Tuple[List[Row], List[str]]:
    """The rows that are wanted; of all rows also why others, labels and sources are bad."""
    if words:
        return [find_row(settings.stations, word, at) for word in words], []
    rows = [row for row, fault in rows_with_faults(settings.stations) if not fault and row.dates.has(at)]
    faults = []
    try:
        faults = [f"{settings.stations}:{row.number}: {fault}" for row, fault in faults_of_rows(settings) if fault]
        faults += [text for text, is_note in faults_of_others(settings, read_table(settings.stations)) if not is_note]
    except Ended as end:
        faults.append(end.told())
    return rows, faults


def status(words: Sequence[str]) -> int:
    """The command status."""
    form: Form = for_a_person
    path: Optional[str] = None
    wanted: List[str] = []
    left = list(words)
    while left:
        word = left.pop(0)
        if word in FORMS:
            form = FORMS[word]
        elif word == "--output" and left:
            path = left.pop(0)
        elif word.startswith("-"):
            raise Usage
        else:
            wanted.append(word)
    settings = read_settings()
    now = time.time()
    clock = Clock(now, now + settings.leap_seconds)
    rows, faults = rows_wanted(settings, wanted, clock.gps)
    live = live_links(settings)
    stations = []
    for row in rows:
        links = {link for word in (row.name9, row.station, str(int(row.station))) for link in live.get(word, set())}
        stations.append(Station(settings, row, links, clock))
    write(form(stations, faults, clock), path)
    return ALARM if faults or any(it.alarms for it in stations) else DONE


def write(text: str, path: Optional[str]) -> None:
    """Writes to a file, which gets its name once it is whole, or else to standard output."""
    if path is None:
        sys.stdout.write(text)
        return
    try:
        write_whole(Path(path), text)
    except (FileNotFoundError, NotADirectoryError, PermissionError) as fault:
        raise Refused(f"can't write {path}: {fault.strerror}") from None
