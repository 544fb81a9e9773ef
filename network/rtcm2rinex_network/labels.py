"""The labels: more fields of the headers, in the file `labels` beside the table of stations."""

from __future__ import annotations

import os
import re
import shlex
from pathlib import Path
from typing import Dict, Iterator, List, NamedTuple, Optional, Sequence, Tuple

from .ends import Again, Refused
from .program import Program, of_program
from .table import Dates, Row, lines_of_table, read_dates

SWITCHES = ("--interval", "--last")  # options of `label` without a value: lines that follow from the records


class Label(NamedTuple):
    """A line of the file `labels`: the station, from when until when it holds, and the options of `rtcm2rinex label` as they stand."""

    number: int
    word: str
    dates: Dates
    text: str
    fault: str


def labels_beside(table: Path) -> Path:
    """The file of labels, which may be missing."""
    return table.resolve().parent / "labels"


def read_labels(path: Path) -> List[Label]:
    """The lines of a file of labels; none if it is not there."""
    if not path.exists():
        return []
    if path.is_dir() or not os.access(path, os.R_OK):
        raise Refused(f"can't read {path}")
    return [read_label(number, line) for number, line in lines_of_table(path)]


def read_label(number: int, line: str) -> Label:
    """A line: the station, the words from= and until=, and the options."""
    word, text = (re.split(r"[ \t]+", line, maxsplit=1) + [""])[:2]
    words: Dict[str, str] = {}
    twice = ""
    while match := re.match(r"(from|until)=([^ \t]*)(?:[ \t]+|$)", text):
        twice = match[1] if match[1] in words else twice
        words[match[1]] = match[2]
        text = text[match.end():]
    dates, fault = read_dates(words)
    return Label(number, word, dates, text, f"{twice}= is there twice" if twice else fault)


def find_label(path: Path, row: Row, at: float) -> str:
    """The options of the station of a row at a time, as they stand in the file; nothing if there are none."""
    of_station = [it for it in read_labels(path) if row.is_of(it.word)]
    found = [it for it in of_station if it.dates.has(at)]
    for it in of_station:
        if it.fault:
            raise Refused(f"the label of {row.name9} in {path}: {it.fault}")
    if len(found) > 1:
        raise Refused(f"{path} has more than one line of {row.name9}")
    if found and not found[0].text:
        raise Refused(f"the label of {row.name9} in {path}: it has no options")
    return found[0].text if found else ""


def options_of(text: str) -> Optional[List[str]]:
    """The options of a label as words; None if a quote does not end. A backslash is none of the quotes that stand around it."""
    reader = shlex.shlex(text, posix=True, punctuation_chars=False)
    reader.whitespace_split, reader.commenters, reader.escapedquotes = True, "", ""
    try:
        return list(reader)
    except ValueError:
        return None


def checked_options(program: Program, path: Path, row: Row, text: str) -> List[str]:
    """The options of a label as words, which the program takes. If it takes them, it refuses an empty file with status 3."""
    if not text:
        return []
    whose = f"the label of {row.name9} in {path}"
    if re.search(r"[^\t -~]", text):
        raise Refused(f"{whose}: it has characters that are not printable ASCII")
    options = options_of(text)
    if options is None:
        raise Refused(f"{whose}: a quote does not end")
    ran = program.ran(["label", os.devnull, *options])
    if ran.status == 0:
        raise Refused(f"{whose}: its options are no fields of a header")
    if ran.status == 2:
        raise Refused(f"{whose}: {of_program(ran)}")
    if ran.status != 3:
        raise Again(f"{whose}: the program ended with status {ran.status}")
    return options


def fields_of_options(options: Sequence[str]) -> Dict[str, str]:
    """The fields of a header that options of `label` fill, by the names of the options."""
    found: Dict[str, str] = {}
    words = iter(options)
    for word in words:
        if word in SWITCHES:
            continue
        name, is_joined, value = word.partition("=")
        found[name[2:]] = value if is_joined else next(words, "")
    return {name: value for name, value in found.items() if value}


def strays(path: Path, rows: Sequence[Row]) -> Iterator[Tuple[int, str]]:
    """What is wrong with the lines of a file of labels beside the rows of the table: the number of the line, and why."""
    for label in read_labels(path) if path.is_file() and os.access(path, os.R_OK) else []:
        if not any(row.is_of(label.word) for row in rows):
            yield label.number, f"{label.word!r} is not in the table"
