"""The table of sources: the streams that `live-station` keeps."""

from __future__ import annotations

import os
import re
import shutil
from pathlib import Path
from typing import Dict, Iterator, List, NamedTuple, Sequence, Set, Tuple
from urllib.parse import urlsplit

from .ends import Refused
from .names import LINK
from .settings import Settings
from .table import Row, lines_of_table

SERIAL = "serial://"


class Source(NamedTuple):
    """A row of the table: the station, the link, and where the stream comes from; `columns` says how many columns it has."""

    number: int
    word: str
    link: str
    source: str
    columns: int


def read_sources(path: Path) -> List[Source]:
    """The rows of a table of sources."""
    found = []
    for number, line in lines_of_table(path):
        columns = line.split()
        word, link, source = (columns + ["", "", ""])[:3]
        found.append(Source(number, word, link, source, len(columns)))
    return found


def find_source(settings: Settings, row: Row, link: int) -> str:
    """The source of a link of a station. Refuses if it can't be opened."""
    path = settings.sources
    found = [it.source for it in read_sources(path) if it.columns > 2 and row.is_of(it.word) and it.link == str(link)]
    if len(found) != 1:
        raise Refused(f"the table {path} has {'more than one' if found else 'no'} source of link {link} of {row.name9}")
    if fault := fault_of_source(found[0]):
        raise Refused(f"the source of link {link} of {row.name9}: {fault}")
    if not may_be_read(found[0]):
        raise Refused(f"{found[0]} may not be read by this user")
    return found[0]


def fault_of_source(source: str) -> str:
    """Why a source can't be opened; nothing if it can."""
    if re.search("://.*@", source):
        return "a password in the table can be read by others: give it to curl, by a file"
    tool = "curl" if source.startswith("/") else "str2str" if source.startswith(SERIAL) else None
    if tool and not shutil.which(tool):
        return f"{tool} is not in PATH"
    if tool == "curl":
        try:
            return f"others may read {source}" if os.stat(source).st_mode & 0o077 else ""
        except OSError as fault:
            return f"{source}: {fault.strerror}"
    if not tool and not re.fullmatch(r"(tcpcli://[^/]+:\d+/?|ntrip://[^/]+/[^/]+)", source, re.ASCII):
        return "it is no stream, and no file for curl"
    try:
        urlsplit(source).port  # which says if it is out of range
    except ValueError as fault:
        return str(fault)
    return ""


def may_be_read(source: str) -> bool:
    """Whether this user may read a source, if it is a file for curl."""
    return not source.startswith("/") or os.access(source, os.R_OK)


def faults_of_sources(path: Path, rows: Sequence[Row]) -> Iterator[Tuple[int, str, bool]]:
    """What is wrong with the rows of a table of sources: the number of the line, why, and whether it is a note alone."""
    seen: Set[Tuple[str, str]] = set()
    for it in read_sources(path):
        links = {(row.name9, it.link) for row in rows if row.is_of(it.word)}
        if it.columns < 3:
            fault = "it has fewer columns than station link source"
        elif not links:
            fault = f"{it.word!r} is not in the table of stations"
        elif not re.fullmatch(LINK, it.link):
            fault = f"link {it.link!r} is no number from 1 to 16"
        elif links & seen:
            fault = "a row above has this link too"
        else:
            fault = fault_of_source(it.source)
        seen |= links
        if fault:
            yield it.number, fault, False
        elif not may_be_read(it.source):
            yield it.number, f"note: {it.source} may not be read by this user", True


def live_links(settings: Settings) -> Dict[str, Set[int]]:
    """The links of each station that the table of sources has, by its number or name; none if there is no table."""
    path = settings.sources
    found: Dict[str, Set[int]] = {}
    if path.is_file():
        for it in read_sources(path):
            if it.columns > 2 and re.fullmatch(LINK, it.link):
                found.setdefault(it.word, set()).add(int(it.link))
    return found
