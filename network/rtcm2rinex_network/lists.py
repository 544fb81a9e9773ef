"""The list of a file, NAME.captures: what it was made from.

It has the program's version, the row, and a line for each capture with its size and sum as it came, so a capture that is compressed
later is the same. If a plain and a gzipped one have other bytes, each has a line. Then come these lines:

    unread CAPTURE                      a capture that could not be read, and was left out
    made FILE SIZE EPOCHS VALUES SUM    a file that was made; a thinned file without epochs is none, and its sum is -
    report SIZE SUM                     the report of the first of them
    used msm KINDS window N codes LIST every INTERVALS    what the conversion was told, with channels and leap_seconds behind the codes
    deleted CAPTURE                     a capture that `delete-captures` deleted since
    seen FILE SIZE INODE TIME TIME      what `stat` said of a capture or file before its sum was taken

Behind the columns of the row stand msm KINDS if it isn't 4, channels LIST, leap_seconds N, with-1012 yes, and label OPTIONS. If the row has the channels
auto, the line `used` has those that captures told. It lacks the codes of systems that were left out. The list of an older version may lack
values, sums of files and the line `used`, and may have a line `every`.
"""

from __future__ import annotations

import re
from pathlib import Path
from typing import Dict, List, Mapping, NamedTuple, Optional, Sequence, Set, Tuple

from .captures import Sum
from .systems import AUTO, DEFAULT_KIND, LETTERS, channels_of

SUM = r"(\d+) ([0-9a-f]{64})"
MADE = re.compile(r"made ([A-Z0-9_]+\.rnx) (\d+) (\d+)(?: (\d+) ([0-9a-f]{64}|-))?", re.ASCII)
CAPTURE = r"link\d+/\d{11}\.rtcm(?:\.gz)?"
ROW = re.compile(r"row (\S+) (\S+) (\S+) (\S+) (\S+) (\S+) (.*?)"
    rf"(?: msm ([4-7](?:,[{LETTERS}][4-7])*))?(?: channels ([0-9:,-]+|none|auto))?(?: leap_seconds (\d+))?(?: with-1012 yes)?(?: label (.*))?", re.ASCII)


class Made(NamedTuple):
    """A file that was made: its size and sum, and how many epochs and values it has. A sum of None is not known, and - is no file."""

    size: int
    epochs: int
    values: int
    digest: Optional[str]

    @property
    def is_none(self) -> bool:
        """Whether there was nothing to make, as a thinned file without epochs."""
        return self.digest == "-"

    @property
    def sum(self) -> Optional[Sum]:
        """Its size and sum, if they are known."""
        return Sum(self.size, self.digest) if self.digest and not self.is_none else None

    def line(self, name: str) -> str:
        """The line of the list."""
        return f"made {name} {self.size} {self.epochs} {self.values} {self.digest}"


class Used(NamedTuple):
    """What a row of a list says: the number of the station, the marker, the codes that were converted, the MSM, the word for the channels of
    GLONASS, and the options of the label."""

    station: str
    marker: str
    codes: Tuple[str, ...]
    msm: str
    channels: Optional[str]
    label: str


class Record:
    """A list. `head` has the version and the row."""

    def __init__(self, head: Sequence[str] = ()) -> None:
        self.head: List[str] = list(head)
        self.captures: Dict[str, Sum] = {}
        self.unread: Set[str] = set()
        self.made: Dict[str, Made] = {}
        self.report: Optional[Sum] = None
        self.used = ""
        self.deleted: Set[str] = set()
        self.seen: Dict[str, str] = {}

    def source(self) -> List[str]:
        """What the file was made from: the lines that decide whether it is made anew."""
        return [*self.head, *(f"{name} {it}" for name, it in self.captures.items()), *(f"unread {name}" for name in sorted(self.unread))]

    def result(self) -> List[str]:
        """What was made."""
        lines = [it.line(name) for name, it in self.made.items()]
        return [*lines, *([f"report {self.report}"] if self.report else []), *([f"used {self.used}"] if self.used else [])]

    def text(self) -> str:
        """The whole list."""
        seen = [f"seen {name} {it}" for name, it in sorted(self.seen.items())]
        return "".join(f"{line}\n" for line in [*self.source(), *self.result(), *(f"deleted {it}" for it in sorted(self.deleted)), *seen])

    @property
    def told(self) -> Dict[str, str]:
        """What the conversion was told, by the words of the line `used`."""
        words = self.used.split(" ")
        return dict(zip(words[::2], words[1::2]))

    def row(self) -> Optional[Used]:
        """What its row says, if it has one."""
        for line in self.head:
            if match := ROW.fullmatch(line):
                codes = self.told.get("codes", match[5])
                return Used(match[1], match[2], tuple(codes.split(",")), match[8] or DEFAULT_KIND, match[9], match[11] or "")
        return None

    def channels(self) -> Dict[int, int]:
        """The channels of slots that captures told, if its row left them to captures."""
        row, words = self.row(), self.told.get("channels", "")
        return channels_of(words) if row and row.channels == AUTO else {}


def row_line(text: str, msm: str, glonass: Mapping[str, str], label: str) -> str:
    """The line of a row: its columns, and the words that stand behind them."""
    words = {"msm": "" if msm == DEFAULT_KIND else msm, **glonass, "label": label}
    return f"row {text}" + "".join(f" {name} {it}" for name, it in words.items() if it)


def joined(own: Record, others: Sequence[Record]) -> Record:
    """The list of a file with the files of the lists that it has under other names. If it has no list of its own, the first of these is its
    list."""
    first = next((it for it in (own, *others) if it.head), own)
    found = Record()
    vars(found).update(vars(first), made={name: it for record in (first, *others) for name, it in record.made.items()})
    return found


def read_list(path: Path) -> Record:
    """Reads a list; one that is not there or empty has nothing."""
    try:
        text = path.read_text(encoding="utf-8", errors="surrogateescape")
    except FileNotFoundError:
        return Record()
    return list_of(text)


def list_of(text: str) -> Record:
    """The list with this text. A last line that does not end was cut off, so it says nothing."""
    found = Record()
    for line in text.split("\n")[:-1]:
        if match := re.fullmatch(rf"({CAPTURE}) {SUM}", line, re.ASCII):
            found.captures[match[1]] = Sum(int(match[2]), match[3])
        elif match := MADE.fullmatch(line):
            found.made[match[1]] = Made(int(match[2]), int(match[3]), int(match[4] or 0), match[5])
        elif match := re.fullmatch(rf"report {SUM}", line, re.ASCII):
            found.report = Sum(int(match[1]), match[2])
        elif match := re.fullmatch(rf"(deleted|unread) ({CAPTURE})", line, re.ASCII):
            (found.deleted if match[1] == "deleted" else found.unread).add(match[2])
        elif match := re.fullmatch(r"seen ([A-Za-z0-9_./]+) ([0-9. ]+)", line, re.ASCII):
            found.seen[match[1]] = match[2]
        elif line.startswith("used "):
            found.used = line[len("used "):]
        elif not line.startswith("every "):
            found.head.append(line)
    return found
