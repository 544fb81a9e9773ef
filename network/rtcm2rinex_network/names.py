"""The names of files: the RINEX files that are made, and the captures. No other module reads or writes one."""

from __future__ import annotations

import re
from typing import List, NamedTuple, Optional

from .settings import DAY
from .systems import TYPES
from .times import LENGTHS, Span, ms_of, stamp_of, time_of_stamp

LINKS = range(1, 17)
LINK = r"[1-9]|1[0-6]"
FORM = re.compile(rf"([A-Z0-9]{{4}}\d\d[A-Z]{{3}})_S_(\d{{11}})_({'|'.join(LENGTHS)})_([0-9]{{2}}[A-Z])_({'|'.join(TYPES)})\.rnx", re.ASCII)
CAPTURE = re.compile(rf"link({LINK})/(\d{{9}}00)\.rtcm", re.ASCII)


class Name(NamedTuple):
    """The name of a RINEX file: that of the station, the span, the interval and the type of the data."""

    name9: str
    span: Span
    interval: str
    kind: str

    def __str__(self) -> str:
        return f"{self.name9}_S_{stamp_of(self.span.begin)}_{self.span.length}_{self.interval}_{self.kind}.rnx"

    @property
    def begin(self) -> str:
        """How the names of all files of its span begin."""
        return str(self).removesuffix(f"{self.interval}_{self.kind}.rnx")

    @property
    def epochs(self) -> int:
        """How many epochs a file with this name has if none is missing; at least one."""
        return max(1, LENGTHS[self.span.length] * 1000 // self.interval_ms)

    @property
    def most_epochs(self) -> int:
        """How many it may have: one more if its span is no multiple of the interval."""
        return -(-LENGTHS[self.span.length] * 1000 // self.interval_ms)

    @property
    def interval_ms(self) -> int:
        """The interval in ms."""
        return ms_of(self.interval) or DAY * 1000

    def with_interval(self, interval: str) -> Name:
        """The name of the same data in other steps."""
        return self._replace(interval=interval)

    def with_kind(self, kind: str) -> Name:
        """The name of data of another type."""
        return self._replace(kind=kind)

    @property
    def others(self) -> List[Name]:
        """The names that the file has if its row names codes of other systems."""
        return [self.with_kind(it) for it in TYPES if it != self.kind]


def read_name(text: str) -> Optional[Name]:
    """The parts of the name of a RINEX file; None if it is none."""
    match = FORM.fullmatch(text)
    if not match:
        return None
    try:
        return Name(match[1], Span(time_of_stamp(match[2]), match[3]), match[4], match[5])
    except ValueError:
        return None


def capture_name(link: int, hour: int) -> str:
    """The name of a capture below the folder of its station, without the end .gz."""
    return f"link{link}/{stamp_of(hour)}.rtcm"


def hour_of_capture(name: str) -> Optional[int]:
    """The begin of the hour of the name of a capture, as `capture_name` or with .gz; None if it is no such name.

    Raises a ValueError if there is no such day or hour.
    """
    match = CAPTURE.fullmatch(name[:-3] if name.endswith(".gz") else name)
    return time_of_stamp(match[2]) if match else None
