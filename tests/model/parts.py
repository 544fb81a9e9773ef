"""The slow model, fourth part: a part of a file, of GPS or of any systems. Each digit is looked for backwards, record by record."""
# pins: is_near_step, nearness_of, is_in_span, has_slipped_since, first_of_part

from __future__ import annotations

from collections import Counter
from datetime import datetime, timedelta
from typing import NamedTuple

START = datetime(1980, 1, 6)
MS = timedelta(milliseconds=1)
END = "END OF HEADER       \n"
FIRST = "TIME OF FIRST OBS"
TYPES = "SYS / # / OBS TYPES"


class Part(NamedTuple):
    """A span, a step and the letters of systems; what isn't given is None."""

    since: datetime | None
    until: datetime | None
    every: int | None
    systems: str | None = None

    def words(self) -> list[str]:
        """The options of `cut`."""
        given = {"--from": self.since, "--until": self.until}
        words = [f"{name}={it:%Y-%m-%dT%H:%M:%S}" for name, it in given.items() if it is not None]
        words += [] if self.every is None else [f"--every={self.every}"]
        return words + ([] if self.systems is None else [f"--systems={self.systems}"])

    def has_step(self, time: datetime, near: int) -> bool:
        """Whether the time is at most so many ms before or after a multiple of the step."""
        past = 0 if self.every is None else (time - START) // MS % (1000 * self.every)
        return self.every is None or min(past, 1000 * self.every - past) <= near

    def spans(self, time: datetime, near: int) -> bool:
        later = time + near * MS
        return (self.since is None or later >= self.since) and (self.until is None or later < self.until)


class Record(NamedTuple):
    """A record: its time, its first line, and its lines by the names of the satellites."""

    time: datetime
    first: str
    lines: dict[str, str]
    width: int = 48  # the columns of a code

    def digit(self, satellite: str, code: int) -> str | None:
        """The loss-of-lock digit of a phase, or nothing if there is none."""
        field = self.lines.get(satellite, "").ljust(3 + self.width * 16)[3 + self.width * code + 16 :][:16]
        return field[14] if field[:14].strip() else None


def width_of(header: str) -> int:
    """The columns of a code: 64 in a file with Doppler, as its third type says, and else 48."""
    types = next(line for line in header.splitlines() if line[60:].startswith(TYPES))
    return 64 if types[15] == "D" else 48


def records_of(text: str, width: int = 48) -> list[Record]:
    """The records of a text without a header."""
    records = []
    for part in text.split("> ")[1:]:
        first, *lines = part.splitlines()
        *date, seconds = first[:27].split()
        time = datetime(*map(int, date)) + timedelta(milliseconds=round(float(seconds) * 1000))
        records.append(Record(time, f"> {first}\n", {line[:3]: line for line in lines}, width))
    return records


def nearness(records: list[Record]) -> int:
    """How far in ms a record may lie from a moment: a tenth of the most frequent step, the least of several, and 25 at most."""
    steps = Counter((b.time - a.time) // MS for a, b in zip(records, records[1:]))
    return min(25, min(steps, key=lambda step: (-steps[step], step)) // 10) if steps else 0


def has_slipped(records: list[Record], at: int, satellite: str, code: int, part: Part, near: int) -> bool:
    """Whether the phase has slipped in this record, or in one before it since it stood on the step."""
    for back in range(at, -1, -1):
        digit = records[back].digit(satellite, code)
        if back < at and digit is not None and part.has_step(records[back].time, near):
            return False
        if digit is not None and digit in "13":
            return True
    return False


def line_of(records: list[Record], at: int, satellite: str, codes: int, part: Part, near: int) -> str:
    """The line of a satellite with its digits."""
    width = records[at].width
    line = records[at].lines[satellite].ljust(3 + width * codes)
    for code in range(codes):
        digit = records[at].digit(satellite, code)
        if digit is not None:
            bits = (digit in "23") * 2 + has_slipped(records, at, satellite, code, part, near)
            column = 3 + width * code + 30
            line = line[:column] + (str(bits) if bits else " ") + line[column + 1 :]
    return line.rstrip(" ") + "\n"


def widths_of(header: str) -> dict[str, int]:
    """How many codes the header lists of each system, by its letter."""
    lines = [line for line in header.splitlines() if line[60:].startswith(TYPES) and line[0] != " "]
    return {line[0]: int(line[3:6]) // (width_of(header) // 16) for line in lines}


def part_of(text: str, part: Part) -> str:
    """The file of a part of a file."""
    header, end, body = text.partition(END)
    widths = widths_of(header)
    records = records_of(body, width_of(header))
    near = nearness(records)
    kept = [at for at, it in enumerate(records) if part.has_step(it.time, near) and part.spans(it.time, near)]
    first = records[kept[0]].time if kept else part.since
    lines = header.splitlines(keepends=True)
    if first is not None:
        second = f"{first.second}.{first.microsecond // 1000:03}0000"
        time = "".join(f"{it:6}" for it in first.timetuple()[:5]) + f"{second:>13}     GPS"
        lines = [f"{time:60}{FIRST:20}\n" if FIRST in line else line for line in lines]
    for at in kept:
        end += records[at].first
        end += "".join(line_of(records, at, it, widths[it[0]], part, near) for it in records[at].lines)
    return "".join(lines) + end
