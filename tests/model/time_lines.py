"""The slow model of the lines that `label --interval` and `label --last` write: by the manual, from the records of the file."""
# pins: interval_line, last_time_line

from __future__ import annotations

from collections import Counter
from datetime import datetime

from mixed_files import header_line
from parts import END, MS, records_of

SEED = 6464
INTERVAL, LAST = "INTERVAL", "TIME OF LAST OBS"
FRONT = 9  # lines before these, without that of the marker's number
TOO_LONG = 1_000_000_000  # in ms


def interval_of(times: list[datetime]) -> int | None:
    """The most frequent step in ms, of two alike the lesser one."""
    steps = Counter((later - time) // MS for time, later in zip(times, times[1:]))
    return min((-count, step) for step, count in steps.items())[1] if steps else None


def interval_lines(times: list[datetime]) -> list[str]:
    interval = interval_of(times)
    if interval is None or interval >= TOO_LONG:
        return []
    return [header_line(f"{interval // 1000}.{interval % 1000:03}".rjust(10), INTERVAL)]


def last_lines(times: list[datetime]) -> list[str]:
    if not times:
        return []
    last = times[-1]
    date = "".join(f"{part:6}" for part in last.timetuple()[:5])
    return [header_line(f"{date}{f'{last.second}.{last.microsecond:06}0':>13}     GPS", LAST)]


def lines_due(text: str, interval: bool, last: bool) -> list[str]:
    """The lines of a file that are asked for."""
    times = [record.time for record in records_of(text.partition(END)[2])]
    return (interval_lines(times) if interval else []) + (last_lines(times) if last else [])


def with_lines(text: str, interval: bool, last: bool) -> str:
    """The file with the lines that are asked for."""
    lines = text.splitlines(keepends=True)
    told = [f"{line}\n" for line in lines_due(text, interval, last)]
    return "".join(lines[:FRONT] + told + lines[FRONT:])


def has_line(lines: list[str], label: str) -> bool:
    return any(line[60:].strip() == label for line in lines)


def wrong_line(lines: list[str], plain: str) -> int | None:
    """Which of these lines is not that of the file: the first one or the second one, if one is wrong."""
    due = lines_due(plain, has_line(lines, INTERVAL), has_line(lines, LAST))
    if lines == due:
        return None
    return 0 if lines[:1] != due[:1] else 1
