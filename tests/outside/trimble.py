"""A RINEX 2 file of a receiver whose clock is not steered, made into messages 1004: what a base with this receiver would send."""

import datetime
import sys
from dataclasses import dataclass
from fractions import Fraction
from pathlib import Path

sys.path.insert(0, str(Path(__file__).resolve().parents[1] / "model"))

from station import capture, legacy_of, point  # noqa: E402

LIGHT = 299_792_458
LENGTH = {"1": Fraction(LIGHT, 1_575_420_000), "2": Fraction(LIGHT, 1_227_600_000)}  # of a cycle in m
LIGHT_MS = Fraction(LIGHT, 1000)
# The lock time indicator of a 1004 is the number of these least lock times in s that are no longer (RTCM 10403.3, DF013).
LEAST_LOCKS = [*range(1, 24), *range(24, 72, 2), *range(72, 168, 4), *range(168, 360, 8), *range(360, 744, 16), *range(744, 937, 32), 937]
LOCKED = 2  # so many s before the first phase, or that after a slip, a satellite is locked


@dataclass
class Row:
    """What the file says of a satellite: ranges in m and phases in cycles by band, and the bands that slipped."""

    ranges: dict
    phases: dict
    slips: set


def read(text):
    """The records with a moment, each as its time in ms since 1980-01-06 and its rows by the number of the satellite. The types
    are L1, C1, L2 and P2."""
    head, _, body = text.partition("END OF HEADER")
    assert "     4    L1    C1    L2    P2" in head
    lines, records = iter(body.splitlines()[1:]), []
    for line in lines:
        count = int(line[29:32])
        if int(line[28]) > 1:  # an event, with so many lines
            for _ in range(count):
                next(lines)
            continue
        year, month, day, hour, minute = (int(line[at:at + 3]) for at in range(0, 15, 3))
        start = datetime.datetime(2000 + year, month, day, hour, minute) - datetime.datetime(1980, 1, 6)
        names = [int(line[33 + 3 * at:35 + 3 * at]) for at in range(count)]
        rows = {name: row_of(next(lines).ljust(64)) for name in names}
        records.append((start // datetime.timedelta(milliseconds=1) + int(1000 * Fraction(line[15:26].strip())), rows))
    return records


def row_of(line):
    values = {kind: line[16 * at:16 * at + 14].strip() for at, kind in enumerate(("L1", "C1", "L2", "P2"))}
    return Row(
        {kind[1]: Fraction(values[kind]) for kind in ("C1", "P2") if values[kind]},
        {kind[1]: Fraction(values[kind]) for kind in ("L1", "L2") if values[kind]},
        {band for band, column in (("1", 14), ("2", 46)) if line[column] in "1357"})


class Arc:
    """The phase of a satellite and band between two slips: since when it is locked, and the whole cycles that are taken away
    so that it begins at the range."""

    def __init__(self, time, phase, length, band):
        self.locked = time - 1000 * LOCKED
        self.cycles = round(phase - length / LENGTH[band])


def messages_of(records):
    """The capture: the position and a 1004 of each record."""
    arcs = {}
    return capture(point(), *(
        legacy_of(time % 604_800_000, [entry(arcs, time, name, row) for name, row in sorted(rows.items()) if "1" in row.ranges])
        for time, rows in records))


def entry(arcs, time, name, row):
    """The fields of a satellite."""
    whole, rest = divmod(row.ranges["1"], LIGHT_MS)
    units = min(round(rest / Fraction("0.02")), 14_989_622)
    length = whole * LIGHT_MS + units * Fraction("0.02")
    fields = {"satellite": name, "l1_range": units, "modulus_ambiguity": int(whole), "l2_code": 3}
    difference = round((row.ranges["2"] - length) / Fraction("0.02")) if "2" in row.ranges else -(1 << 13)
    for band in "12":
        offset, lock = -(1 << 19), 0
        if band in row.phases:
            if (name, band) not in arcs or band in row.slips:
                arcs[name, band] = Arc(time, row.phases[band], length, band)
            arc = arcs[name, band]
            offset = round(((row.phases[band] - arc.cycles) * LENGTH[band] - length) / Fraction("0.0005"))
            lock = sum(1000 * it <= time - arc.locked for it in LEAST_LOCKS)
        assert abs(offset) <= 1 << 19
        fields |= {f"l{band}_offset": offset, f"l{band}_lock": lock}
    return fields | {"l2_range": difference}
