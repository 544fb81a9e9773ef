"""What the tests share: a folder of their own, the examples, and frames that are made of the field tables by tests/model."""

from __future__ import annotations

import os
import sys
import tempfile
import unittest
from datetime import datetime
from pathlib import Path

ROOT = Path(__file__).resolve().parents[2]
EXAMPLES = ROOT / "examples"
PROGRAM = os.environ["RTCM2RINEX"]

sys.path.insert(0, str(ROOT / "tests/model"))

from finding import EPHEMERIS  # noqa: E402
from mixed_cases import DOPPLER_CASES, changed_with_doppler, with_doppler  # noqa: E402
from station import capture, date, frame_of_row, legacy_of, msm_of, point  # noqa: E402
from wire import frame_of  # noqa: E402

BASE = (EXAMPLES / "base.rtcm").read_bytes()
P, Q = BASE[:25], BASE[25:]  # the 1005 and the 1004 of examples/README.md
NOON = datetime(2024, 5, 17, 12)
MADE = "2024-05-17T13:00:00"
# The words with which the examples were made, but for the codes
SETUP = {"station": 2003, "near": "2024-05-17T12:00:00", "made": MADE, "marker": "BASE"}
TWO_CODES = {**SETUP, "codes": "1C,2W", "window": 2}
# The satellite of Q, by the fields of its 1004
SATELLITE = {"satellite": 5, "l1_range": 5_000_000, "modulus_ambiguity": 70, "l1_cnr": 180, "l2_code": 3, "l2_range": 100,
    "l2_cnr": 140, "l1_lock": 5, "l2_lock": 5}


def second(number: int) -> datetime:
    """So many seconds after noon."""
    return NOON.replace(minute=number // 60, second=number % 60)


def observations_at(*seconds: int, **fields: int) -> bytes:
    """A 1004 of satellite 5 for each of these seconds after noon."""
    return b"".join(capture(legacy_of(475_200_000 + 1000 * it, [{**SATELLITE, **fields}])) for it in seconds)


def equipment(number: int, *fields: object, station: int = 2003) -> bytes:
    """A 1007, 1008 or 1033: a number is a byte, and a text stands behind its count of bytes."""
    told = b"".join(bytes([it]) if isinstance(it, int) else bytes([len(it)]) + it for it in fields)
    return frame_of((number << 12 | station).to_bytes(3, "big") + told)


ONE = date() + observations_at(0, 1)
WEEK = frame_of_row(EPHEMERIS, number=1019, satellite=5, week=2314 % 1024, toe=475_200 // 16)
# Small captures by the names of their files
CAPTURES = {
    "one": ONE,
    "later": observations_at(2, 3),
    "undated": observations_at(0),
    "stations": ONE + capture(legacy_of(475_200_000, [SATELLITE], station=7)),
    "zip": b"PK\3\4",
    "by_week": WEEK + observations_at(0),
    "by_other": date(station=7) + observations_at(0),
    "of_1077": date() + b"".join(capture(msm_of(475_200_000 + it, {5: (70, 0)}, {(5, 2): {"cnr": 640}}, 1077)) for it in (0, 1000)),
    "equipped": ONE + equipment(1033, b"TRM55971.00     NONE", 0, b"1440911917", b"TRIMBLE NETR9", b"4.48", b"5148K72868"),
    "here": date() + capture(point()) + observations_at(0, 9),
    "there": date(43_202) + capture(point(x=11_141_045_999 + 1_000_001)) + observations_at(2, 11),  # more than 100 m away
    **{f"part{it}": date(43_200 + 30 * it) + observations_at(*range(30 * it, 30 * it + 40)) for it in range(4)},  # 10 s in common
}


class Case(unittest.TestCase):
    """A test in a new folder, which is the current one."""

    maxDiff = None

    def setUp(self) -> None:
        held = tempfile.TemporaryDirectory()
        self.addCleanup(held.cleanup)
        self.folder = Path(held.name).resolve()
        self.addCleanup(os.chdir, os.getcwd())
        os.chdir(self.folder)

    def captures(self, *names: str) -> list:
        """The names of these captures, which are written into the folder."""
        for name in names:
            Path(name).write_bytes(CAPTURES[name])
        return list(names)

    def there(self) -> list:
        """The names of the files in the folder."""
        return sorted(path.name for path in self.folder.iterdir())
