"""The example of four systems: ten seconds of a station, over two links that each lost messages, and the file of both.

    python3 tests/model/systems_links.py examples

makes systems_link1.rtcm, systems_link2.rtcm and systems.rnx in this folder. No message is lost on both links, so together they have all
of it.
"""

from __future__ import annotations

import sys
from fractions import Fraction
from pathlib import Path

from clocks import clock_of
from mixed_model import Options, convert_mixed
from model import moment
from msm import message_of, payload_of_msm
from station import STATION, capture, date, point
from systems import BEIDOU, GALILEO, GLONASS, GPS, System, number_of
from wire import frame_of

sys.dont_write_bytecode = True

BEGIN = moment("2024-05-17T12:00:00")
MADE = moment("2024-05-17T13:00:00")
SECONDS = range(10)

# Of each system its signals, and of each satellite the travel time at the begin and its change each second, in ms.
SENT: tuple[tuple[System, tuple[int, int], dict[int, tuple[str, str]]], ...] = (
    (GPS, (2, 10), {5: ("70.4213", "0.00031"), 7: ("73.8807", "-0.00052"), 13: ("81.0092", "0.00094")}),
    (GLONASS, (2, 8), {1: ("66.7315", "-0.00012"), 10: ("74.1128", "0.00083")}),
    (GALILEO, (5, 24), {11: ("83.7590", "0.00007"), 36: ("86.0154", "-0.00044")}),
    (BEIDOU, (2, 14), {5: ("132.5801", "0.00001"), 41: ("77.2836", "0.00039")}),
)
CHANNELS = {1: 1, 10: -7}

# The seconds of which a link brought nothing, and the system and the second of one more message that it lost.
LOST = ({6, 7}, (GALILEO, 1)), ({2, 3}, (GLONASS, 9))


def cell(time: int) -> dict[str, int]:
    """A cell whose phase and range have this travel time beyond the rough one, in 2^-31 ms."""
    return {"fine_phase": time, "fine_range": round(Fraction(time, 4)), "lock": 600, "cnr": 704}


def observations(at: int, place: int) -> bytes:
    """The MSM7 of a system, by its place, at a second."""
    system, signals, satellites = SENT[place]
    rows, cells = {}, {}
    for satellite, (begin, change) in satellites.items():
        time = round((Fraction(begin) + at * Fraction(change)) * 2**31)
        rough = round(Fraction(time, 2**21))
        rows[satellite] = {"rough_ms": rough // 1024, "rough_fraction": rough % 1024}
        if system is GLONASS:
            rows[satellite]["extended"] = CHANNELS[satellite] + 7
        for signal in signals:
            cells[satellite, signal] = cell(time - rough * 2**21 + signal)
    clock = clock_of(system, BEGIN + 1000 * at)
    head = {"number": number_of(system, 7), "station": STATION, "tow": clock, "multiple_message": int(place < len(SENT) - 1)}
    return frame_of(payload_of_msm(message_of(head, rows, cells)))


def link_of(silent: set[int], lost: tuple[System, int]) -> bytes:
    """What came on a link."""
    frames = [date(43_200), capture(point(1006, height=15_000))]
    for at in SECONDS:
        for place, (system, _, _) in enumerate(SENT):
            if at not in silent and (system, at) != lost:
                frames.append(observations(at, place))
    return b"".join(frames)


def options() -> Options:
    """What `auto` finds in both links."""
    names = "1C,2W,R1C,R2C,E1X,E5X,C2I,C7I"
    return Options(STATION, BEGIN, MADE, "BASE", tuple(names.split(",")), 4096, msm="7", channels=CHANNELS)


def links() -> list[bytes]:
    return [link_of(*it) for it in LOST]


if __name__ == "__main__":
    folder = Path(sys.argv[1])
    for number, link in enumerate(links(), 1):
        (folder / f"systems_link{number}.rtcm").write_bytes(link)
    (folder / "systems.rnx").write_text(convert_mixed(options(), links()).file)
