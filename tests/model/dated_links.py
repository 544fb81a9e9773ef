"""The two links of the example: recordings of the same 20 seconds, each of which lost messages and has others twice.

    python3 tests/model/dated_links.py examples

makes dated_link1.rtcm and dated_link2.rtcm of the capture dated.rtcm in this folder. No message is lost on both links, so together
they have all of it."""

import sys
from pathlib import Path
from typing import NamedTuple

from messages import frames_of, read_message
from station import NOON, STATION
from wire import MSMS, Message

sys.dont_write_bytecode = True


class Damage(NamedTuple):
    """What a link does to the messages."""

    outage: range  # of these seconds after noon no message came
    without_msm: set[int]  # of these seconds no MSM came
    each: int  # each message of so many that came, came twice


LINKS = Damage(range(9, 12), {5, 14}, 4), Damage(range(1, 4), {7, 17}, 5)


def seconds_of(capture: bytes):
    """The frames, each with its number, if it is read, and with the second of the last observations of the station."""
    second = 0
    for frame in frames_of(capture):
        message = read_message(frame.payload)
        number = None
        if isinstance(message, Message):
            number = message.header["number"]
            if "tow" in message.header and message.header["station"] == STATION:
                second = (message.header["tow"] - NOON) // 1000
        yield capture[frame.place : frame.end], number, second


def link_of(capture: bytes, damage: Damage) -> bytes:
    came = [frame for frame, number, second in seconds_of(capture)
        if second not in damage.outage and not (number in MSMS and second in damage.without_msm)]
    return b"".join(frame * (2 if count % damage.each == 0 else 1) for count, frame in enumerate(came, 1))


def links_of(capture: bytes) -> list[bytes]:
    return [link_of(capture, damage) for damage in LINKS]


if __name__ == "__main__":
    folder = Path(sys.argv[1])
    for number, link in enumerate(links_of((folder / "dated.rtcm").read_bytes()), 1):
        (folder / f"dated_link{number}.rtcm").write_bytes(link)
