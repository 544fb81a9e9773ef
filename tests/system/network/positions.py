"""Which messages `position-first` puts before a stream. The last line is 'N passed, M failed'."""

from __future__ import annotations

import sys
from pathlib import Path

HERE = Path(__file__).resolve()
sys.path[:0] = [str(HERE.parents[3] / "network"), str(HERE.parents[2] / "model")]

from rtcm2rinex_network.position import positions_in  # noqa: E402
from streams import SATELLITES, STATION, legacy, point  # noqa: E402
from wire import frame_of, payload_of  # noqa: E402


def frame(number: int = 1005, **changes: int) -> bytes:
    """A frame of a station message with these values."""
    message = point(number)
    message.header.update(changes)
    return frame_of(payload_of(message))


def broken(text: bytes) -> bytes:
    """A frame whose checksum is another one."""
    return text[:-1] + bytes([text[-1] ^ 1])


FIRST, SECOND, SIX = frame(x=10_000), frame(x=20_000), frame(1006)
ZEROS, FOREIGN = frame(x=0, y=0, z=0), frame(station=STATION + 1)
OTHER = frame_of(payload_of(legacy(0, SATELLITES)))

# Of each row: what it is, the frames of a capture, and what goes out first.
ROWS = [
    ("nothing", [], b""),
    ("a message without a position", [OTHER], b""),
    ("a position", [OTHER, FIRST, OTHER], FIRST),
    ("the newest position", [FIRST, OTHER, SECOND], SECOND),
    ("one of each kind, a 1005 first", [SIX, FIRST, OTHER], FIRST + SIX),
    ("a position behind stray bytes", [b"\xd3\x00", FIRST], FIRST),
    ("a newer one with a wrong checksum", [FIRST, broken(SECOND)], FIRST),
    ("a newer one that is cut", [FIRST, SECOND[:-1]], FIRST),
    ("zeros", [ZEROS], b""),
    ("newer zeros", [FIRST, ZEROS], FIRST),
    ("x alone", [frame(y=0, z=0)], frame(y=0, z=0)),
    ("y alone", [frame(x=0, z=0)], frame(x=0, z=0)),
    ("z alone", [frame(x=0, y=0)], frame(x=0, y=0)),
    ("another station", [FOREIGN], b""),
    ("another station after it", [FIRST, FOREIGN], FIRST),
]


def main() -> int:
    failed = 0
    for name, frames, due in ROWS:
        got = positions_in(b"".join(frames), STATION)
        failed += got != due
        print(f"{'ok' if got == due else 'FAILED'} {name}" + ("" if got == due else f": {got.hex()}, and not {due.hex()}"))
    print(f"{len(ROWS) - failed} passed, {failed} failed")
    return failed


sys.exit(main())
