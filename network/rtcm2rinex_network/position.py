"""The command position-first: a stream of RTCM 3 behind a message with the position of its station."""

from __future__ import annotations

import os
import re
import select
import time
from pathlib import Path
from typing import Optional, Sequence

from .captures import Unread, pieces_of
from .ends import DONE, Usage
from .frames import AROUND, frame_at
from .keeping import PIECE, write_all

NUMBERS = (1005, 1006)
LEAST = 19  # bytes of a message 1005
LONGEST = 3 + 1023 + 3  # bytes of a frame
COORDINATES = (80, 40, 0)  # bits after x, y and z within the first 19 bytes
COORDINATE = (1 << 38) - 1  # the bits of one


def position_at(text: bytes, at: int) -> bytes:
    """The whole frame that begins there, if its checksum is good and its position isn't zeros; else nothing."""
    frame = frame_at(text, at)
    if len(frame) < LEAST + AROUND:
        return b""
    bits = int.from_bytes(frame[3:3 + LEAST], "big")
    return frame if any(bits >> after & COORDINATE for after in COORDINATES) else b""


def newest(text: bytes, number: int, station: int) -> bytes:
    """The last frame with this message of the station, or nothing."""
    begin = re.escape((number << 12 | station).to_bytes(3, "big"))
    places = [it.start() for it in re.finditer(rb"(?s)(?=\xd3.." + begin + b")", text)]
    return next(filter(None, (position_at(text, at) for at in reversed(places))), b"")


def positions_in(text: bytes, station: int) -> bytes:
    """The newest message of each kind."""
    return b"".join(newest(text, number, station) for number in NUMBERS)


def content(path: str) -> bytes:
    """The bytes of a capture; nothing of one that can't be read."""
    try:
        return b"".join(pieces_of(Path(path)))
    except Unread:
        return b""


def hold(station: int, seconds: float) -> bytes:
    """The begin of the stream, behind its position if it came in time."""
    held = bytearray()
    first: Optional[float] = None
    while first is None or time.monotonic() < first + seconds:
        left = None if first is None else max(0.0, first + seconds - time.monotonic())
        if not select.select([0], [], [], left)[0]:
            break
        piece = os.read(0, PIECE)
        if not piece:
            break
        first = first or time.monotonic()
        held += piece
        found = positions_in(held[-len(piece) - LONGEST:], station)
        if found:
            return found + held
    return bytes(held)


def pass_on(words: Sequence[str]) -> int:
    """Passes standard input on, behind the position."""
    if len(words) < 2 or not words[0].isdecimal() or not re.fullmatch(r"\d+(\.\d+)?", words[1], re.ASCII):
        raise Usage
    station = int(words[0])
    known = (positions_in(content(it), station) for it in words[2:])
    write_all(1, next(filter(None, known), b"") or hold(station, float(words[1])))
    while piece := os.read(0, PIECE):
        write_all(1, piece)
    return DONE
