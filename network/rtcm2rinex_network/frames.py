"""Frames of RTCM 3 in the bytes of captures."""

from __future__ import annotations

import re
from typing import List, Sequence, Tuple

from .systems import GLONASS

AROUND = 6  # bytes of a frame beside its message: three before it, and the checksum
POLYNOMIAL = 0x1864CFB  # CRC-24Q
MSM = {"R": 1080, "E": 1090, "S": 1100, "J": 1110, "C": 1120, "I": 1130}  # before the seven numbers of a system
LEGACY = range(1009, 1013)  # of GLONASS


def row_of_table(byte: int) -> int:
    """What a byte does to a checksum."""
    remainder = byte << 16
    for _ in range(8):
        remainder <<= 1
        if remainder & 0x1000000:
            remainder ^= POLYNOMIAL
    return remainder


def crc24q(text: bytes) -> int:
    """The checksum of a frame."""
    if not TABLE:
        TABLE.extend(map(row_of_table, range(256)))
    remainder = 0
    for byte in text:
        remainder = (remainder << 8 & 0xFFFFFF) ^ TABLE[remainder >> 16 ^ byte]
    return remainder


TABLE: List[int] = []  # of all bytes, once a checksum is taken


def frame_at(text: bytes, at: int) -> bytes:
    """The whole frame that begins there, if its checksum is good; else nothing."""
    length = (text[at + 1] & 3) << 8 | text[at + 2]
    frame = bytes(text[at:at + length + AROUND])
    is_whole = len(frame) == length + AROUND and crc24q(frame[:-3]) == int.from_bytes(frame[-3:], "big")
    return frame if is_whole else b""


def begin_of(number: int) -> bytes:
    """A pattern of the begin of a frame with a message of this number, which has twelve bits."""
    low = (number & 15) << 4
    return rb"\xd3[\x00-\x03].%s[%s-%s]" % tuple(re.escape(bytes([it])) for it in (number >> 4, low, low | 15))


def numbers_of(system: str) -> List[int]:
    """The numbers of the observation messages of a system other than GPS."""
    return [*range(MSM[system] + 1, MSM[system] + 8), *(LEGACY if system == GLONASS else ())]


def without_systems(parts: Sequence[Tuple[bytes, str]]) -> bytes:
    """The bytes of a link, which come in parts, without the observation messages of systems of which each part names some. A message may
    begin in a part and end in the next one."""
    text = b"".join(part for part, _ in parts)
    kept, begin, last = [], 0, 0
    for part, systems in parts:
        end, at = begin + len(part), max(begin, last)
        patterns = b"|".join(begin_of(number) for system in systems for number in numbers_of(system))
        while patterns and (match := re.compile(b"(?s)" + patterns).search(text, at, min(len(text), end + AROUND))):
            if match.start() >= end:
                break
            frame = frame_at(text, match.start())
            if frame:
                kept.append(text[last:match.start()])
                last = match.start() + len(frame)
            at = last if frame else match.start() + 1
        begin = end
    return b"".join([*kept, text[last:]])
