"""What travels: bits, the checksum, frames, and the fields of the messages.

Written from the tables of RTCM 10403.3 alone; nothing here comes from the crates under test.
"""

from __future__ import annotations

from dataclasses import dataclass, field
from functools import lru_cache
from struct import unpack
from typing import Iterator, NamedTuple, Sequence, TypeVar

PREAMBLE = 0xD3
MOST_PAYLOAD = 1023
WEEK_MS = 604_800_000

One, Other = TypeVar("One"), TypeVar("Other")


def ones(mask: int) -> int:
    """How many bits of a mask are set."""
    return bin(mask).count("1")


def paired(one: Sequence[One], other: Sequence[Other]) -> Iterator[tuple[One, Other]]:
    """The pairs of two lists, which have one length."""
    assert len(one) == len(other), f"{len(one)} and {len(other)}"
    return zip(one, other)


class Field(NamedTuple):
    """A field of a table: its name, its width in bits, and its least and greatest value; it is
    two's complement if the least one is negative."""

    name: str
    width: int
    least: int
    most: int


Table = tuple[Field, ...]
Fields = dict[str, int]


def field_of(word: str) -> Field:
    """The field that is written NAME:uWIDTH, or NAME:iWIDTH if it is signed."""
    name, kind = word.split(":")
    width = int(kind[1:])
    values = 1 << width
    least = -values // 2 if kind[0] == "i" else 0
    return Field(name, width, least, least + values - 1)


def table(text: str) -> Table:
    return tuple(field_of(word) for word in text.split())


_STATION = (
    "number:u12 station:u12 itrf_year:u6 gps:u1 glonass:u1 galileo:u1 reference:u1 x:i38"
    " single_oscillator:u1 reserved:u1 y:i38 quarter_cycle:u2 z:i38"
)

_MSM = (
    "number:u12 station:u12 tow:u30 multiple_message:u1 issue_of_data_station:u3 reserved:u7"
    " clock_steering:u2 external_clock:u2 smoothing:u1 smoothing_interval:u3"
    " satellite_mask:u64 signal_mask:u32"
)

# What stands first in each message: all of a 1005 and a 1006.
HEADERS: dict[int, Table] = {
    1004: table(
        "number:u12 station:u12 tow:u30 synchronous:u1 satellites:u5 smoothing:u1"
        " smoothing_interval:u3"
    ),
    1005: table(_STATION),
    1006: table(_STATION + " height:u16"),
    **{number: table(_MSM) for number in (1074, 1075, 1076, 1077)},
}

LEGACY_SATELLITE = table(
    "satellite:u6 l1_code:u1 l1_range:u24 l1_offset:i20 l1_lock:u7 modulus_ambiguity:u8 l1_cnr:u8"
    " l2_code:u2 l2_range:i14 l2_offset:i20 l2_lock:u7 l2_cnr:u8"
)

# Of each MSM what it has for a satellite, and for a cell.
MSM_SATELLITE = {
    1074: table("rough_ms:u8 rough_fraction:u10"),
    1075: table("rough_ms:u8 extended:u4 rough_fraction:u10 rough_rate:i14"),
    1076: table("rough_ms:u8 rough_fraction:u10"),
    1077: table("rough_ms:u8 extended:u4 rough_fraction:u10 rough_rate:i14"),
}
MSM_CELL = {
    1074: table("fine_range:i15 fine_phase:i22 lock:u4 half_cycle:u1 cnr:u6"),
    1075: table("fine_range:i15 fine_phase:i22 lock:u4 half_cycle:u1 cnr:u6 fine_rate:i15"),
    1076: table("fine_range:i20 fine_phase:i24 lock:u10 half_cycle:u1 cnr:u10"),
    1077: table("fine_range:i20 fine_phase:i24 lock:u10 half_cycle:u1 cnr:u10 fine_rate:i15"),
}
MSMS = tuple(MSM_CELL)


@dataclass(eq=False)
class Message:
    """A message field by field: the satellites of a 1004; of an MSM the satellites of its mask,
    the bits of its cell mask (satellite by satellite, the signals rising), and the set cells."""

    header: Fields
    satellites: list[Fields] = field(default_factory=list)
    cell_mask: list[int] = field(default_factory=list)
    cells: list[Fields] = field(default_factory=list)


class BitWriter:
    """Bits one after another, the most significant first."""

    def __init__(self) -> None:
        self.number = 0
        self.width = 0

    def put(self, width: int, value: int) -> None:
        self.number = self.number << width | value & (1 << width) - 1
        self.width += width

    def put_row(self, fields: Table, values: Fields) -> None:
        for entry in fields:
            self.put(entry.width, values[entry.name])

    def put_columns(self, fields: Table, rows: list[Fields]) -> None:
        """Each field for all rows before the next field."""
        for entry in fields:
            for values in rows:
                self.put(entry.width, values[entry.name])

    def to_bytes(self) -> bytes:
        size = (self.width + 7) // 8
        return (self.number << 8 * size - self.width).to_bytes(size, "big")


class BitReader:
    """The bits of some bytes, from the first on; EOFError if fewer are left than asked for."""

    def __init__(self, content: bytes) -> None:
        self.number = int.from_bytes(content, "big")
        self.left = 8 * len(content)

    def take(self, width: int) -> int:
        if self.left < width:
            raise EOFError
        self.left -= width
        return self.number >> self.left & (1 << width) - 1

    def take_field(self, entry: Field) -> int:
        _, width, _, most = entry
        value = self.take(width)
        return value if value <= most else value - (1 << width)

    def take_row(self, fields: Table) -> Fields:
        return {entry.name: self.take_field(entry) for entry in fields}

    def take_columns(self, fields: Table, count: int) -> list[Fields]:
        rows: list[Fields] = [{} for _ in range(count)]
        for entry in fields:
            for values in rows:
                values[entry.name] = self.take_field(entry)
        return rows


def payload_of(message: Message) -> bytes:
    """The message's bytes, with zero bits up to a whole one."""
    number = message.header["number"]
    bits = BitWriter()
    bits.put_row(HEADERS[number], message.header)
    if number == 1004:
        for satellite in message.satellites:
            bits.put_row(LEGACY_SATELLITE, satellite)
    if number in MSMS:
        for is_set in message.cell_mask:
            bits.put(1, is_set)
        bits.put_columns(MSM_SATELLITE[number], message.satellites)
        bits.put_columns(MSM_CELL[number], message.cells)
    return bits.to_bytes()


def _remainders() -> list[int]:
    """What each two bytes before 24 bits leave, when the generator is taken away bit by bit."""
    remainders = [0] * 65536
    for bit in range(16):
        rest = 0x864CFB if bit == 0 else remainders[1 << bit - 1] << 1
        remainders[1 << bit] = rest ^ (0x1864CFB if rest & 0x1000000 else 0)
    for pair in range(65536):
        low = pair & -pair
        remainders[pair] = remainders[low] ^ remainders[pair ^ low]
    return remainders


_REMAINDERS = _remainders()


@lru_cache(1000)  # the same frames stand in many a text
def crc24q(content: bytes) -> int:
    """The checksum CRC-24Q: generator 1864CFB, start 0, no final exclusive-or. Zeros before the
    first byte change nothing, so the bytes are taken in pairs."""
    rest = 0
    for pair in unpack(f">{(len(content) + 1) // 2}H", bytes(len(content) % 2) + content):
        rest = (rest & 0xFF) << 16 ^ _REMAINDERS[rest >> 8 ^ pair]
    return rest


def head_of_frame(length: int, reserved: int = 0) -> bytes:
    """The preamble, six reserved bits and ten of the payload's length."""
    return bytes((PREAMBLE, reserved << 2 | length >> 8, length & 255))


def frame_of(payload: bytes, reserved: int = 0) -> bytes:
    content = head_of_frame(len(payload), reserved) + payload
    return content + crc24q(content).to_bytes(3, "big")


def size_at(text: bytes, place: int) -> int | None:
    """How many bytes a frame at this place, which holds a preamble, must have; None if too few
    bytes follow to tell."""
    if len(text) - place < 3:
        return None
    return 6 + ((text[place + 1] & 3) << 8 | text[place + 2])


def is_frame(content: bytes) -> bool:
    """Whether the last three bytes are the checksum of those before them."""
    return crc24q(content) == 0
