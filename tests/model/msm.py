"""The slow model of several systems, third part: the MSM4 to MSM7 of each system, as bits and back, and a 1012."""

from __future__ import annotations

from clocks import DAY_MS, UNKNOWN_DAY, glonass_clock, is_clock
from messages import Refusal, read_message
from systems import GLONASS, GPS, TYPES, System
from wire import HEADERS, MSM_CELL, MSM_SATELLITE, MSMS, BitReader, BitWriter, Fields, Message, ones, table

# The fields of an MSM are those of GPS, whatever the system; they depend on the kind.
HEADER = HEADERS[1074]
SATELLITE = {kind: MSM_SATELLITE[1070 + kind] for kind in (4, 5, 6, 7)}
CELL = {kind: MSM_CELL[1070 + kind] for kind in (4, 5, 6, 7)}

HEADER_1012 = table("number:u12 station:u12 clock:u27 synchronous:u1 satellites:u5 smoothing:u1 smoothing_interval:u3")
SATELLITE_1012 = table(
    "slot:u6 l1_code:u1 channel:u5 l1_range:u25 l1_offset:i20 l1_lock:u7 modulus_ambiguity:u7 l1_cnr:u8"
    " l2_code:u2 l2_range:i14 l2_offset:i20 l2_lock:u7 l2_cnr:u8"
)


LEGACY, LEGACY_GLONASS = 1004, 1012
# The MSM of other systems than GPS.
BESIDE_GPS = frozenset(number for number, (system, _) in TYPES.items() if system is not GPS)


def type_of(message: Message) -> tuple[System, int]:
    """The system and the kind of an MSM."""
    return TYPES[message.header["number"]]


def system_of(message: Message) -> System | None:
    """The system of observations; nothing of a message of the station."""
    if "tow" not in message.header:
        return None
    return {LEGACY: GPS, LEGACY_GLONASS: GLONASS}.get(message.header["number"]) or type_of(message)[0]


def letter_of(message: Message) -> str | None:
    system = system_of(message)
    return None if system is None else system.letter


def payload_of_msm(message: Message) -> bytes:
    """The message's bytes, with zero bits up to a whole one."""
    _, kind = type_of(message)
    bits = BitWriter()
    bits.put_row(HEADER, message.header)
    for is_set in message.cell_mask:
        bits.put(1, is_set)
    bits.put_columns(SATELLITE[kind], message.satellites)
    bits.put_columns(CELL[kind], message.cells)
    return bits.to_bytes()


def read_any(payload: bytes, numbers: frozenset[int], takes_unknown_day: bool = False) -> Message | Refusal:
    """The message that a payload begins with, or the first cause why there is none. Of the MSM and 1012 these numbers are read."""
    if 8 * len(payload) < 12:
        return Refusal("M1", None)
    number = BitReader(payload).take(12)
    if number == LEGACY_GLONASS and number in numbers:
        return read_1012(payload)
    if number in TYPES and number in numbers:
        return _read_msm(payload, number, takes_unknown_day)
    return read_message(payload, ())


def read_frame(payload: bytes) -> Message | Refusal:
    """The message that a payload begins with: of GPS or a station, or an MSM of another system."""
    read = read_message(payload, MSMS)
    if not isinstance(read, Refusal) or read.fault != "M2":
        return read
    return read_any(payload, BESIDE_GPS | {LEGACY_GLONASS}, True)


def _read_msm(payload: bytes, number: int, takes_unknown_day: bool) -> Message | Refusal:
    system, kind = TYPES[number]
    bits = BitReader(payload)
    try:
        header = bits.take_row(HEADER)
        if not is_clock(system, header["tow"], takes_unknown_day):
            return Refusal("M4", number)
        satellites, signals = ones(header["satellite_mask"]), ones(header["signal_mask"])
        if satellites * signals > 64:
            return Refusal("M5", number)
        message = Message(header)
        message.cell_mask = [bits.take(1) for _ in range(satellites * signals)]
        message.satellites = bits.take_columns(SATELLITE[kind], satellites)
        message.cells = bits.take_columns(CELL[kind], sum(message.cell_mask))
        return message
    except EOFError:
        return Refusal("M3", number)


def message_of(header: Fields, satellites: dict[int, Fields], cells: dict[tuple[int, int], Fields]) -> Message:
    """An MSM of these satellites by the bits of their mask, and of these cells by satellite and signal. The masks follow from
    them, and each field that is not given is 0."""
    signals = sorted({signal for _, signal in cells})
    masks = {
        "satellite_mask": sum(1 << 64 - bit for bit in satellites),
        "signal_mask": sum(1 << 32 - signal for signal in signals),
    }
    _, kind = TYPES[header["number"]]

    def whole(fields, values: Fields) -> Fields:
        return {entry.name: values.get(entry.name, 0) for entry in fields}

    return Message(
        whole(HEADER, {**header, **masks}),
        [whole(SATELLITE[kind], satellites[bit]) for bit in sorted(satellites)],
        [int((bit, signal) in cells) for bit in sorted(satellites) for signal in signals],
        [whole(CELL[kind], cells[key]) for key in sorted(cells)],
    )


def read_1012(payload: bytes) -> Message | Refusal:
    """A 1012; its time of the week is the clock of an MSM of GLONASS that does not know the day."""
    bits = BitReader(payload)
    try:
        header = bits.take_row(HEADER_1012)
        if header["clock"] >= DAY_MS + 1000:
            return Refusal("M4", LEGACY_GLONASS)
        header["tow"] = glonass_clock(UNKNOWN_DAY, header["clock"])
        return Message(header, [bits.take_row(SATELLITE_1012) for _ in range(header["satellites"])])
    except EOFError:
        return Refusal("M3", LEGACY_GLONASS)


def payload_of_1012(message: Message) -> bytes:
    """The message's bytes, with zero bits up to a whole one."""
    bits = BitWriter()
    bits.put_row(HEADER_1012, message.header)
    for row in message.satellites:
        bits.put_row(SATELLITE_1012, row)
    return bits.to_bytes()
