"""Streams of many epochs, made of the messages of one station."""

from __future__ import annotations

from collections.abc import Callable, Iterable, Iterator
from itertools import cycle

import station
from station import NOON, STATION, capture, legacy_of, msm_of
from wire import Fields, Message, frame_of, payload_of

MIDNIGHT = 432_000_000  # 2024-05-17 00:00:00 in ms of its week
SATELLITES = (3, 8, 17, 29)
SIGNALS = (2, 24)  # the codes 1C and 5X


def point(number: int = 1005, year: int = 0) -> Message:
    """A 1005, or a 1006, of a realization year."""
    return station.point(number, gps=1, itrf_year=year)


def legacy(tow: int, satellites: tuple[int, ...], number: int = STATION) -> Message:
    """A 1004, of the station of this number, whose phases have held lock for long."""
    same = {"modulus_ambiguity": 70, "l1_lock": 127, "l1_cnr": 180}
    same |= {"l2_code": 3, "l2_range": 100, "l2_lock": 127, "l2_cnr": 140}
    rows = ({"satellite": it, "l1_range": 5_000_000 + 1000 * it} | same for it in satellites)
    return legacy_of(tow, rows, station=number)


def msm(
    tow: int, satellites: tuple[int, ...], cnr: int = 45, signals: tuple[int, ...] = SIGNALS, number: int = 1074
) -> Message:
    """A 1074, or another MSM, with each signal of each satellite."""
    cells = {(it, signal): {"lock": 15, "cnr": cnr} for it in satellites for signal in signals}
    return msm_of(tow, {it: (70, 12 * it) for it in satellites}, cells, number)


class Template:
    """A message of which the time of week and the phases change, and nothing else."""

    def __init__(self, message: Message, phases: list[Fields], name: str) -> None:
        self.number = int.from_bytes(payload_of(message), "big")
        self.size = len(payload_of(message))
        self.tow = self.place(message, message.header, "tow")
        self.phases = [self.place(message, fields, name) for fields in phases]

    def place(self, message: Message, fields: Fields, name: str) -> int:
        """How many bits stand after the field, which is 0."""
        fields[name] = 1
        other = int.from_bytes(payload_of(message), "big")
        fields[name] = 0
        return (self.number ^ other).bit_length() - 1

    def frame(self, tow: int, phase: int) -> bytes:
        number = self.number | tow << self.tow
        for place in self.phases:
            number |= phase << place
        return frame_of(number.to_bytes(self.size, "big"))


def minutes(count: int) -> Iterator[bytes]:
    """The first minutes of a day: each second a 1004 and a 1074, of the same satellites and codes;
    each minute the same 1005 before them."""
    older = legacy(0, SATELLITES)
    newer = msm(0, SATELLITES)
    templates = (
        Template(older, older.satellites, "l1_offset"),
        Template(newer, newer.cells, "fine_phase"),
    )
    station = capture(point())
    for minute in range(count):
        seconds = range(60 * minute, 60 * minute + 60)
        frames = [it.frame(MIDNIGHT + 1000 * at, 7 * at % 1001) for at in seconds for it in templates]
        yield station + b"".join(frames)


def split_epochs() -> bytes:
    """Epochs whose 1074 come in parts, of which one comes again and one in conflict."""
    parts: list[Message] = []
    for second in range(5):
        tow = NOON + 1000 * second
        parts += [msm(tow, SATELLITES[:2]), legacy(tow, SATELLITES), msm(tow, SATELLITES[2:])]
        parts += [msm(tow, SATELLITES[:2]), msm(tow, SATELLITES[1:], cnr=20)]
    return capture(point(), *parts)


def largest_1074(tow: int) -> Message:
    """A 1074 of 64 cells, of all satellites."""
    return msm(tow, tuple(range(1, 33)))


def single_satellite(count: int) -> bytes:
    """So many epochs of a 1004 of one satellite."""
    return of_templates(range(count), legacy(0, SATELLITES[:1]))


def of_templates(seconds: Iterable[int], *messages: Message) -> bytes:
    """These messages, one after another, at each of these seconds after noon."""
    templates = [Template(it, [], "") for it in messages]
    times = [NOON + 1000 * second for second in seconds]
    return b"".join(it.frame(time, 0) for time in times for it in templates)


def falling_satellites(count: int) -> bytes:
    """So many epochs of a 1074 and then of a 1004 whose satellites fall."""
    return of_templates(range(count), msm(0, SATELLITES), legacy(0, SATELLITES[::-1]))


def falling_epochs(count: int) -> bytes:
    """So many epochs of a 1004 of one satellite, from the last one to the first."""
    return of_templates(range(count)[::-1], legacy(0, SATELLITES[:1]))


# How many satellites the epochs below have, one after another, again and again.
RISING_AND_FALLING = (*range(2, 12), *range(12, 2, -1))


def rising_and_falling(message: Callable[[int, tuple[int, ...]], Message]) -> Iterator[bytes]:
    """Epochs of a message of one kind whose satellites rise and fall, without end."""
    numbers = set(RISING_AND_FALLING)
    templates = {it: Template(message(0, tuple(range(1, it + 1))), [], "") for it in numbers}
    for second, number in enumerate(cycle(RISING_AND_FALLING)):
        yield templates[number].frame(NOON + 1000 * second, 0)


def unread() -> bytes:
    """A frame of each of the faults M1, M3, M4 and M5, and one of another message."""
    late_1004 = payload_of(legacy(604_800_000, ()))
    cells_66 = payload_of(msm(NOON, tuple(range(1, 34))))[:22]
    return b"".join(map(frame_of, (b"\x3E", b"\x3E\xD7\xD3", late_1004, cells_66, b"\x3F\xB0")))


def with_offset(message: Message, offset: int) -> Message:
    for fields in message.satellites:
        fields["l1_offset"] = fields["l2_offset"] = offset
    return message


def rare_messages() -> bytes:
    """What few stations send: a 1006 and another one, the longest messages, cells that fall, repeat
    and conflict, rolls and a slip, each fault; then epochs in falling order, some too late."""
    height = [station.point(1006, x=1, y=-2, z=3, height=it) for it in (15_000, 15_001)]
    falling = tuple(range(31, 0, -1))
    first, second, third = (NOON + 10_000_000 + 1000 * it for it in range(3))
    slip = with_offset(legacy(third, falling), 0)
    for fields in slip.satellites:
        fields["l1_lock"] = fields["l2_lock"] = 0
    messages = [
        *height,
        with_offset(legacy(first, falling), 500_000),
        largest_1074(first),
        msm(first, tuple(range(1, 33)), cnr=20),
        msm(second, (5, 40), signals=tuple(range(1, 33))),
        legacy(first, (5, 40, 5, 3)),
        with_offset(legacy(second, falling), -500_000),
        with_offset(legacy(second, falling), 500_000),
        slip,
        legacy(604_800_000, SATELLITES),
        legacy(first, SATELLITES, 7),
    ]
    too_many = msm(first, tuple(range(1, 34)))  # 66 cells
    payloads = (b"", b"\x3E", b"\x3F\xB0", b"\x3E\xD7\xD3", payload_of(too_many))
    return capture(*messages) + b"".join(map(frame_of, payloads)) + falling_epochs(4100)
