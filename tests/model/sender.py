"""A station that sends what no careful sender would: fields at their ends, parts of epochs, copies
that differ, payloads that are cut or go on."""

from __future__ import annotations

from random import Random
from typing import Callable, TypeVar

from messages import FINE_LOCK_TIMES, SIGNALS, legacy_lock_time, msm_lock_time
from model import Setup
from wire import HEADERS, LEGACY_SATELLITE, MOST_PAYLOAD, MSM_CELL, MSM_SATELLITE, MSMS, WEEK_MS
from wire import Field, Fields, Message, Table, frame_of, paired, payload_of

Pick = Callable[[Random, Field], int]
Key = TypeVar("Key")

# Changes of an offset of one less and one more than half of 1500 cycles, of L1 and of L2.
OFFSETS = (0, 285_440, 285_441, -285_440, -285_441, 366_315, 366_316, -366_315, -366_316)
HALVES_OF_OFFSETS = (142_720, -142_720, -142_721, 183_158, -183_157, -183_158)

# The lock time indicators of a 1076 and a 1077 where their table turns, and reserved ones.
FINE_TURNS = (0, 63, 64, 95, 96, 671, 672, 703, 704, 705, 1022, 1023)


def pick_any(rng: Random, entry: Field) -> int:
    if rng.random() < 0.6:
        return entry.least + rng.getrandbits(entry.width)
    return pick_end(rng, entry)


def pick_end(rng: Random, entry: Field) -> int:
    """Also the marks of no value: the least of a signed field, the most of the rough range, 0."""
    name, width, least, most = entry
    if name == "lock" and width == 10:
        return rng.choice(FINE_TURNS)
    ends = (least, least + 1, -1 if least < 0 else 1, 0, most - 1, most)
    return ends[int(rng.random() * len(ends))]


def pick_zero(rng: Random, entry: Field) -> int:
    """Most often 0; of a rough range a fraction that makes ties of the range in mm."""
    if entry.name == "rough_fraction":
        return rng.choice((0, 256, 512, 768))
    return 0 if rng.random() < 0.9 else pick_any(rng, entry)


def pick_near_lock(step: int) -> Pick:
    """Lock times about a step of time, offsets about half of 1500 cycles, all else plain."""
    legacy = max(i for i in range(128) if legacy_lock_time(i) <= step)
    coarse = max(i for i in range(16) if msm_lock_time(i) <= step)
    fine = max(i for i in range(705) if FINE_LOCK_TIMES[i] <= step)

    def pick(rng: Random, entry: Field) -> int:
        if entry.name in ("l1_lock", "l2_lock"):
            return min(127, max(0, rng.choice((legacy, legacy, legacy + 1, legacy - 1, 127, 127))))
        if entry.name == "lock" and entry.width == 4:
            return min(15, max(0, rng.choice((coarse, coarse, coarse + 1, coarse - 1, 15))))
        if entry.name == "lock":
            return max(0, rng.choice((fine, fine, fine, fine + 1, fine - 1, 704, 704, 1023)))
        if entry.name in ("l1_offset", "l2_offset"):
            return rng.choice(OFFSETS + HALVES_OF_OFFSETS + (-524_288,))
        if entry.name in ("l1_code", "l2_code"):
            return entry.most if rng.random() < 0.9 else 0
        return pick_any(rng, entry)

    return pick


def with_equal_l2(row: Fields, by: int) -> Fields:
    """A satellite of a 1004 with another L1 range, and another offset of the same L2 phase."""
    changes = {"l1_range": by, "l2_range": -by, "l2_offset": -40 * by}
    entries = [entry for entry in LEGACY_SATELLITE if entry.name in changes]
    moved = {entry.name: row[entry.name] + changes[entry.name] for entry in entries}
    fits = all(entry.least < moved[entry.name] <= entry.most for entry in entries)
    return row | moved if fits else row


def sent_msms(rng: Random, taken: int) -> list[int]:
    """The MSM of a station: most often the one that is taken, else another, or both."""
    other = rng.choice([it for it in MSMS if it != taken])
    return rng.choice(([taken], [taken], [taken], [taken, other], [taken, other], [other]))


class Sender:
    """The messages of one capture. A calm sender tells each cell and each position in one way."""

    def __init__(
        self, rng: Random, setup: Setup, pick: Pick, is_calm: bool, is_small: bool
    ) -> None:
        self.rng = rng
        self.setup = setup
        self.pick = pick
        self.is_calm = is_calm
        self.msms = sent_msms(rng, setup.msm_number)
        self.most = rng.choice((1, 2, 3)) if is_small else rng.choice((3, 8, 31, 64))
        self.satellites = rng.sample(range(1, 33), 2 if is_small else 12)
        self.signals = rng.sample(sorted(SIGNALS), 2 if is_small else 4)
        if rng.random() < 0.5:
            self.satellites += rng.sample((0, 33, 40, 63, rng.randrange(64)), 2)
            self.signals += rng.sample(range(1, 33), 2)
        self.told_rows: dict[int, dict[int, Fields]] = {}
        self.told_satellites: dict[tuple[int, int], dict[int, Fields]] = {}
        self.told_cells: dict[tuple[int, int], dict[tuple[int, int], Fields]] = {}
        self.told_stations: dict[int, Fields] = {}
        self.sent: dict[int, list[bytes]] = {}

    def row(self, entries: Table) -> Fields:
        return {entry.name: self.pick(self.rng, entry) for entry in entries}

    def header(self, number: int, **values: int) -> Fields:
        own = {"number": number, "station": self.setup.station}
        return self.row(HEADERS[number]) | own | values

    def told(self, rows: dict[Key, Fields], key: Key, entries: Table) -> Fields:
        """The row of this key: as before, or with another field now if the sender isn't calm."""
        row = rows.setdefault(key, self.row(entries))
        if not self.is_calm and self.rng.random() < 0.2:
            entry = self.rng.choice(entries)
            row = rows[key] = row | {entry.name: self.pick(self.rng, entry)}
        return row

    def legacy(self, tow: int, **values: int) -> bytes:
        """A 1004; a satellite may stand in it twice, and its first entry counts."""
        count = self.rng.randint(0, min(self.most, 31))
        satellites = [self.rng.choice(self.satellites) for _ in range(count)]
        if self.rng.random() < 0.8:
            satellites = list(dict.fromkeys(satellites))
        told = self.told_rows.setdefault(tow, {})
        rows, seen = [], set()
        for satellite in satellites:
            row = self.row(LEGACY_SATELLITE)
            if satellite not in seen:
                row = self.told(told, satellite, LEGACY_SATELLITE)
                if not self.is_calm and self.rng.random() < 0.2:
                    row = with_equal_l2(row, self.rng.choice((-1, 1, 100)))
            seen.add(satellite)
            rows.append(row | {"satellite": satellite})
        header = self.header(1004, tow=tow, satellites=len(rows), **values)
        return payload_of(Message(header, rows))

    def msm(self, tow: int, **values: int) -> bytes:
        """An MSM of some of the satellites and signals, with at most 64 bits of its cell mask."""
        known = [satellite for satellite in self.satellites if satellite > 0]
        satellites = self.rng.sample(known, self.rng.randint(0, min(self.most, len(known))))
        most = min(len(self.signals), 64 // max(1, len(satellites)))
        signals = self.rng.sample(self.signals, self.rng.randint(0, most))
        return self.msm_of(tow, sorted(set(satellites)), sorted(set(signals)), **values)

    def msm_of(self, tow: int, satellites: list[int], signals: list[int], **values: int) -> bytes:
        return payload_of(self.message_of(self.rng.choice(self.msms), tow, satellites, signals, **values))

    def message_of(self, number: int, tow: int, satellites: list[int], signals: list[int], **values: int) -> Message:
        """An MSM of any system, with some of the cells of these satellites and signals."""
        kind = MSMS[number % 10 - 4]
        told_cells = self.told_cells.setdefault((number, tow), {})
        share = self.rng.choice((0, 0.5, 0.9, 1, 1))
        pairs = [(satellite, signal) for satellite in satellites for signal in signals]
        cell_mask = [int(self.rng.random() < share) for _ in pairs]
        masks = {
            "satellite_mask": sum(1 << 64 - satellite for satellite in satellites),
            "signal_mask": sum(1 << 32 - signal for signal in signals),
        }
        header = self.header(kind, tow=tow, **masks, **values) | {"number": number}
        rows = [self.satellite_row(number, tow, it) for it in satellites]
        cells = [
            self.told(told_cells, pair, MSM_CELL[kind])
            for pair, is_set in paired(pairs, cell_mask)
            if is_set
        ]
        return Message(header, rows, cell_mask, cells)

    def satellite_row(self, number: int, tow: int, satellite: int) -> Fields:
        """What an MSM has for a satellite."""
        told = self.told_satellites.setdefault((number, tow), {})
        return self.told(told, satellite, MSM_SATELLITE[MSMS[number % 10 - 4]])

    def observation(self, tow: int) -> bytes:
        """A 1004 or an MSM, or one of this time again."""
        sent = self.sent.setdefault(tow, [])
        if sent and self.rng.random() < 0.4:
            payload = self.again(self.rng.choice(sent))
        else:
            payload = self.any_observation(tow)
        sent.append(payload)
        return payload

    def again(self, payload: bytes) -> bytes:
        """A payload, with a bit changed if the sender isn't calm."""
        if self.is_calm:
            return payload
        width = 8 * len(payload) - 24
        bit = self.rng.randrange(self.rng.choice((16, 32, width)))
        return (int.from_bytes(payload, "big") ^ 1 << bit).to_bytes(len(payload), "big")

    def any_observation(self, tow: int, **values: int) -> bytes:
        return self.rng.choice((self.legacy, self.msm))(tow, **values)

    def station(self) -> bytes:
        """A 1005 or a 1006."""
        number = self.rng.choice((1005, 1006))
        header = self.told(self.told_stations, number, HEADERS[number])
        self.told_stations[number] = header | {"number": number, "station": self.setup.station}
        return payload_of(Message(self.told_stations[number]))

    def other_station(self) -> int:
        station = self.rng.choice((0, 1, 4095, self.setup.station ^ 1, self.setup.station ^ 2048))
        return station ^ 4 if station == self.setup.station else station

    def of_other_station(self, tow: int) -> bytes:
        station = self.other_station()
        if self.rng.random() < 0.5:
            number = self.rng.choice((1005, 1006))
            return payload_of(Message(self.header(number, station=station)))
        return self.any_observation(tow, station=station)

    def of_other_kind(self) -> bytes:
        number = self.rng.choice((0, 1003, 1007, 1019, 1033, 1073, 1074, 1075, 1076, 1077, 4095))
        begin = (number << 4 | self.rng.randrange(16)).to_bytes(2, "big")
        return begin + self.rng.randbytes(self.rng.choice((0, 1, 20, 60)))

    def refused(self, tow: int) -> bytes:
        """A payload that can't be read, of the station or of another one."""
        payload = self.unread(tow)
        if len(payload) < 3 or self.rng.random() < 0.7:
            return payload
        number = int.from_bytes(payload[:3], "big") >> 12
        return (number << 12 | self.other_station()).to_bytes(3, "big") + payload[3:]

    def unread(self, tow: int) -> bytes:
        """No number, cut, at no time of the week, or with a cell mask that is too wide."""
        kind = self.rng.randrange(5)
        if kind == 0:
            return self.rng.randbytes(self.rng.randrange(2))
        if kind == 1:
            past = self.rng.choice((WEEK_MS, WEEK_MS + 1, (1 << 30) - 1))
            return self.observation(past)
        if kind == 2:
            widths = ((13, 5), (64, 2), (33, 2), (3, 22), (64, 32))
            satellites, signals = self.rng.choice(widths)
            masks = {"satellite_mask": (1 << satellites) - 1, "signal_mask": (1 << signals) - 1}
            time = self.rng.choice((tow, tow, (1 << 30) - 1))
            header = self.header(self.rng.choice(self.msms), tow=time, **masks)
            rest = self.rng.randbytes(self.rng.choice((0, 9, 700)))
            return payload_of(Message(header)) + rest
        payload = self.rng.choice((self.observation(tow), self.station()))
        return payload[: self.rng.randrange(2, len(payload))]

    def any_payload(self, tow: int) -> bytes:
        """Most often of the station and good."""
        chance = self.rng.random()
        if chance < 0.6:
            return self.observation(tow)
        if chance < 0.75:
            return self.station()
        if chance < 0.82:
            return self.of_other_station(tow)
        return self.of_other_kind() if chance < 0.9 else self.refused(tow)

    def frame(self, payload: bytes) -> bytes:
        """The payload's frame; bits may follow the last field, and the reserved bits may be set."""
        room = MOST_PAYLOAD - len(payload)
        if self.rng.random() < 0.1:
            payload += self.rng.randbytes(min(room, self.rng.choice((1, 2, 50, room))))
        return frame_of(payload, self.rng.randrange(64) if self.rng.random() < 0.3 else 0)
