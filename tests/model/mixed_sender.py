"""A station that sends several systems, each by its own clock, as careful stations and as no careful one would."""

from __future__ import annotations

from random import Random
from typing import Iterable, Mapping, NamedTuple, Sequence

from channels import ORBIT, ORBIT_BITS
from clocks import DAY_MS, UNKNOWN_DAY, clock_of, glonass_clock, glonass_parts
from mixed_cells import CONTRADICTED, NO_CHANNEL
from mixed_model import Options
from msm import HEADER_1012, LEGACY, LEGACY_GLONASS, SATELLITE_1012, payload_of_1012, payload_of_msm
from sender import Pick, Sender
from systems import GLONASS, GPS, KINDS, TYPES, System, number_of
from wire import WEEK_MS, BitWriter, Field, Fields, Message

ALWAYS = 1 << 30
MOST_ENTRIES = 31  # of a 1012

# The bit of observations that says whether more of the epoch follow.
MORE_FOLLOWS = {LEGACY_GLONASS: 51, **dict.fromkeys((LEGACY, *TYPES), 54)}

# Changes of an offset of a 1012 by which a phase is one less and one more than half of 1500 cycles ahead, of L1 and of L2.
RISES = (280_704, 280_705, -280_704, -280_705, 360_905, 360_906, -360_905, -360_906)


class Voice(NamedTuple):
    """What a station sends of a system: kinds of MSM, satellites by the bits of their mask, signals, how many ms its clock is ahead
    and how many of its messages are right all the same, from which epoch on and before which one it sends, in how many messages an
    epoch stands at most, and how many satellites a message has at most."""

    system: System
    kinds: tuple[int, ...]
    bits: tuple[int, ...]
    signals: tuple[int, ...]
    ahead: int = 0
    right: float = 0
    begin: int = 0
    end: int = ALWAYS
    parts: int = 1
    most: int = 64


def with_more(payload: bytes, is_more: bool) -> bytes:
    """Observations that say whether more of their epoch follow; another payload stays."""
    at = MORE_FOLLOWS.get(int.from_bytes(payload[:2], "big") >> 4, 8 * len(payload))
    if at >= 8 * len(payload):
        return payload
    value, bit = int.from_bytes(payload, "big"), 1 << 8 * len(payload) - 1 - at
    return (value | bit if is_more else value & ~bit).to_bytes(len(payload), "big")


# What a message says of a channel, by the four bits that it would say if it were of another system: mostly what is true.
TRUE, OTHER = -1, -2
MOSTLY_TRUE = (*[TRUE] * 10, *[NO_CHANNEL] * 4, OTHER, CONTRADICTED)
ALL_TRUE = (TRUE,) * 16
SELDOM_TRUE = (*[TRUE] * 5, *[NO_CHANNEL] * 4, *[OTHER] * 4, *[CONTRADICTED] * 3)


class MixedSender(Sender):
    """The messages of one capture; all times are of GPS, in ms from its beginning on."""

    def __init__(self, rng: Random, options: Options, pick: Pick, is_calm: bool, voices: Sequence[Voice], channels: Mapping[int, int]) -> None:
        super().__init__(rng, options, pick, is_calm, is_small=True)
        self.voices = list(voices)
        self.channels = channels  # of all slots, which are true
        self.faith = MOSTLY_TRUE
        self.is_chained = False  # each epoch says where it ends
        self.legacies = {LEGACY: 0.2, LEGACY_GLONASS: 0.2}  # how many epochs have such a message beside the MSM of its system
        self.told_entries: dict[int, dict[int, Fields]] = {}
        self.without_day = 0.0  # how many messages of GLONASS do not know the day
        self.empty = 0.1  # how many messages have no satellite, or no signal

    def clock(self, system: System, time: int) -> int:
        clock = clock_of(system, time)
        if system is GLONASS and self.rng.random() < self.without_day:
            return glonass_clock(UNKNOWN_DAY, glonass_parts(clock)[1])
        return clock

    def of_voice(self, voice: Voice, time: int, **values: int) -> bytes:
        """An MSM of some of the satellites and signals, with at most 64 bits of its cell mask; of a voice without MSM a 1004 or a 1012."""
        if not voice.kinds:
            return self.legacy(time, **values) if voice.system is GPS else self.legacy_glonass(voice, time, **values)
        least = int(self.rng.random() >= self.empty)
        bits = self.some(voice.bits, least, voice.most)
        signals = self.some(voice.signals, least, 64 // max(1, len(bits)))
        number = number_of(voice.system, self.rng.choice(voice.kinds))
        ahead = 0 if voice.right and self.rng.random() < voice.right else voice.ahead
        return payload_of_msm(self.message_of(number, self.clock(voice.system, time + ahead), bits, signals, **values))

    def some(self, those: Sequence[int], least: int, most: int) -> list[int]:
        """Most often all of them."""
        most = min(most, len(those))
        count = most if self.rng.random() < 0.5 else self.rng.randint(min(least, most), most)
        return sorted(self.rng.sample(those, count))

    def satellite_row(self, number: int, tow: int, satellite: int) -> Fields:
        row = super().satellite_row(number, tow, satellite)
        system, _ = TYPES[number]
        if system is not GLONASS or "extended" not in row:
            return row
        true = self.channels.get(satellite, 0) + 7
        said = self.faith[row["extended"]]
        return row | {"extended": {TRUE: true, OTHER: (true + 1 + tow % 13) % 14}.get(said, said)}

    def legacy_glonass(self, voice: Voice, time: int, **values: int) -> bytes:
        """A 1012 of satellites of a voice; a slot may stand in it twice, and its first entry counts."""
        slots = self.some(voice.bits, 0, MOST_ENTRIES)
        if 0 < len(slots) < MOST_ENTRIES and self.rng.random() < 0.1:
            slots.append(self.rng.choice(slots))
        if self.rng.random() < 0.2:
            self.rng.shuffle(slots)
        told = self.told_entries.setdefault(time, {})
        rows = [self.entry(told, slot % 64, seen=slot in slots[:at]) for at, slot in enumerate(slots)]
        ahead = 0 if voice.right and self.rng.random() < voice.right else voice.ahead
        _, time_of_day = glonass_parts(clock_of(GLONASS, time + ahead))
        head = {"number": LEGACY_GLONASS, "station": self.setup.station, "clock": time_of_day, "satellites": len(rows)}
        return payload_of_1012(Message(self.row(HEADER_1012) | head | values, rows))

    def entry(self, told: dict[int, Fields], slot: int, seen: bool) -> Fields:
        """An entry of a 1012, which tells the same of a slot again, but for a slot that the message had before."""
        row = self.row(SATELLITE_1012) if seen else self.told(told, slot, SATELLITE_1012)
        said = self.faith[row["channel"] % 16]
        true = self.channels.get(slot, 0) + 7
        none, wrong = (31, *range(21, 30)), (*range(14, 21), 30)
        by_chance = row["l1_cnr"]
        channels = {
            TRUE: true, OTHER: (true + 1 + slot) % 14, NO_CHANNEL: none[by_chance % len(none)], CONTRADICTED: wrong[by_chance % len(wrong)]
        }  # fmt: skip
        return row | {"slot": slot, "channel": channels[said]}

    def row(self, entries: tuple[Field, ...]) -> Fields:
        row = super().row(entries)
        if entries == SATELLITE_1012 and self.rng.random() < 0.3:
            row |= {name: self.rng.choice((0, *RISES)) for name in ("l1_offset", "l2_offset")}
        return row

    def orbit(self) -> bytes:
        """A 1020, mostly of the true channel of a slot of the station; some are cut short."""
        slots = [it for voice in self.voices if voice.system is GLONASS for it in voice.bits]
        slot = self.rng.choice((*slots, self.rng.randrange(64)))
        bits = BitWriter()
        field = self.channels.get(slot, 0) + 7 if self.rng.random() < 0.8 else self.rng.randrange(32)
        for width, value in ((12, ORBIT), (6, slot), (5, field), (ORBIT_BITS - 23, self.rng.getrandbits(ORBIT_BITS - 23))):
            bits.put(width, value)
        whole = bits.to_bytes()
        return whole[: len(whole) - self.rng.choice((0, 0, 0, 0, 1))]

    def heard(self, at: int) -> list[Voice]:
        """The voices in the epoch of this place."""
        return [voice for voice in self.voices if voice.begin <= at < voice.end]

    def epoch(self, at: int, time: int) -> list[bytes]:
        """The observations of an epoch, system by system; sometimes one comes again."""
        payloads = []
        for voice in self.heard(at):
            payloads += [self.of_voice(voice, time) for _ in range(self.rng.randint(1, voice.parts)) if voice.kinds]
            if voice.system is GPS and self.rng.random() < self.legacies[LEGACY]:
                payloads.append(self.legacy(time))
            if voice.system is GLONASS and self.rng.random() < self.legacies[LEGACY_GLONASS]:
                payloads += [self.legacy_glonass(voice, time) for _ in range(self.rng.choice((1, 1, 1, 2)))]
        payloads += [self.again(it) for it in payloads if self.rng.random() < 0.1]
        return [with_more(it, at < len(payloads)) for at, it in enumerate(payloads, 1)] if self.is_chained else payloads

    # What `Sender` makes of a time of the week stands here for a time of GPS.

    def legacy(self, tow: int, **values: int) -> bytes:
        return super().legacy(tow % WEEK_MS, **values)

    def any_observation(self, tow: int, **values: int) -> bytes:
        if not self.voices or self.rng.random() < 0.1:
            return self.legacy(tow, **values)
        return self.of_voice(self.rng.choice(self.voices), tow, **values)

    def of_other_kind(self) -> bytes:
        """Also a number of MSM that is seldom taken."""
        if self.rng.random() < 0.5:
            return super().of_other_kind()
        if self.rng.random() < 0.2:
            return self.orbit()
        number = self.rng.choice((1012, 1020, 1230, self.rng.randint(1071, 1137)))
        return (number << 4).to_bytes(2, "big") + self.rng.randbytes(self.rng.choice((0, 20, 40)))

    def unread(self, tow: int) -> bytes:
        """Also a clock that is none, and a cell mask that is too wide, of each system."""
        if self.rng.random() < 0.5 or not self.voices:
            return super().unread(tow)
        voice = self.rng.choice(self.voices)
        if voice.system is GLONASS and self.rng.random() < 0.3:
            clock = self.rng.choice((DAY_MS + 999, DAY_MS + 1000, (1 << 27) - 1))
            payload = self.legacy_glonass(voice, tow, clock=clock)
            return payload[: self.rng.choice((len(payload), 7, 8, self.rng.randrange(2, len(payload))))]
        number = number_of(voice.system, self.rng.choice(voice.kinds or KINDS))
        clock = self.rng.choice((clock_of(voice.system, tow), *bad_clocks(voice.system)))
        satellites, signals = self.rng.choice(((1, 1), (13, 5), (64, 2)))
        masks = {"satellite_mask": (1 << satellites) - 1, "signal_mask": (1 << signals) - 1}
        header = self.header(1074, tow=clock, **masks) | {"number": number}
        return payload_of_msm(Message(header)) + self.rng.randbytes(self.rng.choice((0, 9, 200)))


def bad_clocks(system: System) -> Iterable[int]:
    """Clocks that tell no moment, and one that almost tells none."""
    if system is not GLONASS:
        return (WEEK_MS - 1, WEEK_MS, (1 << 30) - 1)
    return (
        glonass_clock(6, DAY_MS + 999), glonass_clock(6, DAY_MS + 1000), glonass_clock(UNKNOWN_DAY, 0), glonass_clock(0, (1 << 27) - 1)
    )  # fmt: skip
