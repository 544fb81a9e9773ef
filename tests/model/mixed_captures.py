"""Captures of several systems, and the options to convert them with.

A capture is made from a seed and its number alone, and the letters of the systems that may be listed. The scenes take turns.
"""

from __future__ import annotations

from dataclasses import replace
from random import Random
from typing import Callable, Iterable, Mapping, Sequence

from captures import CALM_WINDOW, LAST_MADE, LAST_NEAR, NEARS, STEPS, Capture, any_marker, any_times, any_window, dealt, with_noise
from choosing import NOT_TOLD
from clocks import DAY_MS, LEAP_ROWS, clock_of, leap_seconds_at
from finding import FIRST_DAY, SYSTEM_PARAMETERS
from mixed_model import Options
from mixed_sender import ALL_TRUE, SELDOM_TRUE, MixedSender, Voice
from model import dated, moment
from msm import payload_of_msm
from sender import Pick, pick_any, pick_end, pick_near_lock, pick_zero
from station import frame_of_row
from systems import BY_LETTER, KINDS, LETTERS, SYSTEMS, System, number_of
from wire import WEEK_MS

SLOTS = range(1, 28)


def some_letters(rng: Random, letters: str, *first: str) -> list[str]:
    """Some of the systems, these among them."""
    count = rng.choice((1, 2, 2, 3, 4, 5, 7, 7))
    chosen = [it for it in dict.fromkeys(first) if it in letters]
    rest = [it for it in letters if it not in chosen]
    return chosen + rng.sample(rest, min(len(rest), max(0 if chosen else 1, count - len(chosen))))


def names_of(rng: Random, letters: Iterable[str]) -> tuple[str, ...]:
    """Names of codes of these systems in any order; of some systems all."""
    names = []
    for letter in letters:
        known = BY_LETTER[letter].codes
        count = rng.choice((1, 2, 3, len(known)))
        names += [code if letter == "G" else letter + code for code in rng.sample(known, min(count, len(known)))]
    rng.shuffle(names)
    return tuple(names)


def some_kinds(rng: Random) -> str | None:
    """No word, a kind for all systems, or one with exceptions."""
    exceptions = [f"{it}{rng.choice(KINDS)}" for it in rng.sample(LETTERS, rng.choice((0, 0, 0, 1, 2, 7)))]
    return rng.choice((None, ",".join([str(rng.choice(KINDS)), *exceptions]), ",".join([str(rng.choice(KINDS)), *exceptions])))


def some_channels(rng: Random, true: Mapping[int, int]) -> dict[int, int]:
    """None, the true ones, or some of them and some wrong ones."""
    if rng.random() < 0.5:
        return dict(rng.choice(({}, true, true, true)))
    slots = rng.sample(SLOTS, rng.choice((1, 8, 9, 26, 27, rng.randint(1, 27))))
    return {slot: true[slot] if rng.random() < 0.75 else rng.randint(-7, 6) for slot in slots}


def some_near(rng: Random) -> int:
    return rng.choice((*NEARS, 1000 * rng.randint(NEARS[0] // 1000, LAST_NEAR // 1000)))


class Making:
    """What a scene makes a capture of: the options, the true channels, and the station, which most often sends the systems that
    are listed, and also others."""

    def __init__(
        self, rng: Random, letters: Sequence[str], near: int, window: int, is_calm: bool, pick: Pick = pick_any, msm: str | None = None
    ) -> None:
        self.rng = rng
        true = {slot: rng.randint(-7, 6) for slot in SLOTS}
        self.options = Options(
            station=rng.choice((0, 1, 2003, 4095, rng.randrange(4096))),
            near=near,
            made=1000 * rng.randint(0, LAST_MADE // 1000),
            marker=any_marker(rng),
            names=names_of(rng, letters),
            window=window,
            msm=msm or some_kinds(rng),
            channels=some_channels(rng, true) if "R" in letters else None,
            leap=rng.choice((None, None, None, *some_leaps(rng, near))) if "R" in letters else None,
            with_1012="R" in letters and rng.random() < 0.3,
        )
        # Doppler is refused where a listed system has a kind without rates
        has_rates = all(self.options.kinds[it] in (5, 7) for it in self.options.codes)
        self.options = replace(self.options, doppler=has_rates and rng.random() < 0.5)
        voices = [self.voice(system) for system in SYSTEMS if self.is_sent(system.letter, letters)]
        rng.shuffle(voices)
        self.sender = MixedSender(rng, self.options, pick, is_calm, voices, true)
        self.sender.is_chained = rng.random() < 0.7
        self.orbits = rng.choice((0, 0, 0.3)) if self.has("R") else 0  # before how many messages a 1020 stands

    def is_sent(self, letter: str, letters: Sequence[str]) -> bool:
        return self.rng.random() < (0.93 if letter in letters else 0.2)

    def voice(self, system: System) -> Voice:
        """A few satellites and signals, mostly those of listed codes."""
        rng = self.rng
        kind = self.options.kinds[system.letter]
        codes = self.options.codes.get(system.letter, system.codes)
        listed = [it for it in (system.signals[code] for code in codes) if it is not None]
        signals = set(rng.sample(listed, min(len(listed), rng.choice((1, 2, 4)))))
        signals |= set(rng.sample(range(1, 33), rng.choice((0, 0, 1))))
        bits = set(rng.sample(range(1, system.satellites + 1), min(system.satellites, rng.choice((1, 2, 3, 6)))))
        bits |= {system.satellites} if rng.random() < 0.2 else set()
        kinds = (kind,) if rng.random() < 0.95 else (rng.choice(KINDS),)
        return Voice(system, kinds, tuple(sorted(bits)), tuple(sorted(signals)))

    def has(self, letter: str) -> bool:
        return any(it.system.letter == letter for it in self.sender.voices)

    def take(self, **values: object) -> None:
        """Other options."""
        self.options = self.sender.setup = replace(self.options, **values)

    def change(self, letter: str, **values: object) -> None:
        """The voice of this system with other values, if it has one."""
        voices = self.sender.voices
        self.sender.voices = [it._replace(**values) if it.system.letter == letter else it for it in voices]

    def frames(self, times: Iterable[int], others: float = 0.15) -> list[bytes]:
        """The frames of these epochs, with others among them, of the station and not."""
        frames = []
        for at, time in enumerate(times):
            for payload in self.sender.epoch(at, time):
                if self.rng.random() < others:
                    frames.append(self.sender.frame(self.sender.any_payload(time)))
                if self.rng.random() < self.orbits:
                    frames.append(self.sender.frame(self.sender.orbit()))
                frames.append(self.sender.frame(payload))
        return frames

    def disordered(self, most: int) -> list[int]:
        """Up to so many times in order, or in one of several disorders; some stand more than once."""
        times = any_times(self.rng, self.options, self.rng.randint(1, most), self.rng.choice(STEPS))
        return [dated(self.options.near, time) for time in times]

    def capture(self, links: list[bytes]) -> Capture:
        return Capture("", self.options, links)


def some_leaps(rng: Random, near: int) -> tuple[int, ...]:
    """Leap seconds that hold, and others."""
    due = leap_seconds_at(near)
    return due, max(0, due - 1), due + 1, rng.randrange(100)


def in_order(rng: Random, first: int, step: int, count: int) -> list[int]:
    return [first + step * at for at in range(count)]


def systems(rng: Random, turn: int, letters: str) -> Capture:
    """Any systems on one to sixteen links, in any order, with a second telling and a third."""
    is_calm = rng.random() < 0.5
    making = Making(rng, some_letters(rng, letters), some_near(rng), any_window(rng, is_calm), is_calm, rng.choice((pick_any, pick_end, pick_zero)))
    making.change(rng.choice(letters), parts=2)
    frames = making.frames(making.disordered(6))
    return making.capture(dealt(rng, frames, rng.choice((1 + turn % 16, 1 + turn % 16, 16))))


def noisy(rng: Random, turn: int, letters: str) -> Capture:
    """Among bytes that look like frames and are none."""
    is_calm = rng.random() < 0.5
    making = Making(rng, some_letters(rng, letters), some_near(rng), any_window(rng, is_calm), is_calm)
    frames = making.frames(making.disordered(4))
    return making.capture(dealt(rng, with_noise(rng, frames, 0.3), rng.choice((1, 1, 2, 3))))


def channels(rng: Random, turn: int, letters: str) -> Capture:
    """Channels that are missing, wrong, contradicted and told by nothing, also of spare satellites."""
    chosen = some_letters(rng, letters, "R")[: rng.choice((1, 2))]
    of_all = rng.choice(("7", "5", "4,R7", "7,R5", "7,R6", "4"))
    making = Making(rng, chosen, some_near(rng), CALM_WINDOW, rng.random() < 0.5, msm=of_all)
    making.sender.faith = rng.choice((*[SELDOM_TRUE] * 4, ALL_TRUE))
    slots = rng.sample(SLOTS, rng.randint(1, 6)) + rng.sample((25, 26, 27, 28), 2)
    making.change("R", bits=tuple(sorted(set(slots))), parts=rng.choice((1, 2)))
    making.orbits = rng.choice((0, 0.3, 0.8))
    if rng.random() < 0.5:
        making.sender.channels = dict.fromkeys(SLOTS, rng.randint(-7, 6))
    times = in_order(rng, making.options.near, rng.choice(STEPS), rng.randint(1, 6))
    return making.capture(dealt(rng, making.frames(times), rng.choice((1, 2))))


# How far a clock is ahead: GPS time in place of BeiDou's, leap seconds, a day, parts of a second.
AHEAD = (*[14_000] * 3, -14_000, 1000, 1000, -1000, 18_000, *[DAY_MS] * 3, -DAY_MS, 3 * DAY_MS, *[1] * 5, -1, -1, 499, 500)


def clocks(rng: Random, turn: int, letters: str) -> Capture:
    """A clock of a system is off, at 1 and 5 Hz; then another system may be late."""
    off, is_long = rng.choice(("C", "R", "C", "R", rng.choice(letters))), turn % 8 == 0
    window, step = (64, 200) if is_long else (rng.choice((4, 13, 14, 64)), rng.choice((1000, 200)))
    making = Making(rng, some_letters(rng, letters, off, rng.choice(letters))[:4], some_near(rng), window, True)
    making.change(off, ahead=14_000 if is_long else rng.choice(AHEAD), right=rng.choice((0, 0, 0.3, 0.6)))
    making.sender.is_chained = rng.random() < 0.9
    for voice in making.sender.voices:
        making.change(voice.system.letter, bits=voice.bits[: 1 if is_long else 2], signals=voice.signals[:1])
    times = in_order(rng, making.options.near + rng.randrange(1000), step, 80 if is_long else rng.randint(5, 24))
    return making.capture(dealt(rng, making.frames(times, 0), rng.choice((1, 1, 1, 2, 4))))


SUNDAY = moment("2024-05-19T00:00:00")
# Ends of a day and of a week: of GPS, of BeiDou and in Moscow.
TURNS = (
    moment("2024-05-17T00:00:00"), SUNDAY, SUNDAY + 14_000, moment("2024-05-17T21:00:18"), moment("2024-05-18T21:00:18"),
    moment("2011-12-31T21:00:15"), moment("2012-01-01T00:00:00"), moment("2000-02-29T00:00:00"),
)  # fmt: skip


def turns(rng: Random, turn: int, letters: str) -> Capture:
    """Over the end of a day, a week or a leap second, or half a week from the reference."""
    first, leap = LEAP_ROWS[turn % len(LEAP_ROWS)]
    middle = rng.choice((rng.choice(TURNS), first, first, first - 1000 * leap))
    off = rng.choice((0, 0, 1000, -1000, DAY_MS // 2, -DAY_MS, 200_000_000, -200_000_000, WEEK_MS // 2, WEEK_MS // 2 + 1000, -WEEK_MS // 2))
    near = max(NEARS[0], (middle + off) // 1000 * 1000)
    is_calm = rng.random() < 0.6
    making = Making(rng, some_letters(rng, letters, "R"), near, CALM_WINDOW, is_calm, rng.choice((pick_any, pick_near_lock(1000))))
    step = rng.choice((1000, 1000, 500, 250, 30_000))
    count = rng.randint(3, 8)
    times = in_order(rng, middle - step * rng.randint(1, count) + rng.choice((0, 0, 1, -1)), step, count)
    return making.capture(dealt(rng, making.frames(times, 0.05), rng.choice((1, 1, 2))))


def spans(rng: Random, turn: int, letters: str) -> Capture:
    """Systems begin before GPS, late, or stop; a first epoch may be days off. R, or another one, comes first in each epoch."""
    making = Making(rng, some_letters(rng, letters, "G", "R"), some_near(rng), rng.choice((CALM_WINDOW, 3)), rng.random() < 0.7, pick_near_lock(1000))
    count = rng.randint(3, 10)
    for voice in making.sender.voices:
        begin = rng.choice((0, 0, 1, 2, count - 1))
        end = rng.choice((count, count, begin + 1, rng.randint(begin, count)))
        making.change(voice.system.letter, begin=begin, end=end)
    making.sender.voices.sort(key=lambda it: it.system.letter != rng.choice("REG"))
    times = in_order(rng, making.options.near + rng.choice((0, 1, 500)), 1000, count)
    times[0] += rng.choice((0, 0, 0, DAY_MS, -DAY_MS, 3 * DAY_MS, -3 * DAY_MS))
    return making.capture(dealt(rng, making.frames(times, 0.05), rng.choice((1, 2, 3))))


def kinds(rng: Random, turn: int, letters: str) -> Capture:
    """Two kinds side by side: of one system, or of two."""
    making = Making(rng, some_letters(rng, letters, "G", "E"), some_near(rng), CALM_WINDOW, rng.random() < 0.7, pick_near_lock(1000))
    for voice in making.sender.voices:
        own = making.options.kinds[voice.system.letter]
        making.change(voice.system.letter, kinds=rng.choice(((own,), (own, rng.choice(KINDS)), KINDS)))
    times = in_order(rng, making.options.near, 1000, rng.randint(2, 6))
    return making.capture(dealt(rng, making.frames(times), rng.choice((1, 2))))


def parts(rng: Random, turn: int, letters: str) -> Capture:
    """Epochs that are split over several messages of a system, in any order."""
    making = Making(rng, some_letters(rng, letters), some_near(rng), CALM_WINDOW, rng.random() < 0.5)
    for voice in making.sender.voices:
        bits = rng.sample(range(1, voice.system.satellites + 1), min(8, voice.system.satellites))
        making.change(voice.system.letter, parts=rng.randint(2, 4), bits=tuple(sorted(bits)))
    frames = making.frames(in_order(rng, making.options.near, rng.choice((1, 1000)), rng.randint(1, 4)))
    if rng.random() < 0.5:
        rng.shuffle(frames)
    return making.capture(dealt(rng, frames, rng.choice((1, 2, 5, 16))))


def odd(rng: Random, turn: int, letters: str) -> Capture:
    """Satellites that name none, masks of any width, messages without cells, and clocks without a day."""
    chosen = some_letters(rng, letters, rng.choice((*letters, "R", "R", "R")))
    making = Making(rng, chosen, some_near(rng), rng.choice((2, CALM_WINDOW)), rng.random() < 0.7, rng.choice((pick_any, pick_end)))
    for voice in making.sender.voices:
        last = voice.system.satellites
        chosen = {*voice.bits, last, min(last + 1, 64), rng.randint(1, 64)}
        others = {last + 1} if last < 64 else {64}
        bits = rng.choice((chosen, chosen, others, range(1, 65)))
        signals = rng.choice((voice.signals, voice.signals, range(1, 33)))
        making.change(voice.system.letter, bits=tuple(sorted(bits)), signals=tuple(signals))
    making.sender.without_day = rng.choice((0, 0.3, 0.7))
    making.sender.empty = 0.5
    frames = making.frames(in_order(rng, making.options.near, 1000, rng.randint(1, 5)), 0.3)
    return making.capture(dealt(rng, frames, rng.choice((1, 1, 2))))


def late(rng: Random, turn: int, letters: str) -> Capture:
    """Many epochs in disorder and a short window; the station's position comes at any time."""
    making = Making(rng, some_letters(rng, letters), some_near(rng), rng.choice((2, 2, 3, 4, rng.randint(2, 12))), rng.random() < 0.5)
    making.change("R", bits=tuple(sorted(rng.sample(range(1, 30), 20))), most=2)
    times = making.disordered(10)
    times += [rng.choice(times) for _ in range(rng.randrange(4))]
    return making.capture(dealt(rng, making.frames(times, 0.3), rng.choice((1, 1, 1, 2, 4))))


def date_of(station: int, at: int) -> bytes:
    """The frame of a 1013 of a station that tells this moment."""
    day, second = divmod(at // 1000, DAY_MS // 1000)
    fields = {"station": station, "day": FIRST_DAY + day, "second": second, "leap_seconds": NOT_TOLD}
    return frame_of_row(SYSTEM_PARAMETERS, number=1013, **fields)


def long_before(rng: Random, letters: str) -> Capture:
    """1012 hours before the first 1004, mostly behind a 1013, of the station or of another one, and perhaps in a capture of their own."""
    making = Making(rng, some_letters(rng, letters, "G", "R"), rng.choice(NEARS[2:]), CALM_WINDOW, True, pick_near_lock(1000))
    making.take(with_1012="R" in making.options.codes)
    making.sender.legacies = dict.fromkeys(making.sender.legacies, 1)
    begin, count = rng.randint(1, 3), rng.randint(4, 6)
    voices = [making.voice(BY_LETTER[it])._replace(kinds=()) for it in "GR"]
    making.sender.voices = [voices[0]._replace(begin=begin), voices[1]._replace(end=rng.choice((begin, count)))]
    gap = 3_600_000 * rng.choice((9, 13, 13, 15, 20))
    first = making.options.near + 3_600_000 * rng.randrange(-20, 5)
    frames = making.frames((first + 1000 * at + gap * (at >= begin) for at in range(count)), 0)
    frames[:0] = [date_of(rng.choice((making.options.station, 5, 5)), first)] * rng.choice((0, 1, 1, 1, 1))
    apart = {1012, 1013} if rng.random() < 0.7 else set()
    links = [[it for it in frames if (number_of_frame(it) in apart) is is_apart] for is_apart in (True, False)]
    return making.capture([b"".join(it) for it in links if it])


def silent(rng: Random, turn: int, letters: str) -> Capture:
    """Listed systems that are not sent, and others that are; also without GPS, whose 1004 are sent none the less. GPS may come late."""
    if rng.random() < 0.5:
        return long_before(rng, letters)
    listed = some_letters(rng, letters)
    listed = [it for it in listed if it != "G"] or listed if rng.random() < 0.5 else listed
    making = Making(rng, listed, some_near(rng), CALM_WINDOW, True)
    making.sender.voices = making.sender.voices[: rng.choice((0, 1, 2))]
    times = in_order(rng, making.options.near, 1000, rng.randint(1, 4))
    frames = making.frames(times, 0.3)
    frames += [making.sender.frame(making.sender.legacy(time)) for time in times]
    return making.capture(dealt(rng, frames, rng.choice((1, 2))))


# Steps of epochs of 1012: a second, and so much that some epochs last 26 hours.
STEPS_OF_1012 = (1000, 1000, 1000, 30_000, 900_000, 2 * 3_600_000)


def before_msm(rng: Random, turn: int, letters: str) -> Capture:
    """1004, also of SBAS, with 1012, mostly without MSM: within half a day of the reference, and beyond. A lone 1012 may be first."""
    chosen = some_letters(rng, letters, "G", "R", *rng.choice(((), ("S",))))
    window, is_calm = rng.choice((CALM_WINDOW, CALM_WINDOW, 4)), rng.random() < 0.6
    making = Making(rng, chosen, some_near(rng), window, is_calm, rng.choice((pick_any, pick_near_lock(1000))))
    making.take(with_1012="R" in chosen and rng.random() < 0.9)
    making.sender.satellites += rng.sample(range(40, 59), 2) * rng.choice((0, 1, 2)) + rng.sample(range(1, 33), 4)
    making.sender.most = rng.choice((3, 8, 31))
    making.sender.legacies = dict.fromkeys(making.sender.legacies, rng.choice((0.6, 1)))
    making.sender.without_day = rng.choice((0, 0, 0.3))
    slots = rng.sample(SLOTS, rng.randint(1, 8)) + rng.choice(([], [33], [25, 26, 27, 28]))
    making.change("R", bits=tuple(sorted({*slots, *rng.choice(((), (63, 64)))})), begin=rng.choice((0, 0, 1)))
    if rng.random() < 0.6:
        making.sender.voices = [it._replace(kinds=()) for it in making.sender.voices if it.system.letter in "GR"]
    step = rng.choice(STEPS_OF_1012)
    count = rng.choice((rng.randint(2, 8), 14))
    making.change("G", begin=rng.choice((0, 0, 1)))
    half = DAY_MS // 2
    first = making.options.near + rng.choice((0, 1, -step * count // 2 // 1000 * 1000, half - 1000, half, -half, -half - 1000))
    frames = making.frames(in_order(rng, first, step, count), 0.1)
    return making.capture(dealt(rng, frames, rng.choice((1, 1, 2, 3))))


def streams(rng: Random, turn: int, letters: str) -> Capture:
    """A stream of four systems, or of as many as there are, that fits its window."""
    chosen = ["G", "R", "E", "C"] if set("GREC") <= set(letters) else some_letters(rng, letters)
    making = Making(rng, chosen, some_near(rng), CALM_WINDOW, True, pick_near_lock(1000))
    making.sender.voices = [making.voice(BY_LETTER[it]) for it in chosen]
    making.sender.faith = ALL_TRUE
    times = in_order(rng, making.options.near, 1000, rng.randint(8, 20))
    return making.capture([b"".join(making.frames(times, 0.05))])


def number_of_frame(frame: bytes) -> int:
    """What stands in a frame where its message has the number."""
    return int.from_bytes(frame[3:5], "big") >> 4


def passed_on(rng: Random, epochs: list[list[bytes]]) -> bytes:
    """What a link has of these epochs: some frames are lost or damaged, and one number comes in one of so many epochs, or never."""
    lost = rng.choice((0, 0.02, 0.2))
    seldom = number_of_frame(rng.choice((epochs[0][-1], rng.choice(epochs[0]))))
    each = rng.choice((1, 1, 2, 3, len(epochs) + 1))
    kept = []
    for at, frames in enumerate(epochs, 1):
        for frame in frames:
            if number_of_frame(frame) == seldom and at % each:
                continue
            if rng.random() >= lost:
                kept.append(frame)
            elif rng.random() < 0.5:
                kept.append(frame[:-1] + bytes([frame[-1] ^ 1]))
    return b"".join(kept)


def losses(rng: Random, turn: int, letters: str) -> Capture:
    """Epochs that say where they end, with clocks that are right, on links that lose messages: also the last one of an epoch."""
    chosen = some_letters(rng, letters, *rng.choice(("GREC", "GR", "RG", "EC", "GEJC")))
    making = Making(rng, chosen, some_near(rng), CALM_WINDOW, True, pick_near_lock(1000))
    making.sender.voices = [making.voice(BY_LETTER[it]) for it in chosen]
    making.sender.is_chained = True
    times = in_order(rng, making.options.near, rng.choice((1000, 1000, 200, 30_000)), rng.randint(6, 20))
    epochs = [making.frames([time], 0.03) for time in times]
    return making.capture([passed_on(rng, epochs) for _ in range(rng.choice((1, 1, 2, 3)))])


def sessions(rng: Random, turn: int, letters: str) -> Capture:
    """Two sessions of different weeks in one capture, each with a date of the station. GLONASS or BeiDou comes first in an epoch."""
    chosen = some_letters(rng, letters, *rng.choice(("RG", "CG", "RCE")))
    making = Making(rng, chosen, some_near(rng), CALM_WINDOW, True)
    making.sender.voices = [making.voice(BY_LETTER[it]) for it in chosen]
    making.sender.is_chained = rng.random() < 0.9
    begin, count = making.options.near, rng.randint(2, 6)
    weeks = rng.choice((1, 1, 2, 30)) * (-1 if begin > LAST_NEAR - 31 * WEEK_MS else 1)
    later = begin + weeks * WEEK_MS + rng.choice((0, 0, 1000 * count, 60_000, 61_000, 3_600_000, -3_600_000))
    frames = []
    for at in (begin, later):
        of_session = making.frames(in_order(rng, at, 1000, count), 0.03)
        of_session.insert(rng.choice((len(of_session), rng.randint(len(of_session) // 2, len(of_session)))), date_of(making.options.station, at))
        frames += [it for it in of_session if rng.random() < rng.choice((1, 1, 0.9))]
    return making.capture([b"".join(frames)])


def cut_to(those: Sequence[int], size: int) -> list[Sequence[int]]:
    return [those[at : at + size] for at in range(0, len(those), size)]


def whole(rng: Random, turn: int, letters: str) -> Capture:
    """Two epochs of all satellites, with most of their signals, of which all codes are listed."""
    making = Making(rng, letters, some_near(rng), CALM_WINDOW, rng.random() < 0.5)
    codes = [code if it == "G" else it + code for it in letters for code in BY_LETTER[it].codes]
    making.options = replace(making.options, names=tuple(rng.sample(codes, len(codes))))
    frames = []
    for time in in_order(rng, making.options.near, 1000, 2):
        for letter in rng.sample(letters, len(letters)):
            system = BY_LETTER[letter]
            number, clock = number_of(system, making.options.kinds[letter]), clock_of(system, time)
            signals = sorted(it for it in system.signals.values() if it is not None)
            blocks = [(bits, some) for bits in cut_to(range(1, system.satellites + 1), 16) for some in cut_to(signals, 4)]
            for bits, some in blocks:
                payload = payload_of_msm(making.sender.message_of(number, clock, list(bits), list(some)))
                frames.append(making.sender.frame(payload))
    return making.capture(dealt(rng, frames, rng.choice((1, 3))))


SCENES: tuple[Callable[[Random, int, str], Capture], ...] = (
    systems, channels, clocks, turns, spans, kinds, parts, odd, late, silent, noisy, before_msm, losses, sessions, streams
)  # fmt: skip


EACH_WHOLE = 250


def mixed_capture(seed: int, number: int, letters: str) -> Capture:
    """The capture of this number."""
    turn, at = divmod(number, len(SCENES))
    scene = whole if number % EACH_WHOLE == 0 else SCENES[at]
    rng = Random(f"mixed {seed} {number} {letters}")
    return scene(rng, turn, letters)._replace(scene=scene.__name__)
