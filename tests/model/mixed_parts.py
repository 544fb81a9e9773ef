"""Mixed files that chance makes, two large ones, and parts of them."""

from __future__ import annotations

from datetime import datetime
from random import Random

from mixed_files import MixedSetup, Shown, record
from mixed_tables import MixedTable, some_header, some_setup, some_shown
from model import moment
from parts import MS, START, Part
from systems import GLONASS, LETTERS, SATELLITES, SYSTEMS

SEED = 5252
NOON = moment("2024-05-17T12:00:00")
DAY = 86_400  # in s
STEPS = (1, 1, 5, 10, 15)  # in s


def some_part(rng: Random, step: int, times: list[int]) -> Part:
    """A step that some of these times are on, and perhaps a span that begins or ends near one of them."""
    half = len(times) // 2
    near = [rng.choice(some) // 1000 * 1000 + rng.choice((-1000, 0, 1000)) for some in (times[: half + 1], times[half:])]
    ends = [rng.choice((None, None, end)) for end in near]
    since, until = (None if end is None else START + end * MS for end in ends)
    return Part(since, until, rng.choice((None, step, 2 * step, 3 * step, 3 * step, 4 * step, 6 * step)))


def some_records(rng: Random, step: int, setup: MixedSetup) -> tuple[list[int], list[str]]:
    """Records of the same few satellites, so that their slips go on, and the times of those that have a line."""
    names = [name for name in SATELLITES if name[0] in setup.codes]
    chosen = sorted(rng.sample(names, min(len(names), rng.choice((1, 2, 3, 8)))))
    time = NOON + 1000 * step * rng.randrange(6)
    times, lines = [], []
    for _ in range(rng.choice((0, 1, 6, 12, 12, 24))):
        epoch = {}
        for name in chosen:
            has_channel = name[0] != GLONASS.letter or int(name[1:]) in setup.channels
            if rng.random() < 0.8:
                epoch[name] = {code: some_shown(rng, has_channel) for code in setup.codes[name[0]] if rng.random() < 0.8}
        near = time + rng.choice((0, 0, 0, 0, 1, 24, 25, 26, -25))
        more = record(setup, near, epoch)
        times += [near] if more else []
        lines += more
        time += 1000 * step * rng.choice((1, 1, 1, 2))
    return times, lines


def some_file(rng: Random) -> tuple[str, Part]:
    """A file, and a part of it."""
    setup, step = some_setup(rng, LETTERS), rng.choice(STEPS)
    times, lines = some_records(rng, step, setup)
    first = times[0] if times else NOON
    table = MixedTable(some_header(rng, setup, first), lines)
    return table.text.decode(), some_part(rng, step, times or [NOON])


def all_satellites(rng: Random) -> tuple[str, Part]:
    """Three records of all satellites, of which the part leaves out the second one. The first and the last satellite of each system
    have all codes."""
    codes = {system.letter: system.codes for system in SYSTEMS}
    whole = {system.name(bit) for system in SYSTEMS for bit in (1, system.satellites)}
    setup = MixedSetup(NOON, NOON, "BASE", codes, {slot: slot % 14 - 7 for slot in range(1, 28)})
    lines = []
    for time in (NOON, NOON + 15_000, NOON + 30_000):
        epoch = {}
        for name in SATELLITES:
            its = codes[name[0]] if name in whole else codes[name[0]][:1]
            epoch[name] = {code: some_shown(rng, True)._replace(phase=rng.randint(1, 10**12)) for code in its}
        lines += record(setup, time, epoch)
    return MixedTable(some_header(rng, setup, NOON), lines).text.decode(), Part(None, None, 30)


def a_day(rng: Random) -> tuple[str, Part]:
    """A record each 30 s of a day, of which the part has the first and the last. E36 and I14 slip in the second one, and then I14
    is missing up to the last."""
    setup = MixedSetup(NOON, NOON, "BASE", {"E": ("1X",), "I": ("5A",)})
    midnight = NOON - 1000 * DAY // 2
    phase = Shown(None, 110_804_903_547, None)
    lines = []
    for at in range(0, DAY + 1, 30):
        shown = phase._replace(digit="1") if at == 30 else phase
        epoch = {"E36": {"1X": shown}, **({"I14": {"5A": shown}} if at in (0, 30, DAY) else {})}
        lines += record(setup, midnight + 1000 * at, epoch)
    return MixedTable(some_header(rng, setup, midnight), lines).text.decode(), Part(None, None, DAY)
