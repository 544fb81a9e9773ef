"""Files of a station whose clock is not steered: records lie some ms beside their step, satellites go and return, and codes
are missing, at times and throughout."""

from __future__ import annotations

from random import Random
from typing import NamedTuple

from model import Setup, columns_of, epoch_line, header

INTERVALS = (1000, 5000, 15_000, 30_000, 30_000, 60_000, 120_000, 300_000)
# How far a record lies beside its step; `cut` takes 25 ms, or a tenth of an interval below 250 ms.
BESIDE = (0, 0, 1, 7, 13, 24, 25, 26, 40)


class Code(NamedTuple):
    """How often a code of a satellite has a phase, or else a range alone, and a bit 0."""

    phase: float
    range: float
    slip: float


def code_of(rng: Random) -> Code:
    """One code of four is missing throughout."""
    return Code(rng.choice((0, 1, 1, 0.95, 0.7)), rng.choice((0, 0, 0.5)), rng.choice((0, 0.02, 0.2)))


def columns(rng: Random, code: Code, time: int) -> str:
    """What the code shows."""
    strength = rng.choice((None, *[250 * rng.randint(1, 255)] * 5))
    has_range = rng.random() < 0.9
    if rng.random() < code.phase:
        bits = (rng.random() < code.slip) + 2 * (rng.random() < code.slip)
        return columns_of(20_000_000_000 + time % 10**9 if has_range else None, 110_000_000_000 - time % 10**9, strength, str(bits) if bits else " ")
    return columns_of(20_000_000_000, None, strength, " ") if rng.random() < code.range else " " * 48


def absences(rng: Random, times: list[int], interval: int) -> set[int]:
    """The places of the records without a satellite, or without a phase of a code: up to three spans, often about as long as an outage or as
    ends a pass."""
    longest = rng.choice((120_000, 120_000, 1_800_000)) // interval
    gone: set[int] = set()
    for _ in range(rng.choice((0, 1, 2, 3))):
        begin = rng.randrange(len(times))
        gone |= set(range(begin, begin + rng.choice((1, max(1, longest - 1), longest, longest + 1, rng.randint(1, len(times))))))
    return gone


def file_of_passes(rng: Random, setup: Setup) -> str:
    """Such a file, with the header of these options."""
    interval = rng.choice(INTERVALS)
    # so many that a satellite may return after an outage, or that a pass may end
    count = rng.randint(2, 6 if interval > 60_000 else 20) + rng.choice((0, 120_000 // interval, min(1_800_000 // interval, 130)))
    start = (setup.near // interval + 1) * interval
    beside, drift = rng.choice(BESIDE), rng.choice((0, 0, 1, 3))
    sign = rng.choice((1, -1))
    clock = [sign * (beside + drift * at) % 500 if sign > 0 else -((beside + drift * at) % 500) for at in range(count)]
    times = [start + at * interval + clock[at] for at in range(count) if rng.random() < 0.95] or [start]
    codes_of = {name: [code_of(rng) for _ in setup.codes] for name in sorted(rng.sample(range(1, 33), rng.randint(1, 4)))}
    gone = {name: absences(rng, times, interval) for name in codes_of}
    lost = {name: [absences(rng, times, interval) if rng.random() < 0.4 else set() for _ in codes] for name, codes in codes_of.items()}
    lines: list[str] = []
    first = None
    for at, time in enumerate(times):
        shown = {name: "".join(columns(rng, it._replace(phase=0) if at in out else it, time) for it, out in zip(codes, lost[name]))
            for name, codes in codes_of.items() if at not in gone[name]}
        rows = [f"G{name:02}{row}".rstrip() for name, row in shown.items() if row.strip()]
        if rows:
            first = time if first is None else first
            lines += [epoch_line(time, len(rows)), *rows]
    return "".join(f"{it}\n" for it in [*header(setup, {}, start if first is None else first), *lines])
