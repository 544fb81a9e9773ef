"""Captures of several systems that chance makes, and their lines in `show` by kinds of MSM."""

from __future__ import annotations

from random import Random

from clocks import glonass_clock
from made_messages import NOON, made_message
from messages import Refusal, frames_of, show_line
from msm import payload_of_msm, read_any
from systems import BEIDOU, GLONASS, KINDS, LETTERS, SYSTEMS, TYPES, number_of
from wire import WEEK_MS, frame_of, ones

SEED = 6906
NO_CLOCK_OF_GPS = (GLONASS, BEIDOU)  # whose clock is no GPS time of week

# A 1004, a 1005, a 1019, an MSM1 of Galileo, and no number at all.
OTHERS = ["3EC7D3714BE800101498968000000151AD30190000002C60", "3ED7D30202980EDEEF34B4BD62AC0941986F33", "3FB0", "443000", ""]

# The last clocks that there are, the first ones that there are not, and a day that is unknown.
CLOCKS = (0, WEEK_MS - 1, WEEK_MS, glonass_clock(6, 86_400_999), glonass_clock(0, 86_401_000), glonass_clock(7, 0))


def line_by(payload: bytes, kinds: dict[str, int]) -> str:
    """The line of a payload if of each system the MSM of its kind are read."""
    read = read_any(payload, frozenset(number_of(system, kinds[system.letter]) for system in SYSTEMS))
    if isinstance(read, Refusal):
        return f"{read.number} other" if read.fault == "M2" else f"refused {read}"
    header = read.header
    if header["number"] not in TYPES:
        return show_line(payload)
    system, _ = TYPES[header["number"]]
    clock = "clock" if system in NO_CLOCK_OF_GPS else "tow"
    begin = f"{header['number']} station {header['station']} {clock} {header['tow']}"
    masks = f"satellites {ones(header['satellite_mask'])} signals {ones(header['signal_mask'])}"
    return f"{begin} {masks} cells {sum(read.cell_mask)}"


def some_kinds(rng: Random) -> tuple[str, dict[str, int]]:
    """A text of `--msm`, and the kind of each system that it writes."""
    general = rng.choice(KINDS)
    exceptions = {letter: rng.choice(KINDS) for letter in rng.sample(LETTERS, rng.choice((0, 0, 1, 2, 7)))}
    text = ",".join([str(general), *(f"{letter}{kind}" for letter, kind in exceptions.items())])
    return text, {**dict.fromkeys(LETTERS, general), **exceptions}


def some_payload(rng: Random) -> bytes:
    """An MSM4 to MSM7, whole or cut off, or another message."""
    if rng.random() < 0.1:
        return bytes.fromhex(rng.choice(OTHERS))
    bits = sorted(rng.sample(range(1, 65), rng.choice((0, 1, 1, 2, 4, 8, 13))))
    signals = sorted(rng.sample(range(1, 33), rng.choice((0, 1, 1, 2, 5))))
    message = made_message(rng, rng.choice(SYSTEMS), rng.choice(KINDS), bits, signals, NOON + rng.randrange(WEEK_MS))
    message.header["station"] = rng.choice((0, 2003, 4095))
    if rng.random() < 0.2:
        message.header["tow"] = rng.choice((*CLOCKS, rng.getrandbits(30)))
    payload = payload_of_msm(message)
    return payload[: rng.randint(0, len(payload))] if rng.random() < 0.1 else payload


def some_lines(rng: Random) -> tuple[bytes, list[str], bytes]:
    """A capture, options of `show`, and the lines that are due."""
    parts = []
    for _ in range(rng.randint(0, 20)):
        parts += [frame_of(some_payload(rng)), bytes(rng.randrange(0xD3) for _ in range(rng.choice((0, 0, 0, 3))))]
    text = b"".join(parts)
    payloads = [frame.payload for frame in frames_of(text)]
    if rng.random() < 0.1:
        return text, [], "".join(f"{show_line(payload)}\n" for payload in payloads).encode()
    words, kinds = some_kinds(rng)
    return text, [f"--msm={words}"], "".join(f"{line_by(payload, kinds)}\n" for payload in payloads).encode()
