"""Captures: what a hostile sender says, among bytes that look like frames and are none.

A capture is made from a seed and its number alone. The scenes take turns, and some of them go
through a range by their turn: a false preamble at every distance, masks of every width, a cut at
every byte.
"""

from __future__ import annotations

from dataclasses import replace
from random import Random
from typing import Callable, NamedTuple

from messages import CODES, FINE_LOCK_TIMES, legacy_lock_time, msm_lock_time
from model import Setup, moment
from sender import Pick, Sender, pick_any, pick_end, pick_near_lock, pick_zero
from wire import MOST_PAYLOAD, PREAMBLE, WEEK_MS, crc24q, frame_of, head_of_frame

LONGEST_FRAME = MOST_PAYLOAD + 6


class Capture(NamedTuple):
    """Some links, and the options to convert them with."""

    scene: str
    setup: Setup
    links: list[bytes]


# References: the first and the last, a leap day, the turns of a year and of a week.
FIRST_NEAR = moment("1980-01-13T00:00:00")
LAST_NEAR = moment("2099-12-31T23:59:59")
NEARS = (
    FIRST_NEAR,
    LAST_NEAR,
    moment("2024-02-29T12:00:00"),
    moment("2023-12-31T23:59:59"),
    moment("2024-05-19T00:00:00"),
)
LAST_MADE = moment("2100-12-31T23:59:59")
MARKERS = ("BASE", "-X", "--codes", "A  B", "~!'\"\\$`", "x" * 60)
LONGEST_MARKER = 60
MOST_CODES = 16
CALM_WINDOW, MOST_WINDOW = 64, 4096
STEPS = (1, 31, 32, 33, 500, 1000, 1000, 1000, 30_000, 262_144, 900_000, WEEK_MS // 40)

# The lock time indicators of a 1004 where its table turns.
LEGACY_TURNS = (0, 23, 24, 47, 48, 71, 72, 95, 96, 119, 120, 126, 127)


MSM_OPTIONS = (*[None] * 8, 4, 5, 6, 7)  # a third of the captures have one


def any_marker(rng: Random) -> str:
    """One of the strange ones, or one of any length."""
    return rng.choice((*MARKERS, *["".join(rng.choices("BASE 0-9_x", k=rng.randint(1, LONGEST_MARKER))).strip() or "B"] * 4))


def any_setup(rng: Random, window: int) -> Setup:
    """Any options. Half of the setups have all codes, the others any number of them."""
    seconds = rng.randint(FIRST_NEAR // 1000, LAST_NEAR // 1000)
    return Setup(
        station=rng.choice((0, 1, 2003, 4095, rng.randrange(4096))),
        near=rng.choice(NEARS + (1000 * seconds,)),
        made=1000 * rng.randint(0, LAST_MADE // 1000),
        marker=any_marker(rng),
        codes=tuple(rng.sample(CODES, rng.choice((MOST_CODES, rng.randint(1, MOST_CODES))))),
        window=window,
        msm=rng.choice(MSM_OPTIONS),
    )


def any_times(rng: Random, setup: Setup, count: int, step: int) -> list[int]:
    """Times of week: in order, or in one of several disorders; some stand more than once."""
    half = WEEK_MS // 2
    start = rng.choice((setup.near, setup.near, setup.near + half - 3 * step, -2 * step, half))
    times = [(start + at * step) % WEEK_MS for at in range(count)]
    kind = rng.randrange(8)
    if kind == 0:
        times.reverse()
    elif kind == 1:
        rng.shuffle(times)
    elif kind == 2:
        at = rng.randrange(count)
        times[at:] = times[at + 1 :] + times[at : at + 1]
    elif kind == 3:
        times.insert(rng.randrange(count), (setup.near + half - 1) % WEEK_MS)
    elif kind == 4:
        times = [rng.randrange(WEEK_MS) for _ in times]
    return [time for time in times for _ in range(rng.choice((1, 1, 1, 2, 3)))]


def false_preamble(rng: Random, length: int | None = None) -> bytes:
    """The head of a frame that isn't there."""
    if length is None:
        length = rng.choice((0, 1, 19, MOST_PAYLOAD, rng.randint(0, MOST_PAYLOAD)))
    return head_of_frame(length, rng.choice((0, 0, rng.randrange(64))))


def damaged(rng: Random, frame: bytes) -> bytes:
    """A frame with a bit or a byte changed, cut at either end or inside, or with a byte more."""
    at = rng.randrange(len(frame))
    kinds = (
        lambda: frame[:at] + bytes((frame[at] ^ 1 << rng.randrange(8),)) + frame[at + 1 :],
        lambda: frame[:at] + rng.randbytes(1) + frame[at + 1 :],
        lambda: frame[:at],
        lambda: frame[at:],
        lambda: frame[:at] + rng.choice((b"\xd3", b"\0", rng.randbytes(1))) + frame[at:],
    )
    return rng.choice(kinds)()


def nested(rng: Random, frame: bytes) -> bytes:
    """A frame inside the payload of another, which is good, or damaged in its last byte."""
    before = rng.choice((b"", b"\x3f\xb0", rng.randbytes(rng.randrange(40))))
    payload = (before + frame + rng.randbytes(rng.randrange(20)))[:MOST_PAYLOAD]
    outer = frame_of(payload, rng.randrange(64))
    if rng.random() < 0.5:
        return outer
    return outer[:-1] + bytes((outer[-1] ^ 1,))


def interrupted(rng: Random, frame: bytes, inner: bytes) -> bytes:
    """A frame with another between its parts."""
    at = rng.randrange(1, len(frame))
    return frame[:at] + inner + frame[at:]


def noise(rng: Random, frame: bytes) -> bytes:
    """Bytes between frames; if they are made of a frame, then of this one."""
    kinds = (
        lambda: rng.randbytes(rng.randrange(17)),
        lambda: bytes((PREAMBLE,)) * rng.randrange(1, 12),
        lambda: false_preamble(rng),
        lambda: false_preamble(rng) + rng.randbytes(rng.randrange(60)),
        lambda: b"\xd3\0\0\0\0\0" * rng.randrange(5),
        lambda: nested(rng, frame),
        lambda: b"".join(false_preamble(rng) for _ in range(rng.randrange(8))),
        lambda: b"\xd3\0\0\x47\xea\x4b",
        lambda: damaged(rng, frame),
    )
    return rng.choice(kinds)()


def with_noise(rng: Random, frames: list[bytes], share: float) -> list[bytes]:
    """The frames, most of them whole, with noise before some of them and after the last."""
    parts = []
    for frame in frames:
        if rng.random() < share:
            parts.append(noise(rng, frame))
        if rng.random() < share / 4:
            frame = rng.choice((damaged(rng, frame), interrupted(rng, frame, rng.choice(frames))))
        parts.append(frame)
    return parts + [noise(rng, b"\xd3\0\0\x47\xea\x4b")] if rng.random() < share else parts


def dealt(rng: Random, parts: list[bytes], links: int) -> list[bytes]:
    """The parts on so many links: each on one, on some, or on all of them."""
    share = rng.choice((0, 0.3, 0.7, 1))
    texts = [b""] * links
    for part in parts:
        one = rng.randrange(links)
        for link in range(links):
            if link == one or rng.random() < share:
                texts[link] += part
    return texts


def any_window(rng: Random, is_calm: bool) -> int:
    """A calm capture has no late message: no more epochs than its window. Of the others most have a small one."""
    return CALM_WINDOW if is_calm else rng.choice((2, 2, 2, 3, 5, rng.randint(2, MOST_WINDOW)))


def frames_at(rng: Random, sender: Sender, times: list[int]) -> list[bytes]:
    return [sender.frame(sender.any_payload(time)) for time in times]


def mixed(rng: Random, pick: Pick, links: int, share: float, count: int) -> Capture:
    """Any messages at any times, with noise, on so many links."""
    is_calm = rng.random() < 0.6
    setup = any_setup(rng, any_window(rng, is_calm))
    sender = Sender(rng, setup, pick, is_calm, is_small=rng.random() < 0.7)
    times = any_times(rng, setup, count, rng.choice(STEPS))
    parts = with_noise(rng, frames_at(rng, sender, times), share)
    return Capture("", setup, dealt(rng, parts, links))


def quiet(rng: Random, turn: int) -> Capture:
    return mixed(rng, pick_any, rng.choice((1, 1, 2)), 0.05, rng.randint(1, 14))


def noisy(rng: Random, turn: int) -> Capture:
    return mixed(rng, pick_any, rng.choice((1, 1, 1, 2, 3)), 0.5, rng.randint(1, 10))


def ends(rng: Random, turn: int) -> Capture:
    """All fields at their ends, or most of them zero."""
    return mixed(rng, rng.choice((pick_end, pick_end, pick_zero)), 1, 0.1, rng.randint(1, 8))


def many_links(rng: Random, turn: int) -> Capture:
    """Two to sixteen links, some of them longer than a read."""
    return mixed(rng, pick_any, 2 + turn % 15, 0.2, rng.randint(4, 16))


def locks(rng: Random, turn: int) -> Capture:
    """Few satellites over many epochs in order, with lock times about the time between them."""
    legacy = rng.choice((turn // 2 % 128, rng.choice(LEGACY_TURNS)))
    fine = FINE_LOCK_TIMES[rng.choice((turn // 2 % 705, rng.randrange(705)))]
    is_calm = rng.random() < 0.7
    setup = any_setup(rng, rng.choice((2, 3, rng.randint(2, 4096))))
    of_msm = fine if setup.msm in (6, 7) else msm_lock_time(turn // 2 % 16)
    step = max(2, legacy_lock_time(legacy) if turn % 2 else of_msm)
    sender = Sender(rng, setup, pick_near_lock(step), is_calm, is_small=True)
    sender.satellites, sender.most = sender.satellites[:2], 4
    count = min(rng.randint(4, 20), WEEK_MS // 2 // step)
    times = [(setup.near + at * step + rng.randint(-1, 1)) % WEEK_MS for at in range(count)]
    frames = []
    for time in times:
        frames.append(sender.frame(sender.legacy(time)))
        frames.append(sender.frame(sender.observation(time)))
    return Capture("", setup, [b"".join(frames)])


def late(rng: Random, turn: int) -> Capture:
    """Many epochs in disorder and a short window; the station's position comes at any time."""
    setup = any_setup(rng, rng.choice((2, 2, 3, 4, rng.randint(2, 12))))
    sender = Sender(rng, setup, pick_any, is_calm=rng.random() < 0.5, is_small=True)
    times = any_times(rng, setup, rng.randint(4, 16), rng.choice(STEPS))
    for _ in range(rng.randrange(4)):
        times.append(rng.choice(times))
    frames = frames_at(rng, sender, times)
    return Capture("", setup, dealt(rng, frames, rng.choice((1, 1, 1, 2, 4))))


def preambles(rng: Random, turn: int) -> Capture:
    """A false preamble at each distance before a frame, which often is as long as to end about the
    end of a frame after it."""
    distance = turn % (LONGEST_FRAME + 1)
    setup = any_setup(rng, any_window(rng, True))
    sender = Sender(rng, setup, pick_any, is_calm=True, is_small=True)
    frames = frames_at(rng, sender, any_times(rng, setup, rng.randint(1, 4), 1000))
    at = rng.randrange(len(frames))
    ends_at = distance + len(b"".join(frames[at : at + rng.randint(1, 3)])) - 6
    length = rng.choice((ends_at - 1, ends_at, ends_at + 1, rng.randint(0, MOST_PAYLOAD)))
    content = false_preamble(rng, min(max(length, 0), MOST_PAYLOAD)) + rng.randbytes(LONGEST_FRAME)
    frames.insert(at, content[:distance])
    text = b"".join(frames)
    part = text[: rng.randrange(len(text))]
    return Capture("", setup, rng.choice(([text], [text], [text, part])))


def good_outer(rng: Random, turn: int) -> Capture:
    """A good frame of any length over the frames after it, so that only what stands after its end
    is found; or the same with a checksum that is one off."""
    setup = any_setup(rng, any_window(rng, True))
    sender = Sender(rng, setup, pick_any, is_calm=True, is_small=True)
    frames = frames_at(rng, sender, any_times(rng, setup, rng.randint(2, 6), 1000))
    text = b"".join(frames)
    length = min(turn % (MOST_PAYLOAD + 1), len(text))
    content = head_of_frame(length, rng.randrange(64)) + text[:length]
    checksum = crc24q(content) ^ rng.choice((0, 0, 0, 1, 1 << 23))
    return Capture("", setup, [content + checksum.to_bytes(3, "big") + text[length:]])


def masks(rng: Random, turn: int) -> Capture:
    """Cell masks of 0 to 64 bits and above, and legacy messages of 0 to 31 satellites."""
    satellites, signals = turn % 65, (turn // 65 * 2 + turn % 2) % 33
    if satellites * signals > 70:
        signals = rng.randint(0, 70 // satellites)
    is_calm = rng.random() < 0.6
    setup = any_setup(rng, any_window(rng, is_calm))
    sender = Sender(rng, setup, rng.choice((pick_any, pick_end)), is_calm, is_small=False)
    sender.satellites, sender.most = list(range(turn % 64)) + [63], 31
    frames = []
    for time in any_times(rng, setup, rng.randint(1, 3), 1000):
        some_satellites = sorted(rng.sample(range(1, 65), satellites))
        some_signals = sorted(rng.sample(range(1, 33), signals))
        frames.append(sender.frame(sender.msm_of(time, some_satellites, some_signals)))
        frames.append(sender.frame(sender.legacy(time)))
    return Capture("", setup, [b"".join(frames)])


def strange(rng: Random, turn: int) -> Capture:
    """Short frames among many heads of frames that reach over them, whole and cut."""
    is_calm = rng.random() < 0.6
    setup = any_setup(rng, any_window(rng, is_calm))
    sender = Sender(rng, setup, pick_zero, is_calm, is_small=True)
    times = any_times(rng, setup, rng.randint(1, 4), 1000)
    frames = frames_at(rng, sender, times)
    frames += [frame_of(b""), frame_of(b"\xd3"), frame_of(b"\xd3\0")]
    parts = []
    for _ in range(rng.randint(1, 40)):
        frame = rng.choice(frames)
        head = false_preamble(rng, rng.choice((0, 1, 2, 6, 13, 19, 25, 40, 100, 979)))
        cut = rng.choice((head[: rng.randint(1, 3)], frame[: rng.randrange(9)], rng.randbytes(2)))
        parts.append(rng.choice((frame, head, cut)))
    return Capture("", setup, dealt(rng, parts, rng.choice((1, 1, 2, 3))))


def cuts(rng: Random, turn: int) -> Capture:
    """A capture that ends at each byte, or begins there."""
    capture = mixed(rng, pick_any, 1, 0.2, rng.randint(1, 5))
    text = capture.links[0]
    at = turn % (len(text) + 1)
    return capture._replace(links=[rng.choice((text[:at], text[:at], text[at:]))])


SCENES: tuple[Callable[[Random, int], Capture], ...] = (
    preambles, quiet, noisy, locks, many_links, ends, late, masks, good_outer, strange, cuts
)  # fmt: skip


def capture_of(seed: int, number: int) -> Capture:
    """The capture of this number."""
    turn, at = divmod(number, len(SCENES))
    scene = SCENES[at]
    rng = Random(f"capture {seed} {number}")
    capture = scene(rng, turn)
    setup = capture.setup
    if setup.window >= CALM_WINDOW:  # the captures go through all such windows
        setup = replace(setup, window=CALM_WINDOW + number % (MOST_WINDOW - CALM_WINDOW + 1))
    return capture._replace(scene=scene.__name__, setup=setup)
