"""What must hold of `auto` on each capture, whatever systems it has."""

from __future__ import annotations

import re
from random import Random

import finding
from auto_lines import Asked, auto_text, name_of, refusal_pattern
from captures import LAST_MADE
from choosing import Wanted
from finding import Found, Stopped, find
from messages import frames_of
from mixed_captures import names_of, some_letters
from mixed_model import Options, convert_mixed
from model import Setup
from msm import LEGACY_GLONASS
from program import Ended
from properties import HOLDS, NOT_MET, Answer, Case, ends_with, pieces_of, with_dates
from systems import KINDS, LETTERS
from wire import WEEK_MS


# The messages of GLONASS and BeiDou, which give no epoch.
WITHOUT_EPOCH = {LEGACY_GLONASS, *range(1081, 1088), *range(1121, 1128)}


def gives_no_epoch(piece: bytes) -> bool:
    return any(int.from_bytes(it.payload[:2], "big") >> 4 in WITHOUT_EPOCH for it in frames_of(piece))


def parts_of(rng: Random, text: bytes) -> list[bytes]:
    """One part, or up to three, cut behind frames; or one of the messages that give no epoch, and one of the others."""
    pieces = pieces_of(text)
    alone = [it for it in pieces if gives_no_epoch(it)]
    if alone and len(alone) < len(pieces) and rng.random() < 0.3:
        return [b"".join(alone), b"".join(it for it in pieces if it not in alone)]
    cuts = sorted(rng.choices(range(len(pieces)), k=rng.choice((0, 0, 1, 2))))
    return [b"".join(pieces[at:end]) for at, end in zip([0, *cuts], [*cuts, len(pieces)])]


def some_captures(case: Case) -> list[bytes]:
    """The links, whole or in parts and with dates among their frames, in any order, and sometimes one that is none."""
    rng = case.rng
    texts = [with_dates(rng, case.capture.setup, part) for text in case.links for part in parts_of(rng, text)]
    rng.shuffle(texts)
    if rng.random() < 0.1:
        texts.append(rng.choice((b"", b"\x1f\x8b\x08")))
    return texts


def some_wanted(rng: Random, setup: Setup | Options) -> Wanted:
    """Words for what else is found in the captures: each of them seldom."""
    wanted = Wanted(
        rng.choice((None, setup.station)), rng.choice((None, None, None, setup.near)), rng.random() < 0.2, rng.random() < 0.4
    )  # fmt: skip
    has_systems = isinstance(setup, Options)
    if has_systems:
        station, near = rng.choice((None, *[setup.station] * 3)), rng.choice((None, setup.near))
        wanted = wanted._replace(station=station, near=near)
    given = {
        "--systems": {"systems": "".join(some_letters(rng, LETTERS))},
        "--codes": {"names": names_of(rng, some_letters(rng, LETTERS))},
        "--msm": {"msm": rng.choice(KINDS)},
        "--channels": {"channels": {slot: rng.randint(-7, 6) for slot in rng.sample(range(1, 28), rng.choice((1, 5, 27, 27)))}},
        "--leap-seconds": {"leap": rng.choice((17, 18, rng.randrange(100)))},
        "--doppler": {"doppler": True},
    }
    words = rng.sample(sorted(given), rng.choice((0, 0, 1, 2)))
    for word in [*words, *["--channels"] * (has_systems and rng.random() < 0.2)]:
        if not (word == "--codes" and wanted.systems or word == "--systems" and wanted.names):
            wanted = wanted._replace(**given[word])
    return wanted


def some_asked(case: Case, texts: list[bytes]) -> Asked:
    rng, setup = case.rng, case.capture.setup
    now = rng.choice((setup.made, LAST_MADE, min(setup.near + rng.randint(0, 1100 * WEEK_MS), LAST_MADE) // 1000 * 1000))
    return Asked(now, setup.marker, setup.window, some_wanted(rng, setup))


def auto_as_modelled(case: Case) -> Answer:
    """`auto` of the links, whole or in parts and with dates among their frames, says the values that the slow model finds and
    how it went, and writes the file of these values; or it writes nothing, and names the cause that the model finds."""
    texts = some_captures(case)
    asked = some_asked(case, texts)
    if asked.wanted.station is None:
        # what is kept of a capture is of one station: of that of its first message, before any has an observation
        texts.sort(key=lambda it: not finding.Capture.of(it, asked.wanted.dating).observing())
    names = [name_of(at) for at in range(len(texts))]
    for name, text in zip(names, texts):
        case.program.write(name, text)
    # the order of the captures makes no difference, since their names count
    given = names if asked.wanted.as_given else case.rng.sample(names, len(names))
    return of_captures(case, asked, texts, given)


def sessions_as_modelled(case: Case) -> Answer:
    """`auto` of a capture of two sessions says what the slow model finds, most often where the second one begins."""
    if case.capture.scene != "sessions":
        return NOT_MET
    setup = case.capture.setup
    case.program.write(name_of(0), *case.links)
    return of_captures(case, Asked(LAST_MADE, setup.marker, setup.window, Wanted()), case.links, [name_of(0)])


def of_captures(case: Case, asked: Asked, texts: list[bytes], given: list[str]) -> Answer:
    """How `auto` of these captures, whose names are given in this order, is not as it is due."""
    run = case.program.run(["auto", *asked.words(), *given])
    try:
        case.found = find(texts, asked.now, asked.wanted)
    except Stopped as stopped:
        if stopped.cause == "two dates":
            case.second = second_part(asked, texts, *stopped.about)
        line = refusal_pattern(stopped, asked, texts)
        is_said = re.match(line.encode(), run.err)
        return ends_with(run, 3, b"", None) or (HOLDS if is_said else f"{run.err!r} and not {line!r}")
    return judged(run, case.found, asked, texts)


def second_part(asked: Asked, texts: list[bytes], at: int, byte: int) -> bytes:
    """What comes behind a byte of the capture at this place, among those of the station."""
    captures = asked.captures(texts)
    station = finding.station_of(captures, asked.wanted.station)
    return [text for text, it in zip(texts, captures) if it.is_of_station(station)][at][byte:]


def judged(run: Ended, found: Found, asked: Asked, texts: list[bytes]) -> Answer:
    """How a run that makes a file of these captures is not as it is due."""
    due = convert_mixed(asked.options(found), [b"".join(texts[at] for at in link) for link in found.links])
    text = auto_text(found, asked, due, texts).encode()
    if len(found.links) > 1:
        # The reads of several links are cut elsewhere where their captures end: what was told before is told again, or the other
        # way round; and if something is late or in conflict, it may be something else.
        if re.search(rb"^(late|conflict) [1-9]", run.err + text, re.M):
            is_said = run.err.startswith(text[: text.index(b"\nframes ")])
            return HOLDS if is_said and run.status in (0, 3) else f"{run.err!r} and not {text!r}"
        text, told = (re.sub(rb"^(taken|repeat) \d+$", b"", it, flags=re.M) for it in (text, run.err))
        run = run._replace(err=told)
    return ends_with(run, 0 if due.epochs else 3, due.file.encode(), text)
