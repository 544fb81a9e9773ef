#!/usr/bin/env python3
"""Converts captures of several systems that are made from a seed, and compares file, report and status with the slow model's; and so
the summary of their bytes, and what `auto` finds and writes.

    mixed_hostile.py --program PATH [--captures N] [--seed N] [--first N] [--jobs N] [--to-first-failure] [--keep FOLDER]
                     [--systems LETTERS]

Prints a line for each property and for each thing that must happen in some captures, and last 'N passed, M failed'. A longer run
has `--captures 12000`. `--first N --captures 1` repeats a capture, and with `--keep FOLDER` its links and its command are left
there. With `--systems GRE` codes of these systems alone are listed; then what some captures must show need not happen.
"""

from __future__ import annotations

import sys
from random import Random

import auto_marks
import mixed_marks
from autos import auto_as_modelled, sessions_as_modelled
from chains import WEEKS
from messages import frames_of
from mixed_captures import mixed_capture
from mixed_model import convert_mixed
from program import Program
from properties import HOLDS, MOST_LINKS, NOT_MET, Answer, Case, Property, as_modelled, difference, ends_with, file_is_valid, is_clean
from properties import pieces_of, same_dealt_to_two, same_in_any_order, same_on_standard_input, same_with_link_again
from properties import same_with_link_before, with_dates
from summaries import summary_of
from systems import LETTERS
from wire import frame_of
from workers import Looked, Task, counts_of_all, keep, parser_of, tally_of, tasks_of

CAPTURES = 1000
SEED = 20260619
DEALINGS = 9  # of each stream: with 1,000 captures more than 500
DRAWN = 1  # of the properties that need more runs, for each capture


def some_links(rng: Random, frames: list[bytes]) -> list[bytes]:
    """The frames on one to sixteen links. Each link loses some, but no frame is lost on all of them; some come twice, and some
    change places with near ones."""
    count = rng.randint(1, MOST_LINKS)
    kept = rng.choice((0.1, 0.5, 0.9))
    links: list[list[tuple[float, bytes]]] = [[] for _ in range(count)]
    for at, frame in enumerate(frames):
        one = rng.randrange(count)
        for number, link in enumerate(links):
            if number == one or rng.random() < kept:
                link += [(at + rng.choice((0, 0, 0, rng.uniform(-9, 9))), frame)] * rng.choice((1, 1, 1, 1, 2))
    return [b"".join(frame for _, frame in sorted(link, key=lambda it: it[0])) for link in links]


def same_however_dealt(case: Case) -> Answer:
    """The file of a stream of several systems is the same however it is dealt over links that make good for each other."""
    if case.capture.scene != "streams" or not is_clean(case.base):
        return NOT_MET
    [text] = case.links
    frames = [text[frame.place : frame.end] for frame in frames_of(text)]
    for _ in range(DEALINGS):
        run = case.convert(some_links(case.rng, frames))
        if run.status != 0 or not is_clean(run):
            return f"status {run.status}, {run.err[:200]!r}"
        if run.out != case.base.out:
            return difference(run.out, case.base.out)
    return HOLDS


def with_weeks(rng: Random, text: bytes) -> bytes:
    """Up to three messages that name weeks of Galileo or BeiDou among the frames of a capture, of which some are cut short."""
    pieces = pieces_of(text)
    for _ in range(rng.choice((0, 0, 1, 3))):
        number = rng.choice([*WEEKS])
        size = (WEEKS[number][0] + 7) // 8 + rng.choice((-1, 0, 0, 2))
        payload = (number << 20 | rng.choice((0x2F3A5, rng.getrandbits(20)))).to_bytes(4, "big") + rng.randbytes(size - 4)
        pieces.insert(rng.randrange(len(pieces)), frame_of(payload))
    return b"".join(pieces)


def summarized_with_systems(case: Case) -> Answer:
    """`summary` tells of the bytes of all links, with dates and weeks among them, what the slow model counts of each system."""
    text = with_weeks(case.rng, with_dates(case.rng, case.capture.setup, b"".join(case.links)))
    return ends_with(case.program.on(text, "summary"), 0, summary_of(text).encode(), b"")


FREE = (
    Property(as_modelled, 100), Property(file_is_valid, 100), Property(same_however_dealt, 6), Property(summarized_with_systems, 100),
    Property(sessions_as_modelled, 6), Property(auto_as_modelled, 100),
)  # fmt: skip
# Each capture has one more: of those whose premises it seldom meets, and else of the others.
SELDOM = (Property(same_in_any_order, 10), Property(same_dealt_to_two, 5), Property(same_with_link_before, 2))
OFTEN = (Property(same_with_link_again, 10), Property(same_on_standard_input, 10))
MARKS = mixed_marks.properties() + auto_marks.properties()


def inspect(task: Task, program: Program) -> Looked:
    capture = mixed_capture(task.seed, task.number, task.letters)
    rng = task.rng
    due = convert_mixed(capture.setup, capture.links)
    case = Case(capture, due, program, program.convert(capture.setup, capture.links), rng)
    looked = Looked(task.number, capture.scene, [], {})
    looked.checks(case, [*FREE, *MARKS], len(FREE) + len(MARKS))
    turns = rng.sample(SELDOM, len(SELDOM)) + rng.sample(OFTEN, len(OFTEN))
    looked.checks(case, turns, len(looked.checked) + DRAWN)
    keep(task, capture)
    return looked


def main() -> int:
    parser = parser_of(__doc__, CAPTURES, SEED)
    parser.add_argument("--systems", default=LETTERS, help="the letters of the systems that may be listed")
    words = parser.parse_args()
    tally = tally_of(inspect, words, tasks_of(words, None, words.systems))
    if tally is None:
        return 1
    is_whole = words.systems == LETTERS and words.captures >= CAPTURES
    return counts_of_all(tally, {it: it.floor if is_whole or it in FREE[:2] else 0 for it in [*FREE, *SELDOM, *OFTEN, *MARKS]})


if __name__ == "__main__":
    sys.exit(main())
