#!/usr/bin/env python3
"""Attacks the program with captures that are made from a seed, and looks at what must hold of each.

    hostile.py --program PATH [--captures N] [--seed N] [--first N] [--draws N] [--jobs N] [--to-first-failure]
               [--keep FOLDER]

Prints a line for each property, with the number of captures on which it was checked, and last
'N passed, M failed'. A property has failed on a capture where it doesn't hold, and if its premise
held for too few of them. A capture is the same whatever else is run: `--first N --captures 1`
repeats one, and with `--keep FOLDER` its links and options are left there. For a long run `--draws
N` checks what one run of the program shows, and N drawn ones of the properties that take more.
"""

from __future__ import annotations

import sys

import properties
from autos import auto_as_modelled
from captures import capture_of
from program import Program
from properties import FREE, SELDOM, VALID, Property, case_of
from workers import Looked, Task, counts_of_all, keep, parser_of, tally_of, tasks_of

CAPTURES = 12_000  # so that the false preambles stand at each distance, from 0 to 1,029 bytes
SEED = 20260524
OFTEN = (*properties.OFTEN, Property(auto_as_modelled, 25))
MORE_EACH = 4  # of the properties that few captures meet, or many, if none are drawn


def inspect(task: Task, program: Program) -> Looked:
    capture = capture_of(task.seed, task.number)
    rng = task.rng
    case = case_of(capture, program, rng)
    looked = Looked(task.number, capture.scene, [], {})
    if task.draws is None:
        first = [*FREE, *VALID]
        turns = rng.sample(SELDOM, len(SELDOM)) + rng.sample(OFTEN, len(OFTEN))
        most = len(first) + MORE_EACH
    else:
        first = [*FREE]
        turns = rng.sample(VALID + SELDOM + OFTEN, len(VALID + SELDOM + OFTEN))
        most = len(first) + task.draws
    looked.checks(case, [*first, *turns], most)
    keep(task, capture)
    return looked


def main() -> int:
    parser = parser_of(__doc__, CAPTURES, SEED)
    parser.add_argument("--draws", type=int, help="properties that are drawn for each capture")
    words = parser.parse_args()
    tally = tally_of(inspect, words, tasks_of(words, words.draws))
    if tally is None:
        return 1
    # Nothing is due of what is drawn.
    return counts_of_all(tally, {it: it.floor if words.draws is None or it in FREE else 0 for it in (*FREE, *VALID, *SELDOM, *OFTEN)})


if __name__ == "__main__":
    sys.exit(main())
