#!/usr/bin/env python3
"""The words of `convert` for several systems: what is refused, in which order of causes, and with which lines.

    mixed_refusals.py PROGRAM

Prints a line for each row that fails, and last 'N passed, M failed'. What is due stands in the rows; no model is asked.
"""

from __future__ import annotations

import os
import sys
import tempfile
from itertools import combinations
from pathlib import Path
from typing import NamedTuple, Optional, Union

from program import Ended, Program
from systems import SYSTEMS

Value = Union[None, str, list[str]]
GOOD: dict[str, Value] = {
    "--station": "1",
    "--near": "2024-05-17T12:00:00",
    "--made": "2024-05-17T13:00:00",
    "--marker": "BASE",
    "--codes": "1C,R1C",
    "--window": None,
    "--msm": None,
    "--channels": "1:1,9:-6",
    "--leap-seconds": None,
    "--with-1012": None,
    "--doppler": None,
    "links": ["empty"],
}


class Fault(NamedTuple):
    """Words that are refused, and the lines that say why; nothing of them if clap says it."""

    words: dict[str, Value]
    lines: Optional[str]


def fault(lines: Optional[str], **words: Value) -> Fault:
    return Fault({name if name == "links" else f"--{name.replace('_', '-')}": value for name, value in words.items()}, lines)


CODES, CHANNELS, NEED = "bad --codes\n", "bad --channels\n", "R codes need --channels\n"
NEEDS_R = "--with-1012 needs R codes\n"
FLAGS = ("--with-1012", "--doppler")
OF_GPS = "GPS codes have two characters: 1C\n"

# The codes of each system, in the order of the tables.
LISTS = {
    "G": "1C 1P 1W 1S 1L 1X 2C 2D 2P 2W 2S 2L 2X 5I 5Q 5X",
    "R": "1C 1P 2C 2P",
    "E": "1C 1B 1X 6C 6B 6X 7I 7Q 7X 8I 8Q 8X 5I 5Q 5X",
    "C": "2I 2Q 2X 6I 6Q 6X 7I 7Q 7X 5D 5P 5X 7D 1D 1P 1X",
    "J": "1C 6S 6L 6X 2S 2L 2X 5I 5Q 5X 1S 1L 1X",
    "S": "1C 5I 5Q 5X",
    "I": "5A",
}

# In the order in which the causes are looked for. Those with the same words are not combined.
ORDER = (
    fault(None, msm="3"),
    fault("bad --near\n", near="2024-02-30T00:00:00"),
    fault("bad --made\n", made="2024-05-17 13:00:00"),
    fault(f"{CODES}codes of E: {LISTS['E']}\n", codes="1C,E9Z,R1C"),
    fault("bad --marker\n", marker=" X"),
    fault(CODES, codes="1C,R1C,E1X,R1C"),
    fault(CHANNELS, channels="1:7"),
    fault(NEED, channels=None),
    fault("bad links\n", links=["empty"] * 17),
    fault("bad --near\n", near="1980-01-06T00:00:00"),
)


def codes_refused() -> list[Fault]:
    """Names of codes: an unknown one with a letter of a system is followed by the codes of it, and one of GPS with its letter by
    the name without. The first bad name counts."""
    unknown = [fault(f"{CODES}codes of {it}: {codes}\n", codes=f"1C,{it}9Z") for it, codes in LISTS.items()]
    others = [fault(CODES, codes=it) for it in ("9Z", "1C,9Z", "E1", "1", "", "1C,", ",1C", "1C,,E1X", "E1XX", "X1C", "e1X", "1C, E1X")]
    first = [
        fault(f"{CODES}codes of C: {LISTS['C']}\n", codes="C1C,E9Z,9Z"),
        fault(CODES, codes="9Z,E9Z"),
        fault(f"{CODES}codes of R: {LISTS['R']}\n", codes="R3I,G1C"),
        fault(f"{CODES}{OF_GPS}", codes="G1C"),
        fault(f"{CODES}{OF_GPS}", codes="R1C,G1C,E9Z"),
        fault(f"{CODES}GPS codes have two characters: 2W\n", codes="1C,G2W"),
    ]
    # Codes of another system, and Galileo's with the PRS.
    wrong = [(it, code) for it, code in (("E", "1A"), ("E", "6Z"), ("C", "1C"), ("J", "2C"), ("R", "1X"), ("S", "1X"), ("I", "1C"))]
    return unknown + others + first + [fault(f"{CODES}codes of {it}: {LISTS[it]}\n", codes=it + code) for it, code in wrong]


def repeated_codes() -> list[Fault]:
    """A code twice, and more than the sixteen codes that a system has at most."""
    every = {it.letter: [code if it.letter == "G" else it.letter + code for code in it.codes] for it in SYSTEMS}
    twice = [fault(CODES, codes=f"1C,{names[0]},{names[0]}") for letter, names in every.items() if letter != "G"]
    too_many = [fault(CODES, codes=",".join([*every[it], every[it][0]])) for it in "GC"]
    return [*twice, *too_many, fault(CODES, codes="1C,E1X,1C"), fault(CODES, codes="E1X,1C,E1X")]


def channels_refused() -> list[Fault]:
    """The form, a number out of its range, a slot twice, and any channels without a code of GLONASS."""
    texts = (
        "", "1", "1:", ":1", "1:1,", ",1:1", "1:1,,2:2", "1:1 2:2", "1;1", "1:1:1", "0:1", "28:1", "1:7", "1:-8", "-1:1", "1:x", "x:1",
        "01:1", "1:01", "1:+1", "1:-0", "R01:1",
        "1:1,1:1", "1:1,9:-6,1:2", "none,1:1", "1:1,none", "None", "1:1.0", "1: 1", " 1:1", "256:1", "1:256", "257:1", "1:-99999999999999999999",
    )  # fmt: skip
    without = [fault(CHANNELS, channels=it, codes="1C,E1X") for it in ("1:7", "1:1", "none")]
    return [*(fault(CHANNELS, channels=it) for it in texts), *without, fault(CHANNELS, channels="none", codes="1C")]


def refused_by_clap() -> list[Fault]:
    kinds = ("", "E4", "3", "8", "7,", ",7", "7,4", "7,E3", "7,E8", "7,X4", "7,e4", "7,E", "7,4E", "7,E4,E5", "7,E4,E4", "7 E4", "7;E4", "7,E4,", "77")
    leaps = ("", "-1", "100", "x", "1.5", "256")
    return [fault(None, msm=it) for it in kinds] + [fault(None, leap_seconds=it) for it in leaps]


def needs() -> list[Fault]:
    """A file without phases would look whole."""
    return [fault(NEED, channels=None), fault(NEED, channels=None, codes="R2P"), fault(NEED, channels=None, leap_seconds="18", msm="7,R5")]


def needs_of_1012() -> list[Fault]:
    """A 1012 is of GLONASS. It is looked for behind the channels, and before the links."""
    without = {"with_1012": "", "codes": "1C,E1X", "channels": None}
    return [
        fault(NEEDS_R, **without),
        fault(NEEDS_R, **without, links=["empty"] * 17),
        fault(NEEDS_R, **without, near="1980-01-06T00:00:00"),
        fault(CHANNELS, **{**without, "channels": "1:1"}),
        fault(NEED, with_1012="", channels=None),
        fault("bad --marker\n", **without, marker=" X"),
        fault(CODES, **{**without, "codes": "1C,1C"}),
    ]


def needs_of_doppler() -> list[Fault]:
    """Each listed system has a kind with rates; the first one without counts. It is looked for behind what 1012 need, and before
    the links."""
    of_all = {it.letter: (it.codes[0] if it.letter == "G" else it.letter + it.codes[0]) for it in SYSTEMS}
    channels = {it: "1:1" if it == "R" else None for it in of_all}
    alone = [
        fault(f"--doppler needs MSM5 or MSM7 of {it}\n", doppler="", codes=code, channels=channels[it], msm=msm)
        for it, code in of_all.items()
        for msm in (None, "6", f"7,{it}4", f"5,{it}6")
    ]
    later = [
        fault(f"--doppler needs MSM5 or MSM7 of {it}\n", doppler="", codes=f"{of_all[it]},{of_all[before]}", channels="1:1" if "R" in it + before else None, msm=f"7,{it}4")
        for before, it in zip(of_all, list(of_all)[1:])
    ]
    both = {"doppler": "", "codes": "I5A,1C", "channels": None}
    return [
        *alone,
        *later,
        fault("--doppler needs MSM5 or MSM7 of G\n", **both),
        fault("--doppler needs MSM5 or MSM7 of G\n", **both, links=["empty"] * 17),
        fault("--doppler needs MSM5 or MSM7 of G\n", **both, near="1980-01-06T00:00:00"),
        fault("--doppler needs MSM5 or MSM7 of I\n", **both, msm="7,I4,E6"),
        fault(NEEDS_R, **both, with_1012=""),
        fault(CHANNELS, **{**both, "channels": "1:1"}),
        fault(NEED, doppler="", channels=None),
        fault("bad --marker\n", **both, marker=" X"),
        fault(CODES, **{**both, "codes": "1C,1C"}),
    ]


def combined() -> list[Fault]:
    """Two causes at once: the one that is looked for first is told."""
    pairs = [(one, other) for one, other in combinations(ORDER, 2) if not set(one.words) & set(other.words)]
    both = [Fault({**one.words, **other.words}, one.lines) for one, other in pairs]
    return [*both, fault(f"{CODES}codes of E: {LISTS['E']}\n", codes="1C,1C,E9Z"), fault(CODES, codes="1C,1C,9Z")]


ACCEPTED = (
    {"--codes": "1C,R1C", "--channels": "none"},
    {"--codes": "1C"},
    {"--channels": ",".join(f"{slot}:{slot % 14 - 7}" for slot in range(1, 28))},
    {"--channels": "27:6,1:-7"},
    {"--msm": "7"},
    {"--msm": "4,G7,R6,E5,C4,J7,S6,I5"},
    {"--msm": "7,E7"},
    {"--leap-seconds": "0"},
    {"--leap-seconds": "99"},
    {"--with-1012": ""},
    {"--doppler": "", "--msm": "7"},
    {"--doppler": "", "--msm": "4,G5,R7"},
    {"--doppler": "", "--msm": "5,E4", "--codes": "1C"},
    {"--codes": ",".join(code if it.letter == "G" else it.letter + code for it in SYSTEMS[::-1] for code in it.codes[::-1])},
)


def words_of(words: dict[str, Value]) -> list[str]:
    given = {**GOOD, **words}
    if given["--codes"] == "1C":
        given["--channels"] = words.get("--channels")
    links = given.pop("links")
    assert isinstance(links, list)
    return ["convert", *(name if name in FLAGS else f"{name}={value}" for name, value in given.items() if value is not None), *links]


def difference(ended: Ended, it: Fault) -> str:
    """How a run is not refused as it is due to be; nothing if it is."""
    if (ended.status, ended.out) != (2, b""):
        return f"status {ended.status}, {ended.out[:80]!r} and {ended.err[:80]!r}"
    text = ended.err.decode(errors="replace")
    if it.lines is None:
        return "" if text and not text.startswith("rtcm2rinex: ") else f"{text!r} and not clap's refusal"
    return "" if text == f"rtcm2rinex: {it.lines}" else f"{text!r}, {it.lines!r} is due"


def faults_of(program: Program) -> list[str]:
    """How each row fails, or nothing."""
    program.write("empty", b"")
    refused = [*ORDER, *codes_refused(), *repeated_codes(), *channels_refused(), *refused_by_clap(), *needs(), *needs_of_1012(), *needs_of_doppler(), *combined()]
    faults = []
    for it in refused:
        wrong = difference(program.run(words_of(it.words)), it)
        faults.append(wrong and f"FAILED {it.words}: {wrong}")
    for words in ACCEPTED:
        ended = program.run(words_of(words))
        faults.append("" if ended.status == 0 else f"FAILED {words}: status {ended.status}, {ended.err[:200]!r}")
    return faults


def main() -> int:
    path = str(Path(sys.argv[1]).resolve())
    with tempfile.TemporaryDirectory() as folder:
        os.chdir(folder)
        faults = faults_of(Program(path))
        os.chdir("/")
    failed = [it for it in faults if it]
    print("".join(f"{it}\n" for it in failed) + f"{len(faults) - len(failed)} passed, {len(failed)} failed")
    return len(failed) > 0


if __name__ == "__main__":
    sys.exit(main())
