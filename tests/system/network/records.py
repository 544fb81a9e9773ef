"""What the scripts read in the records of files themselves: which slips at first phases a new file lacks, and the step from epoch to epoch;
and what they take from an answer of `compare`.

A file is written as cells: a time in seconds, a satellite, and for each of the codes of its system (1C and 2W, R2P, E8X and E1C) the phase
with its loss-of-lock digit, or a - for a code without a phase, or nothing for one without any value. What is due was worked out by hand.
The last line is 'N passed, M failed'.
"""

from __future__ import annotations

import gzip
import sys
import tempfile
from collections.abc import Iterator
from pathlib import Path

sys.path.insert(0, str(Path(__file__).resolve().parents[3] / "network"))

from rtcm2rinex_network.comparison import Unlike, differences, lost_first_slips  # noqa: E402
from rtcm2rinex_network.ends import Again, Refused  # noqa: E402
from rtcm2rinex_network.program import Program, Ran  # noqa: E402
from rtcm2rinex_network.rinex import Measure, codes_with_values, counts_of_systems, count_values, read_header  # noqa: E402
from tally import tally  # noqa: E402

TYPES = ["G    6 C1C L1C S1C C2W L2W S2W", "R    3 C2P L2P S2P", "E    6 C8X L8X S8X", "       C1C L1C S1C"]
HEADER = "".join(f"{it:60}SYS / # / OBS TYPES\n" for it in TYPES) + " " * 60 + "END OF HEADER\n"


def line_of(cell: str) -> str:
    """A line of a satellite: `G05 20_ -` has for 1C a range and a phase of 20 without a digit, and for 2W a range alone."""
    satellite, *codes = cell.split()
    text = satellite
    for code in codes:
        phase, digit = ("", " ") if code == "-" else (code[:-1], code[-1].replace("_", " "))
        text += f"{20_000_000:14.3f}  " + (f"{float(phase):14.3f}{digit} " if phase else " " * 16) + " " * 16
    return text.rstrip() + "\n"


def file_of(folder: Path, name: str, epochs: dict[int, list[str]]) -> Path:
    text = HEADER
    for second, cells in sorted(epochs.items()):
        text += f"> 2024 05 17 12 00 {second:2}.0000000  0 {len(cells):2}\n" + "".join(map(line_of, cells))
    path = folder / name
    path.write_text(text)
    return path


NONE, FIRST, SECOND, BOTH = "G05 20_ 30_", "G05 201 30_", "G05 20_ 303", "G05 201 301"

# Of each row: what it is, the old and the new file, and the places of the slips that are lost.
ROWS = [
    ("the same", {0: [BOTH]}, {0: [BOTH]}, []),
    ("a slip of the first code", {0: [BOTH]}, {0: [SECOND]}, ["0 G05 1C"]),
    ("a slip with a half cycle", {0: [SECOND]}, {0: [NONE]}, ["0 G05 2W"]),
    ("a half cycle alone is no slip", {0: ["G05 202 30_"]}, {0: [NONE]}, []),
    ("slips of two satellites", {0: [FIRST, "G07 201 30_"]}, {0: [NONE, "G07 20_ 30_"]}, ["0 G05 1C", "0 G07 1C"]),
    ("a later slip is of no concern", {0: [NONE], 1: [BOTH]}, {0: [NONE], 1: [NONE]}, []),
    ("a first phase in a later epoch", {0: ["G05 - 30_"], 7: [FIRST]}, {0: ["G05 - 30_"], 7: [NONE]}, ["7 G05 1C"]),
    ("a first phase with a phase before it now", {7: [FIRST]}, {0: [NONE], 7: [NONE]}, []),
    ("a phase that is gone is told elsewhere", {0: [FIRST], 1: [NONE]}, {1: [NONE]}, []),
    ("a slip of GLONASS", {0: [NONE, "R10 201"]}, {0: [NONE, "R10 20_"]}, ["0 R10 2P"]),
    ("a slip of the second code of Galileo", {0: ["R10 201", "E11 20_ 301"]}, {0: ["R10 201", "E11 20_ 30_"]}, ["0 E11 1C"]),
    ("of the first one", {0: ["E11 203 301"]}, {0: ["E11 202 301"]}, ["0 E11 8X"]),
]

# Of each row: the cells of the epochs of a file, the codes that have a value, and of the systems G, RE and E the epochs and the values.
KEPT = [
    ([[NONE]], "1C 2W", (1, 4), (0, 0), (0, 0)),
    ([["G05"], ["R10 20_"]], "R2P", (1, 0), (1, 2), (0, 0)),
    ([["R10 -"], [NONE, "R10 20_", "E11"]], "1C 2W R2P", (1, 4), (2, 3), (1, 0)),
    ([["E11 20_ 30_"], ["E12 -"], ["G05 -"]], "1C E1C E8X", (1, 1), (2, 5), (2, 5)),
]

# Of each row: the seconds of a file's epochs, and its step in ms.
STEPS = [([0], None), ([0, 30], 30_000), ([0, 1, 21, 41], 20_000), ([0, 30, 31, 32], 1_000), ([0, 30, 31], 1_000), ([0, 1, 31], 1_000)]


# Of each row: the status of `compare`, its two texts, and what the scripts take from it: counts, lines, and whether values may be in
# other steps; or how the run ends.
ANSWERS = [
    (0, "lost 0 changed 0 explained 0\n", "", "0 0 () False"),
    (0, "lost 0 changed 0 explained 1\nexplained finer 12:00\n", "", "0 0 () True"),
    (0, "lost 0 changed 0 explained 101\nexplained roll 12:00\nmore-explained 100\n", "", "0 0 () True"),
    (3, "lost 2 changed 0 explained 1\nlost epoch 12:00\nlost epoch 12:01\nexplained roll 12:02\n", "",
        "2 0 ('lost epoch 12:00', 'lost epoch 12:01') False"),
    (3, "lost 101 changed 1 explained 0\nlost slip 12:00\nmore-lost 100\nchanged marker\n", "",
        "101 1 ('lost slip 12:00', 'more-lost 100', 'changed marker') False"),
    (3, "", "rtcm2rinex: old: line 12: C1 HeaderLine\n", "Unlike line 12: C1 HeaderLine"),
    (3, "", "rtcm2rinex: new: line 12: C1 HeaderLine\n", "Again compare: ended with status 3"),
    (1, "", "rtcm2rinex: out of memory\n", "Again compare: out of memory"),
    (1, "lost 0 changed 0 explained 0\n", "rtcm2rinex: write failed\n", "Again compare: write failed"),
    (2, "", "error: unrecognized subcommand 'compare'\n", "Refused compare: error: unrecognized subcommand 'compare'"),
    (0, "", "", "Again compare: ended with status 0"),
    (137, "lost 0", "", "Again compare: ended with status 137"),
]


class Answering(Program):
    """A program that gives one answer."""

    def __init__(self, answer: Ran) -> None:
        super().__init__("")
        self.answer = answer

    def ran(self, *_: object) -> Ran:
        return self.answer


def broken(folder: Path) -> Path:
    """A file that was gzipped and cut off behind its header."""
    path = folder / "broken.gz"
    path.write_bytes(gzip.compress(file_of(folder, "plain", {it: [BOTH] for it in range(50)}).read_bytes())[:-20])
    return path


def taken(answer: Ran) -> str:
    """What the scripts take from an answer."""
    try:
        it = differences(Answering(answer), Path("old"), Path("new"))
    except (Unlike, Again, Refused) as end:
        return f"{type(end).__name__} {end}"
    return f"{it.counts['lost']} {it.counts['changed']} {it.lines} {it.may_be_finer}"


def slips(old: Path, new: Path) -> str:
    """The places of the slips that are lost, or how the look at them ends."""
    try:
        return ", ".join(lost_first_slips(old, new))
    except Again as end:
        return str(end)


def rows(folder: Path) -> Iterator[tuple[str, object, object]]:
    """Of each row: what it is, what is found, and what is due."""
    for status, out, told, due in ANSWERS:
        yield f"status {status} with {out + told!r}", taken(Ran(status, out, told)), due
    for name, old, new, places in ROWS:
        due = ", ".join(f"2024 05 17 12 00 {int(it.split()[0]):2}.0000000 {it.partition(' ')[2]}" for it in places)
        yield name, slips(file_of(folder, "old", old), file_of(folder, "new", new)), due
    path = broken(folder)
    yield "a broken file", slips(path, file_of(folder, "new", {0: [NONE]}))[:len(f"can't read {path}")], f"can't read {path}"
    for seconds, step in STEPS:
        yield f"the step of {seconds}", Measure(file_of(folder, "steps", {it: [NONE] for it in seconds})).step, step
    for epochs, codes, *counts in KEPT:
        path = file_of(folder, "kept", dict(enumerate(epochs)))
        values = sum(it for _, it in counts[:2])
        yield f"the values of {epochs}", (Measure(path).values, count_values(path)), (values, values)
        yield f"the codes of {epochs}", " ".join(sorted(codes_with_values(path))), codes
        yield f"the counts of {epochs}", [counts_of_systems(path, it) for it in ("G", "RE", "E")], counts
    yield "the codes of a header", read_header(path).all_codes, ("1C", "2W", "R2P", "E8X", "E1C")


def main() -> int:
    with tempfile.TemporaryDirectory() as folder:
        return tally(rows(Path(folder)))


sys.exit(main())
