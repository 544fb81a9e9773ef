"""Runs `convert` and `summary` on captures of different lengths, and the other commands on inputs of two sizes, and asks how many
bytes they held at most; and `chart` on the file of the largest picture, and asks how many it has."""

from __future__ import annotations

import os
import re
import subprocess
import sys
from collections.abc import Iterable
from itertools import cycle, islice
from pathlib import Path

from largest import CODES as CHART_CODES
from largest import CHARACTERS, COLUMNS, filled, largest, largest_in_characters
from largest import SATELLITES as CHART_SATELLITES
from streams import NOON, RISING_AND_FALLING, SATELLITES, SIGNALS, capture, falling_epochs
from streams import falling_satellites, largest_1074, legacy, minutes, msm, of_templates, point
from streams import rising_and_falling, single_satellite, unread

OPTIONS = (
    "--station 2003 --near 2024-05-17T12:00:00 --made 2024-05-17T13:00:00 --marker BASE"
    " --codes 1C,2W,5X --window"
).split()
COUNTS = "frames other refused foreign taken repeat conflict late epochs".split()

# What docs/MANUAL.md says that each open epoch, each link and what is gathered takes.
CELL = 64
FEWEST_CELLS = 4
SATELLITE = 28
EPOCH = 176
# A scanner has room for two of the longest frames, and for the checksums of their prefixes.
READ_AHEAD, SCANNED = 32_768, 2 * 1_029 + 4 * (2 * 1_029 + 1)
LINK = 62_000
GATHERED = 2 * 65_536
# What a conversion of one link holds besides: the manual says some 100 kB.
LEAST_BESIDE, MOST_BESIDE = 98_000, 103_000
# What a summary of one station holds: some 93 kB. `auto` holds as much as `convert`, and before that a survey of each capture, with
# the stations and one kind of messages.
LEAST_OF_SUMMARY, MOST_OF_SUMMARY = 88_000, 93_000
LEAST_OF_AUTO, MOST_OF_AUTO = -10_000, 2_000
CAPTURE = 2_500 + 15_000 + 8_500

# The sizes of an input: a vector that doubles has just the room that it needs. A file of as many
# records has a picture of 1,440 columns, of 11 seconds or of 22.
MIB = 1 << 20
INPUTS = {1: 11 * COLUMNS, 2: 22 * COLUMNS}
# What `quality` holds for the hours of the second one, which are nine, over those of the first one, which are five: a vector that
# doubles has room for 16 and for 8, and the text is made of another one.
QUALITY = 96 * (16 - 8) + 96 * (9 - 5)
# What the text of `quality` may hold beside: a vector that doubles has room for at most 4,096 bytes, because no text here is longer.
TEXT_OF_QUALITY = 4096

# What `compare` holds for the satellites and codes: the manual says some 60 kB; beside it the text, and what any command holds.
MOST_OF_COMPARISON = 70_000

# The bytes that a picture has at most.
MOST_OF_PICTURE = 75_000_000

# The cells of an epoch: a 1004 gives two of a satellite, a 1074 one of each signal.
CELLS = len(SATELLITES) * (2 + len(SIGNALS))
WINDOWS = (64, 1000, 4096)
# Of each kind the cells of the largest message, and how many satellites are kept of it; and what a record of all satellites and
# the three codes takes, twice.
LARGEST = {"1074": (64, 0), "1004": (62, 31)}
RECORD = 2 * (36 + 32 * (4 + 48 * 3))

# Epochs of two messages, of which one has eight cells and the other one four; and how many satellites the 1004 has.
UNLIKE = {
    "1074_first_with_more_cells": (2, msm(0, SATELLITES), legacy(0, SATELLITES[:2])),
    "1074_first_with_fewer_cells": (4, msm(0, SATELLITES[:2]), legacy(0, SATELLITES)),
    "1004_first_with_more_cells": (4, legacy(0, SATELLITES), msm(0, SATELLITES[:2])),
    "1004_first_with_fewer_cells": (2, legacy(0, SATELLITES[:2]), msm(0, SATELLITES)),
}
UNLIKE_CELLS = 8 + 4

# By which memory can come besides malloc and realloc.
OTHER_CALLS = (
    "calloc reallocarray memalign aligned_alloc posix_memalign valloc pvalloc mmap mmap64 mremap"
    " brk sbrk shmat"
).split()


class Failed(Exception):
    """A run that did not come to its counts."""


class Runs:
    """The program with the counting library under it, in a folder of its own."""

    def __init__(self, program: str, folder: str) -> None:
        self.program = program
        self.folder = Path(folder)
        self.environment = os.environ | {"LD_PRELOAD": "./held.so"}
        self.told = os.open(self.folder / "greatest", os.O_RDWR | os.O_CREAT)
        os.dup2(self.told, 9)

    def write(self, name: str, parts: Iterable[bytes]) -> None:
        with open(self.folder / name, "wb") as file:
            file.writelines(parts)

    def ran(self, words: list[str], stdin: str = "") -> subprocess.CompletedProcess[bytes]:
        os.ftruncate(9, 0)
        with open(self.folder / stdin if stdin else os.devnull, "rb") as given:
            return subprocess.run([self.program, *words], cwd=self.folder, env=self.environment, stdin=given,
                                  capture_output=True, pass_fds=[9])

    def held(self, window: int, links: list[str], want: dict[str, int], stdin: str = "") -> tuple[int, int]:
        """How many bytes are held at most, and from the fourth read on, by a run whose counts are
        these. What comes later may hide below what is held at the beginning."""
        ran = self.ran(["convert", *OPTIONS, str(window), *links], stdin)
        lines = [line.split() for line in ran.stderr.decode().splitlines()[-len(COUNTS) :]]
        counts = {words[0]: int(words[1]) for words in lines if words[1:] and words[1].isdigit()}
        if ran.returncode != 0 or counts != dict.fromkeys(COUNTS, 0) | want:
            words = " ".join(["convert", *links, f"--window {window}"])
            raise Failed(f"{words}: status {ran.returncode}, {counts}, and not {want}")
        told = os.pread(9, 40, 0)
        return int(told[:20]), int(told[20:])

    def most(self, window: int, links: list[str], want: dict[str, int], stdin: str = "") -> int:
        return self.held(window, links, want, stdin)[0]

    def of_command(self, words: list[str], begin: str = "") -> int:
        """How many bytes a command holds at most, which ends well, and whose output begins so."""
        ran = self.ran(words)
        if ran.returncode != 0 or not ran.stdout.startswith(begin.encode()):
            raise Failed(f"{' '.join(words)}: status {ran.returncode}, {ran.stdout[:40]!r}, and not {begin!r}")
        return int(os.pread(9, 20, 0))

    def of_summary(self, name: str) -> int:
        return self.of_command(["summary", name], f"bytes {(self.folder / name).stat().st_size}\n")

    def picture(self, name: str, *options: str) -> bytes:
        return self.ran(["chart", *options, name]).stdout


class Tests:
    """Each test by its name, and whether it passed."""

    def __init__(self) -> None:
        self.failed: list[bool] = []

    def passes(self, line: str, is_good: bool) -> None:
        print(f"{'ok' if is_good else 'FAILED'} {line}")
        self.failed.append(not is_good)

    def same(self, name: str, numbers: list[tuple[int, ...]]) -> None:
        """A test that passes where all numbers are the same."""
        shown = ", ".join(" ".join(map(str, it)) for it in numbers)
        self.passes(f"{name}: {shown}", len(set(numbers)) == 1)

    def within(self, name: str, number: int, least: int, most: int) -> None:
        self.passes(f"{name}: {number} ({least} to {most})", least <= number <= most)

    def end(self) -> None:
        print(f"{self.failed.count(False)} passed, {self.failed.count(True)} failed")
        sys.exit(any(self.failed))


# An hour, ten hours and a day, by the names of their files.
HOURS = {"01": 1, "10": 10, "24": 24}

# How many messages of one kind a file has, by the end of its name.
FEW_AND_MANY = {"a": 5_000, "b": 50_000}


def write_captures(runs: Runs) -> None:
    parts = list(minutes(60 * max(HOURS.values())))
    for name, hours in HOURS.items():
        runs.write(name, parts[: 60 * hours])
    first = capture(legacy(NOON, SATELLITES[:1]))
    foreign = capture(legacy(NOON, SATELLITES, 7))
    runs.write("single", [single_satellite(5000)])
    runs.write("msm", [of_templates(range(5000), msm(0, SATELLITES))])
    for name, (_, *messages) in UNLIKE.items():
        runs.write(name, [of_templates(range(5000), *messages)])
    before = NOON - 1000
    for kind, large in (("1074", largest_1074(before)), ("1004", legacy(before, (*range(1, 32),)))):
        runs.write(f"large_{kind}", [capture(large), single_satellite(4999)])
    for kind, message in (("1074", msm), ("1004", legacy)):
        frames = list(islice(rising_and_falling(message), max(FEW_AND_MANY.values())))
        for name, count in FEW_AND_MANY.items():
            runs.write(f"rising_and_falling_{kind}_{name}", frames[:count])
    runs.write("falling_satellites", [falling_satellites(5000)])
    runs.write("falling_epochs", [falling_epochs(5000)])
    stations = capture(point(), point(1006))
    others = capture(point(year=1), point(1006, year=1))
    epochs = single_satellite(100)
    for name, count in FEW_AND_MANY.items():
        runs.write(f"stations_{name}", [epochs, stations * count])
        runs.write(f"other_stations_{name}", [stations, others * count, epochs, (stations + others) * count])
        runs.write(f"late_{name}", [single_satellite(3), first * count])
        runs.write(f"foreign_{name}", [foreign] * count)
        runs.write(f"zeros_{name}", [bytes(100)] * count)
        runs.write(f"refused_and_other_frames_{name}", [unread()] * count)


def write_inputs(runs: Runs) -> None:
    """Of each size a file, a capture and hex text."""
    frames = single_satellite(5000)
    for size, records in INPUTS.items():
        content = (frames * (1 + size * MIB // len(frames)))[: size * MIB]
        runs.write(f"file_{size}", filled(size * MIB, records))
        runs.write(f"capture_{size}", [content])
        runs.write(f"hex_{size}", [content[: size * MIB // 2].hex().encode()])


def counts_of(hours: int, links: int) -> dict[str, int]:
    """Of so many hours, the same on each link."""
    seconds = 3600 * hours
    frames = 2 * seconds + 60 * hours
    taken = 2 * seconds + 1
    return {"frames": links * frames, "taken": taken, "repeat": links * frames - taken, "epochs": seconds}


# refuses: a `with_room` that never gives back a spare list of less room
# refuses: a frame that is refused or not taken and leaves memory taken
# refuses: a `Setup` with one more field that grows
def lengths_alike(runs: Runs, tests: Tests) -> None:
    """An hour, ten hours and a day: the same number of bytes."""
    lengths = "an hour, ten hours and a day"
    due = {name: counts_of(hours, 1) for name, hours in HOURS.items()}
    for window in (2, 64):
        held = [runs.held(window, ["stdin"], due[name], stdin=name) for name in HOURS]
        tests.same(f"window {window}, {lengths} of standard input", held)
        held = [runs.held(window, [name], due[name]) for name in HOURS]
        tests.same(f"window {window}, {lengths} of a file", held)
    held = [runs.held(64, [name, name], counts_of(hours, 2)) for name, hours in HOURS.items()]
    tests.same(f"{lengths} on two links", held)
    few_and_many = FEW_AND_MANY.items()
    late = [{"frames": 3 + n, "taken": 3, "epochs": 3, "late": n} for _, n in few_and_many]
    foreign = [{"frames": n, "foreign": n} for _, n in few_and_many]
    refused = [{"frames": 5 * n, "refused": 4 * n, "other": n} for _, n in few_and_many]
    # A 1005 and a 1006 that are late after more epochs than the window has places; and others than
    # those that were taken, first in conflict and then late, with repeats of what was taken.
    epochs = {"taken": 100, "epochs": 100}
    stations = [epochs | {"frames": 100 + 2 * n, "late": 2 * n} for _, n in few_and_many]
    others = [
        {"frames": 102 + 6 * n, "taken": 102, "epochs": 100}
        | {"conflict": 2 * n, "repeat": 2 * n, "late": 2 * n}
        for _, n in few_and_many
    ]
    changing = [{"frames": n, "taken": n, "epochs": n} for _, n in few_and_many]
    for kind, window, wants in (
        ("late", 2, late),
        ("foreign", 2, foreign),
        ("zeros", 2, [{}, {}]),
        ("refused_and_other_frames", 2, refused),
        ("stations", 64, stations),
        ("other_stations", 64, others),
        ("rising_and_falling_1074", 64, changing),
        ("rising_and_falling_1004", 64, changing),
    ):
        names = [f"{kind}_{name}" for name in FEW_AND_MANY]
        held = [runs.held(window, [name], want) for name, want in zip(names, wants)]
        tests.same(f"few and many of {kind.replace('_', ' ')}", held)


def room_of(cells: int, satellites: int) -> int:
    """The room of an epoch: for its cells, and for the satellites of a 1004 in which they rise."""
    return CELL * max(cells, FEWEST_CELLS) + SATELLITE * satellites


def within_of_window_2(tests: Tests, what: str, held: dict[int, int], room: int) -> None:
    """What each window holds over one of two epochs: for each epoch so much, and a little more."""
    for size in [*held][1:]:
        name = f"window {size} over window 2, of {what}"
        tests.within(name, held[size] - held[2], (size - 2) * room, (size - 2) * (room + EPOCH))


# refuses: a `first_room` that asks for more room, of one kind of message or of the other
# refuses: a `RecordLines` with room for some 5,000 bytes more than 32 lines need
# refuses: a `close` of an epoch that makes more room in the text that is kept
def grows_with_window(runs: Runs, tests: Tests) -> None:
    """Each epoch of the window takes so much for each of its cells, and a little more; and what is
    held besides the epochs does not grow with the window, and is no more than the manual says."""
    due = counts_of(10, 1)
    single = {"frames": 5000, "taken": 5000, "epochs": 5000}
    for name, cells, satellites, counts in (
        ("10", CELLS, len(SATELLITES), due),
        ("single", 2, 1, single),
        ("msm", len(SATELLITES) * len(SIGNALS), 0, single),
    ):
        held = {size: runs.most(size, [name], counts) for size in (2, *WINDOWS)}
        room = room_of(cells, satellites)
        for size in held:
            name = f"window {size} of epochs of {cells} cells, and what is held besides"
            most = size * (room + EPOCH) + MOST_BESIDE
            tests.within(name, held[size] - GATHERED, size * room + LEAST_BESIDE, most)
        within_of_window_2(tests, f"epochs of {cells} cells", held, room)


# refuses: a `join_other` or a `put_at` that makes room for more cells or epochs than are new
def grows_alike_out_of_order(runs: Runs, tests: Tests) -> None:
    """Satellites in falling order, and epochs in falling order, of which as many are taken as the
    window has places, take no more."""
    whole = {"frames": 10_000, "taken": 10_000, "epochs": 5000}
    for name, cells, satellites in (("falling_satellites", CELLS, 0), ("falling_epochs", 2, 1)):
        held = {}
        for size in (2, *WINDOWS):
            part = {"frames": 5000, "taken": size, "late": 5000 - size, "epochs": size}
            held[size] = runs.most(size, [name], whole if cells == CELLS else part)
        within_of_window_2(tests, name.replace("_", " "), held, room_of(cells, satellites))


# refuses: a `first_room` that counts the room of the epoch before in place of its cells
def large_epoch_before_small_ones(runs: Runs, tests: Tests) -> None:
    """It has room for its cells, and so has the epoch after it, whose cells are few: the one after
    that has not, since what counts is how many cells an epoch has, and not its room."""
    counts = {"frames": 5000, "taken": 5000, "epochs": 5000}
    small = runs.most(1000, ["single"], counts)
    for kind, (cells, satellites) in LARGEST.items():
        more = CELL * (cells - FEWEST_CELLS) + SATELLITE * max(0, satellites - 1)
        over = runs.most(1000, [f"large_{kind}"], counts) - small
        name = f"window 1000 over an epoch of a large {kind} and then small ones, over small ones"
        tests.within(name, over, 2 * more, 2 * more + RECORD)


# refuses: a `first_room` that asks for more room, of one kind of message or of the other
def kinds_of_unlike_cells(runs: Runs, tests: Tests) -> None:
    """Of each kind of message an epoch has room for the cells that it has, whatever the other kind
    has and whichever comes first."""
    counts = {"frames": 10_000, "taken": 10_000, "epochs": 5000}
    for name, (satellites, *_) in UNLIKE.items():
        held = {size: runs.most(size, [name], counts) for size in (2, 1000)}
        within_of_window_2(tests, f"a {name.replace('_', ' ')}", held, room_of(UNLIKE_CELLS, satellites))


def most_room(size: int) -> int:
    """For how many cells a window of this size has room at most, while one more epoch opens: each
    has room for its own, two of a satellite, and for as many as the epoch before it has."""
    cells = [2 * it for it in islice(cycle(RISING_AND_FALLING), 5000)]
    rooms = [max(pair) for pair in zip([cells[0], *cells], cells)]
    return max(sum(rooms[at : at + size + 1]) for at in range(len(rooms) - size))


# refuses: a `with_room` that takes a spare list of more room
def room_rises_and_falls(runs: Runs, tests: Tests) -> None:
    """What is wanted when an epoch opens is its room, whatever room closed epochs had."""
    counts = {"frames": 5000, "taken": 5000, "epochs": 5000}
    cells = most_room(1000) - most_room(2)
    for kind, (_, satellites) in LARGEST.items():
        room = CELL * cells + (SATELLITE * cells // 2 if satellites else 0)
        held = [runs.most(size, [f"rising_and_falling_{kind}_a"], counts) for size in (2, 1000)]
        name = f"window 1000 over window 2, of a {kind} of satellites that rise and fall"
        tests.within(name, held[1] - held[0], room, room + 998 * EPOCH)


# refuses: a list of links or a line that has much more room than it needs
# refuses: a link that is left out since it was named before
def grows_with_links(runs: Runs, tests: Tests) -> None:
    numbers = (1, 2, 5, 9, 16)
    held = {links: runs.most(64, ["01"] * links, counts_of(1, links)) for links in numbers}
    for links in numbers[1:]:
        tests.within(f"{links} links over one", held[links] - held[1], (links - 1) * (READ_AHEAD + SCANNED), (links - 1) * LINK)
    followed = runs.most(64, ["stdin"], counts_of(1, 1), stdin="01")
    gathered = held[1] - followed
    tests.within("gathered where no link is standard input", gathered, GATHERED, GATHERED)


# refuses: a `summarize` that keeps something of each frame
def summaries_alike(runs: Runs, tests: Tests) -> None:
    """Of an hour, ten hours and a day: the same, and no more than the manual says; and the same of
    few and of many frames that are not read, of stations, and of bytes outside of frames."""
    held = [(runs.of_summary(name),) for name in HOURS]
    tests.same("a summary of an hour, ten hours and a day", held)
    tests.within("a summary", held[0][0], LEAST_OF_SUMMARY, MOST_OF_SUMMARY)
    for kind in ("refused_and_other_frames", "foreign", "stations", "zeros"):
        held = [(runs.of_summary(f"{kind}_{name}"),) for name in FEW_AND_MANY]
        tests.same(f"a summary of few and many of {kind.replace('_', ' ')}", held)


# refuses: an `auto` that keeps something of each frame, or captures open beside those that are read
def captures_found_alike(runs: Runs, tests: Tests) -> None:
    """`auto` of an hour, ten hours and a day holds the same, as much as `convert`; and of a thousand captures that follow
    one another, a little for each."""
    for window in (2, 64):
        held = [(runs.of_command(["auto", *OPTIONS, str(window), name], "     3.05"),) for name in HOURS]
        tests.same(f"auto, window {window}, an hour, ten hours and a day", held)
        alone = runs.most(window, ["01"], counts_of(1, 1))
        tests.within(f"auto, window {window}, over convert", held[0][0] - alone, LEAST_OF_AUTO, MOST_OF_AUTO)
    names = [f"second_{number}" for number in range(1000)]
    for number, name in enumerate(names):
        runs.write(name, [capture(legacy(NOON + 1000 * number, SATELLITES[:1]))])
    held = [runs.of_command(["auto", *OPTIONS, "64", *names[:count]], "     3.05") for count in (1, 1000)]
    tests.within("auto of 1,000 captures over one", held[1] - held[0], 0, 999 * CAPTURE)


# refuses: a `cut` that keeps something of each record
# refuses: a command that holds its input twice, or in more room than it needs
def inputs_held_once(runs: Runs, tests: Tests) -> None:
    """Of an input that is longer each command holds as many bytes more, to the byte; and of hex text
    as many digits more, and half as many bytes that they are. `quality` has the room of its text beside."""
    for words, kind, more in (
        ("check", "file", MIB),
        ("cut --every 1", "file", MIB),
        ("cut --every 30", "file", MIB),
        ("cut --from 2024-06-17T00:00:00", "file", MIB),
        ("cut --systems G", "file", 2 * MIB),
        ("chart", "file", MIB),
        ("chart --text", "file", MIB),
        ("quality", "file", MIB + QUALITY),
        ("quality --lines", "file", MIB + QUALITY),
        ("quality --json", "file", MIB + QUALITY),
        ("label --blank", "file", MIB),
        ("label --observer me", "file", MIB),
        ("show", "capture", MIB),
        ("show --hex", "hex", 2 * MIB + MIB // 2),
    ):
        held = [runs.of_command([*words.split(), f"{kind}_{size}"]) for size in INPUTS]
        room = TEXT_OF_QUALITY if words.startswith("quality") else 0
        tests.within(f"{words} of 2 MiB over 1 MiB", held[1] - held[0], more, more + room)
    held = [runs.of_command(["compare", f"file_{size}", f"file_{size}"], "lost 0 changed 0 explained 0\n") for size in INPUTS]
    tests.within("compare of 2 MiB over 1 MiB", held[1] - held[0], 2 * MIB, 2 * MIB)
    tests.within("compare of 1 MiB beside both inputs", held[0] - 2 * MIB, 0, MOST_OF_COMPARISON)


# refuses: a `chart_text` or a `chart_svg` that gives up at a large picture
# refuses: a byte after a large picture
def largest_picture(runs: Runs, tests: Tests) -> None:
    """Each mark is in each column: of each satellite a slip, a half cycle, a strength and of each code a missing phase; but in the
    first one the slips are rises, and in the last one no epoch is missing. In characters the picture is compared whole."""
    runs.write("largest", largest())
    picture = runs.picture("largest")
    bands = picture.split(b"<title>missing epochs</title>")[0]
    kinds = tuple(len(re.findall(rb"M\d+ " + begin, bands)) for begin in (b"20l", b"5l9", b"8l6", b"10H", b"10v"))
    lines = CHART_SATELLITES * len(CHART_CODES)
    # of the first code a strength for each column, of the others one run
    strengths = CHART_SATELLITES * COLUMNS + lines - CHART_SATELLITES
    tests.same("marks of the largest picture", [kinds, (lines * (COLUMNS - 1), lines, lines * COLUMNS, strengths, lines)])
    tests.within("bytes of the largest picture", len(picture), 0, MOST_OF_PICTURE)
    tests.passes("the end of the largest picture", picture.endswith(b"\n</g>\n</svg>\n"))
    runs.write("largest_in_characters", largest(CHARACTERS))
    picture = runs.picture("largest_in_characters", "--text", "--columns", "400")
    tests.passes("the largest picture in characters", picture == largest_in_characters())


def main() -> None:
    program, folder = sys.argv[1:]
    tests = Tests()
    content = Path(os.environ.get("PROGRAM_FILE", program)).read_bytes()
    others = [name for name in OTHER_CALLS if b"\0%b\0" % name.encode() in content]
    tests.within("calls by which the count would miss memory", len(others), 0, 0)
    runs = Runs(program, folder)
    write_captures(runs)
    write_inputs(runs)
    for part in (
        lengths_alike,
        grows_with_window,
        grows_alike_out_of_order,
        large_epoch_before_small_ones,
        kinds_of_unlike_cells,
        room_rises_and_falls,
        grows_with_links,
        summaries_alike,
        captures_found_alike,
        inputs_held_once,
        largest_picture,
    ):
        try:
            part(runs, tests)
        except Failed as failed:
            tests.passes(str(failed), False)
    tests.end()


if __name__ == "__main__":
    main()
