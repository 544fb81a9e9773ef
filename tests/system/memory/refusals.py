"""Runs the program on command lines: with each growth of memory refused in turn, on a small stack, and in little address space."""

from __future__ import annotations

import os
import sys
from collections.abc import Iterator
from dataclasses import dataclass
from datetime import datetime, timedelta
from pathlib import Path
from typing import NamedTuple

from station import date
from streams import SATELLITES, legacy, of_templates, rare_messages, single_satellite, split_epochs

LIBRARY = "./refuse.so"
OUT_OF_MEMORY = b"rtcm2rinex: out of memory\n"
COUNTS = 9  # the lines at the end of a report
NEWLINE = b"\n"
TESTS = Path(__file__).resolve().parents[2]
STACK = 128  # kB, as docs/MANUAL.md says
# kB of address space: from twice what the program and the C library take, some 3,000, to twice what the file `long` of 10 MB needs.
SPACES = range(6_000, 40_000, 2_000)


class Ran(NamedTuple):
    """How a run ended: its status, or minus the signal that ended it."""

    status: int
    out: bytes
    err: bytes
    refusals: int
    made: list[bytes] = []  # the files whose names begin with `made`


def all_but_counts(whole: Ran, ran: Ran) -> str | None:
    """What is wrong with a conversion whose last growth is refused, that for the counts."""
    lines = whole.err.splitlines(keepends=True)[:-COUNTS]
    if ran.out != whole.out:
        return f"{len(ran.out)} bytes are out and not all {len(whole.out)}"
    if ran.err != b"".join(lines) + OUT_OF_MEMORY:
        return f"{ran.err.count(NEWLINE)} lines are told and not all but the counts"
    return None


# refuses: what was gathered and is let go if a conversion breaks off
def as_followed(followed: Ran, ran: Ran) -> str | None:
    """What is wrong with a conversion of a file in which a growth is refused, where `followed` is the
    same of standard input, of which each write goes straight on."""
    if ran.out != followed.out:
        return f"{len(ran.out)} bytes are out and not {len(followed.out)}"
    if ran.err != followed.err:
        return f"{ran.err.count(NEWLINE)} lines are told and not {followed.err.count(NEWLINE)}"
    return None


class Program:
    """The program with the refusing library under it; its words name files of the folder."""

    def __init__(self, path: str, folder: str) -> None:
        self.path = path
        os.chdir(folder)

    def run(self, words: list[str], given: str, refused: str, limit: str = "") -> Ran:
        """`refused` is the number of the refused growth, with a `+` where all later ones are too;
        `limit` has the words of `ulimit`, if there is one of ours."""
        environment = {"LD_PRELOAD": LIBRARY, "REFUSED_GROWTH": refused}
        new = os.O_WRONLY | os.O_CREAT | os.O_TRUNC
        streams = [(os.POSIX_SPAWN_OPEN, 0, given, os.O_RDONLY, 0)]
        for descriptor, name in ((1, "out"), (2, "err"), (9, "refusals")):
            streams.append((os.POSIX_SPAWN_OPEN, descriptor, name, new, 0o600))
        path, command = self.path, ["rtcm2rinex", *words]
        if limit:
            limited = f'ulimit {limit} && export LD_PRELOAD={LIBRARY} && exec "$0" "$@"'  # which may be for another machine than sh is
            path, command = "/bin/sh", ["sh", "-c", limited, self.path, *words]
            del environment["LD_PRELOAD"]
        for name in Path().glob("made*"):
            name.unlink()
        child = os.posix_spawn(path, command, environment, file_actions=streams)
        status = os.waitstatus_to_exitcode(os.waitpid(child, 0)[1])
        out, err = Path("out").read_bytes(), Path("err").read_bytes()
        return Ran(status, out, err, os.stat("refusals").st_size, [it.read_bytes() for it in Path().glob("made*")])


@dataclass
class Scene:
    """A command line, the status that is due, and what standard input is."""

    words: list[str]
    status: int = 0
    given: str = os.devnull
    # Whether clap looks for a word like one of these. What it can't look at with refused memory it goes on without.
    looks: bool = False
    # The link of a conversion of one file, which is tried as standard input too.
    link: str = ""

    def fault(self, whole: Ran, ran: Ran, with_later: bool) -> str | None:
        """What is wrong with a run in which growth is refused."""
        if ran.refusals == 0:
            return None if ran == whole else "no refusal was met, and the run is another one"
        if self.looks and not with_later and ran[:3] == whole[:3]:
            return None
        told = ran.err.removesuffix(OUT_OF_MEMORY)
        if ran.status != 1 or told == ran.err:
            return f"status {ran.status}, {ran.err[-60:]!r}"
        if not whole.out.startswith(ran.out):
            return "what is out is no prefix"
        if not whole.err.startswith(told) or told and not told.endswith(b"\n"):
            return "what is told is no prefix"
        return "a file is left" if ran.made else None


class Sweep:
    """One scene with its growths refused in turn."""

    def __init__(self, program: Program, scene: Scene) -> None:
        self.program = program
        self.scene = scene
        self.whole = program.run(scene.words, scene.given, "0")
        self.met: dict[int, Ran] = {}
        self.faults: list[str] = []

    def meets(self, number: int, with_later: bool = False) -> bool:
        """Whether a run met the refusal of this growth; the run is judged."""
        refused = f"{number}+" if with_later else f"{number}"
        ran = self.program.run(self.scene.words, self.scene.given, refused)
        fault = self.scene.fault(self.whole, ran, with_later)
        if fault is not None:
            self.faults.append(f"with growth {refused} refused: {fault}")
        if ran.refusals > 0 and not with_later:
            self.met[number] = ran
        return ran.refusals > 0

    def numbers(self) -> Iterator[int]:
        """The first hundred, and then fewer and fewer."""
        number = 1
        while number < 100_000:
            yield number
            number += max(1, (number - 84) // 16)

    def growths(self) -> int:
        """How many there are. All of the first hundred and of the last twenty are refused."""
        most = 0
        for number in self.numbers():
            if not self.meets(number):
                break
            most = number
        low, high = most, number
        while high - low > 1:
            middle = (low + high) // 2
            low, high = (middle, high) if self.meets(middle) else (low, middle)
        for number in range(max(most + 1, low - 19), low):
            if not self.meets(number):
                self.faults.append(f"growth {number} isn't met, and {low} is")
        return low

    def keeps(self, growths: int) -> None:
        """What a conversion wrote before is out and told, whether it was gathered or not. Of a file
        memory is also taken for its name and to gather, all before the first read."""
        last = all_but_counts(self.whole, self.met[growths])
        if last is not None:
            self.faults.append(f"with the last growth refused: {last}")
        if not self.scene.link:
            return
        words = [*self.scene.words[:-1], "stdin"]
        followed = Sweep(self.program, Scene(words, given=self.scene.link))
        before = growths - followed.growths()
        self.faults += followed.faults
        for number, ran in self.met.items():
            if number <= before:
                other = Ran(1, b"", OUT_OF_MEMORY, 1)
            else:
                other = self.program.run(words, self.scene.link, f"{number - before}")
            fault = as_followed(other, ran)
            if fault is not None:
                self.faults.append(f"with growth {number} refused, beside standard input: {fault}")

    def run(self) -> bool:
        """Prints how it went."""
        name = name_of(self.scene.words)
        if self.whole.status != self.scene.status:
            print(f"FAILED {name}: status {self.whole.status} without refusal")
            return False
        growths = self.growths()
        if growths > 0 and self.scene.words[:1] == ["convert"] and self.scene.status == 0:
            self.keeps(growths)
        # With all later growths refused too.
        for number in range(1, growths + 1, max(1, growths // 12)):
            if not self.meets(number, with_later=True):
                self.faults.append(f"growth {number} isn't met")
        if growths == 0 or self.faults:
            why = self.faults[0] if self.faults else "no growth"
            print(f"FAILED {name}: {why} ({len(self.faults)} runs)")
            return False
        print(f"ok {name}: {growths} growths")
        return True


# refuses: a search for a place that calls itself, or a body that takes much of the stack for what few messages need
def fits_stack(program: Program, scene: Scene) -> bool:
    """Prints whether the run on a small stack is the run without that limit."""
    whole = program.run(scene.words, scene.given, "0")
    ran = program.run(scene.words, scene.given, "0", f"-s {STACK}")
    if ran == whole:
        print(f"ok on a stack of {STACK} kB: {name_of(scene.words)}")
    else:
        print(f"FAILED on a stack of {STACK} kB: {name_of(scene.words)}: status {ran.status}")
    return ran == whole


def fits_space(program: Program, scene: Scene) -> bool:
    """Prints whether each run in little address space is the run without that limit, or says that
    memory is refused. There are runs of both kinds."""
    whole = program.run(scene.words, scene.given, "0")
    good, faults = 0, []
    for space in SPACES:
        ran = program.run(scene.words, scene.given, "0", f"-v {space}")
        if ran == whole:
            good += 1
            continue
        fault = scene.fault(whole, ran._replace(refusals=1), with_later=True)
        if fault is not None:
            faults.append(f"in {space} kB: {fault}")
    refused = len(SPACES) - good
    if faults or good == 0 or refused == 0:
        why = faults[0] if faults else f"{good} good runs, {refused} refused"
        print(f"FAILED in little address space: {name_of(scene.words)}: {why} ({len(faults)} runs)")
        return False
    print(f"ok in little address space: {name_of(scene.words)}")
    return True


OPTIONS = {"station": "2003", "near": "2024-05-17T12:00:00", "made": "2024-05-17T13:00:00", "marker": "BASE", "codes": "1C,2W,5X"}


def convert(*links: str, **options: str) -> list[str]:
    """A conversion of the station of the examples, with other values of some options."""
    given = (OPTIONS | options).items()
    return ["convert", *(word for name, value in given for word in (f"--{name}", value)), *links]


def of_file(link: str, **options: str) -> Scene:
    """A conversion of one file."""
    return Scene(convert(link, **options), link=link)


AUTO = ["auto", "--made", OPTIONS["made"]]


def name_of(words: list[str]) -> str:
    """The words without the options that all conversions have."""
    name = " ".join(words)
    for option, value in OPTIONS.items():
        name = name.replace(f" --{option} {value}", "")
    return name[:100] or "no word"


def slips(count: int) -> Iterator[str]:
    """A file with so many records a half minute apart, each before one with a slip."""
    yield from Path("examples/slip.rnx").read_text().splitlines(keepends=True)[:14]
    noon = datetime(2024, 5, 17, 12)
    for number in range(count):
        for second, digit in ((0, " "), (7, "1")):
            time = noon + timedelta(seconds=30 * number + second)
            yield f"> {time:%Y %m %d %H %M} {time.second:2}.0000000  0  1\n"
            yield f"G05  21085472.060 7 110804903.547{digit}7        45.000\n"


# refuses: after a failed write, a first part of the file or the report of another length, or the report before the file
def scenes() -> Iterator[Scene]:
    base, late = "examples/base.rtcm", "examples/late.rtcm"
    first, second = "examples/session_link1.rtcm", "examples/session_link2.rtcm"

    # Texts, and work that is done.
    for words in ("--help", "help convert", "--version", f"show {base}", f"summary {base}", "summary many"):
        yield Scene(words.split())
    for words in ("check examples/base.rnx", "chart examples/marks.rnx", "chart --text examples/marks.rnx"):
        yield Scene(words.split())
    for words in ("chart mixed", "chart --text mixed", "chart --text --systems EC mixed", "quality mixed"):
        yield Scene(words.split())
    for words in ("quality examples/marks.rnx", "quality --lines examples/marks.rnx", "quality --json examples/marks.rnx"):
        yield Scene(words.split())
    yield Scene(["show", "--hex", "stdin"], given="examples/arp1005.hex")
    # refuses: a search for a place that calls itself, or a body that takes much of the stack for what few messages need
    for words in ("show rare", "summary rare"):
        yield Scene(words.split())
    yield of_file("rare", window="4096")
    # refuses: a search or a `feed` that calls itself for each candidate
    for words in ("show preambles", "summary preambles"):
        yield Scene(words.split())
    yield of_file("preambles")
    # Of more text than is gathered, as of `slips`, each record takes memory.
    # refuses: a `cut` that writes something else if memory is refused
    for words in ("--every 30 examples/slip.rnx", "--from 2024-05-17T12:00:30 examples/slip.rnx", "--every 30 slips", "--systems G slips"):
        yield Scene(["cut", *words.split()])
    for words in ("--observer me examples/slip.rnx", "--blank slips"):
        yield Scene(["label", *words.split()])
    for words in ("--labels examples/slip.rnx examples/slip.rnx", "examples/slip_30s.rnx examples/slip.rnx"):
        yield Scene(["compare", *words.split()])
    yield of_file(base)
    yield of_file(late, window="2")
    yield Scene(convert("stdin", second, window="4"), given=first)
    yield Scene(convert(*[first, second] * 8))
    yield of_file("split", window="2")
    yield of_file("many", window="4096")
    # Of a longer file and a longer report than are gathered, each line takes memory.
    yield of_file("again", window="2")

    # Captures of one station, to standard output and to a file; the values that are found, and those that are not.
    yield Scene([*AUTO, "examples/dated.rtcm"])
    yield Scene([*AUTO, "--report", "--marker", "ROOF TOP", "-o", "made", "half", "later", "examples/dated.rtcm"])
    yield Scene([*AUTO, "--skip-empty", "--near", OPTIONS["near"], "--links-as-given", first, "slips", second])
    yield Scene([*AUTO, "--near", OPTIONS["near"], "--station", "2003", "rare"])
    # refuses: a search that calls itself for each candidate
    yield Scene([*AUTO, "--near", OPTIONS["near"], "--codes", "1C", "half", "preambles"], status=3)
    for words in (base, "slips", "half preambles", "differing", "--station 7 half", "--codes 5I -o made half"):
        yield Scene([*AUTO, *words.split()], status=3)
    yield Scene([*AUTO, "--station", "9", "nowhere"], status=1)

    # Work that isn't done.
    for words in (f"show --hex {base}", "show nowhere"):
        yield Scene(words.split(), status=1)
    yield Scene(convert(base, "nowhere"), status=1)
    for words in (f"check {base}", "check wrong", "chart wrong", f"cut --every 30 {base}", "quality wrong", f"label --blank {base}"):
        yield Scene(words.split(), status=3)
    for words in ("examples/slip.rnx wrong", "--json examples/slip.rnx examples/slip_30s.rnx"):
        yield Scene(["compare", *words.split()], status=3)

    # Words that are refused: by clap, and by us.
    for words in ("--hax a", "", "--near noon a", "--codes 9Z a", "--made noon a", "a stdin", "half half", "half examples"):
        yield Scene([*AUTO[:1], *words.split()], status=1 if words == "a stdin" else 2, looks="--hax" in words)
    for words in ("shew a", "show --hax a"):
        yield Scene(words.split(), status=2, looks=True)
    yield Scene(convert("a", windo="2"), status=2, looks=True)
    for words in ("", "show", "show a b", "show --hex --hex a", f"cut {base}", f"cut --until noon {base}"):
        yield Scene(words.split(), status=2)
    for words in (f"label {base}", f"label --delta-east 1 {base}", "compare stdin stdin", f"compare {base}"):
        yield Scene(words.split(), status=2)
    for near in ("noon", "1980-01-06T00:00:00"):
        yield Scene(convert("a", near=near), status=2)
    for option, value in (("station", "4096"), ("codes", "1C,9Z"), ("marker", " ")):
        yield Scene(convert("a", **{option: value}), status=2)
    for links in (["stdin", "stdin"], "abcdefghijklmnopq"):
        yield Scene(convert(*links), status=2)


# refuses: a command that ends by a signal in little address space
def scenes_of_space() -> Iterator[Scene]:
    """What holds a whole file."""
    for words in ("check", "chart", "chart --text", "cut --every 30", "cut --systems G", "quality", "label --blank"):
        yield Scene([*words.split(), "long"])
    yield Scene(["compare", "long", "examples/slip.rnx"])


def main() -> None:
    path, folder, examples, *names = sys.argv[1:]
    program = Program(path, folder)
    os.symlink(examples, "examples")
    Path("wrong").write_bytes(Path("examples/base.rnx").read_bytes().replace(b"45.000", b"45.100"))
    Path("mixed").write_bytes((TESTS / "program/mixed.rnx").read_bytes())
    Path("split").write_bytes(split_epochs())
    Path("many").write_bytes(single_satellite(4100))
    Path("rare").write_bytes(rare_messages())
    # The message of each epoch, and then once more that of the epoch which it closes.
    seconds = [it for second in range(1, 2_000) for it in (second, max(0, second - 2))]
    Path("again").write_bytes(of_templates(seconds, legacy(0, SATELLITES[:1])))
    # Candidates that fail, one behind another, and then bytes that begin none.
    Path("preambles").write_bytes(b"\xD3" * 100_000 + bytes(100_000))
    dated = Path("examples/dated.rtcm").read_bytes()
    Path("half").write_bytes(dated[:1500])
    Path("later").write_bytes(single_satellite(700))
    Path("differing").write_bytes(dated + date(day=60_440))
    Path("slips").write_text("".join(slips(2_000)))
    Path("long").write_text("".join(slips(60_000)))

    def wanted(all_scenes: Iterator[Scene]) -> list[Scene]:
        return [it for it in all_scenes if not names or name_of(it.words) in names]

    passed = [Sweep(program, scene).run() for scene in wanted(scenes())]
    passed += [fits_stack(program, scene) for scene in wanted(scenes())]
    passed += [fits_space(program, scene) for scene in wanted(scenes_of_space())]
    print(f"{passed.count(True)} passed, {passed.count(False)} failed")
    sys.exit(not passed or not all(passed))


if __name__ == "__main__":
    main()
