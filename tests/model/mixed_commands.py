"""`check`, `label`, `cut`, `quality` and `chart` on mixed files that chance makes, and `show` on such captures, beside the model.

    mixed_commands.py PROGRAM COUNT    so many changed files, a third as many labelled ones, and a tenth as many parts, as many
                                       with lines of their records, as many with some systems alone, as many whose numbers are
                                       told, as many that are drawn, and as many captures

The last line is 'N passed, M failed'.
"""

from __future__ import annotations

import sys
import tempfile
from os import chdir
from pathlib import Path
from random import Random
from typing import Iterator, NamedTuple

import kept_systems
import mixed_cases
import mixed_damages
import mixed_labels
import mixed_parts
import mixed_pictures
import mixed_qualities
import mixed_shown
import time_lines
from mixed_checker import mixed_fault
from mixed_tables import some_table
from parts import Part, part_of
from program import Program
from properties import ends_with
from systems import LETTERS, SATELLITES

END = b"END OF HEADER       \n"


class Due(NamedTuple):
    """A command on a text, and what is due of it."""

    words: list[str]
    text: bytes
    status: int
    out: bytes
    err: bytes


def fault_line(fault: tuple[int, str]) -> bytes:
    return b"line %d: %s\n" % (fault[0], fault[1].encode())


def counts(text: bytes) -> tuple[int, int]:
    """The records and the rows of a file."""
    lines = text.partition(END)[2].splitlines()
    records = sum(line.startswith(b">") for line in lines)
    return records, len(lines) - records


def checked(text: bytes) -> Due:
    fault = mixed_fault(text)
    if fault is not None:
        return Due(["check"], text, 3, fault_line(fault), b"")
    return Due(["check"], text, 0, b"valid: %d epochs, %d satellite lines\n" % counts(text), b"")


def checks(count: int) -> Iterator[Due]:
    """Of changed files, of those that were worked by hand, and of a file of each system alone."""
    rng = Random(mixed_damages.SEED)
    for _ in range(count):
        yield checked(mixed_damages.damaged_mixed(rng, some_table(rng).text))
    for case, _ in mixed_cases.HEADER_CASES + mixed_cases.RECORD_CASES:
        yield checked(mixed_cases.changed(case))
    for case, _ in mixed_cases.DOPPLER_CASES:
        yield checked(mixed_cases.changed_with_doppler(case))
    for letter in LETTERS:
        yield checked(mixed_cases.file_of_one(letter))
        yield checked(mixed_cases.with_doppler(mixed_cases.file_of_one(letter).decode()).encode())


def labels(count: int) -> Iterator[Due]:
    """The label is taken away, or the first wrong line is named."""
    rng = Random(mixed_labels.SEED)
    for _ in range(count):
        text, plain, fault = mixed_labels.some_text(rng)
        if fault is None:
            yield Due(["label", "--blank"], text, 0, plain, b"")
        else:
            yield Due(["label", "--blank"], text, 3, b"", fault_line(fault))


def cuts(count: int) -> Iterator[Due]:
    rng = Random(mixed_parts.SEED)
    for text, part in [*(mixed_parts.some_file(rng) for _ in range(count)), mixed_parts.a_day(rng), mixed_parts.all_satellites(rng)]:
        due = part_of(text, part).encode()
        told = b"records %d written %d\n" % (counts(text.encode())[0], counts(due)[0])
        if part.words() and not is_empty(part):
            yield Due(["cut", *part.words()], text.encode(), 0, due, told)


def is_empty(part: Part) -> bool:
    """Whether the part is refused, because it ends before it begins."""
    return part.since is not None and part.until is not None and part.since > part.until


def lines(count: int) -> Iterator[Due]:
    """Files with lines of their records, and parts of them."""
    rng = Random(time_lines.SEED)
    for _ in range(count):
        text, part = mixed_parts.some_file(rng)
        asked = rng.choice(((True, False), (False, True), (True, True)))
        told = time_lines.with_lines(text, *asked)
        words = [word for word, is_asked in zip(("--interval", "--last"), asked) if is_asked]
        yield Due(["label", *words], text.encode(), 0, told.encode(), b"")
        due = part_of(text, part)
        counted = b"records %d written %d\n" % (counts(text.encode())[0], counts(due.encode())[0])
        if part.words() and not is_empty(part):
            yield Due(["cut", *part.words()], told.encode(), 0, time_lines.with_lines(due, *asked).encode(), counted)


def kept(count: int) -> Iterator[Due]:
    """Parts with some systems alone, of files without and with lines of their records."""
    rng = Random(kept_systems.SEED)
    for file, part in (kept_systems.some_part(rng) for _ in range(count)):
        asked = rng.choice(((False, False), (True, False), (True, True)))
        words, text = ["cut", *part.words()], time_lines.with_lines(file, *asked).encode()
        absent = kept_systems.absent(file, part.systems)
        if is_empty(part):
            yield Due(words, text, 2, b"", b"rtcm2rinex: bad --until\n")
        elif absent is not None:
            yield Due(words, text, 3, b"", f"rtcm2rinex: the file has no codes of {absent}\n".encode())
        else:
            due = kept_systems.kept_part(file, part)
            read = counts(kept_systems.kept(file, part.systems).encode())[0]
            told = b"records %d written %d\n" % (read, counts(due.encode())[0])
            yield Due(words, text, 0, time_lines.with_lines(due, *asked).encode(), told)


def numbers(count: int) -> Iterator[Due]:
    """In the three forms, of files without and with lines of their records, and of one in which each satellite has a row."""
    rng = Random(mixed_qualities.SEED)
    files = [*(mixed_parts.some_file(rng)[0] for _ in range(count)), mixed_parts.all_satellites(rng)[0]]
    for text in files:
        told = rng.choice((text, time_lines.with_lines(text, True, True)))
        for words, due in (([], mixed_qualities.table), (["--lines"], mixed_qualities.lines), (["--json"], mixed_qualities.in_json)):
            yield Due(["quality", *words], told.encode(), 0, due(text).encode(), b"")


def some_choice(rng: Random, text: str) -> tuple[list[str], set[str] | None]:
    """The words that choose satellites, and these: all, those of some systems, or some of the file and others."""
    kind = rng.choice(("all", "systems", "satellites"))
    if kind == "all":
        return [], None
    if kind == "systems":
        letters = "".join(rng.sample(LETTERS, rng.randint(1, 4)))
        return ["--systems", letters], {name for name in SATELLITES if name[0] in letters}
    found = sorted({line[:3] for line in text.partition(END.decode())[2].splitlines() if line[0] != ">"})
    names = {*rng.sample(found, min(len(found), rng.randint(0, 3))), *rng.sample(SATELLITES, 2)}
    return ["--satellites", ",".join(names)], names


def charts(count: int) -> Iterator[Due]:
    """In characters and in SVG, of files without and with lines of their records, and of one in which each satellite has a row."""
    rng = Random(mixed_pictures.SEED)
    files = [*(mixed_parts.some_file(rng)[0] for _ in range(count)), mixed_parts.a_day(rng)[0], mixed_parts.all_satellites(rng)[0]]
    for text in files:
        told = rng.choice((text, time_lines.with_lines(text, True, True)))
        width = rng.choice((40, 80, 400, rng.randint(40, 400)))
        chosen, names = some_choice(rng, text)
        for form in ["--text", "--columns", str(width)], []:
            if not mixed_pictures.is_there(text, names):
                yield Due(["chart", *form, *chosen], told.encode(), 3, b"", b"rtcm2rinex: none of the chosen satellites is in the file\n")
            elif form:
                yield Due(["chart", *form, *chosen], told.encode(), 0, mixed_pictures.text_picture(text, width, names).encode(), b"")
            else:
                yield Due(["chart", *chosen], told.encode(), 0, mixed_pictures.svg_picture(text, names).encode(), b"")


def shows(count: int) -> Iterator[Due]:
    rng = Random(mixed_shown.SEED)
    for _ in range(count):
        text, options, due = mixed_shown.some_lines(rng)
        yield Due(["show", *options], text, 0, due, b"")


def main() -> None:
    path, count = str(Path(sys.argv[1]).resolve()), int(sys.argv[2])
    passed, failed = 0, 0
    with tempfile.TemporaryDirectory() as folder:
        chdir(folder)
        program = Program(path)
        files = (*checks(count), *labels(count // 3), *cuts(count // 10), *lines(count // 10), *kept(count // 10), *numbers(count // 10), *charts(count // 10))
        for number, due in enumerate((*files, *shows(count // 10))):
            differs = ends_with(program.on(due.text, *due.words), due.status, due.out, due.err)
            passed, failed = passed + (not differs), failed + bool(differs)
            if differs and failed <= 5:
                print(f"FAILED: {due.words} of mixed file {number}: {differs}")
        chdir("/")
    print(f"{passed} passed, {failed} failed")


if __name__ == "__main__":
    main()
