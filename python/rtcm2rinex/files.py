"""What the program does with a RINEX file: `check`, `cut` and `label`."""

from __future__ import annotations

import re
from dataclasses import dataclass
from pathlib import Path
from typing import Dict, Optional

from .faults import FileError, FormError
from .inputs import Input, Name
from .program import Location, run
from .words import Metres, Time, Value, gps_word, metre_word, option_words
from .writing import Written, output_of

VALID = re.compile(r"valid: (\d+) epochs, (\d+) satellite lines\n", re.ASCII)
WRONG = re.compile(r"line (\d+): (C\d \w+)\n", re.ASCII)
CUT = re.compile(r"records (\d+) written (\d+)\n", re.ASCII)


@dataclass(frozen=True)
class Check:
    """What `check` says of a file. It is true if the file is exactly as `convert` writes it.

    A valid file has `epochs` and `satellite_lines`. Of another file `line` is the number of the first wrong line, and `fault` says what
    is wrong with this line, such as `C3 Value`.
    """

    valid: bool
    epochs: Optional[int] = None
    satellite_lines: Optional[int] = None
    line: Optional[int] = None
    fault: Optional[str] = None

    def __bool__(self) -> bool:
        return self.valid


@dataclass(frozen=True)
class Part(Written):
    """A part of a file. `records` is how many records `cut` read, and `written` how many of them it wrote."""

    records: int
    written: int


def check(file: Input, *, program: Optional[Location] = None) -> Check:
    """Says whether a file is exactly as `convert` writes it. `file` is a name or an open binary file.

    A wrong file is an answer and no exception. Raises `WorkError` if the file cannot be read.
    """
    text = run(program, ["check"], [file], accepted=(0, 3)).text()
    if match := VALID.fullmatch(text):
        return Check(True, epochs=int(match[1]), satellite_lines=int(match[2]))
    if match := WRONG.fullmatch(text):
        return Check(False, line=int(match[1]), fault=match[2])
    raise FormError(1, f"{text!r} is no line of check")


def cut(file: Input, *, from_: Optional[Time] = None, until: Optional[Time] = None, every: Optional[int] = None,
        systems: Optional[str] = None, output: Optional[Name] = None, force: bool = False,
        program: Optional[Location] = None) -> Part:
    """Copies a span of time, every Nth second, or some systems. Such a second also shows the slips since the one before.

    Records from the GPS time `from_` on and before the GPS time `until` are copied, and with `every` those at whole multiples of so
    many seconds. A time is a `datetime` or a text such as `2024-05-17T12:00:00`. With `systems`, which has their letters, as in `GE`,
    only their codes and satellites are copied. The part goes to `output`, or else into `text` of the result. A file that is there is
    replaced only with `force`.

    Raises `FileError` if the file is not as the program writes it or has no code of one of `systems`, and `WorkError` or `WordsError`
    for other faults.
    """
    words = ["cut", *option_words({"from": gps_word(from_), "until": gps_word(until), "every": every, "systems": systems})]
    with output_of(output, force, [file]) as written:
        ran = run(program, words, [file], out=written, third=FileError)
        match = CUT.fullmatch(ran.told)
        if match is None:
            raise FormError(1, f"{ran.told!r} has no counts of cut")
    return Part(None if output is not None else ran.out, None if output is None else Path(output), int(match[1]), int(match[2]))


def label(file: Input, *, blank: bool = False, run_by: Optional[str] = None, marker_number: Optional[str] = None,
          observer: Optional[str] = None, agency: Optional[str] = None, receiver_number: Optional[str] = None,
          receiver_type: Optional[str] = None, receiver_version: Optional[str] = None, antenna_number: Optional[str] = None,
          antenna_type: Optional[str] = None, delta_height: Optional[Metres] = None, delta_east: Optional[Metres] = None,
          delta_north: Optional[Metres] = None, interval: bool = False, last: bool = False, output: Optional[Name] = None,
          force: bool = False, program: Optional[Location] = None) -> Written:
    """Copies a file, and gives its header these fields and no others. With `blank` the file is again as `convert` wrote it.

    A text has up to 20 printable ASCII characters, or as `agency` up to 40. The offsets of the antenna are in metres (m), as a number,
    which is rounded to 0.0001 m, or as a text such as `+1.5000`. `interval` and `last` write lines with the interval of the records and
    the time of the last one, if the file has two records, or one. The copy goes to `output`, or else into `text` of the result. A file
    that is there is replaced only with `force`.

    Raises `FileError` if the file is not as the program writes it, and `WorkError` or `WordsError` for other faults.
    """
    fields: Dict[str, Value] = {"blank": blank, "run_by": run_by, "marker_number": marker_number, "observer": observer, "agency": agency,
        "receiver_number": receiver_number, "receiver_type": receiver_type, "receiver_version": receiver_version,
        "antenna_number": antenna_number, "antenna_type": antenna_type, "delta_height": metre_word(delta_height),
        "delta_east": metre_word(delta_east), "delta_north": metre_word(delta_north), "interval": interval, "last": last}
    with output_of(output, force, [file]) as written:
        ran = run(program, ["label", *option_words(fields)], [file], out=written, third=FileError)
    return Written(None if output is not None else ran.out, None if output is None else Path(output))
