"""What goes wrong, as exceptions. All of them are an `Error`, and each can be pickled, so that it may come from another process."""

from __future__ import annotations

from typing import TYPE_CHECKING, Sequence, Tuple

if TYPE_CHECKING:
    from .converting import AutoConversion

PREFIX = "rtcm2rinex: "


class Error(Exception):
    """The class of all exceptions of this package."""


class ProgramNotFound(Error):
    """The program is not there or does not run. `places` has what was looked for."""

    def __init__(self, why: str, places: Sequence[str]) -> None:
        super().__init__(why, tuple(places))
        self.why = why
        self.places: Tuple[str, ...] = tuple(places)

    def __str__(self) -> str:
        return self.why


class FormError(Error):
    """A text is not as the program writes it.

    `number` is the number of the first wrong line, counted from 1. `fault` says what is wrong. For a RINEX file it is one of the
    faults that `check` names, such as `C3 Value`.
    """

    def __init__(self, number: int, fault: str) -> None:
        super().__init__(number, fault)
        self.number = number
        self.fault = fault

    def __str__(self) -> str:
        return f"line {self.number}: {self.fault}"


class ProgramError(Error):
    """The program ended with a fault.

    `status` is its exit status, or the negative number of the signal that ended it. `line` is the fault line without the word
    `rtcm2rinex:`. `details` has the lines behind the fault line, and `told` all that stood on standard error.
    """

    def __init__(self, status: int, told: str) -> None:
        self.status = status
        self.told = told
        self.line, self.details = fault_line(status, told)
        super().__init__(status, told)

    def __str__(self) -> str:
        return "\n".join([f"status {self.status}: {self.line}", *self.details])


class WorkError(ProgramError):
    """Status 1: the work is not done, or only in part, as when a file cannot be opened or a disk is full.

    The status is negative if a signal ended the program.
    """


class WordsError(ProgramError):
    """Status 2: an option has a value that the program refuses."""


class FileError(ProgramError):
    """Status 3 of `quality`, `cut` and `label`: they read a file that is not as the program writes it, or that lacks a system.

    `number` is the number of the first wrong line, and `fault` what is wrong with it, such as `C3 Value`. Where no line is wrong,
    `number` is 0, and `line` says what the file lacks.
    """

    def __init__(self, status: int, told: str) -> None:
        super().__init__(status, told)
        place, _, self.fault = self.line.partition(": ")
        number = place[len("line ") :]
        self.number = int(number) if number.isdecimal() else 0


class CapturesError(ProgramError):
    """Status 3 of `auto`: no file can be made from the captures. `line` says why, and `details` name the captures or stations."""


class NoRecordError(CapturesError):
    """Status 3 of `auto`: a file was made, but it is a header without records. `conversion` has this file and the report."""

    def __init__(self, status: int, told: str, conversion: AutoConversion) -> None:
        super().__init__(status, told)
        self.args = (status, told, conversion)
        self.conversion = conversion


def fault_line(status: int, told: str) -> Tuple[str, Tuple[str, ...]]:
    """The line of standard error that says what is wrong, and the lines behind it."""
    lines = [line for line in told.split("\n") if line]
    marks = [at for at, line in enumerate(lines) if line.startswith(PREFIX)]
    if marks:
        return lines[marks[-1]][len(PREFIX) :], tuple(line.strip() for line in lines[marks[-1] + 1 :])
    if lines and lines[0].startswith("error: "):
        return lines[0], tuple(lines[1:])
    if status < 0:
        return f"ended by signal {-status}", tuple(lines)
    return (lines[-1] if lines else "no word on standard error"), ()
