"""How a run ends: its status, and what it says before."""

from __future__ import annotations

import io
import os
import signal
import sys
from typing import Callable, Sequence

DONE, ALARM, NOTHING, REFUSED, AGAIN = 0, 1, 3, 4, 75

class Ended(Exception):
    """A run ends before its work is done. The text says why, and `report` is that of the conversion if there was one."""

    status = AGAIN
    report = ""
    kept = ""
    is_noted = False

    def told(self) -> str:
        """What standard error says."""
        return str(self)


class NoCaptures(Ended):
    """A span has no captures."""

    status = NOTHING


class Refused(Ended):
    """Another run does not mend the cause. `shown` is printed beside it, and `kept` goes to the file NAME.refused. It may be excused if a
    capture can't be read now that would mend it."""

    status = REFUSED
    may_be_excused = True

    def __init__(self, why: str, shown: str = "", kept: str = "") -> None:
        super().__init__(why)
        self.shown, self.kept = shown, kept

    def told(self) -> str:
        """The same with the word by which all refusals begin."""
        return f"refused: {self}" + (f"\n{self.shown}" if self.shown else "")


class Again(Ended):
    """Another run may mend the cause, as a full disk."""

    def told(self) -> str:
        """The same with what to do."""
        return f"{self}; try again"


class Stopped(Again):
    """A signal told the run to end, so nothing else is begun."""


def blamed(path: str, why: str) -> Ended:
    """How a write that failed ends the run. Another run does not mend a missing permission."""
    return Again(why) if os.access(path, os.W_OK) else Refused(f"{why}: no permission")


def say(name: str, text: str) -> None:
    """Says a line on standard error. If that is a file on a full disk, the status must do."""
    try:
        print(f"{name}: {text}", file=sys.stderr, flush=True)
    except OSError:
        os.dup2(os.open(os.devnull, os.O_WRONLY), sys.stderr.fileno())  # so that the interpreter does not write it once more


def run_script(name: str, main: Callable[[Sequence[str]], int], doc: str, usage: str) -> None:
    """Runs the main function of a script with the words of the command line, and ends with its status.

    `doc` is the text of --help. A word that `main` does not know raises a ValueError, and then the usage is told.
    """
    for it in (signal.SIGHUP, signal.SIGINT, signal.SIGTERM):
        signal.signal(it, end_by_signal)
    if isinstance(sys.stdout, io.TextIOWrapper):
        sys.stdout.reconfigure(errors="backslashreplace")  # of a name that is no UTF-8
    sys.exit(status_of(name, main, doc, usage))


def end_by_signal(number: int, _frame: object) -> None:
    """Ends the run where it is. What it began is removed on the way out."""
    signal.signal(number, signal.SIG_IGN)
    raise Stopped("told to end")


def status_of(name: str, main: Callable[[Sequence[str]], int], doc: str, usage: str) -> int:
    """Runs the main function, and says why it ended early. A fault of the system is worth another try."""
    try:
        if {"-h", "--help"} & set(sys.argv[1:]):
            print(doc.strip())
            status = DONE
        else:
            status = main(sys.argv[1:])
        sys.stdout.flush()
        return status
    except Usage:
        say(name, f"refused: usage: {usage}")
        return REFUSED
    except Ended as end:
        say(name, end.told())
        return end.status
    except OSError as fault:
        os.dup2(os.open(os.devnull, os.O_WRONLY), sys.stdout.fileno())  # as in `say`
        if not isinstance(fault, BrokenPipeError):
            say(name, f"{fault.filename or 'standard output'}: {fault.strerror}; try again")
        return AGAIN


class Usage(Exception):
    """A word that the command does not know."""
