"""Where the program is, and how it is run."""

from __future__ import annotations

import os
import platform
import re
import shutil
import subprocess
from functools import lru_cache
from pathlib import Path
from typing import IO, Dict, List, NamedTuple, NoReturn, Optional, Sequence, Type, Union

from .faults import FormError, ProgramError, ProgramNotFound, WordsError, WorkError
from .inputs import Input, Inputs

NAME = "rtcm2rinex"
VARIABLE = "RTCM2RINEX"
CHECKOUT = Path(__file__).resolve().parents[2]
KINDS = ("linux-gnu", "baseline-linux-gnu", "linux-musl")  # of the programs in dist/ for a machine, the fastest first

Location = Union[str, "os.PathLike[str]"]


class Ran(NamedTuple):
    """How a run ended: its status, and what it wrote to standard output and to standard error."""

    status: int
    out: bytes
    told: str

    def text(self) -> str:
        """What it wrote to standard output, as text."""
        return self.out.decode(errors="surrogateescape")


def find_program(program: Optional[Location] = None) -> str:
    """Finds the program `rtcm2rinex`, and gives its path.

    The argument `program` comes first, and then the environment variable RTCM2RINEX. If neither is given, the program is looked for
    in the folder `dist/` of the checkout that this package lies in, which has one for each kind of machine, and then in the folders of
    PATH.

    Raises `ProgramNotFound` with all that was looked for.
    """
    for what, given in (("the argument", program), (f"the variable {VARIABLE}", os.environ.get(VARIABLE))):
        if given:
            if path := shutil.which(os.fspath(given)):
                return path
            raise ProgramNotFound(f"{what} names {os.fspath(given)}, which is no program that can be run", [os.fspath(given)])
    copies = [str(CHECKOUT / "dist" / f"{platform.machine()}-{kind}" / NAME) for kind in KINDS]
    for copy in copies:
        if shutil.which(copy) and does_run(copy):
            return copy
    if path := shutil.which(NAME):
        return path
    places = [*copies, *(os.path.join(folder, NAME) for folder in os.environ.get("PATH", os.defpath).split(os.pathsep))]
    raise ProgramNotFound(
        f"no program {NAME} that runs here is in these places: {', '.join(places)}. Name it by the argument program=PATH "
        f"or by the variable {VARIABLE}.",
        places,
    )


@lru_cache(maxsize=None)
def does_run(copy: str) -> bool:
    """Whether a program runs on this system, which may lack the C library or the processor that the program needs."""
    try:
        return subprocess.run([copy, "--version"], stdin=subprocess.DEVNULL, capture_output=True).returncode == 0
    except OSError:
        return False


def version(program: Optional[Location] = None) -> str:
    """Gives the version of the program, such as `0.6.0`."""
    text = run(program, ["--version"], []).text()
    match = re.fullmatch(rf"{NAME} (\S+)\n", text)
    if match is None:
        raise FormError(1, f"{text!r} is no line with a version")
    return match[1]


def start(program: Optional[Location], words: Sequence[str], inputs: Inputs, out: Union[int, IO[bytes]],
          is_apart: bool = False) -> subprocess.Popen[bytes]:
    """Starts the program on these inputs.

    A closed pipe and a full disk are then faults that the program tells, since their signals stay ignored, as in Python. A program
    that `is_apart` has a session of its own, so that Ctrl+C in a terminal interrupts Python alone.
    """
    command = [find_program(program), *words, *inputs.words]
    try:
        return subprocess.Popen(command, stdin=inputs.standard, stdout=out, stderr=subprocess.PIPE, pass_fds=inputs.passed,
            restore_signals=False, start_new_session=is_apart)
    except OSError as fault:
        raise ProgramNotFound(f"{command[0]} does not run: {fault.strerror}", [command[0]]) from fault


def run(program: Optional[Location], words: Sequence[str], given: Sequence[Input], *, out: Optional[IO[bytes]] = None,
        accepted: Sequence[int] = (0,), third: Type[ProgramError] = WorkError) -> Ran:
    """Runs the program to its end. Another status than these raises a fault, and status 3 the class `third`."""
    with Inputs(given) as inputs:
        process = start(program, words, inputs, subprocess.PIPE if out is None else out)
        try:
            inputs.begin()
            text, told = process.communicate()
        except BaseException:
            process.kill()
            process.wait()
            raise
        if process.returncode in (0, 3):
            inputs.finish()
    ran = Ran(process.returncode, text or b"", told.decode(errors="surrogateescape"))
    if ran.status not in accepted:
        fail(ran.status, ran.told, third)
    return ran


def fail(status: int, told: str, third: Type[ProgramError] = WorkError) -> NoReturn:
    """Raises the fault of this status."""
    classes: Dict[int, Type[ProgramError]] = {2: WordsError, 3: third}
    raise classes.get(status, WorkError)(status, told)


def lines_of(text: str) -> List[str]:
    """The lines of a text of the program, each of which ends in a line feed."""
    return text.split("\n")[:-1] if text.endswith("\n") else text.split("\n")
