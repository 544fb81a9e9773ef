"""The program rtcm2rinex: where it is, and how a run of it ends."""

from __future__ import annotations

import os
import re
import subprocess
from pathlib import Path
from typing import NamedTuple, Optional, Sequence

from .ends import Again, Ended, Refused
from .settings import HERE, Settings

PASSING = r"busy|memory|temporarily"  # in what the system says of a program that another run may start
ENDED_BY_SIGNAL = (129, 130, 137, 143)  # as a shell tells SIGHUP, SIGINT, SIGKILL and SIGTERM
STARTS_NOT = 126  # as a shell tells a file that can't be run
LEAST_ROOM = 1 << 16  # bytes: so many the program writes at once


def find_program(settings: Settings) -> str:
    """The program that RTCM2RINEX names, else that of the checkout or package in which the scripts lie, else the one in PATH."""
    if named := settings.get("RTCM2RINEX"):
        found: Optional[str] = named
    elif os.access(HERE / "../bin/program", os.X_OK):
        ran = subprocess.run([HERE / "../bin/program", "--there"], stdin=subprocess.DEVNULL, stdout=subprocess.PIPE, text=True, check=False)
        found = ran.stdout.strip() if ran.returncode == 0 else None
    elif os.access(HERE / "../../../bin/rtcm2rinex", os.X_OK):
        first = HERE / "../../../lib/rtcm2rinex/rtcm2rinex"
        found = str(first if runs(first) else HERE / "../../../bin/rtcm2rinex")
    else:
        import shutil  # here, because most runs do without it, and it would take a part of their time

        found = shutil.which("rtcm2rinex")
    if not found or not os.access(found, os.X_OK) or os.path.isdir(found):
        raise Refused("there is no program rtcm2rinex")
    return found


def runs(program: Path) -> bool:
    """Whether the first program of a package runs here, so that none of its starts needs the script that looks for one that does."""
    try:
        return subprocess.run([program, "--version"], stdin=subprocess.DEVNULL, stdout=subprocess.DEVNULL, stderr=subprocess.DEVNULL,
            check=False).returncode == 0
    except OSError:
        return False


class Ran(NamedTuple):
    """A run that ended: its status as a shell tells it, and its two texts."""

    status: int
    out: str
    told: str

    @property
    def first(self) -> str:
        """The first line that it told."""
        return self.told.split("\n")[0]


class Program:
    """The program. A limit on the size of files ends it as a full disk does, and not by a signal."""

    def __init__(self, path: str) -> None:
        self.path = path

    def ran(self, words: Sequence[str], output: Optional[Path] = None, given: Optional[bytes] = None) -> Ran:
        """Runs the program with these words. `output` is a new file for its standard output, and `given` is its standard input, if it has one.
        What it tells comes by a pipe, because the reason of a full disk could not be written to the same disk."""
        if output is None:
            return self.started(words, subprocess.PIPE, given)
        with open(output, "wb") as file:
            return self.started(words, file.fileno(), given)

    def started(self, words: Sequence[str], out: int, given: Optional[bytes]) -> Ran:
        """Runs the program, whose standard output goes there."""
        try:
            ran = subprocess.run([self.path, *words], stdin=subprocess.DEVNULL if given is None else None, input=given, stdout=out,
                stderr=subprocess.PIPE, restore_signals=False, check=False)
        except OSError as fault:
            return Ran(STARTS_NOT, "", f"{self.path}: {fault.strerror}")
        status = ran.returncode if ran.returncode >= 0 else 128 - ran.returncode
        return Ran(status, (ran.stdout or b"").decode(errors="replace"), ran.stderr.decode(errors="replace"))

    def version(self) -> str:
        """Its version. A program that can't run is refused, unless it was killed, or memory was short."""
        ran = self.ran(["--version"])
        if ran.status == 0:
            return ran.out.rstrip("\n")
        told = ran.told[:200]
        is_passing = ran.status == 1 and told.startswith("rtcm2rinex: ") or re.search(PASSING, told.lower())
        if ran.status in ENDED_BY_SIGNAL or is_passing:
            raise Again(f"the program does not run: {told.rstrip()}")
        raise Refused(f"the program {self.path} does not run: status {ran.status} {ran.first[:200]}")

    def write(self, output: Path, words: Sequence[str]) -> str:
        """Runs a command that writes a file. Answers what it tells, which may be a report."""
        ran = self.ran(words, output)
        if ran.status == 0:
            return ran.told
        if ran.status == 3:
            with open(output, errors="replace") as file:
                raise Refused(f"{words[0]}: {file.read(1000)}{ran.told[:1000]}".rstrip())
        end = fault_of(words[0], ran)
        if ran.status == 1 and isinstance(end, Again) and is_full(output.parent):
            raise Again(f"{end}: no space left in {output.parent.parent}")
        raise end

    def fault_of_codes(self, options: Sequence[str]) -> str:
        """Why `convert` does not take these options, which begin with codes; nothing if it does. A second line says which codes a system
        has."""
        ran = self.ran(["convert", "--station", "0", "--near", "2024-05-17T00:00:00", "--made", "2024-05-17T00:00:00", "--marker", "M",
            *options, "--window", "2", os.devnull])
        more = ran.told.rstrip("\n").partition("\n\n")[0].split("\n")[1:]
        return f"codes {options[1]!r} are not those of `convert`: {'; '.join([of_program(ran), *more])}" if ran.status == 2 else ""


def fault_of(command: str, ran: Ran) -> Ended:
    """How a command ends the run if it did not do its work. Lines of a report are data, so of a report only the last line is told, and
    only if it is a fault line of the program."""
    last = ran.told.rstrip("\n").split("\n")[-1][:200]
    if ran.status == 1 and last == "rtcm2rinex: input does not end":
        return Refused(f"{command}: input does not end")
    if ran.status == 1 and last.startswith("rtcm2rinex: "):
        return Again(f"{command}: {last[len('rtcm2rinex: '):]}")
    if ran.status == 2:
        return Refused(f"{command}: {ran.first}")
    return Again(f"{command}: ended with status {ran.status}")


def is_full(folder: Path) -> bool:
    """Whether the disk of a folder has no room for another block."""
    room = os.statvfs(folder)
    return room.f_bavail * room.f_frsize < LEAST_ROOM


def of_program(ran: Ran) -> str:
    """The first line that it told, without its own name."""
    return re.sub(r"^(rtcm2rinex: )?(error: )?", "", ran.first)
