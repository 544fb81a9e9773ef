"""What is called after a file was made, as a program that copies it elsewhere.

NAME.after stands beside a file as long as the program is still to be called for it, so a call that failed, or that was never made
because the run was killed, is made by the next run.
"""

from __future__ import annotations

import re
import subprocess
from pathlib import Path
from typing import Iterable

from .ends import Again, Refused
from .places import form_of
from .placing import write_whole
from .settings import Settings

TOLD = 200  # characters of what the program told


def check_after(settings: Settings) -> None:
    """Refuses a program that is not there."""
    import shutil  # here, because most runs do without it, and it would take a part of their time

    program = settings.get("AFTER")
    if program and not shutil.which(program):
        raise Refused(f"AFTER={program} is no program")


def note_of(path: Path) -> Path:
    """The note of a file for which the program is still to be called."""
    return path.with_name(f"{path.name}.after")


def note_after(settings: Settings, paths: Iterable[Path]) -> None:
    """Notes that the program is to be called for these files."""
    if settings.get("AFTER"):
        for path in paths:
            write_whole(note_of(path), "")


def call_after(settings: Settings, paths: Iterable[Path]) -> None:
    """Calls the program for those files that have a note. It is one program, without a shell, and gets the whole name of the file."""
    program = settings.get("AFTER")
    for path in paths:
        form = form_of(path)
        if program and form.is_file() and note_of(path).exists():
            call(program, form)
            note_of(path).unlink(missing_ok=True)


def call(program: str, path: Path) -> None:
    """Calls the program for a file."""
    try:
        ran = subprocess.run([program, path.resolve()], stdin=subprocess.DEVNULL, stdout=subprocess.DEVNULL, stderr=subprocess.PIPE,
            check=False)
    except OSError as fault:
        raise Again(f"AFTER: {program}: {fault.strerror}") from None
    if ran.returncode:
        lines = ran.stderr.decode(errors="replace").strip().split("\n")
        told = re.sub(r"[^ -~]", "?", lines[-1])[:TOLD]
        raise Again(f"AFTER: {program} ended with status {ran.returncode} for {path.name}" + (f": {told}" if told else ""))
