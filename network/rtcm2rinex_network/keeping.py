"""Hourly captures that are written while their bytes come."""

from __future__ import annotations

import fcntl
import os
import signal
import time
from pathlib import Path
from typing import Optional

from .ends import Again, Refused
from .placing import is_other
from .settings import HOUR, Settings
from .times import stamp_of

PIECE = 65_536  # bytes


def gps_hour(settings: Settings) -> int:
    """The begin of the hour of now, in which what comes is kept."""
    return int(time.time() + settings.leap_seconds) // HOUR * HOUR


def write_all(file: int, piece: bytes) -> None:
    """Writes all of these bytes."""
    left = memoryview(piece)
    while left:
        left = left[os.write(file, left):]


class Keeper:
    """The hourly captures of a folder, for one at a time who keeps it. What is there of a capture stays, and what comes is written after
    it at once."""

    def __init__(self, folder: Path, settings: Settings) -> None:
        self.folder, self.settings = folder, settings
        self.hour: Optional[int] = None
        self.file = -1
        try:
            self.lock = os.open(folder, os.O_RDONLY)
            fcntl.flock(self.lock, fcntl.LOCK_EX | fcntl.LOCK_NB)
        except BlockingIOError:
            raise Again(f"another one keeps {folder}") from None
        except (FileNotFoundError, NotADirectoryError):
            raise Refused(f"there is no folder {folder}") from None
        except OSError as fault:
            raise Again(f"{folder}: {fault.strerror}") from None

    def keep(self, piece: bytes) -> None:
        """Writes what came now."""
        try:
            if (hour := gps_hour(self.settings)) != self.hour:
                if self.file >= 0:
                    os.close(self.file)
                path = self.folder / f"{stamp_of(hour)}.rtcm"
                if is_other(path):
                    raise Again(f"{path} is no regular file")
                self.file, self.hour = os.open(path, os.O_WRONLY | os.O_CREAT | os.O_APPEND, 0o644), hour
            write_all(self.file, piece)
        except OSError as fault:
            raise Again(f"can't write to {self.folder}: {fault.strerror}") from None


def keep_input(folder: str, settings: Settings) -> None:
    """Keeps all that comes on standard input; no signal ends it."""
    for it in (signal.SIGHUP, signal.SIGINT, signal.SIGTERM):
        signal.signal(it, signal.SIG_IGN)
    keeper = Keeper(Path(folder), settings)
    while piece := os.read(0, PIECE):
        keeper.keep(piece)
