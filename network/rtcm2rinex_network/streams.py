"""Streams: how a source is opened, and opened again and again."""

from __future__ import annotations

import os
import re
import select
import shutil
import socket
import subprocess
import time
from threading import Event
from typing import Callable, Optional, Union
from urllib.parse import SplitResult, urlsplit

from .keeping import PIECE, Keeper
from .sources import SERIAL

SILENT = 120  # seconds without a byte, after which a stream is opened again
STEADY = 10  # seconds of bytes, after which the pauses begin anew
LEAST_PAUSE, GREATEST_PAUSE = 1, 60  # seconds
DIALLING = 20  # seconds to wait for a connection
LONGEST_LINE = 1_000  # bytes of the answer of a caster
PORT = 2101


class Network:
    """The stream of tcpcli://HOST:PORT, or of ntrip://HOST:PORT/MOUNT without a password."""

    def __init__(self, source: SplitResult) -> None:
        self.socket = socket.create_connection((source.hostname, source.port or PORT), timeout=DIALLING)
        if source.scheme == "ntrip":
            self.ask(source.path.lstrip("/"))
        self.socket.settimeout(None)

    def fileno(self) -> int:
        """What to read from."""
        return self.socket.fileno()

    def ask(self, mount: str) -> None:
        """Asks a caster for a mountpoint."""
        words = f"GET /{mount} HTTP/1.0", "User-Agent: NTRIP rtcm2rinex", "Accept: */*", "Connection: close", "", ""
        self.socket.sendall("\r\n".join(words).encode())
        answer = self.line()
        if answer.startswith("ICY 200"):
            return
        if not re.match(r"HTTP/1\.\d 200", answer):
            raise OSError(f"the caster answers {answer!r}")
        while head := self.line():
            if "chunked" in head.lower():
                raise OSError("the caster sends chunks, which curl takes")

    def line(self) -> str:
        """A line of the answer, as far as it can be printed."""
        text = b""
        while not text.endswith(b"\n"):
            byte = self.socket.recv(1)
            if not byte or len(text) > LONGEST_LINE:
                raise OSError("the caster gives no answer")
            text += byte
        return re.sub(r"[^ -~]", "", text.decode("latin-1"))

    def end(self) -> str:
        """Closes the connection."""
        self.socket.close()
        return ""


class Piped:
    """The stream of a program. It ends with this process, whatever ends that."""

    def __init__(self, told: int, *words: str) -> None:
        bound = ["setpriv", "--pdeathsig", "KILL"] if shutil.which("setpriv") else []
        self.process = subprocess.Popen([*bound, *words], stdin=subprocess.DEVNULL, stdout=subprocess.PIPE, stderr=told)

    def fileno(self) -> int:
        """What to read from."""
        return self.process.stdout.fileno() if self.process.stdout else -1

    def end(self) -> str:
        """Ends it for certain; answers the last line that it told."""
        self.process.terminate()
        try:
            self.process.wait(1)
        except subprocess.TimeoutExpired:
            self.process.kill()
            self.process.wait()
        lines = self.process.stderr.read().decode("latin-1").split("\n") if self.process.stderr else []
        for pipe in filter(None, (self.process.stdout, self.process.stderr)):
            pipe.close()
        return re.sub(r"[^ -~]", "?", next((line for line in reversed(lines) if line), ""))[:200]


def opened(source: str) -> Union[Network, Piped]:
    """Opens a source."""
    if source.startswith("/"):
        return Piped(subprocess.PIPE, "curl", "--no-buffer", "--silent", "--show-error", "--fail", "--connect-timeout", str(DIALLING),
            "--speed-limit", "1", "--speed-time", str(SILENT), "-K", source)
    if source.startswith(SERIAL):
        return Piped(subprocess.DEVNULL, "str2str", "-in", source, "-s", str(SILENT * 1000), "-r", "1000")
    return Network(urlsplit(source))


def take(source: str, keeper: Keeper, on_bytes: Callable[[], None]) -> str:
    """Keeps what the source sends until it ends or is silent; answers why it does."""
    try:
        stream = opened(source)
    except (OSError, ValueError) as fault:
        return getattr(fault, "strerror", None) or str(fault)
    why, told = f"no byte for {SILENT} s", ""
    try:
        while select.select([stream], [], [], SILENT)[0]:
            piece = os.read(stream.fileno(), PIECE)
            if not piece:
                why = "the other side ended it"
                break
            keeper.keep(piece)
            on_bytes()
    except OSError as fault:
        why = fault.strerror or str(fault)
    finally:
        told = stream.end()
    return told or why


class Watch:
    """Tells each change of state of a stream in one line: `up` with the first byte, `down` with the reason."""

    def __init__(self, came: Event, say: Callable[[str], None]) -> None:
        self.came, self.say = came, say
        self.is_up: Optional[bool] = None
        self.first = 0.0  # when the first byte came since the stream was opened, by a clock that is never set; 0 if none did
        self.last = "none"

    def on_bytes(self) -> None:
        """Bytes came."""
        self.first = self.first or time.monotonic()
        self.last = time.strftime("%Y-%m-%dT%H:%M:%SZ", time.gmtime())
        self.came.set()
        if not self.is_up:
            self.say("up")
        self.is_up = True

    def on_end(self, why: str) -> None:
        """The stream ended."""
        if self.is_up is not False:
            self.say(f"down: {why}; last byte {self.last}; tries again after {LEAST_PAUSE} s, then up to {GREATEST_PAUSE} s")
        self.is_up = False

    def was_steady(self) -> bool:
        """Whether bytes came for a while."""
        return bool(self.first) and time.monotonic() > self.first + STEADY


def take_for_ever(source: str, keeper: Keeper, came: Event, say: Callable[[str], None]) -> None:
    """Opens the source again and again, after pauses that double until bytes come for a while."""
    watch, pause = Watch(came, say), LEAST_PAUSE
    while True:
        watch.first = 0.0
        watch.on_end(take(source, keeper, watch.on_bytes))
        if watch.was_steady():
            pause = LEAST_PAUSE
        time.sleep(pause)
        pause = min(2 * pause, GREATEST_PAUSE)
