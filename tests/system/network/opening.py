"""Why a stream ends, and when it is opened again.

    opening.py refused       the pauses in seconds if nothing listens, and on standard error what is said
    opening.py steady        the same if three tries fail, then bytes come for 11 s, then for 9 s, and then none
    opening.py silent        why a stream ends that stays open and brings one byte
    opening.py ntrip LINE..  why the stream of a caster ends that answers these lines
"""

import socket
import sys
import threading
import time
from pathlib import Path

sys.path.insert(0, str(Path(__file__).resolve().parents[3] / "network"))

from rtcm2rinex_network import streams  # noqa: E402

COMING = {4: 11, 5: 9}  # for how many seconds bytes come, by the number of the try


class Enough(Exception):
    """So many pauses were made."""


def pauses(count):
    """The first pauses of `take_for_ever`, none of which is slept."""
    slept = []

    def sleep(seconds):
        slept.append(seconds)
        if len(slept) == count:
            raise Enough

    time.sleep = sleep
    try:
        streams.take_for_ever("tcpcli://127.0.0.1:1", None, threading.Event(), lambda text: print(text, file=sys.stderr))
    except Enough:
        return slept


def steady():
    """Pauses by a clock that goes on only while bytes come."""
    now, tries = [1000.0], []

    def take(_source, _keeper, on_bytes):
        tries.append(None)
        if seconds := COMING.get(len(tries)):
            on_bytes()
            now[0] += seconds
        return "ended"

    time.monotonic = lambda: now[0]
    streams.take = take
    return pauses(6)


class Kept:
    """Stands in for a `Keeper`."""

    def keep(self, piece):
        """Takes all bytes."""


def ended(scheme, answer):
    """Why a stream ends that brings this and then nothing."""
    streams.SILENT = 0.2
    server = socket.create_server(("127.0.0.1", 0))
    held = []

    def serve():
        held.append(server.accept()[0])
        held[0].sendall(answer)

    threading.Thread(target=serve, daemon=True).start()
    return streams.take(f"{scheme}://127.0.0.1:{server.getsockname()[1]}/BASE", Kept(), lambda: None)


kind, *lines = sys.argv[1:]
if kind == "silent":
    print(ended("tcpcli", b"x"))
elif kind == "ntrip":
    print(ended("ntrip", "".join(f"{it}\r\n" for it in [*lines, ""]).encode()))
else:
    print(*(steady() if kind == "steady" else pauses(9)))
