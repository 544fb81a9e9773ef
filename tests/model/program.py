"""The program under test, run as a user runs it."""

from __future__ import annotations

import os
import resource
import signal
from typing import NamedTuple

from model import Setup

WRITES = os.O_RDWR | os.O_CREAT | os.O_TRUNC
SECONDS = 120  # of processor time: a run that takes more does not end


class Ended(NamedTuple):
    """How a run ended: its status, negative if a signal ended it, and what it wrote."""

    status: int
    out: bytes
    err: bytes


class Stream:
    """A file that stands for a stream of each run in turn."""

    def __init__(self, name: str) -> None:
        self.file = os.open(name, WRITES, 0o600)

    def taken(self) -> bytes:
        """What was written; the file is empty again."""
        text = os.pread(self.file, os.lseek(self.file, 0, os.SEEK_CUR), 0)
        os.ftruncate(self.file, 0)
        os.lseek(self.file, 0, os.SEEK_SET)
        return text


class Program:
    """The program, in a folder of its own that is the current one."""

    def __init__(self, path: str) -> None:
        self.path = path
        self.out = Stream("out")
        self.err = Stream("err")
        self.texts: dict[str, bytes] = {}  # of the files that it reads

    def run(self, words: list[str], stdin: str = "/dev/null") -> Ended:
        streams = (
            (os.POSIX_SPAWN_OPEN, 0, stdin, os.O_RDONLY, 0),
            (os.POSIX_SPAWN_DUP2, self.out.file, 1),
            (os.POSIX_SPAWN_DUP2, self.err.file, 2),
        )
        child = os.posix_spawn(self.path, [self.path, *words], {}, file_actions=streams, setsigdef=[signal.SIGXCPU])
        resource.prlimit(child, resource.RLIMIT_CPU, (SECONDS, resource.getrlimit(resource.RLIMIT_CPU)[1]))
        try:
            status = os.waitstatus_to_exitcode(os.waitpid(child, 0)[1])
        except TimeoutError:
            os.kill(child, signal.SIGKILL)
            os.waitpid(child, 0)
            self.out.taken(), self.err.taken()
            raise
        return Ended(status, self.out.taken(), self.err.taken())

    def write(self, name: str, text: bytes) -> None:
        """A file with this text."""
        if self.texts.pop(name, None) != text:
            file = os.open(name, WRITES, 0o600)
            os.write(file, text)
            os.close(file)
        self.texts[name] = text

    def convert(self, setup: Setup, links: list[bytes], on_stdin: int | None = None) -> Ended:
        """A conversion of these links; one of them may be given as standard input."""
        names = [f"link{number}" for number in range(1, len(links) + 1)]
        for name, link in zip(names, links):
            self.write(name, link)
        if on_stdin is None:
            return self.run(["convert", *setup.words(), *names])
        stdin, names[on_stdin] = names[on_stdin], "stdin"
        return self.run(["convert", *setup.words(), *names], stdin)

    def on(self, text: bytes, *words: str) -> Ended:
        """A command, with its options, on a file with this text."""
        self.write("file", text)
        return self.run([*words, "file"])
