"""Looks at many captures side by side, and counts what was found.

Each worker has a folder and a program of its own. What is done with a capture is a function `inspect` of its task.
"""

from __future__ import annotations

import argparse
import os
import shlex
import signal
import tempfile
from collections import Counter
from concurrent.futures import ProcessPoolExecutor
from concurrent.futures.process import BrokenProcessPool
from dataclasses import dataclass, field
from functools import partial
from pathlib import Path
from random import Random
from typing import Callable, Iterable, NamedTuple

from captures import Capture
from program import Program
from properties import FREE, NOT_MET, Case, Property
from wire import crc24q

SECONDS_EACH = 120  # of processor time, for the model; a run of the program may take as much
ASLEEP = 3600  # by the clock: what takes longer sleeps for ever, however busy the machine is
SHOWN = 5  # captures on which a property has failed


class Task(NamedTuple):
    """A capture to look at; nothing is drawn if `draws` is None. `letters` are the systems that may be listed."""

    seed: int
    number: int
    draws: int | None
    keep: str | None
    letters: str = "G"

    @property
    def rng(self) -> Random:
        """What chance does with the capture once it is made."""
        return Random(f"properties {self.seed} {self.number}")


class Looked(NamedTuple):
    """The properties that were checked on a capture, and how those failed that did."""

    number: int
    scene: str
    checked: list[str]
    failed: dict[str, str]

    def checks(self, case: Case, entries: Iterable[Property], most: int) -> None:
        """Checks these properties, until so many have been checked in all."""
        for entry in entries:
            answer = entry.holds(case)
            if answer is not NOT_MET:
                self.checked.append(entry.name)
                if answer:
                    self.failed[entry.name] = answer
            if len(self.checked) == most:
                break


Inspect = Callable[[Task, Program], Looked]


def out_of_time(_signal: int, _frame: object) -> None:
    raise TimeoutError


def begin_worker(folder: str, path: str) -> None:
    """Each worker has a folder of its own, which is its current one."""
    global program
    os.chdir(tempfile.mkdtemp(dir=folder))
    program = Program(path)
    for number in (signal.SIGPROF, signal.SIGALRM):
        signal.signal(number, out_of_time)


def look(inspect: Inspect, task: Task) -> Looked:
    """Checks a capture; what raises an exception has failed."""
    signal.setitimer(signal.ITIMER_PROF, SECONDS_EACH)
    signal.alarm(ASLEEP)
    try:
        return inspect(task, program)
    except Exception as fault:  # also that it took too long
        return Looked(task.number, "", [], {FREE[0].name: repr(fault)})
    finally:
        signal.setitimer(signal.ITIMER_PROF, 0)
        signal.alarm(0)


def keep(task: Task, capture: Capture) -> None:
    """Leaves the links as files, and the command that converts them, if the task says where."""
    if task.keep is None:
        return
    own = Path(task.keep) / f"capture{task.number}"
    own.mkdir(parents=True, exist_ok=True)
    names = [f"link{at}" for at in range(1, len(capture.links) + 1)]
    for name, link in zip(names, capture.links):
        (own / name).write_bytes(link)
    command = shlex.join(["rtcm2rinex", "convert", *capture.setup.words(), *names])
    (own / "command").write_text(f"{command}\n")


@dataclass
class Tally:
    """What came of all captures."""

    scenes: Counter[str] = field(default_factory=Counter)
    checked: Counter[str] = field(default_factory=Counter)
    failed: Counter[str] = field(default_factory=Counter)
    shown: dict[str, list[str]] = field(default_factory=dict)

    def add(self, looked: Looked) -> None:
        self.scenes[looked.scene] += 1
        self.checked.update(looked.checked)
        self.failed.update(looked.failed.keys())
        for name, fault in looked.failed.items():
            line = f"    {looked.number} ({looked.scene}): {fault}"
            if self.failed[name] <= SHOWN:
                self.shown.setdefault(name, []).append(line)

    def told(self, entry: Property, floor: int) -> bool | None:
        """Prints what came of a property that must be checked on so many of a hundred captures, and
        answers whether it passed; None if it had no need to be checked and was not."""
        checked, failed = self.checked[entry.name], self.failed[entry.name]
        due = floor * sum(self.scenes.values()) // 100
        if failed:
            print(f"FAILED {entry.name}: {failed} of {checked} captures")
            print(*self.shown[entry.name], sep="\n")
            return False
        if checked < due:
            print(f"FAILED {entry.name}: checked on {checked} captures and not on {due}")
            return False
        if checked == 0:
            print(f"{entry.name}: not checked")
            return None
        print(f"ok {entry.name}: {checked} captures")
        return True


def parser_of(text: str, captures: int, seed: int) -> argparse.ArgumentParser:
    """The words that say which captures are looked at; the first line of a text says what is done with them."""
    parser = argparse.ArgumentParser(description=text.split("\n")[0])
    parser.add_argument("--program", required=True, help="the program's path")
    parser.add_argument("--captures", type=int, default=captures)
    parser.add_argument("--seed", type=int, default=seed)
    parser.add_argument("--first", type=int, default=0, help="the number of the first capture")
    parser.add_argument("--jobs", type=int, default=os.cpu_count())
    parser.add_argument("--to-first-failure", action="store_true", help="end after the first capture of which something does not hold")
    parser.add_argument("--keep", help="a folder for the captures")
    return parser


def tasks_of(words: argparse.Namespace, draws: int | None, letters: str = "G") -> Iterable[Task]:
    keep_in = None if words.keep is None else str(Path(words.keep).resolve())
    numbers = range(words.first, words.first + words.captures)
    return (Task(words.seed, number, draws, keep_in, letters) for number in numbers)


def tally_of(inspect: Inspect, words: argparse.Namespace, tasks: Iterable[Task]) -> Tally | None:
    """What came of all tasks; nothing if a worker was killed."""
    assert crc24q(b"123456789") == 0xCDE703, "the checksum is none"
    tally = Tally()
    path = str(Path(words.program).resolve())
    try:
        with tempfile.TemporaryDirectory() as folder:
            # A pool of `multiprocessing` would wait for ever for what a killed worker had begun.
            with ProcessPoolExecutor(words.jobs, initializer=begin_worker, initargs=(folder, path)) as pool:
                for looked in pool.map(partial(look, inspect), tasks, chunksize=10):
                    tally.add(looked)
                    if words.to_first_failure and looked.failed:
                        pool.shutdown(wait=False, cancel_futures=True)
                        break
    except BrokenProcessPool:
        print("FAILED: a worker was killed, as where memory ends, after", sum(tally.scenes.values()), "captures")
        print("0 passed, 1 failed")
        return None
    print("captures: " + ", ".join(f"{count} {scene}" for scene, count in tally.scenes.items()))
    return tally


def counts_of_all(tally: Tally, floors: dict[Property, int]) -> int:
    """Tells of each property, which must be checked on so many of a hundred captures; answers the status."""
    passed = [tally.told(entry, floor) for entry, floor in floors.items()]
    print(f"{passed.count(True)} passed, {passed.count(False)} failed")
    return 1 if False in passed else 0
