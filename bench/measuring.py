"""What a command uses, for bench/peers and bench/growth."""

import argparse
import ctypes
import os
import random
import re
import shutil
import signal
import subprocess
import sys
import tempfile
from contextlib import contextmanager
from pathlib import Path
from typing import NamedTuple

ROOT = Path(__file__).resolve().parent.parent

# Each way to count instructions: the words before a command, and what its report, the file REPORT, says of it.
COUNTERS = {
    "perf": ("perf stat -x, -e instructions:u -o REPORT --".split(), r"(?m)^(\d+),[^,]*,instructions"),
    "callgrind": ("valgrind --tool=callgrind --vgdb=no --callgrind-out-file=/dev/null --log-file=REPORT".split(),
        r"Collected : (\d+)"),
}
SUBREAPER = 36  # PR_SET_CHILD_SUBREAPER: a process whose parent has ended becomes a child of this one


class Run(NamedTuple):
    """A command, and the files that it reads and writes as its standard streams."""

    words: list
    out: Path
    told: Path
    given: Path = Path(os.devnull)


class Use(NamedTuple):
    """Processor time in seconds, the peak of memory in bytes, and the exit status."""

    seconds: float
    peak: int
    status: int


def options(text):
    """The options of a script, which says this of itself."""
    parser = argparse.ArgumentParser(description=text, formatter_class=argparse.RawDescriptionHelpFormatter)
    parser.add_argument("--seed", type=int, default=random.randrange(10**6), help="of the captures; else one is drawn, and printed")
    parser.add_argument("program", nargs="?", help="else that of bin/program")
    return parser


def program_of(word):
    """The program that is named, else that of bin/program."""
    return Path(word or subprocess.check_output([ROOT / "bin/program"], text=True).rstrip("\n")).resolve()


def machine():
    """The processor, and how busy it is."""
    model = re.search(r"(?m)^model name\s*: (.*)", Path("/proc/cpuinfo").read_text())
    return f"{model[1] if model else 'a processor'}, {os.cpu_count()} cores, load {os.getloadavg()[0]:.1f}"


@contextmanager
def scratch():
    """A temporary folder, which is removed also where the script is ended; that of the commands too."""
    signal.signal(signal.SIGTERM, lambda *_: sys.exit(143))
    with tempfile.TemporaryDirectory() as name:
        os.environ["TMPDIR"] = name
        yield Path(name)


def start(run, before=()):
    """Runs a command after these words, in the folder of what it writes."""
    with open(run.given, "rb") as given, open(run.out, "wb") as out, open(run.told, "wb") as told:
        subprocess.run([*before, *run.words], stdin=given, stdout=out, stderr=told, cwd=run.out.parent)


def use_of(run):
    """What a command uses. A process's peak counts the memory of the one that it was forked from, so a small one forks it, ends,
    and leaves it to this one."""
    ctypes.CDLL(None).prctl(SUBREAPER, 1, 0, 0, 0)
    start(run, ["setsid", "--fork"])
    try:
        _, status, used = os.wait4(-1, 0)
    except BaseException:
        os.wait()  # what it writes to is there as long as it runs
        raise
    return Use(used.ru_utime + used.ru_stime, 1024 * used.ru_maxrss, os.waitstatus_to_exitcode(status))


class Counter:
    """Counts instructions by the first way that there is; `by` is None if there is none."""

    def __init__(self, folder):
        self.report = folder / "instructions"
        for self.by, (words, _) in COUNTERS.items():
            if shutil.which(words[0]) and self.of(Run(["true"], folder / "out", folder / "told")):
                return
        self.by = None

    def of(self, run):
        """Those of a command; None if they can't be counted."""
        if self.by is None:
            return None
        words, pattern = COUNTERS[self.by]
        self.report.unlink(missing_ok=True)
        start(run, [word.replace("REPORT", str(self.report)) for word in words])
        found = re.search(pattern, self.report.read_text()) if self.report.exists() else None
        return int(found[1]) if found else None
