"""The copies of the program in dist/ and their buildinfos, which say what they were built of. For the Python scripts beside it.

There is a copy for each kind of machine. The gate links the first kind and compares it; bin/machines makes the others. A buildinfo has lines `WORD VALUE`, then texts, each below a line `== PLACE ..`, and at its end the sum of all before, so that
an edit by hand is seen.
"""

import hashlib
import re
import shutil
import subprocess
import sys
from collections import namedtuple
from pathlib import Path

ROOT = Path(__file__).resolve().parent.parent
NAME = "rtcm2rinex"


class Kind(namedtuple("Kind", "name machine c_library runs_on")):
    """A kind of program: its folder in dist/, the machine as `uname -m` says it, the C library, and the words of what it needs."""

    @property
    def copy(self):
        return ROOT / "dist" / self.name / NAME

    @property
    def buildinfo(self):
        return self.copy.with_name(NAME + ".buildinfo")

    def is_there(self):
        return self.copy.exists() or self.buildinfo.exists()


# For each machine the fastest first; bin/freshness has them in the same order.
FIRST_KIND, *OTHER_KINDS = KINDS = [
    Kind("x86_64-linux-gnu", "x86_64", "glibc", "Linux on x86_64"),
    Kind("x86_64-baseline-linux-gnu", "x86_64", "glibc", "Linux on x86_64 with any processor"),
    Kind("x86_64-linux-musl", "x86_64", "musl", "Linux on x86_64 with any processor"),
    Kind("aarch64-linux-gnu", "aarch64", "glibc", "Linux on aarch64"),
    Kind("aarch64-linux-musl", "aarch64", "musl", "Linux on aarch64"),
]
COPY, BUILDINFO = FIRST_KIND.copy, FIRST_KIND.buildinfo
END = "== end sha256 "


def fail(why):
    sys.exit(f"bin/{Path(sys.argv[0]).name}: {why}")


def output(*words):
    """What a command prints."""
    command = [str(word) for word in words]
    ran = subprocess.run(command, cwd=ROOT, stdin=subprocess.DEVNULL, capture_output=True, text=True)
    if ran.returncode:
        fail(f"{' '.join(command)}: {ran.stderr.strip()}")
    return ran.stdout.strip()


def sum_of(data):
    return hashlib.sha256(data).hexdigest()


def freshness(script):
    """What a script of bash prints that knows bin/freshness; nothing if it fails."""
    words = ["bash", "-euc", 'root=$1; . "$root/bin/freshness"; sums=$(sums_now); ' + script, "bash", ROOT]
    return subprocess.run(words, stdin=subprocess.DEVNULL, stdout=subprocess.PIPE, text=True).stdout.strip()


def sources():
    """The sum of the sources that are here."""
    return freshness('echo "${sums%% *}"')


def kit():
    """The folder of the toolchain."""
    found = shutil.which("rt") or fail("rt is not in PATH")
    return Path(found).resolve().parent.parent


def machine_files():
    """The sum of what bin/machines takes beside the sources of the crates."""
    paths = [*sorted((ROOT / "machines").glob("*.c")), ROOT / "bin/debian-packages"]
    return sum_of("".join(f"{path.name} {sum_of(path.read_bytes())}\n" for path in paths).encode())


def toolchain():
    """The line of the toolchain; nothing where there is none."""
    return freshness("! command -v rt >/dev/null || toolchain")


def sealed(fields, texts):
    """The text of a buildinfo. `texts` has each text with its places."""
    lines = [f"{word} {value}\n" for word, value in fields.items()]
    for text, places in texts.items():
        lines.append(f"\n== {' '.join(places)}\n{text}")
    whole = "".join(lines)
    return f"{whole}{END}{sum_of(whole.encode())}\n"


class Buildinfo:
    """What the buildinfo of a kind says: `fields` by their word, `texts` by their place."""

    def __init__(self, kind=FIRST_KIND):
        self.copy, self.path = kind.copy, kind.buildinfo
        found = self.path.read_text(errors="replace") if self.path.is_file() else ""
        whole, _, told = found.rpartition(END)
        self.is_whole = told.strip() == sum_of(whole.encode())
        head, *parts = re.split(r"(?m)^== ", whole)
        self.fields = dict(line.split(" ", 1) for line in head.split("\n") if " " in line)
        self.texts = {}
        for part in parts:
            places, text = part.split("\n", 1)
            self.texts |= {place: text.rstrip("\n") + "\n" for place in places.split()}

    def __getitem__(self, word):
        return self.fields.get(word, "")

    def faults(self):
        """What is not as it says; of which sources it is, is another question."""
        if not self.is_whole:
            yield f"{self.path.name} was changed after it was written"
        if not self.copy.is_file():
            yield f"{self.copy.name} is missing"
        elif self["program"] != f"sha256 {sum_of(self.copy.read_bytes())}":
            yield f"{self.copy.name} is not the program of which {self.path.name} has the sum"
        elif not self.copy.stat().st_mode & 0o100:
            yield f"{self.copy.name} can't be run: its mode was changed"

    def is_of_sources(self):
        is_of_machines = "machines" not in self.fields or self["machines"] == f"sha256 {machine_files()}"
        return is_of_machines and self["sources"] == f"sha256 {sources()}"
