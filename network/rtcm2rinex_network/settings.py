"""The settings: the variables of the environment, and the lines of the file of settings for those that are not set.

This is the one place that reads them, so units, the command, Slurm and a checkout convert by the same settings.
"""

from __future__ import annotations

import os
import re
from pathlib import Path
from typing import Dict, Iterator, Mapping, NamedTuple, Tuple

from .ends import Refused
from .systems import DEFAULT_KIND, KINDS, NO_KINDS

HERE = Path(__file__).resolve().parent.parent  # the folder of the scripts
SYSTEM = Path("/etc/rtcm2rinex")
DAY, HOUR = 86_400, 3_600  # seconds
NUMBER = (r"-?[0-9]{1,10}", "no number of seconds")
FORMS = {  # of a setting: how it is written, and what it is else
    "MSM": (KINDS, NO_KINDS),
    "LAYOUT": ("flat|year/day", "not flat or year/day"),
    "SPAN": ("01H|01D", "not 01H or 01D"),
    "WINDOW": ("[2-9]|[1-9][0-9]{1,2}|[1-3][0-9]{3}|40[0-8][0-9]|409[0-6]", "no number from 2 to 4096"),
    "HOURS": ("[1-9][0-9]?", "no number from 1 to 99"),
    "DAYS": ("[1-9][0-9]?", "no number from 1 to 99"),
    "KEEP_DAYS": ("[1-9][0-9]{0,3}", "no number from 1 to 9999"),
    "WAIT": NUMBER,
    "LIVE_AGE": NUMBER,
    "CAPTURE_AGE": NUMBER,
    "GPS_MINUS_UTC": NUMBER,
}
NAMES = (*FORMS, "STATIONS", "SOURCES", "RTCM2RINEX", "MADE", "EVERY", "AFTER", "FORCE", "TEXTFILE")
LINE = r"[ \t]*([A-Za-z_][A-Za-z0-9_]*)[ \t]*=[ \t]*(.*?)[ \t\r]*"
NO_LINE = r"[ \t\r]*(?:[#;].*)?"  # a blank one, or a comment as systemd has it


class Settings(NamedTuple):
    """What the settings say, by their names. FORCE is for one run, so a file of settings that has it forces nothing, here and on other
    machines."""

    words: Mapping[str, str]
    has_lasting_force: bool = False

    def get(self, name: str, default: str = "") -> str:
        """A setting; the default also if it is set to nothing."""
        return self.words.get(name) or default

    def word(self, name: str, default: str) -> str:
        """A setting that has a form."""
        text = self.get(name, default)
        form, else_it_is = FORMS.get(name, NUMBER)
        if not re.fullmatch(form, text):
            raise Refused(f"{name} is {else_it_is}")
        return text

    def number(self, name: str, default: int) -> int:
        """A setting that is a number, as of seconds."""
        return int(self.word(name, str(default)))

    def faults(self) -> Iterator[str]:
        """What is wrong with the settings that have a form."""
        for name in filter(self.get, FORMS):
            try:
                self.word(name, "")
            except Refused as fault:
                yield str(fault)

    def with_word(self, name: str, value: str) -> Settings:
        """The same settings but for one."""
        return self._replace(words={**self.words, name: value})

    @property
    def msm(self) -> str:
        """The kinds of MSM of the rows that name none, in the words of `--msm` of `convert`."""
        return self.word("MSM", DEFAULT_KIND)

    @property
    def stations(self) -> Path:
        """The table of stations."""
        return Path(self.get("STATIONS", str(default_table("stations"))))

    @property
    def sources(self) -> Path:
        """The table of sources."""
        return Path(self.get("SOURCES", str(default_table("sources"))))

    @property
    def is_forced(self) -> bool:
        """Whether a worse file may replace a better one."""
        return self.get("FORCE") == "1"

    @property
    def force_hint(self) -> str:
        """How a user says so."""
        return "set FORCE=1" + (" for one run alone, and remove it from the file of settings" if self.has_lasting_force else "")

    @property
    def leap_seconds(self) -> int:
        """So many seconds GPS time is ahead of UTC; 18 since 2017."""
        return self.number("GPS_MINUS_UTC", 18)


def default_table(name: str) -> Path:
    """A table that no setting names: that of the system if the scripts are of a package, else the file beside the scripts."""
    is_checkout = (HERE / "../bin/program").exists()
    return SYSTEM / name if not is_checkout and os.access(SYSTEM / name, os.R_OK) else HERE / name


def read_settings() -> Settings:
    """The settings of now. SETTINGS names another file than that of the package."""
    lines = lines_of(text_of_file(file_of_settings()))
    words = {**lines, **os.environ}
    if "FORCE" in lines:
        del words["FORCE"]
    return Settings(words, "FORCE" in lines)


def file_of_settings() -> Path:
    """The file of settings."""
    return Path(os.environ.get("SETTINGS") or SYSTEM / "environment")


def text_of_file(path: Path) -> str:
    """The text of the file of settings, to which an editor may have given a mark of its encoding; nothing if it is not there."""
    try:
        return path.read_text(encoding="utf-8-sig", errors="replace")
    except FileNotFoundError:
        return ""
    except OSError as fault:
        raise Refused(f"can't read {path}: {fault.strerror}") from None


def lines_of(text: str) -> Dict[str, str]:
    """The lines NAME=VALUE of a text. Quotes around a value and blanks around the sign are none of it, as for systemd."""
    return {name: re.sub(r"""^(["'])(.*)\1$""", r"\2", value) for name, value in re.findall(rf"(?m)^{LINE}$", text)}


def strange_lines() -> Iterator[Tuple[str, bool]]:
    """What is strange in the file of settings, and whether it is a note alone. No run sees such a line, as one with a name that is
    misspelled, but others than these scripts may."""
    path = file_of_settings()
    for number, line in enumerate(text_of_file(path).split("\n"), 1):
        match = re.fullmatch(LINE, line)
        if match and match[1] not in NAMES:
            yield f"{path}:{number}: note: {match[1]} is no setting", True
        elif not match and not re.fullmatch(NO_LINE, line):
            yield f"{path}:{number}: the line is not like NAME=VALUE", False
