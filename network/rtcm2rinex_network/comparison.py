"""What a new file lacks of the old one or has otherwise, as `rtcm2rinex compare` says.

`compare` explains a slip at the first phase of a satellite and code, because such a slip rests on what came before the file. Only the
captures show whether that is lost, so these slips are looked at here.
"""

from __future__ import annotations

import re
from pathlib import Path
from typing import Dict, List, NamedTuple, Tuple

from .captures import Broken, Unread, pieces_of
from .ends import Again
from .program import Program, fault_of, of_program
from .rinex import cell_of, epochs_of, read_header

COUNTS = r"lost ([0-9]+) changed ([0-9]+) explained [0-9]+"
EXPLAINED, FINER, MORE = "explained ", "explained finer ", "more-explained "


class Unlike(Exception):
    """The old file is not as the program writes it, so it can't be compared."""


class Differences(NamedTuple):
    """What is lost and what has changed: how many there are of each, and the lines of those that `compare` lists. `may_be_finer` says
    whether values are in other steps, as a line tells, or one of those that it leaves out may."""

    counts: Dict[str, int]
    lines: Tuple[str, ...]
    may_be_finer: bool


def differences(program: Program, old: Path, new: Path) -> Differences:
    """What is lost and what has changed in a new file. The old one may be gzipped, and is unpacked beside the new one. Raises `Unlike`."""
    plain = unpacked(old, new.with_name(f"{new.name}.old")) if old.suffix == ".gz" else old
    ran = program.ran(["compare", str(plain), str(new)])
    lines = ran.out.splitlines()
    counts = re.fullmatch(COUNTS, lines[0]) if lines and ran.status in (0, 3) else None
    if counts:
        worse = tuple(it for it in lines[1:] if not it.startswith((EXPLAINED, MORE)))
        return Differences({"lost": int(counts[1]), "changed": int(counts[2])}, worse, any(it.startswith((FINER, MORE)) for it in lines))
    told = of_program(ran)
    if ran.status == 3 and told.startswith(f"{plain}: "):
        raise Unlike(told[len(f"{plain}: "):])
    raise fault_of("compare", ran)


def unpacked(path: Path, plain: Path) -> Path:
    """A gzipped file as it was before."""
    try:
        with open(plain, "wb") as file:
            file.writelines(pieces_of(path))
    except Broken as fault:
        raise Unlike(str(fault)) from None
    except Unread as fault:
        raise Again(str(fault)) from None
    return plain


def lost_first_slips(old: Path, new: Path) -> List[str]:
    """Where slips of the old file stand that the new one has no more, at the first phase of their satellite and code in both files."""
    now = first_phases(new)
    return [f"{key[2:]} {satellite} {code[-2:]}" for (satellite, code), (key, is_slip) in first_phases(old).items()
        if is_slip and now.get((satellite, code)) == (key, False)]


def first_phases(path: Path) -> Dict[Tuple[str, str], Tuple[str, bool]]:
    """The first phase of each satellite and code: the epoch, and whether it has a slip."""
    codes = read_header(path).codes
    found: Dict[Tuple[str, str], Tuple[str, bool]] = {}
    for key, satellites in epochs_of(path):
        for satellite, line in satellites.items():
            for rank, code in enumerate(codes.get(satellite[0], [])):
                if (satellite, code) not in found and (cell := cell_of(line, rank)).has_phase:
                    found[satellite, code] = (key, cell.is_slip)
    return found
