"""The slow model, sixth part: what a new file lacks of an old one. Each rule looks back, record by record, over the whole of both.

    comparing.py COUNT COMMAND..    compares so many pairs of files that chance makes by the model and by COMMAND OLD NEW
"""
# pins: roll, nearest_rolls, beside_rolls, rolls_from, is_near, most_kept, ROLL, NEAR_MM, MOST_OF_CLASS, class_word, what_word
# pins: keyed_word, place_text, class_text, difference_text, count_text, class_counts, more_line, lines_text

from __future__ import annotations

import subprocess
import sys
import tempfile
from dataclasses import dataclass
from pathlib import Path
from random import Random
from typing import Dict, Iterator, List, NamedTuple, Optional, Tuple

from mixed_files import MixedSetup, Shown, mixed_header, record
from mixed_tables import MixedTable
from model import moment
from parts import END, TYPES, Record, records_of, width_of
from systems import BY_LETTER, GLONASS, SATELLITES

SEED = 7171
ROLL = 1_500_000  # thousandths of a cycle
NEAR = {"range": 20, "phase": 10, "strength": 1000}
KEPT = 100
ORDER = "GRECJSI"


class Cell(NamedTuple):
    """What a file shows of a satellite and code in a record: thousandths, and the bits of the digit."""

    values: Dict[str, int]
    slip: bool
    half: bool


NOTHING = Cell({}, False, False)


def cell_of(line: str, rank: int, width: int) -> Cell:
    text = line.ljust(3 + width * 17)[3 + width * rank :][:width]
    columns = {"range": text[:14], "phase": text[16:30], "strength": text[-16:-2], "doppler": text[32:-16]}
    values = {name: int(it.replace(".", "")) for name, it in columns.items() if it.strip()}
    return Cell(values, text[30] in "13", text[30] in "23")


@dataclass
class File:
    """A file, by its lines."""

    text: str

    def __post_init__(self) -> None:
        self.header = self.text.partition(END)[0].splitlines()
        self.width = width_of(self.text)
        self.records: Dict[str, Record] = {it.first[:31]: it for it in records_of(self.text.partition(END)[2], self.width)}
        self.codes = dict(self.codes_by_system())

    def field(self, name: str) -> str:
        return next((line[:60] for line in self.header if line[60:].rstrip() == name), "")

    def codes_by_system(self) -> Iterator[Tuple[str, List[str]]]:
        """The codes of each system, by its letter."""
        system, names = "", {}  # type: Tuple[str, Dict[str, List[str]]]
        for line in self.header:
            if line[60:].rstrip() == TYPES:
                system = line[0].strip() or system
                names.setdefault(system, []).extend(line[6:60].split())
        for system, types in names.items():
            yield system, [it[1:] for it in types[:: self.width // 16]]

    def channels(self) -> Dict[int, str]:
        lines = [line[4:60] for line in self.header if line[60:].startswith("GLONASS SLOT")]
        words = [line[at : at + 7].strip() for line in lines for at in range(0, 56, 7)]
        return {int(it[1:3]): it[3:].strip() for it in words if it}

    def cell(self, key: str, satellite: str, code: str) -> Cell:
        if key not in self.records or code not in self.codes.get(satellite[0], []):
            return NOTHING
        return cell_of(self.records[key].lines.get(satellite, ""), self.codes[satellite[0]].index(code), self.width)


def nearest(distance: int) -> int:
    """The nearest whole number of rolls; of a half the lesser one."""
    return (distance + ROLL // 2 - 1) // ROLL


def rolls(old: Cell, new: Cell) -> Optional[int]:
    if "phase" not in old.values or "phase" not in new.values:
        return None
    way = new.values["phase"] - old.values["phase"]
    return nearest(way) if way >= 0 else -nearest(-way)


@dataclass
class Comparison:
    """The lines of each class."""

    old: File
    new: File

    def __post_init__(self) -> None:
        self.lines: Dict[str, List[str]] = {"lost": [], "changed": [], "explained": []}
        self.keys = sorted({*self.old.records, *self.new.records})
        self.compare_headers()
        for at, key in enumerate(self.keys):
            if key not in self.old.records:
                continue
            if key not in self.new.records:
                self.tell("lost", f"epoch {told(key)}")
                continue
            self.compare_records(at, key)

    def tell(self, kind: str, text: str) -> None:
        self.lines[kind].append(f"{kind} {text}")

    def have(self, what: str, old: str, new: str, nothing: str) -> None:
        if old != nothing and old != new:
            self.tell("lost" if new == nothing else "changed", what)

    def compare_headers(self) -> None:
        old, new = self.old, self.new
        if old.field("MARKER NAME") != new.field("MARKER NAME"):
            self.tell("changed", "marker")
        self.have("position", old.field("APPROX POSITION XYZ"), new.field("APPROX POSITION XYZ"), f"{'':8}{'0.0000        ' * 3}".ljust(60))
        self.have("height", old.field("ANTENNA: DELTA H/E/N")[:14], new.field("ANTENNA: DELTA H/E/N")[:14], f"{'0.0000':>14}")
        for system in ORDER:
            for code in old.codes.get(system, []):
                if code not in new.codes.get(system, []):
                    self.tell("lost", f"code {system}{code}")
        if "R" in old.codes and "R" in new.codes:
            for slot, channel in sorted(old.channels().items()):
                if new.channels().get(slot) != channel:
                    self.tell("changed" if slot in new.channels() else "lost", f"channel {slot}")
            if old.field("LEAP SECONDS") != new.field("LEAP SECONDS"):
                self.tell("changed", "leap-seconds")
        if old.width > new.width:
            self.tell("lost", "doppler")

    def compare_records(self, at: int, key: str) -> None:
        for satellite in self.old.records[key].lines:
            if satellite not in self.new.records[key].lines:
                self.tell("lost", f"satellite {told(key)} {satellite}")
                continue
            for code in self.old.codes[satellite[0]]:
                if code in self.new.codes.get(satellite[0], []):
                    place = f"{told(key)} {satellite} {code}"
                    self.compare_cells(place, [self.cells(it, satellite, code) for it in self.keys[: at + 1]])

    def cells(self, key: str, satellite: str, code: str) -> Tuple[Cell, Cell]:
        return self.old.cell(key, satellite, code), self.new.cell(key, satellite, code)

    def compare_cells(self, place: str, history: List[Tuple[Cell, Cell]]) -> None:
        old, new = history[-1]
        both = [name for name in ("range", "phase", "strength") if name in old.values and name in new.values]
        apart = {name: abs(new.values[name] - old.values[name]) for name in both}
        here = rolls(old, new)
        is_due = True
        if here is not None:
            is_due = here == due(history)
            apart["phase"] = abs(new.values["phase"] - old.values["phase"]) % ROLL
            apart["phase"] = min(apart["phase"], ROLL - apart["phase"])
        is_near = is_due and all(apart[name] <= NEAR[name] for name in both)
        is_finer = is_near and any(apart.values())
        for name in ("range", "phase", "strength"):
            if name in old.values and name not in new.values:
                self.tell("lost", f"{name} {place}")
        for name in both:
            if not is_near and (apart[name] or (name == "phase" and not is_due)):
                self.tell("changed", f"{name} {place}")
        if is_finer:
            self.tell("explained", f"finer {place}")
        if here and is_due and (is_near or not apart["phase"]):
            self.tell("explained", f"roll {place}")
        if here is not None:
            self.compare_marks(place, history, is_finer)
        self.compare_shifts(place, old, new)

    def compare_shifts(self, place: str, old: Cell, new: Cell) -> None:
        """A shift is lost if both files have Doppler; without it in the new file the header tells the loss."""
        was, is_now = old.values.get("doppler"), new.values.get("doppler")
        if was is not None and is_now is None and self.new.width == 64:
            self.tell("lost", f"doppler {place}")
        if was is not None and is_now is not None and was != is_now:
            self.tell("changed", f"doppler {place}")

    def compare_marks(self, place: str, history: List[Tuple[Cell, Cell]], is_finer: bool) -> None:
        old, new = history[-1]
        if old.slip and not new.slip:
            if not any("phase" in it.values for it, _ in history[:-1]):
                self.tell("explained", f"first-slip {place}")
            elif fills_gap(history, len(history) - 1):
                self.tell("explained", f"filled-slip {place}")
            else:
                self.tell("lost", f"slip {place}")
        if new.slip and not old.slip:
            self.tell("explained", f"new-slip {place}")
        if old.half and not new.half:
            self.tell("lost", f"half-cycle {place}")
        if new.half and not old.half and not is_finer:
            self.tell("changed", f"half-cycle {place}")

    def text(self) -> str:
        counts = " ".join(f"{kind} {len(lines)}" for kind, lines in self.lines.items())
        told_lines = [counts]
        for kind, lines in self.lines.items():
            told_lines += lines[:KEPT] + ([f"more-{kind} {len(lines) - KEPT}"] if len(lines) > KEPT else [])
        return "".join(f"{line}\n" for line in told_lines)

    @property
    def status(self) -> int:
        return 3 if self.lines["lost"] or self.lines["changed"] else 0


def fills_gap(history: List[Tuple[Cell, Cell]], at: int) -> bool:
    """Whether the new file has a phase between this phase of the old file and the one before it, or the begin of the file."""
    before = max((it for it in range(at) if "phase" in history[it][0].values), default=-1)
    return any("phase" in new.values for _, new in history[before + 1 : at])


def due(history: List[Tuple[Cell, Cell]]) -> Optional[int]:
    """The rolls of the first phases that differ by some, from the last place on where they can begin anew: at a slip, or behind a gap that is filled."""
    begins = (at for at, (old, new) in enumerate(history) if old.slip or new.slip or ("phase" in old.values and fills_gap(history, at)))
    begin = max(begins, default=0)
    found = [it for it in (rolls(old, new) for old, new in history[begin:]) if it is not None]
    return next((it for it in found if it), 0)


def told(key: str) -> str:
    """The time of an epoch line."""
    year, month, day, hour, minute, second = key[2:].split()
    return f"{year}-{month}-{day} {hour}:{minute}:{float(second):06.3f}"


# ---- pairs that chance makes

NOON = moment("2024-05-17T12:00:00")
Table = Dict[int, Dict[str, Dict[str, Shown]]]


def some_codes(rng: Random) -> Dict[str, Tuple[str, ...]]:
    letters = rng.sample("GREC", rng.choice((1, 1, 2, 3)))
    return {it: tuple(rng.sample(BY_LETTER[it].codes, rng.choice((1, 2, 3)))) for it in letters}


def some_old(rng: Random, setup: MixedSetup) -> Table:
    """Records of the same few satellites and codes, whose phases go on."""
    names = [it for it in SATELLITES if it[0] in setup.codes and (it[0] != GLONASS.letter or int(it[1:]) in setup.channels)]
    chosen = rng.sample(names, min(len(names), rng.choice((1, 2, 3, 6))))
    table: Table = {}
    time = NOON
    for _ in range(rng.choice((1, 4, 8, 16))):
        table[time] = {}
        for name in chosen:
            if rng.random() < 0.85:
                table[time][name] = {it: some_cell(rng) for it in setup.codes[name[0]] if rng.random() < 0.85}
        time += rng.choice((1000, 1000, 1000, 5000))
    return table


def some_cell(rng: Random) -> Shown:
    phase = rng.choice((None, 100_000_000_000 + rng.randrange(3_000_000)))
    if rng.random() < 0.6:
        phase = 100_000_000_000
    digit = rng.choice("     13 2") if phase is not None else " "
    shift = rng.choice((None, 1_576_458, 1_576_458))
    return Shown(rng.choice((None, 20_000_000_000, 20_000_000_000)), phase, rng.choice((None, 45_000, 45_000)), digit, shift)


def changed(rng: Random, cell: Shown) -> Optional[Shown]:
    """A cell that is the same, or has another value or mark, or is gone."""
    value, phase, strength, digit, shift = cell
    if rng.random() < 0.4 and phase is not None:
        digit = rng.choice(" 123")
    if rng.random() < 0.3 and phase is not None:
        phase += ROLL * rng.choice((1, 1, -1, 2)) + rng.choice((0, 0, 0, 10, 11, -10, 750_000, 749_999, 750_001))
    if rng.random() < 0.1 and phase is not None:
        phase += rng.choice((1, -10, 10, 11, -11, 5_000_000))
    if rng.random() < 0.2 and value is not None:
        value += rng.choice((-1, 20, -20, 21, 1000))
    if rng.random() < 0.2 and strength is not None:
        strength += rng.choice((250, -1000, 1000, 1250, -1250))
    if rng.random() < 0.06:
        value = None
    if rng.random() < 0.06:
        strength = None
    if rng.random() < 0.06:
        phase, digit = None, " "
    if rng.random() < 0.1:
        shift = rng.choice((None, 1, 1_576_457))
    return Shown(value, phase, strength, digit, shift)


def some_new(rng: Random, setup: MixedSetup, old: Table) -> Table:
    """Most of the same records, some with more, less or other values, and some new ones."""
    rate = rng.choice((0.0, 0.02, 0.1, 0.5))
    roll = ROLL * rng.choice((0, 0, 1, -1))
    table: Table = {}
    for time, epoch in old.items():
        if rng.random() < rate * 0.3:
            continue
        table[time] = {}
        for name, cells in epoch.items():
            if rng.random() < rate * 0.3:
                continue
            kept = {code: it._replace(phase=it.phase + roll) if it.phase is not None else it for code, it in cells.items()}
            table[time][name] = {code: changed(rng, it) if rng.random() < rate else it for code, it in kept.items()}
            for code in setup.codes[name[0]]:
                if rng.random() < 0.05:
                    table[time][name].setdefault(code, some_cell(rng))
    for time in list(old):
        if rng.random() < 0.2 and time + 500 not in table:
            table[time + 500] = {name: dict(cells) for name, cells in old[time].items()}
    return dict(sorted(table.items()))


def file_of(rng: Random, setup: MixedSetup, table: Table, place: Dict[str, int], leap: int) -> str:
    times, lines = [], []
    for time, epoch in table.items():
        more = record(setup, time, epoch)
        times += [time] if more else []
        lines += more
    header = mixed_header(setup, times[0] if times else NOON, leap, {1006: place})
    return MixedTable(header, lines).text.decode()


def some_pair(rng: Random) -> Tuple[str, str]:
    codes = some_codes(rng)
    channels = {slot: rng.randint(-7, 6) for slot in rng.sample(range(1, 28), 20)}
    setup = MixedSetup(NOON, NOON, "BASE", codes, channels, doppler=rng.random() < 0.3)
    old = some_old(rng, setup)
    new_codes = codes
    if rng.random() < 0.2:
        new_codes = {letter: tuple(rng.sample(it, max(1, len(it) - rng.choice((0, 1))))) for letter, it in codes.items()}
    new_channels = dict(channels)
    if rng.random() < 0.1:
        slot = rng.choice(sorted(new_channels))
        new_channels[slot] = -new_channels[slot] if new_channels[slot] > -7 else 0
    marker = rng.choice(("BASE", "BASE", "BASE", "BASE", "ROVER"))
    doppler = setup.doppler != (rng.random() < 0.1)
    other = MixedSetup(NOON, NOON + 5000, marker, new_codes, new_channels, doppler=doppler)
    place = {axis: rng.choice((0, 1, 41_000_000)) for axis in ("x", "y", "z")}
    place["height"] = rng.choice((0, 15_000))
    moved = dict(place)
    if rng.random() < 0.2:
        axis = rng.choice(sorted(moved))
        moved[axis] = rng.choice((0, 2))
    if rng.random() < 0.1:
        moved.update(x=0, y=0, z=0)
    leaps = 18, rng.choice((18, 18, 18, 18, 17))
    return file_of(rng, setup, old, place, leaps[0]), file_of(rng, other, some_new(rng, other, thinned(old, new_codes)), moved, leaps[1])


def thinned(table: Table, codes: Dict[str, Tuple[str, ...]]) -> Table:
    """The values of these codes alone."""
    return {
        time: {name: {code: it for code, it in cells.items() if code in codes[name[0]]} for name, cells in epoch.items()}
        for time, epoch in table.items()
    }


def main() -> None:
    count, command = int(sys.argv[1]), sys.argv[2:]
    rng = Random(SEED)
    passed = failed = 0
    with tempfile.TemporaryDirectory() as folder:
        old, new = Path(folder, "old.rnx"), Path(folder, "new.rnx")
        for at in range(count):
            texts = some_pair(rng)
            for path, text in zip((old, new), texts):
                path.write_text(text)
            want = Comparison(*map(File, texts))
            ran = subprocess.run([*command, old, new], stdin=subprocess.DEVNULL, stdout=subprocess.PIPE, stderr=subprocess.STDOUT, text=True, check=False)
            if (ran.stdout, ran.returncode) == (want.text(), want.status):
                passed += 1
            else:
                failed += 1
                print(f"FAILED: pair {at}: status {ran.returncode} {ran.stdout[:400]!r}, due {want.status} {want.text()[:400]!r}")
    print(f"{passed} passed, {failed} failed")
    sys.exit(failed > 0)


if __name__ == "__main__":
    main()
