"""The guards: why a new file would be worse than the one that is there. Each is a function that tells a fault or none, and its comment
gives the reason for it. The first line of a fault is the cause, and further lines stand in the note of the run alone."""

from __future__ import annotations

import math
import re
from pathlib import Path
from typing import Dict, FrozenSet, Iterator, List, NamedTuple, Optional, Set, Tuple

from .captures import Sum, first_name
from .comparison import Unlike, differences, lost_first_slips
from .lists import Made, Record
from .labels import fields_of_options, options_of
from .names import read_name
from .places import form_of, is_compact
from .program import Program
from .rinex import Header, codes_with_values, count_epochs, count_values, counts_of_systems, read_header
from .systems import kinds_of, system_of, systems_of

MOST_METRES = 1.0  # of a position that comes from the same antenna
MOST_CONFLICTS = 0.01  # of the messages that were taken
CONFLICT = r"(?m)^link [0-9]+ conflict [0-9]+ (?:-|\S+ \S+)"
OF_OTHERS = r"lost code \S+|(lost|changed) (position|channel [0-9]+)|changed leap-seconds"  # lines of `compare`
OF_WHOLE_FILE = r"lost slip .*"  # also a line of `compare`


class MadeBy(NamedTuple):
    """What a file was made by: the number of the station, the MSM, the codes, the marker and the fields of the label, and the systems that
    were left out because of their clocks. A None is not known."""

    station: Optional[str]
    msm: Optional[str]
    codes: Tuple[str, ...]
    fields: Dict[str, str]
    left_out: str = ""

    @property
    def kinds(self) -> Dict[str, str]:
        """The kind of MSM of each system, if it is known."""
        return kinds_of(self.msm, self.codes) if self.msm is not None else {}


class Old(NamedTuple):
    """The files of before: what the list says that was made, and which of these are there with the bytes with which they were made;
    where the file of the span gets to, and whether it is there and can be read; what it was made by, its header, and the text of its
    report."""

    made: Dict[str, Made]
    intact: FrozenSet[str]
    path: Path
    is_there: bool
    by: MadeBy
    header: Header
    report: str

    def name_of(self, new: str) -> str:
        """The name of before of a new file, which may have another type of data."""
        name, before = read_name(new), read_name(self.path.name)
        return str(name.with_kind(before.kind)) if name and before else new

    def file(self, name: str) -> Optional[Path]:
        """Where a file lies, if it and that of the span are there and can be read. One that no list counts is compared by itself."""
        form = form_of(self.path.with_name(name))
        return form if (self.is_there or name not in self.made) and form.is_file() and not is_compact(form) else None

    def is_same(self, name: str, made: Made) -> bool:
        """Whether a file is there as it is made now."""
        return name in self.intact and made == self.made[name]

    def is_cut(self, name: str) -> bool:
        """Whether a thinned file was cut out of the file of the span that is there. So are its slips, and the other file is compared."""
        return self.is_there and name != self.path.name and {name, self.path.name} <= self.intact


class New(NamedTuple):
    """The new files: what they were made by, what was made, where that of the span lies now, the text of the report, whether all is as in
    the list of before from which they were made, and whether captures lost bytes."""

    by: MadeBy
    made: Dict[str, Made]
    path: Path
    report: str
    is_of_list: bool
    lost_bytes: bool


def old_files(path: Path, record: Record, intact: FrozenSet[str]) -> Old:
    """What is known of the files of before: what their list says, and the fields of the header. If the file was changed since, the list
    decides of the fields that it has, and the others were filled by hand."""
    form, used = form_of(path), record.row()
    is_there = form.is_file() and not is_compact(form)
    header = read_header(form) if is_there else Header()
    report = path.with_name(path.name + ".report")
    text = report.read_text(errors="replace") if report.is_file() else ""
    fields = {**header.fields, "marker": header.marker} if header.marker else {}
    if used and not (is_there and path.name in intact):
        fields.update({**fields_of_options(options_of(used.label) or []), "marker": used.marker})
    by = MadeBy(used.station if used else None, used.msm if used else None, used.codes if used else header.all_codes, fields)
    return Old(record.made, intact, path, is_there, by, header, text)


def without_bytes(before: Dict[str, Sum], found: Dict[str, Sum]) -> List[str]:
    """The captures of before whose bytes no capture of the same hour has now, whichever link it is of."""
    there = {(hour_of(name), it) for name, it in found.items()}
    return [name for name, it in before.items() if (hour_of(name), it) not in there]


def hour_of(name: str) -> str:
    """The hour of a capture, as its name has it."""
    return first_name(name).partition("/")[2]


def guard_captures(before: Dict[str, Sum], found: Dict[str, Sum], unread: Set[str]) -> Iterator[str]:
    """The captures that a file was made of may have what no other capture has. The bytes of a capture of the same hour of another
    link do as well, and a capture that can't be read now is not gone."""
    gone = [name for name in without_bytes(before, found) if name not in found and name not in unread]
    if gone:
        yield f"captures that the file was made from are gone: {' '.join(sorted(gone))}"


def guard_words(old: Old, new: MadeBy) -> Iterator[str]:
    """A table that was edited says how the station is now, and the file may be of the time before. Another number is another station,
    and another MSM has other values of the same codes. A code that the row names no more, and a field of the label that is another one
    now, belong to another receiver or antenna. A field that was blank may be filled, and a code without a value may go, if the
    file is as it was made or has no list. Codes of another system may come."""
    name = old.path.name
    by, path = old.by, old.file(name)
    if by.station not in (None, new.station):
        yield f"{name} is of station {by.station}, and the table has {new.station}"
    for system, kind in by.kinds.items():
        if (now := new.kinds.get(system, kind)) != kind:
            of = f" of {system}" if len(by.kinds) > 1 else ""
            yield f"{name} is of MSM{kind}{of}, and would be of MSM{now}{of}"
    dropped = [code for code in by.codes if code not in new.codes]
    if dropped and path and (by.station is None or name in old.intact):
        there = codes_with_values(path)
        dropped = [code for code in dropped if code in there]
    if dropped:
        is_told = all(system_of(code) in new.left_out for code in dropped)
        why = "captures tell that the clocks of these systems are wrong" if is_told else "the row has them no more"
        yield f"{name} has the codes {','.join(dropped)}, and {why}"
    for field, text in sorted(by.fields.items()):
        if not is_same_field(text, new.fields.get(field, "")):
            filled = repr(new.fields[field]) if field in new.fields else "nothing"
            yield f"{name} has the {field} {text!r}, and would have {filled}: dates in the tables say from when until when they hold"


def is_same_field(old: str, new: str) -> bool:
    """Whether a field is the same, or was as good as blank."""
    return old == new or bool(re.fullmatch(r"[+-]0\.0000", old))


def guard_compact(old: Old, made: Dict[str, Made]) -> Iterator[str]:
    """A file that can't be read here can't be compared with a new one."""
    for name, it in ((old.name_of(new), it) for new, it in made.items()):
        form = form_of(old.path.with_name(name))
        if is_compact(form) and not old.is_same(name, it) and not old.is_cut(name):
            yield f"{form.name} can't be read here, so nobody knows whether the new file is worse"


def guard_counts(name: str, old: Old, new: New, file: str) -> Iterator[str]:
    """A file that was moved away is compared by what its list counts. Of a new file with other systems those count that it had. Where
    bytes of its captures are there no more, counts alone do not tell that its values are."""
    listed, made, systems = old.made[name], new.made[file], systems_of(old.by.codes)
    epochs, values = made.epochs, made.values
    if systems != systems_of(new.by.codes):
        epochs, values = counts_of_systems(new.path.with_name(file), systems)
    if epochs < listed.epochs:
        yield f"{name} had {listed.epochs} epochs, and would have {epochs}"
    if values < listed.values:
        yield f"{name} had {listed.values} values, and would have {values}"
    is_gone = name == old.path.name and not form_of(old.path).is_file()
    if is_gone and new.lost_bytes and not listed.is_none and listed != made:
        yield f"{name} is not there to be compared, and captures that it was made of lost bytes: nobody knows whether the new one is worse"


def guard_records(program: Program, name: str, old: Old, new: New, now: Path) -> Iterator[str]:
    """A loss in one hour of a day may hide behind a gain in another, so `compare` looks at each value and mark. Codes and position have
    guards of their own, and channels and leap seconds that were wrong show in phases and epochs. A file that is made once more from the
    same heals what a disk or a hand changed, so only what is lost counts. A slip of a thinned file is one of the file of the span, which
    has the phases that explain it. `compare` explains values in other steps by messages that came, which have finer ones; but those that
    went may have had them."""
    path = old.file(name)
    if path is None:
        return
    try:
        found = differences(program, path, now)
    except Unlike as fault:
        if not new.is_of_list or count_epochs(path) > count_epochs(now) or count_values(path) > count_values(now):
            yield f"{name} was changed, and can't be compared: {fault}"
        return
    is_thin = name != old.path.name
    others = [it for it in found.lines if re.fullmatch(OF_OTHERS, it) or (is_thin and re.fullmatch(OF_WHOLE_FILE, it))]
    lines = [it for it in found.lines if it not in others]
    lost, changed = (count - sum(it.startswith(kind) for it in others) for kind, count in found.counts.items())
    if lost or (changed and not new.is_of_list):
        yield "\n".join([f"{name} would be worse: lost {lost} changed {changed}, the first is {lines[0]}", *lines])
    if found.may_be_finer and (old.by.msm is None or new.lost_bytes):
        why = "has no list" if old.by.msm is None else "was made of captures that lost bytes"
        yield f"{name} {why}, and the new one may have values in other steps: nobody knows whether they are coarser"
    if new.lost_bytes and not is_thin:
        yield from guard_first_slips(name, path, now)


def guard_first_slips(name: str, old: Path, new: Path) -> Iterator[str]:
    """A slip at the first phase of a satellite rests on the captures before the span, so it is lost if these lost bytes."""
    slips = lost_first_slips(old, new)
    if slips:
        yield f"{name} had slips at first phases, and would have some of them no more: {len(slips)}, the first is {slips[0]}"


def guard_position(name: str, old: Header, new: Header) -> Iterator[str]:
    """A station does not move, so a position that did is that of another station with the same number."""
    if old.position is None:
        return
    if new.position is None:
        yield f"{name} had a position, and would have none"
    elif math.dist(old.position, new.position) > MOST_METRES:
        yield f"{name} would have a position that is {math.dist(old.position, new.position):.1f} m away"


def guard_conflicts(name: str, old: str, new: str) -> Iterator[str]:
    """Links of one station have the same values. Where many differ now and none did before, a link carries another station."""
    conflicts, taken = len(set(re.findall(CONFLICT, new))), count_of(new, "taken")
    if conflicts > MOST_CONFLICTS * taken and not re.search(CONFLICT, old):
        yield f"{name} would have conflicts in {conflicts} messages, where {taken} were taken, and had none: a link may be of another station"


def guard_epochs(name: str, old: Old, new: New) -> Iterator[str]:
    """A span has so many epochs of its interval. A link whose clock is wrong, or which sends more often, adds epochs that no other one has,
    so nothing of the old file is lost, and still it was the better one."""
    it, path, now = read_name(name), old.file(name), new.made[new.path.name].epochs
    before = old.made[name].epochs if name in old.made else count_epochs(path) if path else None
    if it and before is not None and before <= it.most_epochs < now:
        yield f"{name} would have {now} epochs, and its span has {it.most_epochs}: the clock of a link is wrong, or its interval"


def may_be_fewer(old: Old, by: MadeBy, report: str) -> bool:
    """Whether fewer messages may be there than before. Messages of other systems count too, so then nobody knows."""
    return systems_of(old.by.codes) != systems_of(by.codes) or count_of(report, "taken") < count_of(old.report, "taken")


def count_of(report: str, word: str) -> int:
    """A count of a report; 0 if it has none."""
    match = re.search(rf"(?m)^{word} (\d+)$", report, re.ASCII)
    return int(match[1]) if match else 0


def faults_of(program: Program, old: Old, new: New) -> Iterator[str]:
    """Why the records of the new files would be worse than those of before."""
    if old.is_there:
        yield from guard_position(old.path.name, old.header, read_header(new.path))
    if old.is_there or old.made:
        yield from guard_conflicts(old.path.name, old.report, new.report)
    yield from guard_epochs(old.path.name, old, new)
    for file, it in new.made.items():
        name = old.name_of(file)
        if name in old.made:
            yield from guard_counts(name, old, new, file)
        if not old.is_same(name, it) and not old.is_cut(name):
            yield from guard_records(program, name, old, new, new.path.with_name(file))


def captures_that_differ(before: Record, now: Record) -> List[str]:
    """The lines of captures in which the lists of before and of now differ."""
    gone = [f"before {name} {it}" for name, it in sorted(before.captures.items()) if now.captures.get(name) != it]
    come = [f"now {name} {it}" for name, it in sorted(now.captures.items()) if before.captures.get(name) != it]
    return gone + come
