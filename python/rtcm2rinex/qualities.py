"""The numbers of a file, which the program gives as JSON."""

from __future__ import annotations

import json
from dataclasses import dataclass, fields
from datetime import datetime
from typing import Any, Dict, Optional, Tuple

from .faults import FileError, FormError
from .inputs import Input
from .program import Location, run
from .reports import moment_of


@dataclass(frozen=True)
class CodeQuality:
    """The numbers of a code, of one satellite or over all satellites that have the code (`satellite` is None).

    The code has `phases` of the `possible` phases, which are `percent` of them, rounded down to a tenth. `satellites` says how many
    satellites have the code, of the `tracked` satellites of the file, and both are None for one satellite. `ranges_only` counts the
    ranges without a phase. `slips`, `returns`, `rises` and `half_cycles` count marks, as the manual defines them. The three strengths
    are in dB-Hz. A number that does not exist is None, as `phases_per_slip` without a slip or a phase.
    """

    satellite: Optional[str]
    code: str
    phases: int
    possible: int
    percent: float
    satellites: Optional[int]
    tracked: Optional[int]
    ranges_only: int
    slips: int
    returns: int
    rises: int
    half_cycles: int
    phases_per_slip: Optional[int]
    least_strength: Optional[float]
    mean_strength: Optional[float]
    greatest_strength: Optional[float]


@dataclass(frozen=True)
class Tracked:
    """A satellite over all its codes: its phases and slips, the moments at which at least one code slips, and its outages with their
    time in seconds (s)."""

    satellite: str
    phases: int
    slips: int
    moments: int
    outages: int
    outage_time: float


@dataclass(frozen=True)
class Pass:
    """A pass of a satellite: the GPS times of its first and its last phase, and the numbers of `Tracked` for this pass."""

    satellite: str
    first: datetime
    last: datetime
    phases: int
    slips: int
    moments: int
    outages: int
    outage_time: float


@dataclass(frozen=True)
class Hour:
    """An hour of GPS time that has a record: its beginning, its records, and how many would be `expected` without missing epochs.

    `mean_satellites` says how many satellites a record has. `slips` and `returns` add up all codes of all satellites.
    `mean_strengths` has the mean strength of each band of the file in dB-Hz, by the number of the band, or None without a strength.
    """

    start: datetime
    records: int
    expected: int
    mean_satellites: float
    slips: int
    returns: int
    mean_strengths: Dict[int, Optional[float]]


@dataclass(frozen=True)
class Gap:
    """The GPS times of the records before and after a gap, and how many epochs are missing."""

    first: datetime
    last: datetime
    missing: int


@dataclass(frozen=True)
class Outage:
    """An outage of a satellite: the GPS times of its last phase before and of its first one after, and its time in seconds (s)."""

    satellite: str
    first: datetime
    last: datetime
    outage_time: float


@dataclass(frozen=True)
class SlipsTogether:
    """A record in which at least two satellites slip: its GPS time, and how many `satellites` slip of the `tracked` ones, which have a
    phase in it."""

    time: datetime
    satellites: int
    tracked: int


@dataclass(frozen=True)
class Burst:
    """An hour in which a satellite slips at several `moments`: its beginning as a GPS time, and how many."""

    satellite: str
    start: datetime
    moments: int


@dataclass(frozen=True)
class HalfRun:
    """A run of records in which a satellite has half cycles: the GPS times of the first and the last one, and how many (`epochs`)."""

    satellite: str
    first: datetime
    last: datetime
    epochs: int


@dataclass(frozen=True)
class MissingCode:
    """A time in which a satellite has phases but none of a code: the GPS times of the first and the last of these epochs, and how many
    (`epochs`)."""

    satellite: str
    code: str
    first: datetime
    last: datetime
    epochs: int


@dataclass(frozen=True)
class Fall:
    """The largest fall of the mean strength of a band, in dB-Hz, and the beginnings of the hours before and after it."""

    band: int
    first: datetime
    last: datetime
    mean_strength: float


@dataclass(frozen=True)
class Lists:
    """The lists that a file of GPS has, and each system of a file with other systems.

    `codes` has the numbers of each code over all satellites, and `satellite_codes` the numbers of each code of each satellite.
    `tracked` has the numbers of each satellite. `never` has the satellites and codes without any phase. `passes` has the passes of all
    satellites. `hours` has the hours with a record, and `falls` the largest fall of strength of each band. `longest_outages` has up to
    ten outages, the longest first. `most_slips_together` has up to ten of the records in which several satellites slip, the one with
    most of them first. `largest_bursts`, `longest_half_runs` and `longest_missing_codes` have up to ten bursts, runs of half cycles and
    times for which a code is missing, the largest first.
    """

    codes: Tuple[CodeQuality, ...]
    satellite_codes: Tuple[CodeQuality, ...]
    tracked: Tuple[Tracked, ...]
    never: Tuple[Tuple[str, str], ...]
    passes: Tuple[Pass, ...]
    hours: Tuple[Hour, ...]
    falls: Tuple[Fall, ...]
    longest_outages: Tuple[Outage, ...]
    most_slips_together: Tuple[SlipsTogether, ...]
    largest_bursts: Tuple[Burst, ...]
    longest_half_runs: Tuple[HalfRun, ...]
    longest_missing_codes: Tuple[MissingCode, ...]


@dataclass(frozen=True)
class SystemQuality(Lists):
    """The numbers of one system in a file with other systems than GPS or with Doppler, by the letter of the system (`system`). The
    others are as in `Quality`, but of the satellites and codes of this system alone. `doppler` is empty without Doppler; else it has the
    codes, by the names that `convert` takes, each with how many values of Doppler it has."""

    system: str
    satellites: int
    least_satellites: int
    mean_satellites: float
    greatest_satellites: int
    slips: int
    moments: int
    outages: int
    outage_time: float
    slips_together: int
    bursts: int
    half_runs: int
    missing_codes: int
    doppler: Tuple[Tuple[str, int], ...] = ()


@dataclass(frozen=True)
class Quality(Lists):
    """The numbers of a file, and its lists.

    `first` and `last` are the GPS times of the first and the last record, and `interval` is the most frequent step in seconds (s).
    `records`, `missing` and `gaps` count the records, the missing epochs, and the gaps in which they are. `longest_gaps` has up to ten
    gaps, the longest first. `satellites` counts the satellites of the file, and the next three numbers say how many satellites a record
    has. `slips`, `moments`, `outages` and `outage_time` add up all satellites. `slips_together` counts the records in which at least two
    satellites slip, `bursts` the hours in which a satellite slips at two moments at least, `half_runs` the runs of half cycles, and
    `missing_codes` the times for which a code is missing. A file without records has only `marker` and `records`, and all else is None
    or empty.

    `systems` is empty for a file of GPS alone without Doppler. A file with other systems or with Doppler has `marker`, the numbers from `records` to `gaps`, and
    `longest_gaps`. All else is None or empty, and `systems` has the numbers of each system of which the file has codes.
    """

    marker: str
    records: int
    first: Optional[datetime]
    last: Optional[datetime]
    interval: Optional[float]
    missing: Optional[int]
    gaps: Optional[int]
    satellites: Optional[int]
    least_satellites: Optional[int]
    mean_satellites: Optional[float]
    greatest_satellites: Optional[int]
    slips: Optional[int]
    moments: Optional[int]
    outages: Optional[int]
    outage_time: Optional[float]
    slips_together: Optional[int]
    bursts: Optional[int]
    half_runs: Optional[int]
    missing_codes: Optional[int]
    longest_gaps: Tuple[Gap, ...]
    systems: Tuple[SystemQuality, ...] = ()


def quality(file: Input, *, program: Optional[Location] = None) -> Quality:
    """Counts the phases, slips, strengths and passes of a RINEX file of this program. `file` is a name or an open binary file.

    Raises `FileError` if the file is not as the program writes it, and `WorkError` if it cannot be read.
    """
    return read_quality(run(program, ["quality", "--json"], [file], third=FileError).text())


def read_quality(text: str) -> Quality:
    """Reads the JSON of `quality`."""
    try:
        rows: Dict[str, Any] = json.loads(text)
        whole: Dict[str, Any] = rows["file"]
        gaps = tuple(map(gap_of, rows["gaps"]))
        if "systems" in rows:
            systems = tuple(map(system_of, rows["systems"]))
            return Quality(**file_of(whole), **none_of(TOTALS, None), **none_of(LISTS, ()), longest_gaps=gaps, systems=systems)
        totals = totals_of(whole) if whole["records"] > 0 else none_of(TOTALS, None)
        return Quality(**file_of(whole), **totals, **lists_of(rows), longest_gaps=gaps)
    except (ValueError, KeyError, TypeError) as fault:
        raise FormError(1, f"the JSON of quality has another form: {fault!r}") from fault


def part_of(number: Optional[int], parts: int) -> Optional[float]:
    """A whole number of such parts of a unit, in this unit."""
    return None if number is None else number / parts


# What a file of GPS and a system have: lists, and numbers.
LISTS = tuple(it.name for it in fields(Lists))
TOTALS = tuple(it.name for it in fields(SystemQuality) if it.name not in (*LISTS, "system", "doppler"))


def none_of(names: Tuple[str, ...], it: Any) -> Dict[str, Any]:
    """The same for each of these names."""
    return dict.fromkeys(names, it)


def file_of(row: Dict[str, Any]) -> Dict[str, Any]:
    """The numbers of the whole file, without those of satellites. Without records there are only two."""
    if row["records"] == 0:
        return {"marker": row["marker"], "records": 0, **dict.fromkeys(("first", "last", "interval", "missing", "gaps"))}
    return {**{name: row[name] for name in ("marker", "records", "missing", "gaps")}, "first": moment_of(row["from"]),
        "last": moment_of(row["until"]), "interval": part_of(row["interval_ms"], 1000)}


def totals_of(row: Dict[str, Any]) -> Dict[str, Any]:
    """The numbers over all satellites of a file of GPS or of a system."""
    same = (name for name in TOTALS if name not in ("mean_satellites", "outage_time"))
    return {**{name: row[name] for name in same}, "mean_satellites": part_of(row["mean_satellites_tenths"], 10),
        "outage_time": row["outage_time_ms"] / 1000}


def lists_of(rows: Dict[str, Any]) -> Dict[str, Any]:
    """The lists of a file of GPS or of a system."""
    readers = {"codes": code_of, "satellites": code_of, "tracked": tracked_of, "never": never_of, "passes": pass_of, "hours": hour_of,
        "falls": fall_of, "outages": outage_of, "slips_together": slips_together_of, "bursts": burst_of, "half_runs": half_run_of,
        "missing_codes": missing_code_of}
    return {name: tuple(map(read, rows[key])) for name, (key, read) in zip(LISTS, readers.items())}


def system_of(rows: Dict[str, Any]) -> SystemQuality:
    """The numbers of a system."""
    doppler = tuple((row["code"], row["values"]) for row in rows.get("doppler", ()))
    return SystemQuality(system=rows["totals"]["system"], **totals_of(rows["totals"]), **lists_of(rows), doppler=doppler)


def never_of(row: Dict[str, Any]) -> Tuple[str, str]:
    """A satellite and a code of which it has no phase."""
    return row["satellite"], row["code"]


def code_of(row: Dict[str, Any]) -> CodeQuality:
    """The numbers of a code."""
    same = ("code", "phases", "possible", "ranges_only", "slips", "returns", "rises", "half_cycles", "phases_per_slip")
    return CodeQuality(
        satellite=row.get("satellite"),
        percent=row["percent_tenths"] / 10,
        satellites=row.get("satellites"),
        tracked=row.get("tracked"),
        least_strength=part_of(row["least_strength_millidbhz"], 1000),
        mean_strength=part_of(row["mean_strength_centidbhz"], 100),
        greatest_strength=part_of(row["greatest_strength_millidbhz"], 1000),
        **{name: row[name] for name in same},
    )


def sums_of(row: Dict[str, Any]) -> Tuple[int, int, int, int, float]:
    """What the epochs of a satellite or of a pass add up to."""
    return row["phases"], row["slips"], row["moments"], row["outages"], row["outage_time_ms"] / 1000


def tracked_of(row: Dict[str, Any]) -> Tracked:
    """A satellite over all its codes."""
    return Tracked(row["satellite"], *sums_of(row))


def told(text: str) -> datetime:
    """A GPS time, which stands there."""
    moment = moment_of(text)
    if moment is None:
        raise ValueError("a time is missing")
    return moment


def span_of(row: Dict[str, Any]) -> Tuple[datetime, datetime]:
    """The times from which and until which something lasts."""
    return told(row["from"]), told(row["until"])


def pass_of(row: Dict[str, Any]) -> Pass:
    """A pass of a satellite."""
    first, last = span_of(row)
    return Pass(row["satellite"], first, last, *sums_of(row))


def hour_of(row: Dict[str, Any]) -> Hour:
    """An hour. Its strengths have keys that name their bands."""
    strengths = {int(key.split("_")[2]): part_of(number, 100) for key, number in row.items() if key.startswith("mean_strength_")}
    return Hour(told(row["hour"]), row["records"], row["expected"], row["mean_satellites_tenths"] / 10, row["slips"], row["returns"], strengths)


def gap_of(row: Dict[str, Any]) -> Gap:
    """A gap."""
    return Gap(*span_of(row), row["missing"])


def fall_of(row: Dict[str, Any]) -> Fall:
    """The largest fall of a band."""
    return Fall(row["band"], *span_of(row), row["mean_strength_centidbhz"] / 100)


def outage_of(row: Dict[str, Any]) -> Outage:
    """An outage of a satellite."""
    return Outage(row["satellite"], *span_of(row), row["outage_time_ms"] / 1000)


def slips_together_of(row: Dict[str, Any]) -> SlipsTogether:
    """A record in which several satellites slip."""
    return SlipsTogether(told(row["time"]), row["satellites"], row["tracked"])


def burst_of(row: Dict[str, Any]) -> Burst:
    """An hour in which a satellite slips at several moments."""
    return Burst(row["satellite"], told(row["hour"]), row["moments"])


def half_run_of(row: Dict[str, Any]) -> HalfRun:
    """A run of half cycles of a satellite."""
    return HalfRun(row["satellite"], *span_of(row), row["epochs"])


def missing_code_of(row: Dict[str, Any]) -> MissingCode:
    """A time in which a code of a satellite is missing."""
    return MissingCode(row["satellite"], row["code"], *span_of(row), row["epochs"])
