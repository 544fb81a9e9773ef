"""The slow model of the numbers of a file: each number is counted on its own, over the text."""
# pins: Missing.is_listed, all_missing, absence_of, is_longer, begins_pass, ends_outage, is_rise, is_return, is_slip, counts_of, passes_of, epochs_in_passes, percent_tenths, mean_hundredths

from __future__ import annotations

import json
from collections import Counter
from fractions import Fraction
from typing import NamedTuple

from parts import END, MS, START, records_of, width_of

HOUR = 3_600_000


class Shown(NamedTuple):
    """What a code shows in a record, by its columns."""

    range: bool
    phase: bool
    digit: int
    strength: int | None
    doppler: bool


def shown_in(field: str) -> Shown:
    """Of 48 columns, or of 64 with Doppler."""
    strength = field[-16:].strip()
    digit = int(field[30].strip() or 0)
    doppler = bool(field[32:-16].strip())
    return Shown(bool(field[:14].strip()), bool(field[16:30].strip()), digit, round(float(strength) * 1000) if strength else None, doppler)


def interval_of(times: list[int]) -> int | None:
    steps = Counter(b - a for a, b in zip(times, times[1:]))
    return min(steps, key=lambda step: (-steps[step], step)) if steps else None


def missing_in(times: list[int], interval: int | None) -> int:
    """A step is the nearest whole number of intervals, a half counts down, and it is one at least."""
    nearest = (max(1, -((interval - 2 * (b - a)) // (2 * interval))) for a, b in zip(times, times[1:])) if interval else ()
    return sum(it - 1 for it in nearest)


def absence(step: int, interval: int | None) -> int:
    """The time in ms between two phases without one interval and without the tolerance."""
    return step - (interval or 0) - 2 * min(25, (interval or 0) // 10)


def passes_of(seen: list[tuple[int, int]], interval: int | None) -> list[list[list[tuple[int, int]]]]:
    """Records with a phase, by their number and time, in passes, each of them in spans between outages."""
    passes: list[list[list[tuple[int, int]]]] = []
    for at, time in seen:
        last_at, last_time = passes[-1][-1][-1] if passes else (at, time)
        away = absence(time - last_time, interval)
        if not passes or away > 1_800_000:
            passes.append([[]])
        elif away > 120_000 and at - last_at > 1:
            passes[-1].append([])
        passes[-1][-1].append((at, time))
    return passes


def whole(number: Fraction) -> int:
    """The nearest whole number; of two alike the greater one."""
    return (2 * number + 1) // 2


def moment(time: int) -> str:
    return f"{START + time * MS:%Y-%m-%d %H:%M:%S}.{time % 1000:03}"


def point(number: int | None, digits: int) -> str:
    if number is None:
        return "-"
    return f"{number // 10**digits}.{number % 10**digits:0{digits}}" if digits else str(number)


class Field(NamedTuple):
    """A number or a text of a line: its word there, its key in JSON, the digits behind its point (a text has none), and what stands
    there without a value."""

    word: str
    key: str
    value: int | str | None
    digits: int | None = 0
    none: str = "-"

    def in_line(self) -> str:
        shown = self.none if self.value is None else str(self.value) if self.digits is None else point(self.value, self.digits)
        return f"{self.word} {shown}" if self.word else shown


def counted(word: str, number: int | None) -> Field:
    return Field(word, word.replace("-", "_"), number)


def text(word: str, key: str, value: str) -> Field:
    return Field(word, key, value, None)


def numbers(rows: list[Shown], knows: list[str], possible: int, having: list[Field]) -> list[Field]:
    """The numbers of a code: what it shows, what a bit 0 is there, how many phases could be there, and on how many satellites the
    code is."""
    phases = sum(it.phase for it in rows)
    bits = Counter(kind for it, kind in zip(rows, knows) if it.digit & 1)
    slips = bits["slip"]
    strengths = [it.strength for it in rows if it.strength is not None]
    percent = 1000 * phases // possible if possible else 0
    mean = whole(Fraction(sum(strengths), 10 * len(strengths))) if strengths else None
    return [
        counted("phases", phases),
        Field("of", "possible", possible),
        Field("percent", "percent_tenths", percent, 1),
        *having,
        counted("ranges-only", sum(it.range and not it.phase for it in rows)),
        counted("slips", slips),
        counted("returns", bits["return"]),
        counted("rises", bits["rise"]),
        counted("half-cycles", sum(it.digit >> 1 for it in rows)),
        Field(
            "phases-per-slip", "phases_per_slip", whole(Fraction(phases, slips)) if phases and slips else None,
            none="none-lost" if phases else "no-phase"),
        Field("least-strength", "least_strength_millidbhz", min(strengths, default=None), 3),
        Field("mean-strength", "mean_strength_centidbhz", mean, 2),
        Field("greatest-strength", "greatest_strength_millidbhz", max(strengths, default=None), 3),
    ]


class Satellite:
    """A satellite: what its codes show in each record, and its passes."""

    def __init__(self, name: str, records: list, times: list[int], codes: int, interval: int | None) -> None:
        self.name = name
        width = records[0].width
        line = {at: it.lines[name][3:].ljust(width * codes) for at, it in enumerate(records) if name in it.lines}
        self.shown = {at: [shown_in(row[width * c : width * (c + 1)]) for c in range(codes)] for at, row in line.items()}
        self.spans = passes_of([(at, times[at]) for at, row in self.shown.items() if any(it.phase for it in row)], interval)
        self.possible = sum(row[-1][-1][0] - row[0][0][0] + 1 for row in self.spans)

    def rows(self, code: int) -> list[Shown]:
        return [row[code] for row in self.shown.values()]

    def has(self, code: int) -> bool:
        return any(it.range or it.phase or it.doppler or it.strength is not None for it in self.rows(code))

    def knows(self, code: int) -> list[str]:
        """What a bit 0 of the code is, for each record with the satellite: a slip if the code had a phase earlier in the pass and since
        the last outage, a return if it had one earlier in the pass, or else a rise."""
        kinds = {}
        for row in self.spans:
            had = False
            for span in row:
                kept = False
                for at, _ in span:
                    kinds[at] = "slip" if kept else "return" if had else "rise"
                    kept = kept or self.shown[at][code].phase
                    had = had or kept
        return [kinds.get(at, "rise") for at in self.shown]

    def sums(self, rows: list[list[list[tuple[int, int]]]], interval: int | None) -> list[Field]:
        """The phases and slips of passes, the moments at which a code slips, and the outages."""
        codes = len(next(iter(self.shown.values())))
        kinds = [dict(zip(self.shown, self.knows(code))) for code in range(codes)]
        seen = {at: [self.shown[at][code] for code in range(codes)] for row in rows for span in row for at, _ in span}
        slips = {at: sum(it.digit & 1 and kinds[code][at] == "slip" for code, it in enumerate(row)) for at, row in seen.items()}
        out = [span[0][1] - before[-1][1] - (interval or 0) for row in rows for before, span in zip(row, row[1:])]
        return [
            counted("phases", sum(it.phase for row in seen.values() for it in row)),
            counted("slips", sum(slips.values())),
            counted("moments", sum(it > 0 for it in slips.values())),
            counted("outages", len(out)),
            Field("outage-time", "outage_time_ms", sum(out), 3),
        ]

    def outages(self, interval: int | None) -> list[tuple[int, int, int]]:
        """For each outage the moments of the phases before and after it, and its time in ms."""
        return [(a[-1][1], b[0][1], b[0][1] - a[-1][1] - (interval or 0)) for row in self.spans for a, b in zip(row, row[1:])]


def mean_of(strengths: list[int]) -> int | None:
    """In hundredths of a dB-Hz."""
    return whole(Fraction(sum(strengths), 10 * len(strengths))) if strengths else None


class Station:
    """What the station has in each hour, and where its file has gaps."""

    def __init__(self, records: list, times: list[int], interval: int | None, codes: list[str], satellites: list[Satellite]) -> None:
        self.near = min(25, (interval or 0) // 10)
        self.times, self.satellites, self.codes = times, satellites, codes
        self.bands = sorted({code[0] for code in codes})
        self.gaps = [(a, b, missing) for a, b in zip(times, times[1:]) if (missing := missing_in([a, b], interval))]
        self.missing: Counter[int] = Counter()
        for a, b, missing in self.gaps:
            for hour in {self.hour(a), self.hour(b)}: # no other hour that the gap touches has a record
                first = -((a + self.near - hour * HOUR) // interval)
                last = ((hour + 1) * HOUR - 1 - self.near - a) // interval
                self.missing[hour] += max(0, min(last, missing) - max(first, 1) + 1)
        self.places: dict[int, list[int]] = {}
        for at, time in enumerate(times):
            self.places.setdefault(self.hour(time), []).append(at)
        self.rows = [len(it.lines) for it in records]
        self.kinds = {(it.name, c): dict(zip(it.shown, it.knows(c))) for it in satellites for c in range(len(codes))}

    def hour(self, time: int) -> int:
        """A record may lie beside its moment, so it may lie before its hour."""
        return (time + self.near) // HOUR

    def locks(self, places: list[int], kind: str) -> int:
        return sum(it.shown[at][c].digit & 1 and self.kinds[it.name, c][at] == kind
            for it in self.satellites for at in places if at in it.shown for c in range(len(self.codes)))

    def mean(self, places: list[int], band: str) -> int | None:
        shown = [it.shown[at][c].strength for it in self.satellites for at in places if at in it.shown
            for c, code in enumerate(self.codes) if code[0] == band]
        return mean_of([it for it in shown if it is not None])

    def hours(self) -> list[tuple[str, list[Field]]]:
        return [("hour", [
            text("", "hour", moment(hour * HOUR)),
            counted("records", len(places)),
            Field("of", "expected", len(places) + self.missing[hour]),
            Field("mean-satellites", "mean_satellites_tenths", whole(Fraction(10 * sum(self.rows[at] for at in places), len(places))), 1),
            counted("slips", self.locks(places, "slip")),
            counted("returns", self.locks(places, "return")),
            *(Field(f"mean-strength-{band}", f"mean_strength_{band}_centidbhz", self.mean(places, band), 2) for band in self.bands),
        ]) for hour, places in self.places.items()]

    def longest_outages(self, interval: int | None) -> list[tuple[str, list[Field]]]:
        """The ten longest; of those alike the one that ends first, and then the satellite with the lower number."""
        all_of_them = [(-ms, until, it.name, since) for it in self.satellites for since, until, ms in it.outages(interval)]
        return [("outage", [
            text("", "satellite", name),
            text("from", "from", moment(since)),
            text("until", "until", moment(until)),
            Field("outage-time", "outage_time_ms", -ms, 3),
        ]) for ms, until, name, since in sorted(all_of_them)[:10]]

    def slips_together(self) -> list[tuple[int, int, int]]:
        """The records in which at least two satellites slip: the time, how many do, and how many have a phase."""
        found = []
        for at, time in enumerate(self.times):
            shown = {it.name: it.shown[at] for it in self.satellites if at in it.shown and any(row.phase for row in it.shown[at])}
            slipping = [name for name, rows in shown.items()
                if any(row.digit & 1 and self.kinds[name, c][at] == "slip" for c, row in enumerate(rows))]
            if len(slipping) >= 2:
                found.append((time, len(slipping), len(shown)))
        return found

    def largest_slips_together(self) -> list[tuple[str, list[Field]]]:
        most = sorted(self.slips_together(), key=lambda it: -it[1])[:10]
        return [("slip-together", [text("", "time", moment(time)), counted("satellites", n), Field("of", "tracked", of)]) for time, n, of in most]

    def bursts(self) -> list[tuple[int, float, str, int]]:
        """The hours in which a satellite slips in at least two records, the one with most first. Of those alike the one whose satellite
        slips first in another hour comes first, and those after which it never does come last."""
        found = []
        for it in self.satellites:
            slipping = [at for at, rows in it.shown.items()
                if any(row.digit & 1 and self.kinds[it.name, c][at] == "slip" for c, row in enumerate(rows))]
            hours: dict[int, list[int]] = {}
            for at in slipping:
                hours.setdefault(self.hour(self.times[at]), []).append(at)
            for hour, places in hours.items():
                after = [at for at in slipping if at > places[-1]]
                if len(places) >= 2:
                    found.append((-len(places), after[0] if after else float("inf"), it.name, hour))
        return sorted(found)

    def half_runs(self) -> list[tuple[int, float, str, int, int]]:
        """The runs of records of a pass in which a satellite has a half cycle, the longest first. Of those alike the one comes first that
        ends first, as its satellite has a phase without a half cycle or begins a pass, and those that never end come last."""
        found = []
        for it in self.satellites:
            phases = [(at, number) for number, row in enumerate(it.spans) for span in row for at, _ in span]
            run: list[int] = []
            last = None
            for at, number in [*phases, (None, None)]:
                half = at is not None and any(row.digit & 2 for row in it.shown[at])
                if run and (number != last or not half):
                    found.append((-len(run), float("inf") if at is None else at, it.name, self.times[run[0]], self.times[run[-1]]))
                    run = []
                run, last = [*run, at] if half else [], number
        return sorted(found)

    def events(self) -> list[tuple[str, list[Field]]]:
        bursts = [("burst", [text("", "satellite", name), text("hour", "hour", moment(hour * HOUR)), counted("moments", -n)])
            for n, _, name, hour in self.bursts()[:10]]
        return bursts + [("half-run", [
            text("", "satellite", name),
            text("from", "from", moment(since)),
            text("until", "until", moment(until)),
            counted("epochs", -n),
        ]) for n, _, name, since, until in self.half_runs()[:10]]

    def missing_codes(self, interval: int | None) -> list[tuple[int, str, int, int, int]]:
        """The times for which a satellite has phases but none of a code, of which it has one elsewhere: how many records with a phase of the
        satellite follow one another in a pass without one of the code, if they are longer than 120 s, and the first and the last one."""
        found = []
        for it in self.satellites:
            for c in range(len(self.codes)):
                if not any(rows[c].phase for rows in it.shown.values()):
                    continue
                for row in it.spans:
                    tracked = [at for span in row for at, _ in span]
                    there = [n for n, at in enumerate(tracked) if it.shown[at][c].phase]
                    for a, b in zip([-1, *there], [*there, len(tracked)]):
                        without = tracked[a + 1 : b]
                        if len(without) * (interval or 0) > 120_000 + 2 * self.near:
                            found.append((-len(without), it.name, c, self.times[without[0]], self.times[without[-1]]))
        return sorted(found)

    def longest_missing_codes(self, interval: int | None) -> list[tuple[str, list[Field]]]:
        return [("missing-code", [
            text("", "satellite", name),
            text("", "code", self.codes[c]),
            text("from", "from", moment(since)),
            text("until", "until", moment(until)),
            counted("epochs", -n),
        ]) for n, name, c, since, until in self.missing_codes(interval)[:10]]

    def falls(self) -> list[tuple[str, list[Field]]]:
        lines: list[tuple[str, list[Field]]] = []
        for band in self.bands:
            means = [(hour, mean) for hour, places in self.places.items() if (mean := self.mean(places, band)) is not None]
            steps = [(a, b, mean - less) for (a, mean), (b, less) in zip(means, means[1:]) if less < mean]
            for a, b, by in sorted(steps, key=lambda it: -it[2])[:1]:
                lines.append(("fall", [
                    counted("band", int(band)),
                    text("from", "from", moment(a * HOUR)),
                    text("until", "until", moment(b * HOUR)),
                    Field("mean-strength", "mean_strength_centidbhz", by, 2),
                ]))
        return lines


class Part(NamedTuple):
    """The numbers of satellites and codes: their totals, the lines of codes, of satellites and of passes, and those of times, without the
    gaps, and how many Doppler values each code has."""

    totals: list[Field]
    signals: list[tuple[str, list[Field]]]
    times: list[tuple[str, list[Field]]]
    shifts: list[tuple[str, int]]


def part_of(records: list, times: list[int], interval: int | None, codes: list[str], letter: str = "") -> Part:
    """The numbers of satellites with these codes. `letter` stands before a code in lines that name no satellite."""
    names = sorted({name for it in records for name in it.lines})
    satellites = [Satellite(name, records, times, len(codes), interval) for name in names]
    seen = [it for it in satellites if any(it.has(c) for c in range(len(codes)))]
    counts = [len(it.lines) for it in records]
    sums = {it.name: it.sums(it.spans, interval) for it in satellites}
    station = Station(records, times, interval, codes, satellites)
    none = [counted("slips", 0), counted("moments", 0), counted("outages", 0), Field("outage-time", "outage_time_ms", 0, 3)]
    totals = [
        counted("satellites", len(seen)),
        counted("least-satellites", min(counts)),
        Field("mean-satellites", "mean_satellites_tenths", whole(Fraction(10 * sum(counts), len(records))), 1),
        counted("greatest-satellites", max(counts)),
        *(one[0]._replace(value=sum(it.value for it in one)) for one in list(zip(*(it[1:] for it in sums.values()))) or zip(none)),
        counted("slips-together", len(station.slips_together())),
        counted("bursts", len(station.bursts())),
        counted("half-runs", len(station.half_runs())),
        counted("missing-codes", len(station.missing_codes(interval))),
    ]
    out: list[tuple[str, list[Field]]] = []
    for c, code in enumerate(codes):
        having = [it for it in satellites if it.has(c)]
        rows, knows = [row for it in having for row in it.rows(c)], [k for it in having for k in it.knows(c)]
        on = [counted("satellites", len(having)), Field("of", "tracked", len(seen))]
        out.append(("code", [text("", "code", letter + code), *numbers(rows, knows, sum(it.possible for it in having or satellites), on)]))
    for it in seen:
        for c, code in enumerate(codes):
            if it.has(c):
                names_of_it = [text("", "satellite", it.name), text("", "code", code)]
                out.append(("satellite", [*names_of_it, *numbers(it.rows(c), it.knows(c), it.possible, [])]))
    out += [("tracked", [text("", "satellite", it.name), *sums[it.name]]) for it in seen]
    out += [("never", [text("", "satellite", it.name), text("", "code", code)]) for it in seen for c, code in enumerate(codes) if not any(row.phase for row in it.rows(c))]
    for it in satellites:
        for row in it.spans:
            span = [text("from", "from", moment(row[0][0][1])), text("until", "until", moment(row[-1][-1][1]))]
            out.append(("pass", [text("", "satellite", it.name), *span, *it.sums([row], interval)]))
    when = station.hours() + station.falls() + station.longest_outages(interval) + station.largest_slips_together()
    shifts = [(code, sum(row.doppler for it in satellites for row in it.rows(c))) for c, code in enumerate(codes)]
    return Part(totals, out, when + station.events() + station.longest_missing_codes(interval), shifts)


class File(NamedTuple):
    """A file: its marker, its records, and their times and interval in ms."""

    marker: Field
    records: list
    times: list[int]
    interval: int | None

    def gaps(self) -> list[tuple[int, int, int]]:
        """The times around each gap, and how many epochs it lacks."""
        return [(a, b, missing) for a, b in zip(self.times, self.times[1:]) if (missing := missing_in([a, b], self.interval))]

    def heading(self) -> list[Field]:
        return [
            self.marker,
            text("from", "from", moment(self.times[0])),
            text("until", "until", moment(self.times[-1])),
            Field("interval", "interval_ms", self.interval, 3),
            counted("records", len(self.records)),
            counted("missing", missing_in(self.times, self.interval)),
            counted("gaps", len(self.gaps())),
        ]

    def longest_gaps(self) -> list[tuple[str, list[Field]]]:
        """The ten longest; a sort keeps the order of those alike."""
        longest = sorted(self.gaps(), key=lambda it: -it[2])[:10]
        return [("gap", [text("from", "from", moment(a)), text("until", "until", moment(b)), counted("missing", count)]) for a, b, count in longest]


def file_of(header: str, body: str) -> File:
    records = records_of(body, width_of(header))
    times = [(it.time - START) // MS for it in records]
    return File(text("marker", "marker", header.splitlines()[2][:60].rstrip()), records, times, interval_of(times))


def entries_of(file: str) -> tuple[list[Field], list[tuple[str, list[Field]]]]:
    """The numbers of the whole file, and the lines after them, each with its keyword."""
    header, body = file.split(END)
    codes = [it[1:] for it in "".join(line[6:60] for line in header.splitlines() if "SYS / # / OBS TYPES" in line).split()[::3]]
    whole_file = file_of(header, body)
    if not whole_file.records:
        return [whole_file.marker, counted("records", 0)], []
    part = part_of(whole_file.records, whole_file.times, whole_file.interval, codes)
    hours = [it for it in part.times if it[0] == "hour"]
    return whole_file.heading() + part.totals, part.signals + hours + whole_file.longest_gaps() + part.times[len(hours) :]


def lines(file: str) -> str:
    """The numbers of a file as lines."""
    heading, entries = entries_of(file)
    lines = [it.in_line() for it in heading] + [" ".join([keyword, *(it.in_line() for it in fields)]) for keyword, fields in entries]
    return "\n".join(lines) + "\n"


LISTS = {"code": "codes", "satellite": "satellites", "tracked": "tracked", "never": "never", "pass": "passes", "hour": "hours", "gap": "gaps",
    "fall": "falls", "outage": "outages", "slip-together": "slips_together",
    "burst": "bursts", "half-run": "half_runs", "missing-code": "missing_codes"}

# The lists of times, which stand first in the table. Those with a count in the head have ten entries at most.
TIMES = ("hour", "gap", "fall", "outage", "slip-together", "burst", "half-run", "missing-code")
MOST = {"gap": "gaps", "outage": "outages", "slip-together": "slips-together", "burst": "bursts", "half-run": "half-runs",
    "missing-code": "missing-codes"}


def arrays_of(entries: list[tuple[str, list[Field]]], leaving_out: str = "") -> list[str]:
    """For each list an array with an object on each line."""
    lists: dict[str, list[str]] = {name: [] for keyword, name in LISTS.items() if keyword != leaving_out}
    for keyword, fields in entries:
        lists[LISTS[keyword]].append(compact(fields))
    return [f'"{name}":[' + ",".join("\n" + it for it in rows) + ("\n]" if rows else "]") for name, rows in lists.items()]


def in_json(file: str) -> str:
    """The same as a JSON object: an object for the file, and for each list an array with an object on each line."""
    heading, entries = entries_of(file)
    return ",\n".join(['{"file":' + compact(heading), *arrays_of(entries)]) + "}\n"


def compact(fields: list[Field]) -> str:
    return json.dumps({it.key: it.value for it in fields}, separators=(",", ":"))


SUMS = ("phases", "slips", "moments", "outages", "outage_time_ms")

# For each list of the table its heading, and the widths of its columns by their keys; a text column is cut to its width.
SIGNALS = ("phases 7", "possible 7", "percent_tenths 7", "ranges_only 7", "slips 6", "returns 8", "rises 6", "half_cycles 5",
    "least_strength_millidbhz 8", "mean_strength_centidbhz 6", "greatest_strength_millidbhz 7")
TABLES = {
    "code": ("                            ranges                             strength in dB-Hz\n"
        "signal phases     of      %   only slips returns rises half     min  mean    max", SIGNALS),
    "satellite": (None, SIGNALS),
    "tracked": ("sat    phases  slips  moments  outages        time", ("phases 10", "slips 7", "moments 9", "outages 9", "outage_time_ms 12")),
    "never": ("never a phase", ()),
    "pass": ("sat from                until               phases slips moments  out      time",
        ("from 19", "until 19", "phases 7", "slips 6", "moments 8", "outages 5", "outage_time_ms 10")),
    "hour": ("hour             records    of satellites  slips returns  band 1  band 2  band 5",
        ("hour 16", "records 8", "expected 6", "mean_satellites_tenths 11", "slips 7", "returns 8", "mean_strength_1_centidbhz 8",
            "mean_strength_2_centidbhz 8", "mean_strength_5_centidbhz 8")),
    "gap": ("gap from                until                     missing", ("from 23", "until 23", "missing 10")),
    "outage": ("outage from             until                      time", ("from 19", "until 19", "outage_time_ms 12")),
    "slip-together": ("slips together      satellites    of", ("time 19", "satellites 11", "tracked 6")),
    "burst": ("burst hour           moments", ("hour 16", "moments 8")),
    "half-run": ("half from               until                  epochs", ("from 19", "until 19", "epochs 10")),
    "missing-code": ("missing from               until                  epochs", ("from 19", "until 19", "epochs 10")),
    "fall": ("band falls from       until                by", ("band 4", "from 16", "until 16", "mean_strength_centidbhz 8")),
}


def row_of(keyword: str, fields: list[Field]) -> str:
    """A row of the table: names and moments stand to the left, with a blank between, and numbers to the right, behind a blank."""
    by_key = {it.key: it for it in fields}
    name = " ".join(str(by_key[it].value) for it in ("satellite", "code") if it in by_key)
    row = f"all {name}" if keyword == "code" else name
    for key, width in (it.split() for it in TABLES[keyword][1]):
        field = by_key.get(key, Field("", key, None))
        if field.digits is None:
            row += (" " if row else "") + str(field.value)[: int(width)]
        else:
            row += (" " + field._replace(word="").in_line().lstrip()).rjust(int(width))
    if keyword == "code":
        on = [it.in_line() for it in fields if it.key in ("satellites", "tracked", "phases_per_slip")]
        row += "\n       " + " ".join(on)
    return row


def in_order(entries: list[tuple[str, list[Field]]]) -> list[tuple[str, list[Field]]]:
    """The entries in the order of the table: what tells of times comes first, and the codes that satellites never have are one entry for
    each code."""
    never: dict[str, list[str]] = {}
    for keyword, fields in entries:
        if keyword == "never":
            never.setdefault(fields[1].value, []).append(fields[0].value)
    order = [fields[0].value for keyword, fields in entries if keyword == "code"]
    by_code = [("never", [text("", "code", code), *(text("", "satellite", it) for it in never[code])]) for code in order if code in never]
    times = [it for it in entries if it[0] in TIMES]
    others = [it for it in entries if it[0] not in (*TIMES, "never", "pass")]
    return times + others + by_code + [it for it in entries if it[0] == "pass"]


def never_rows(fields: list[Field]) -> list[str]:
    """A code and the satellites that never have it, 19 in a row."""
    code, *names = [it.value for it in fields]
    return [" ".join([code, *names[at : at + 19]]) for at in range(0, len(names), 19)]


def lined_up(fields: list[Field]) -> list[str]:
    return [it.word + it._replace(word="").in_line().rjust(43 - len(it.word)) for it in fields]


def rows_of(heading: list[Field], entries: list[tuple[str, list[Field]]]) -> list[str]:
    """The lists of a table, under their titles, with how many more there are than the heading counts."""
    lines: list[str] = []
    last = ""
    found = {it.word: it.value for it in heading}
    for keyword, fields in [*in_order(entries), ("", [])]:
        if keyword != last and found.get(MOST.get(last, ""), 0) > 10:
            lines.append(f"and {found[MOST[last]] - 10} more")
        title = TABLES[keyword][0] if keyword else None
        if keyword != last and title is not None:
            lines += ["", title]
        last = keyword
        lines += never_rows(fields) if keyword == "never" else [row_of(keyword, fields)] if keyword else []
    return lines


def table(file: str) -> str:
    """The same as a table."""
    heading, entries = entries_of(file)
    return "\n".join([f"marker {heading[0].value}", *lined_up(heading[1:]), *rows_of(heading, entries)]) + "\n"


if __name__ == "__main__":
    import sys

    print(table(open(sys.argv[1], encoding="ascii").read()), end="")
