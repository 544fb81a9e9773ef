"""The slow model of pictures: each column is asked for its epochs, one after another."""
# pins: IsMostFrequent, missing_before, nearest_intervals, bin_length, has_missing, IsScale, Scale.unit_of, half_of
# pins: absence_of, is_longer, begins_pass, ends_outage, is_rise, is_return, is_slip, Grid.code_in, lacks_phase, times_in_epoch, has_outage

from __future__ import annotations

from collections import Counter
from collections.abc import Iterable
from fractions import Fraction
from math import ceil, floor
from pathlib import Path
from typing import NamedTuple

from messages import fixed
from parts import END, MS, START, records_of

ROOT = Path(__file__).resolve().parents[2]
DAY = 86_400_000
STEPS = [
    *(1000 * seconds for seconds in (1, 2, 5, 10, 15, 30)),
    *(60_000 * minutes for minutes in (1, 2, 5, 10, 15, 30)),
    *(3_600_000 * hours for hours in (1, 2, 3, 6, 12)),
    *(DAY * days for days in (1, 2, 7)),
]


class Shown(NamedTuple):
    """What a code shows: its phase, its loss-of-lock digit, its strength digit, its strength in thousandths of a dB-Hz, and what a bit 0
    is: slip, return or rise."""

    phase: bool
    lock: int
    level: int | None
    strength: Fraction | None
    kind: str = "slip"

    def has(self, kind: str) -> bool:
        """Whether the digit has bit 0, and it is of this kind."""
        return bool(self.lock & 1) and self.kind == kind


class Epoch(NamedTuple):
    """An epoch: its moment in ms, and the codes of each satellite by its name."""

    time: int
    satellites: dict[str, list[Shown]]


def shown_in(field: str) -> Shown:
    """What the 48 columns of a code show, or the 64 columns with Doppler, which is not drawn."""
    phase = field[16:32]
    strength = field[-16:-2].strip()
    level = min(max(int(float(strength) / 6), 1), 9) if strength else None
    return Shown(bool(phase[:14].strip()), int(phase[14].strip() or 0), level, 1000 * Fraction(strength) if strength else None)


def epochs_of(records: str, codes: int) -> list[Epoch]:
    """The epochs of the records of a file."""

    def shown(line: str) -> list[Shown]:
        columns = line[3:].ljust(48 * codes)
        return [shown_in(columns[at : at + 48]) for at in range(0, 48 * codes, 48)]

    return [
        Epoch((it.time - START) // MS, {name: shown(line) for name, line in it.lines.items()})
        for it in records_of(records)
    ]


def absence(step: int, interval: int | None) -> int:
    """An absence less its tolerance, if the phases of a satellite are a step apart."""
    return step - (interval or 0) - 2 * min(25, (interval or 0) // 10)


def with_kinds(epochs: list[Epoch], interval: int | None) -> dict[str, list[tuple[int, int]]]:
    """Tells slips from rises and returns: satellite by satellite, each span up to an absence is looked through for the first phase
    of each code. Gives the outages of each satellite, by the times of its phases before and after them."""
    outages: dict[str, list[tuple[int, int]]] = {}
    for name in {name for epoch in epochs for name in epoch.satellites}:
        outages[name] = []
        last: tuple[int, int] | None = None
        had: set[int] = set()
        kept: set[int] = set()
        for at, epoch in enumerate(epochs):
            codes = epoch.satellites.get(name, [])
            phases = {code for code, shown in enumerate(codes) if shown.phase}
            if phases and (last is None or absence(epoch.time - last[1], interval) > 1_800_000):
                had, kept = set(), set()
            elif phases and last and absence(epoch.time - last[1], interval) > 120_000 and at - last[0] > 1:
                kept = set()
                outages[name].append((last[1], epoch.time))
            if codes:
                kinds = ["rise" if code not in had else "slip" if code in kept else "return" for code in range(len(codes))]
                epoch.satellites[name] = [shown._replace(kind=kind) for shown, kind in zip(codes, kinds)]
            had, kept = had | phases, kept | phases
            last = (at, epoch.time) if phases else last
    return outages


def character(epochs: list[Epoch], name: str, had: set[int], out: bool) -> str:
    """The character of a satellite, which has these codes somewhere, in the epochs of a column, where it is out or not."""
    rows = [epoch.satellites.get(name) for epoch in epochs]
    cells = [shown for row in rows if row for shown in row]
    slip, half = any(c.has("slip") for c in cells), any(c.lock & 2 for c in cells)
    if slip:
        return "B" if half else "S"
    if out:
        return "o"
    if half:
        return "H"
    for kind, sign in ("rise", "R"), ("return", "r"):
        if any(c.has(kind) for c in cells):
            return sign
    for row in rows:
        if row and any(shown.phase for shown in row) and not all(row[code].phase for code in had):
            return "-"
    levels = [c.level for c in cells if c.level is not None]
    return str(min(levels)) if levels else "." if any(c.phase for c in cells) else " "


def nearest(step: int, interval: int) -> int:
    """How many intervals a step has: the nearest whole number; a half counts down."""
    return round(Fraction(step, interval) - Fraction(1, 10**9))


def moment(time: int) -> str:
    return f"{START + time * MS:%Y-%m-%d %H:%M:%S}.{time % 1000:03}"


class Drawn:
    """What is drawn of a file, in at most so many columns."""

    def __init__(self, text: str, most: int, chosen: set[str] | None = None) -> None:
        header, records = text.split(END)
        lines = header.splitlines()
        self.marker = lines[2][:60].rstrip()
        types = "".join(line[6:60] for line in lines if "SYS / # / OBS TYPES" in line).split()
        self.codes = [it[1:] for it in types[::3]]
        self.epochs = epochs_of(records, len(self.codes))
        if chosen is not None:
            self.epochs = [Epoch(it.time, {name: row for name, row in it.satellites.items() if name in chosen}) for it in self.epochs]
        self.names = sorted({name for epoch in self.epochs for name in epoch.satellites})
        if self.epochs:
            self._lay(most)

    def codes_of(self, name: str) -> list[str]:
        """The names of the codes of a satellite, in the order of the file."""
        return self.codes

    def _lay(self, most: int) -> None:
        times = [epoch.time for epoch in self.epochs]
        steps = Counter(b - a for a, b in zip(times, times[1:]))
        self.interval = interval = min(steps, key=lambda step: (-steps[step], step)) if steps else None
        outages = with_kinds(self.epochs, interval)
        cells = [c for e in self.epochs for row in e.satellites.values() for c in row]
        self.kinds = Counter(c.kind for c in cells if c.lock & 1)
        # which codes each satellite has somewhere, by their places
        self.had = {
            name: {at for e in self.epochs for at, c in enumerate(e.satellites.get(name, [])) if c.phase} for name in self.names
        }
        # The missing epochs after each epoch. They may be many millions, so they are no list.
        missing = [range(a + interval, a + interval * nearest(b - a, interval), interval) for a, b in zip(times, times[1:])] if interval else []
        self.missing = sum(map(len, missing))
        self.first, self.last = times[0], times[-1]
        unit = interval or 1
        # the least multiple with which the last epoch has a column
        self.half = (unit - 1) // 2
        self.length = unit * ((self.last - self.first + self.half) // (unit * most) + 1)
        self.columns = self.column(self.last) + 1
        self.parts: list[list[Epoch]] = [[] for _ in range(self.columns)]
        for epoch in self.epochs:
            self.parts[self.column(epoch.time)].append(epoch)
        # The columns in which a satellite is out, from the first epoch that its outage has to the last.
        self.out = {
            name: {c for a, b in parts for c in range(self.column(a + unit), self.column(b - unit) + 1)} for name, parts in outages.items()
        }
        # A column is no shorter than the interval, so each column between two with a missing epoch has one.
        ends = [(self.column(row[0]), self.column(row[-1])) for row in missing if row]
        self.gaps = {c for begin, end in ends for c in range(begin, end + 1)}

    def column(self, time: int) -> int:
        """The column of the interval that is nearest to a time."""
        return (time - self.first + self.half) // self.length

    def ticks(self, least: int) -> dict[int, tuple[str, bool]]:
        """What stands at the ticks, by their columns, and whether it is at an odd multiple of the step; they are so far apart at least."""
        step = next((s for s in STEPS if s >= least), -(-least // DAY) * DAY)
        ticks = {}
        for c in range(self.columns):
            begin = max(0, self.first + c * self.length - self.half)
            end = min(begin + self.length - 1, self.last)
            if end // step * step >= begin:
                label = moment(end // step * step)
                ticks[c] = label[:10] if step >= DAY else label[11:19], end // step % 2 == 1
        return ticks


def heading_lines(it: Drawn) -> list[str]:
    """The lines above the satellites of a picture in characters."""
    out = [f"marker {it.marker}", f"from {moment(it.first)} GPS time", f"until {moment(it.last)} GPS time"]
    if it.interval:
        out += [f"interval {fixed(it.interval, 3)}", f"column {fixed(it.length, 3)}"]
    out += [f"records {len(it.epochs)}", f"satellites {len(it.names)}"]
    return [*out, f"slips {it.kinds['slip']}", f"returns {it.kinds['return']}", f"rises {it.kinds['rise']}", f"missing {it.missing}"]


def row_of(it: Drawn, name: str) -> str:
    """The row of a satellite."""
    return f"{name}|{''.join(character(part, name, it.had[name], c in it.out[name]) for c, part in enumerate(it.parts))}|"


def rows_below(it: Drawn, width: int) -> list[str]:
    """The rows of missing epochs and of the time."""
    out = [f"gap|{''.join('/' if c in it.gaps and part else 'x' if c in it.gaps else ' ' for c, part in enumerate(it.parts))}|"]
    ticks = it.ticks(12 * it.length)
    out.append("    " + "".join("+" if c in ticks else "-" for c in range(it.columns)))
    labels = [" "] * width
    end = it.columns
    for c, (label, _) in ticks.items():
        if 4 + c + len(label) <= width:
            labels[c : c + len(label)] = label
            end = max(end, c + len(label))
    return [*out, "    " + "".join(labels[:end])]


def never_lines(it: Drawn, width: int, title: str, at: int, names: list[str]) -> list[str]:
    """The lines of those of these satellites that have a code nowhere: as many stand behind its title as have room."""
    start = f"never {title}:"
    never = [name for name in names if at not in it.had[name]]
    most = (width - len(start)) // 4
    return [" ".join([start, *never[begin : begin + most]]) for begin in range(0, len(never), most)]


def text_picture(text: str, width: int, chosen: set[str] | None = None) -> str:
    """The picture of a file, so many characters wide, of these satellites or of all."""
    it = Drawn(text, width - 5, chosen)
    if not it.epochs:
        return f"marker {it.marker}\nno records\n"
    out = [*heading_lines(it), "GPS", *(row_of(it, name) for name in it.names), *rows_below(it, width)]
    for at, code in enumerate(it.codes):
        out += never_lines(it, width, code, at, it.names)
    return "\n".join([*out, *SIGNS]) + "\n"


SIGNS = [
    "S slip  H half cycle  B S and H",
    "R rise  r return  o outage",
    "- code missing  x epochs missing  / some",
    "1-9 strength, 5 is 30-35 dB-Hz  . none",
]


# pins: edge_of, SvgPath.middle_of, run_part, mark_part, path_start, runs_path, marks_path, level_path
# pins: outage_boxes, missing_paths, lock_paths, shows, column_numbers, drawn_bar, SvgPicture.code_line, line_if_had, band_height, band_top, band_start, band_text
# pins: spacing_of, line_top, line_start, code_start, name_start, name_drop
# pins: band_if_drawn, bands_text, gaps_band, satellites_band, step_part, label_start, tick_text, ticks_text, svg_tick_step
# pins: bins_per_column, strengths_in, mean_of, reach_between, depth_of, depth_part, lane_start, lane_text, lane_height, strip_height, strip_text, Means.number_of
# pins: interval_text, svg_span, svg_numbers, civil_text, svg_picture, svg_start, svg_body, svg_legend, never_end, never_text, never_name, never_if_lacked
def svg_picture(text: str, chosen: set[str] | None = None) -> str:
    """The picture of a file in SVG, of these satellites or of all."""
    it = Drawn(text, UNITS, chosen)
    if not it.epochs:
        return svg_of_none(it)
    close = sum(map(len, it.had.values())) > MOST_WIDE
    bands, height = bands_of(it, it.names, 140, close)
    never = [[name for name in it.names if at not in it.had[name]] for at in range(len(it.codes))]
    end = 140 + height
    y = end + 18
    lines = []
    for code, names in zip(it.codes, never):
        if names:
            lines.append(f"<text class='never' x='110' y='{y}'>{' '.join([f'never {code}:', *names])}</text>")
            y += 24
    return svg_of(it, [SYSTEM, *bands, *lines], end + 24 * len(lines), "125")


def svg_start(it: Drawn, height: int) -> list[str]:
    """The beginning of a picture so high."""
    marker = it.marker.replace("&", "&amp;").replace("<", "&lt;").replace(">", "&gt;")
    out = [f"<svg xmlns='http://www.w3.org/2000/svg' viewBox='0 0 1620 {height}'>", f"<title>{marker}</title>", STYLE]
    return [*out, f"<rect class='page' width='1620' height='{height}'/>", f"<text class='marker' x='110' y='42'>{marker}</text>"]


def svg_of_none(it: Drawn) -> str:
    """The picture of a file without records."""
    return "\n".join([*svg_start(it, 110), "<text x='110' y='72'>no records</text>", "</svg>\n"])


def bands_of(it: Drawn, names: list[str], top: int, close: bool) -> tuple[list[str], int]:
    """The bands of these satellites, of which the first begins so far from the top, and how high they are together."""
    out = []
    begin = top
    for at, name in enumerate(names):
        high = band_height(len(it.had[name]), close)
        ground = f"<rect class='b{at % 2}' x='-110' width='1620' height='{high}'/>"
        label = f"<text class='{'name low' if close else 'name'}' x='-40' y='{high // 2 + (7 if close else 9)}'>{name}</text>"
        lines = [line for row, code in enumerate(sorted(it.had[name])) for line in code_line(it, name, code, row, close)]
        outages = path("o", (f"M{begin} 4v{high - 8}H{end}v-{high - 8}z" for begin, end in runs(it, it.out[name])))
        out += group(110, top, [f"<title>{name}</title>", ground, label, *outages, *lines])
        top += high
    return out, top - begin


def svg_of(it: Drawn, satellites_part: list[str], end: int, numbers: str) -> str:
    """The picture with this part for the satellites, which ends so far from the top, and a lane for each of these bands."""
    lanes = lanes_of(it, numbers)
    low = end + 46 * len(lanes)
    out = svg_start(it, low + 230)
    interval = f", interval {fixed(it.interval, 3)} s, column {fixed(it.length, 3)} s" if it.interval else ""
    out.append(f"<text x='110' y='72'>{moment(it.first)} to {moment(it.last)}{interval}</text>")
    counts = f"records {len(it.epochs)}, satellites {len(it.names)}, slips {it.kinds['slip']}, returns {it.kinds['return']}"
    counts += f", rises {it.kinds['rise']}, missing epochs {it.missing}"
    out += [f"<text x='110' y='98'>{counts}</text>", *satellites_part]
    out += group(110, end, ["<title>missing epochs</title>", "<text class='code' x='-6' y='18'>missing</text>", *bars(it, "g", it.gaps, 12)])
    out += group(110, end + 26, satellites(it))
    for at, lane in enumerate(lanes):
        out += group(110, end + 72 + 46 * at, lane)
    for c, (label, odd) in it.ticks((it.columns // 10 + 1) * it.length).items():
        out.append(f"<path class='t' d='M{110 + edge(it, c)} 106V{low + 72}'/>")
        out.append(f"<text class='{'tick odd' if odd else 'tick'}' x='{110 + edge(it, c)}' y='{low + 94}'>{label}</text>")
    return "\n".join([*out, *group(110, low + 104, [LEGEND]), "</svg>\n"])


UNITS = 1440  # how wide the columns are together
MOST_WIDE = 48  # more lines lie close
SYSTEM = "<text class='system' x='110' y='134'>GPS</text>"
STYLE, LEGEND = (
    next(line for line in (ROOT / "examples/marks.svg").read_text().splitlines() if line.startswith(begin))
    for begin in ("<style>", "<text y='16'>GPS time")
)


def edge(it: Drawn, column: int) -> int:
    """Where a column begins: all have a like share of the width, in whole units."""
    return int(Fraction(UNITS * column, it.columns))


def band_height(lines: int, close: bool) -> int:
    """How high the band of a satellite with so many lines is."""
    return 4 + 10 * max(2, lines) if close else 14 + 22 * max(1, lines)


def code_line(it: Drawn, name: str, code: int, row: int, close: bool) -> list[str]:
    """The lines of a code of a satellite, which has so many codes before it."""
    title = f"<title>{name} {it.codes_of(name)[code]}: "
    place = "class='code tiny' transform='scale(1 2)' x='-6' y='9'" if close else "class='code' x='-6' y='16'"
    label = f"<text {place}>{it.codes_of(name)[code]}</text>"
    rows = {c: [epoch.satellites[name] for epoch in part if name in epoch.satellites] for c, part in enumerate(it.parts)}
    cells = {c: [row[code] for row in part] for c, part in rows.items()}
    phases = {c for c, part in cells.items() if any(shown.phase for shown in part)}
    missing = {c for c, part in rows.items() if any(any(shown.phase for shown in row) and not row[code].phase for row in part)}
    slips, returns, rises = ({c for c, part in cells.items() if any(shown.has(kind) for shown in part)} for kind in ("slip", "return", "rise"))
    halves = {c for c, part in cells.items() if any(shown.lock & 2 for shown in part)}
    least = {c: min((shown.level for shown in cells[c] if shown.level), default=0) for c in phases}
    title += f"columns with phase {len(phases)}, missing {len(missing)}"
    title += f", slips {len(slips)}, returns {len(returns)}, rises {len(rises)}, half cycles {len(halves)}</title>"
    lines = [title]
    for level in range(10):
        lines += bars(it, f"l{level}", {c for c in phases if least[c] == level}, 10)
    lines += boxes(it, "p", missing & phases, 10, 6) + boxes(it, "m", missing - phases, 16, 12)
    lines += forms(it, "s", slips, "20l-7-21h14z") + forms(it, "h", halves, "8l6 6l-6 6l-6-6z")
    lines += forms(it, "a", returns, "10l-9-5v10z") + forms(it, "r", rises, "5l9 5l-9 5z")
    start = f"<g transform='translate(0 {2 + 10 * row})scale(1 .5)'>" if close else f"<g transform='translate(0 {7 + 22 * row})'>"
    return [start, *lines, label, "</g>"]


def runs(it: Drawn, columns: set[int]) -> list[tuple[int, int]]:
    """Where columns side by side begin and end."""
    begins = sorted(c for c in columns if c - 1 not in columns)
    ends = sorted(c + 1 for c in columns if c + 1 not in columns)
    return [(edge(it, begin), edge(it, end)) for begin, end in zip(begins, ends)]


def path(name: str, parts: Iterable[str]) -> list[str]:
    """A path of these parts, if there are any."""
    d = "".join(parts)
    return [f"<path class='{name}' d='{d}'/>"] if d else []


def bars(it: Drawn, name: str, columns: set[int], y: int) -> list[str]:
    return path(name, (f"M{begin} {y}H{end}" for begin, end in runs(it, columns)))


def boxes(it: Drawn, name: str, columns: set[int], low: int, high: int) -> list[str]:
    return path(name, (f"M{begin} {low}v-{high}H{end}v{high}z" for begin, end in runs(it, columns)))


def forms(it: Drawn, name: str, columns: set[int], form: str) -> list[str]:
    """A form in the middle of each of these columns."""
    return path(name, (f"M{(edge(it, c) + edge(it, c + 1)) // 2} {form}" for c in sorted(columns)))


def satellites(it: Drawn) -> list[str]:
    """The numbers of satellites with a phase, as steps."""
    has = [{name for epoch in part for name, row in epoch.satellites.items() if any(c.phase for c in row)} for part in it.parts]
    counts = [len(names) for names in has]
    heights = [40 - 40 * count // max(1, *counts) for count in counts]
    steps = [f"H{edge(it, c)}V{heights[c]}" for c in range(it.columns) if counts[c] != ([0] + counts)[c]]
    return [
        "<title>satellites with a phase</title>",
        "<text class='code' x='-6' y='18'>satellites</text>",
        f"<text class='code' x='-6' y='38'>at most {max(counts)}</text>",
        f"<path class='n' d='M0 40{''.join(steps)}H1440V40z'/>",
    ]


def lanes_of(it: Drawn, numbers: str) -> list[list[str]]:
    """The lane of each of these bands that has a strength: its mean in columns of so many bins that there are 144 of them at most."""
    each = next(number for number in range(1, UNITS) if ceil(Fraction(it.columns, number)) <= 144)
    parts = [[epoch for part in it.parts[begin : begin + each] for epoch in part] for begin in range(0, it.columns, each)]
    lanes = []
    for band in numbers:
        means: dict[int, int] = {}
        for at, part in enumerate(parts):
            cells = [
                cell
                for epoch in part
                for name, row in epoch.satellites.items()
                for code, cell in zip(it.codes_of(name), row)
                if code[0] == band
            ]
            strengths = [cell.strength for cell in cells if cell.strength is not None]
            if strengths:
                means |= {c: floor(sum(strengths) / len(strengths)) for c in range(at * each, min((at + 1) * each, it.columns))}
        if means:
            lanes.append(lane_of(it, band, means))
    return lanes


def lane_of(it: Drawn, band: str, means: dict[int, int]) -> list[str]:
    """The lane of a band, which has these means in its bins."""
    least = min(means.values()) // 1000
    most = max(least + 12, max(means.values()) // 1000 + 1)
    depths = {c: 40 - floor(Fraction(36 * (mean - 1000 * least), 1000 * (most - least))) for c, mean in means.items()}
    form = ""
    for c in sorted(means):
        if c - 1 not in means:
            form += f"M{edge(it, c)} 44V{depths[c]}"
        elif depths[c] != depths[c - 1]:
            form += f"H{edge(it, c)}V{depths[c]}"
        if c + 1 not in means:
            form += f"H{edge(it, c + 1)}V44z"
    return [
        f"<title>mean strength of band {band} in dB-Hz</title>",
        "<text class='code' x='-6' y='18'>strength</text>",
        f"<text class='code' x='-6' y='38'>of band {band}</text>",
        f"<text class='side' x='1446' y='16'>{most}</text>",
        f"<text class='side' x='1446' y='40'>{least}</text>",
        f"<path class='k' d='{form}'/>",
    ]


def group(x: int, y: int, lines: list[str]) -> list[str]:
    return [f"<g transform='translate({x} {y})'>", *lines, "</g>"]
