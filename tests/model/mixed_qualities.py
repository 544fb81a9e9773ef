"""The slow model of the numbers of a file of any systems: those of the file, and for each system those of its satellites."""
# pins: epochs_of_system, bands_of_system, title_in, parts_of_systems

from __future__ import annotations

from typing import NamedTuple

import qualities
from parts import END, width_of
from qualities import Field, File, Part, counted, text

SEED = 20241203

# The bands of the columns of hours, by the letter of the system.
BANDS = {"E": "157", "C": "267"}
SYSTEMS = "GRECJSI"


def codes_of(header: str) -> dict[str, list[str]]:
    """The codes of each system that has some. Lines that go on with the types of a system begin with a blank."""
    types: dict[str, str] = {}
    letter = ""
    for line in header.splitlines():
        if "SYS / # / OBS TYPES" in line:
            letter = line[0].strip() or letter
            types[letter] = types.get(letter, "") + line[6:60]
    each = width_of(header) // 16
    return {letter: [it[1:] for it in types[letter].split()[::each]] for letter in SYSTEMS if letter in types}


class Row(NamedTuple):
    """The lines of a record that are of one system."""

    lines: dict[str, str]
    width: int


def parts_of(file: str) -> tuple[File, dict[str, Part]]:
    header, body = file.split(END)
    whole_file = qualities.file_of(header, body)
    parts = {}
    for letter, codes in codes_of(header).items() if whole_file.records else ():
        records = [Row({name: line for name, line in it.lines.items() if name[0] == letter}, it.width) for it in whole_file.records]
        parts[letter] = qualities.part_of(records, whole_file.times, whole_file.interval, codes, letter if letter != "G" else "")
    return whole_file, parts


def heading_of(file: File) -> list[Field]:
    return file.heading() if file.records else [file.marker, counted("records", 0)]


def is_of_gps(file: str) -> bool:
    """Whether the file is one of GPS alone, by column 41 of its first line, and without Doppler."""
    return file[40] == "G" and width_of(file) == 48


def shifts_of(file: str, letter: str, part: Part) -> list[tuple[str, int]]:
    """In a file with Doppler how many values each code has, with the letter of its system, which a code of GPS has not."""
    own = "" if letter == "G" else letter
    return [(own + code, count) for code, count in part.shifts] if width_of(file) == 64 else []


def lines(file: str) -> str:
    """The numbers of a file as lines."""
    if is_of_gps(file):
        return qualities.lines(file)
    whole_file, parts = parts_of(file)
    gaps = whole_file.longest_gaps()
    rows = [it.in_line() for it in heading_of(whole_file)] + in_lines(gaps)
    for letter, part in parts.items():
        rows += [f"system {letter}", *(it.in_line() for it in part.totals), *in_lines(part.signals + part.times)]
        rows += [f"doppler {code} values {count}" for code, count in shifts_of(file, letter, part)]
    return "\n".join(rows) + "\n"


def in_lines(entries: list[tuple[str, list[Field]]]) -> list[str]:
    return [" ".join([keyword, *(it.in_line() for it in fields)]) for keyword, fields in entries]


def in_json(file: str) -> str:
    """The same as a JSON object."""
    if is_of_gps(file):
        return qualities.in_json(file)
    whole_file, parts = parts_of(file)
    gaps = ",".join("\n" + qualities.compact(fields) for _, fields in whole_file.longest_gaps())
    systems = [
        ",\n".join([
            '\n{"totals":' + qualities.compact([text("", "system", letter), *part.totals]),
            *qualities.arrays_of(part.signals + part.times, "gap"),
            *array_of_shifts(shifts_of(file, letter, part)),
        ]) + "}"
        for letter, part in parts.items()
    ]
    return "".join([
        '{"file":' + qualities.compact(heading_of(whole_file)),
        ',\n"gaps":[' + gaps + ("\n]" if gaps else "]"),
        ',\n"systems":[' + ",".join(systems) + ("\n]" if systems else "]"),
        "}\n",
    ])


def array_of_shifts(shifts: list[tuple[str, int]]) -> list[str]:
    """The array of a file with Doppler."""
    rows = ",".join(f'\n{{"code":"{code}","values":{count}}}' for code, count in shifts)
    return [f'"doppler":[{rows}\n]'] if shifts else []


def with_bands(letter: str, line: str) -> str:
    """The title of the columns of hours, with the bands of the system."""
    for old, new in zip("125", BANDS.get(letter, "125")):
        line = line.replace(f"  band {old}", f"  bond {new}", 1) if line.startswith("hour ") else line
    return line.replace("  bond ", "  band ")


def table(file: str) -> str:
    """The same as a table."""
    if is_of_gps(file):
        return qualities.table(file)
    whole_file, parts = parts_of(file)
    heading = heading_of(whole_file)
    rows = [f"marker {whole_file.marker.value}", *qualities.lined_up(heading[1:]), *qualities.rows_of(heading, whole_file.longest_gaps())]
    for letter, part in parts.items():
        shown = [shown_entry(letter, *it) for it in part.signals + part.times]
        rows += ["", f"system {letter}", *qualities.lined_up(part.totals), *(with_bands(letter, it) for it in qualities.rows_of(part.totals, shown))]
        shifts = shifts_of(file, letter, part)
        rows += ["", "signal doppler", *(f"all {code[-2:]}{count:8}" for code, count in shifts)] if shifts else []
    return "\n".join(rows) + "\n"


def shown_entry(letter: str, keyword: str, fields: list[Field]) -> tuple[str, list[Field]]:
    """An entry of the table: a row of an hour has the three bands of the system in the places of 1, 2 and 5, and the rows of codes name no
    system."""
    if keyword == "hour":
        places = dict(zip(BANDS.get(letter, "125"), "125"))
        fields = [it._replace(key=f"mean_strength_{places.get(it.key[14], 'x')}_centidbhz") if it.key.startswith("mean_strength_") else it for it in fields]
    if keyword == "code":
        fields = [it._replace(value=it.value[-2:]) if it.key == "code" else it for it in fields]
    return keyword, fields


if __name__ == "__main__":
    import sys

    print(table(open(sys.argv[1], encoding="ascii").read()), end="")
