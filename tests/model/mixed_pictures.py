"""The slow model of the pictures of a file of any systems: the satellites of each system below its name."""
# pins: group_place, group_epoch, first_group, second_group, with_satellites, titled_rows, system_title, title_of, both_numbers, systems_picture, drawn_systems
# pins: moved_bands, both_counts, svg_of_systems, systems_svg_body

from __future__ import annotations

import pictures
from mixed_qualities import SYSTEMS, codes_of, is_of_gps
from parts import END, MS, START, records_of, width_of
from pictures import SIGNS, Drawn, Epoch, heading_lines, never_lines, row_of, rows_below, shown_in

SEED = 20241130

NAMES = {"G": "GPS", "R": "GLONASS", "E": "Galileo", "C": "BeiDou", "J": "QZSS", "S": "SBAS", "I": "NavIC"}
# The last number of a system in the first group of its satellites; the others stand behind it.
LAST = {"E": 32, "C": 32, "S": 51}


class DrawnSystems(Drawn):
    """What is drawn of a file of any systems, in at most so many columns."""

    def __init__(self, file: str, most: int, chosen: set[str] | None = None) -> None:
        header, records = file.split(END)
        self.marker = header.splitlines()[2][:60].rstrip()
        self.systems = codes_of(header)
        self.width = width_of(header)
        self.epochs = [
            Epoch((it.time - START) // MS, {name: self.row(name, line) for name, line in it.lines.items() if chosen is None or name in chosen})
            for it in records_of(records)
        ]
        found = {name for epoch in self.epochs for name in epoch.satellites}
        self.names = sorted(found, key=lambda name: (SYSTEMS.index(name[0]), name))
        if self.epochs:
            self._lay(most)

    def row(self, name: str, line: str) -> list[pictures.Shown]:
        """What the codes of a satellite show in its line."""
        width = self.width * len(self.systems[name[0]])
        return [shown_in(line[3:].ljust(width)[at : at + self.width]) for at in range(0, width, self.width)]

    def codes_of(self, name: str) -> list[str]:
        return self.systems[name[0]]

    def names_of(self, letter: str) -> list[str]:
        """The satellites of a system."""
        return [name for name in self.names if name[0] == letter]

    def groups_of(self, letter: str) -> list[list[str]]:
        """The satellites of a system in groups of 32 numbers."""
        names = self.names_of(letter)
        first = [name for name in names if int(name[1:]) <= LAST.get(letter, 99)]
        return [first, names[len(first) :]]


def svg_picture(file: str, chosen: set[str] | None = None) -> str:
    """The picture of a file in SVG, of these satellites or of all. Each group of satellites is moved down as a whole, and the lines of
    codes lie close."""
    if is_of_gps(file):
        return pictures.svg_picture(file, chosen)
    it = DrawnSystems(file, pictures.UNITS, chosen)
    if not it.epochs:
        return pictures.svg_of_none(it)
    out, never, top = [], [], 106
    for letter, codes in it.systems.items():
        has_name = False
        for names in filter(None, it.groups_of(letter)):
            if not has_name:
                out.append(f"<text class='system' x='110' y='{top + 28}'>{NAMES[letter]}</text>")
                top += 34
                has_name = True
            bands, height = pictures.bands_of(it, names, 140, True)
            out += [f"<g transform='translate(0 {top - 140})'>", *bands, "</g>"]
            top += height
            for at, code in enumerate(codes):
                lacking = [name for name in names if at not in it.had[name]]
                if lacking:
                    start = f"never {'' if letter == 'G' else letter}{code}:"
                    never.append(f"<text class='never' x='110' y='{18 + 24 * len(never)}'>{' '.join([start, *lacking])}</text>")
    out += [f"<g transform='translate(0 {top})'>", *never, "</g>"]
    return pictures.svg_of(it, out, top + 24 * len(never), "125678")


def is_there(file: str, chosen: set[str] | None) -> bool:
    """Whether a file has a row of one of these satellites. All that a file has is drawn even if it has nothing."""
    return chosen is None or any(name in chosen for it in records_of(file.split(END)[1]) for name in it.lines)


def text_picture(file: str, width: int, chosen: set[str] | None = None) -> str:
    """The picture of a file, so many characters wide, of these satellites or of all."""
    if is_of_gps(file):
        return pictures.text_picture(file, width, chosen)
    it = DrawnSystems(file, width - 5, chosen)
    if not it.epochs:
        return f"marker {it.marker}\nno records\n"
    out = heading_lines(it)
    for letter in it.systems:
        names = it.names_of(letter)
        out += [NAMES[letter], *(row_of(it, name) for name in names)] if names else []
    out += rows_below(it, width)
    for letter, codes in it.systems.items():
        for names in it.groups_of(letter):
            for at, code in enumerate(codes):
                # the names of all systems have the room that three characters leave
                of_gps = letter == "G"
                out += never_lines(it, width - of_gps, code if of_gps else letter + code, at, names)
    return "\n".join([*out, *SIGNS]) + "\n"
