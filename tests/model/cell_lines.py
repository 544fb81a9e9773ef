"""The slow model of several systems, seventh part: the lines of crates/example_cells for what stands on its standard input."""

from __future__ import annotations

import re
from dataclasses import dataclass, field

from clocks import moment_of
from messages import Cell, Refusal, cells_of, fixed, frames_of, set_bits
from mixed_cells import MixedCell, all_cells
from model import civil, dated
from msm import read_any, type_of
from systems import GLONASS, TYPES
from wire import Message, paired

ALL = frozenset(TYPES)
FIRST_REFERENCE, LAST_REFERENCE = 604_800_000, 3_786_479_999_999
WHYS = {
    "M1": "no message number",
    "M2": "message {} is not read",
    "M3": "message {} is cut short",
    "M4": "message {} has a time outside the week",
    "M5": "message {} has more than 64 cell mask bits",
}


def cell_line(time: int, satellite: str, code: str, cell: Cell) -> str:
    values = " ".join("-" if it is None else fixed(it, 3) for it in (cell.range, cell.phase, cell.strength))
    moment = f"{civil(time):%Y-%m-%d %H:%M:%S}.{time % 1000:03}"
    return f"{moment} {satellite} {code} {values} {cell.lock_time}{' half' * cell.half}"


@dataclass
class Listener:
    """What came before a message of a capture: the reference, and of each slot of GLONASS the channel that was told first."""

    near: int = 0
    channels: dict[int, int] = field(default_factory=dict)

    def lines(self, payload: bytes) -> list[str]:
        if not FIRST_REFERENCE <= self.near <= LAST_REFERENCE:
            return ["no time near the messages"]
        message = read_any(payload, ALL)
        if isinstance(message, Refusal):
            return [f"refused: {message.fault} {WHYS[message.fault].format(message.number)}"]
        if message.header["number"] == 1004:
            time = dated(self.near, message.header["tow"])
            return [cell_line(time, f"G{satellite:02}", code, cell) for satellite, code, cell in cells_of(message)]
        if message.header["number"] not in ALL:
            return ["a message without observations"]
        system, _ = type_of(message)
        time = moment_of(system, message.header["tow"], self.near)
        return [cell_line(time, *entry) for entry in self.entries(message)]

    def entries(self, message: Message) -> list[MixedCell]:
        """The cells of an MSM; one of GLONASS may tell channels first."""
        system, _ = type_of(message)
        if system is GLONASS:
            slots = set_bits(message.header["satellite_mask"], 64)
            for slot, row in paired(slots, message.satellites):
                told = row.get("extended", 15)
                if slot <= GLONASS.satellites and told <= 13:
                    self.channels.setdefault(slot, told - 7)
        return all_cells(message, self.channels)


def cell_lines(text: str) -> str:
    """The lines that are due for these lines of references and of frames as hex text."""
    listener = Listener()
    lines = []
    for line in text.splitlines():
        if line.startswith("near "):
            listener = Listener(int(line[5:]))
            continue
        if not re.fullmatch("([0-9A-Fa-f]{2})*", line):
            lines.append("no hex text")
            continue
        lines += [it for frame in frames_of(bytes.fromhex(line)) for it in listener.lines(frame.payload)]
    return "".join(f"{line}\n" for line in lines)


