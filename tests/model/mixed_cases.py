"""Changed mixed files, each with its first wrong line and the cause, as the rules say them.

A case changes lines of a file: the number of a line, and what stands there in place of it (nothing: the line is gone).
"""

from __future__ import annotations

from typing import Optional

from messages import fixed
from worked_rows import DOPPLER, FILE

Case = tuple[dict[int, Optional[str]], Optional[tuple[int, str]]]  # what stands in place of a line may be several lines

C1, C2, C3, C4, C5 = "C1 HeaderLine", "C2 Columns", "C3 Value", "C4 Order", "C5 Truncated"


def label(text: str, name: str) -> str:
    return f"{text:60}{name:20}"


def types(text: str) -> str:
    return label(text, "SYS / # / OBS TYPES")


def slots(text: str) -> str:
    return label(text, "GLONASS SLOT / FRQ #")


def version(letter: str) -> str:
    return label(f"     3.05           OBSERVATION DATA    {letter}", "RINEX VERSION / TYPE")


DBHZ = label("DBHZ", "SIGNAL STRENGTH UNIT")
SHIFT = "SYS / PHASE SHIFT"

# Fifteen and thirty-nine types of Galileo: one line and two more types, and three lines that are full.
FIFTEEN = types("E   15 C8X L8X S8X C1C L1C S1C C1B L1B S1B C1X L1X S1X C6C")
THIRTY_NINE = [
    types("E   39 C8X L8X S8X C1C L1C S1C C1B L1B S1B C1X L1X S1X C6C"),
    types("       L6C S6C C6B L6B S6B C6X L6X S6X C7I L7I S7I C7Q L7Q"),
    types("       S7Q C7X L7X S7X C8I L8I S8I C8Q L8Q S8Q C5I L5I S5I"),
]

# Nine slots: a line that is full, and one more; and all slots on four lines.
NINE = slots("  9 R01  1 R02 -4 R03  5 R04  6 R05  1 R06 -4 R07  5 R08  6")
ALL_SLOTS = [
    slots(" 27 R01  1 R02 -4 R03  5 R04  6 R05  1 R06 -4 R07  5 R08  6"),
    slots("    R09 -6 R10 -5 R11  0 R12 -1 R13 -2 R14 -7 R15  0 R16 -1"),
    slots("    R17  4 R18 -3 R19  3 R20  2 R21  4 R22 -3 R23  3 R24  2"),
    slots("    R25 -5 R26 -6 R27  0"),
]


def joined(*texts: str) -> str:
    return "\n".join(texts)


# In the file of the rows: line 10 to 16 types, 17 unit, 18 first time, 19 to 25 shifts, 26 slots, 27 biases, 28 leap seconds,
# 29 the end, 30 the epoch, 31 to 37 G05 R10 E11 C41 J01 S58 I14.
HEADER_CASES: list[Case] = [
    ({}, None),
    ({1: version("G")}, (11, C1)),  # the types of a second system stand where the unit is due
    ({1: version("R")}, (10, C1)),
    ({1: version("m")}, (1, C1)),
    ({1: version(" ")}, (1, C1)),
    ({1: version("MG")}, (1, C1)),
    ({10: None}, (18, C1)),  # types of six systems are well; the shift of G is not
    ({10: types("I    3 C5A L5A S5A")}, (10, C1)),  # none can follow the last system
    ({10: types("S    3 C5I L5I S5I")}, (11, C1)),
    ({10: types("G    3 C5X L5X S5I")}, (10, C1)),
    ({10: types("G    4 C5X L5X S5X C1C")}, (10, C1)),
    ({10: types("G    0")}, (10, C1)),
    ({10: types("G    6 C5X L5X S5X")}, (10, C1)),
    ({10: types("G    6 C5X L5X S5X C5X L5X S5X")}, (10, C1)),
    ({10: types("G    6 C5X L5X S5X C1C L1C S1C")}, None),
    ({10: types("G   48 C5X L5X S5X C1C L1C S1C C1P L1P S1P C1W L1W S1W C1S")}, (11, C1)),
    ({10: types("G   51 C5X L5X S5X C1C L1C S1C C1P L1P S1P C1W L1W S1W C1S")}, (10, C1)),
    ({10: types("G   39 C5X L5X S5X C1C L1C S1C C1P L1P S1P C1W L1W S1W C5X")}, (10, C1)),
    ({10: types("G    3 C2I L2I S2I")}, (10, C1)),  # a code of BeiDou
    ({10: types("G    3 D5X L5X S5X")}, (10, C1)),
    ({10: types("G   03 C5X L5X S5X")}, (10, C1)),
    ({10: types("G  3   C5X L5X S5X")}, (10, C1)),
    ({10: types("X    3 C5X L5X S5X")}, (10, C1)),
    ({11: types("R   12 C2P L2P S2P C2C L2C S2C C1P L1P S1P C1C L1C S1C")}, None),
    ({11: types("R   15 C2P L2P S2P C2C L2C S2C C1P L1P S1P C1C L1C S1C")}, (11, C1)),
    ({11: types("E    3 C8X L8X S8X")}, (12, C1)),  # a system twice
    ({12: types("G    3 C1C L1C S1C")}, (12, C1)),
    ({12: joined(FIFTEEN, types("       L6C S6C"))}, None),
    ({12: FIFTEEN}, (13, C1)),
    ({12: joined(FIFTEEN, types("       S6C L6C"))}, (13, C1)),
    ({12: joined(FIFTEEN, types("       L6B S6B"))}, (13, C1)),
    ({12: joined(FIFTEEN, types("      L6C S6C"))}, (13, C1)),
    ({12: joined(FIFTEEN, types("E      L6C S6C"))}, (13, C1)),
    ({12: joined(FIFTEEN, types("       L6C S6C C6B"))}, (13, C1)),
    ({12: joined(*THIRTY_NINE)}, None),
    ({12: joined(*THIRTY_NINE, types(""))}, (15, C1)),
    ({12: types("E   13" + FIFTEEN[6:60])}, (12, C1)),  # each code has three types
    ({13: DBHZ}, (14, C1)),
    ({11: DBHZ}, (11, C1)),  # one system is not several
    ({17: label("DBHZ.", "SIGNAL STRENGTH UNIT")}, (17, C1)),
    ({18: label("  2024     5    17    12     0    0.0000000     GLO", "TIME OF FIRST OBS")}, (18, C1)),
    ({18: label("  2024     5    17    12     0    0.0000000", "TIME OF FIRST OBS")}, (18, C1)),
    ({19: label("R", SHIFT), 20: label("G", SHIFT)}, (19, C1)),
    ({22: label("C L2I -0.25000", SHIFT)}, (22, C1)),
    ({25: None}, (25, C1)),
    ({26: None}, (26, C1)),
    ({26: slots("  0")}, (32, C3)),  # no slot has a channel, and R10 has a phase
    ({26: slots("  1 R09 -6")}, (32, C3)),
    ({26: slots("  1 R10 +5")}, (26, C1)),
    ({26: slots("  1 R10 -8")}, (26, C1)),
    ({26: slots("  1 R10  6")}, None),
    ({26: slots("  1 R10  7")}, (26, C1)),
    ({26: slots("  1 R10 -0")}, (26, C1)),
    ({26: slots("  1 R10 5 ")}, (26, C1)),
    ({26: slots("  1 R28 -5")}, (26, C1)),
    ({26: slots("  1 R00 -5")}, (26, C1)),
    ({26: slots("  1 G10 -5")}, (26, C1)),
    ({26: slots("  2 R10 -5")}, (26, C1)),
    ({26: slots("  2 R10 -5 R09 -6")}, (26, C1)),
    ({26: slots("  2 R10 -5 R10 -5")}, (26, C1)),
    ({26: slots("  1 R10 -5 R11  0")}, (26, C1)),
    ({26: slots(" 1  R10 -5")}, (26, C1)),
    ({26: slots(" 28 R01  0 R02  0 R03  0 R04  0 R05  0 R06  0 R07  0 R08  0")}, (26, C1)),
    ({26: slots("  8 R01  0 R02  0 R03  0 R04  0 R05  0 R06  0 R07  0 R10 -5")}, None),
    ({26: slots("  9 R01  0 R02  0 R03  0 R04  0 R05  0 R06  0 R07  0 R10 -5")}, (27, C1)),
    ({26: slots("  9 R01  0 R02  0 R03  0 R04  0 R05  0 R06  0 R10 -5 R27  0")}, (26, C1)),  # none is left for the ninth
    ({26: slots("  9 R01  0 R02  0 R03  0 R04  0 R05  0 R06  0 R10 -5 R26  0")}, (27, C1)),
    ({26: joined(NINE, slots("    R10 -5"))}, None),
    ({26: joined(NINE, slots("    R08 -5"))}, (27, C1)),  # the slots rise over the lines
    ({26: joined(NINE, slots("   R10 -5"))}, (27, C1)),
    ({26: joined(NINE, slots("  9 R10 -5"))}, (27, C1)),
    ({26: joined(NINE, slots("    R10 -5 R11  0"))}, (27, C1)),
    ({26: joined(*ALL_SLOTS)}, None),
    ({26: joined(*ALL_SLOTS[:3])}, (29, C1)),
    ({26: joined(*ALL_SLOTS[:3], slots("    R25 -5 R26 -6"))}, (29, C1)),
    ({26: joined(*ALL_SLOTS, slots(""))}, (30, C1)),
    ({27: label("C1C    0.000", "GLONASS COD/PHS/BIS")}, (27, C1)),
    ({28: label("     0", "LEAP SECONDS")}, None),
    ({28: label("    99", "LEAP SECONDS")}, None),
    ({28: label("   100", "LEAP SECONDS")}, (28, C1)),
    ({28: label("    -1", "LEAP SECONDS")}, (28, C1)),
    ({28: label("    18    18", "LEAP SECONDS")}, (28, C1)),
    ({28: label("   018", "LEAP SECONDS")}, (28, C1)),
    ({28: None}, (28, C1)),
    ({29: None}, (29, C1)),
    # without types of R those three lines are not there
    ({11: None, 20: None}, (24, C1)),
    ({11: None, 20: None, 26: None, 27: None, 28: None}, (27, C2)),  # R10, whose system has no types
]

G05 = "G05  21135365.609 7  82939744.722 7        44.500"
R10 = "R10  20079294.057 6  83309237.891 6        37.500"
RECORD_CASES: list[Case] = [
    ({30: "> 2024 05 17 12 00  0.0000000  0  6"}, (37, C2)),
    ({30: "> 2024 05 17 12 00  0.0000000  0  8"}, (38, C5)),
    ({30: "> 2024 05 17 12 00  0.0000000  0221"}, (38, C5)),
    ({30: "> 2024 05 17 12 00  0.0000000  0222"}, (30, C2)),
    ({30: "> 2024 05 17 12 00  0.0000000  0  0"}, (30, C2)),
    ({30: "> 2024 05 17 12 00  1.0000000  0  7"}, (30, C4)),
    ({31: R10, 32: G05}, (32, C4)),
    ({37: "S57  22572264.730"}, (37, C4)),
    ({37: "S58  22572264.730"}, (37, C4)),
    # of several faults in a line the columns come first, then the order, then the values
    ({37: "S57         0.000"}, (37, C4)),
    ({37: "S57  22572264.730 "}, (37, C2)),
    ({38: "> 2024 05 17 12 00  0.0000000  0  1"}, (38, C4)),
    ({38: "> 2024 05 17 12 00  0.0000000  0222"}, (38, C2)),
    ({38: joined("> 2024 05 17 12 00  0.0010000  0  1", "S20  22572264.730")}, None),
    ({31: "G33" + G05[3:]}, (31, C2)),
    ({31: "G00" + G05[3:]}, (31, C2)),
    ({31: "X05" + G05[3:]}, (31, C2)),
    ({32: "R28" + R10[3:]}, (32, C2)),
    ({32: "R27" + R10[3:]}, (32, C3)),
    ({32: "R27  20079294.057 6                        37.500"}, None),
    ({32: "R27"}, (32, C3)),
    ({32: "R27 "}, (32, C2)),
    ({32: "R25                   83309237.891"}, (32, C3)),
    ({33: "E37  25110278.381 7"}, (33, C2)),
    ({33: "E36  25110278.381"}, None),
    ({34: "C64  25110278.381"}, (34, C2)),
    ({35: "J11  25110278.381"}, (35, C2)),
    ({36: "S19  25110278.381"}, (36, C2)),
    ({36: "S20  25110278.381"}, None),
    ({36: "S59  25110278.381"}, (36, C2)),
    ({37: "I15  25110278.381"}, (37, C2)),
    ({31: G05 + " " * 15 + "1.000"}, (31, C2)),  # wider than the types of G
    ({31: G05 + " "}, (31, C2)),
    ({31: G05[:33] + "1" + G05[34:]}, None),
    ({31: G05[:33] + "4" + G05[34:]}, (31, C3)),
    ({31: "G05  21135365.609 6" + G05[19:]}, (31, C3)),
]

# The same file with Doppler has its lines in the same places.
SHIFTED = "G05  21135365.609 7  82939744.722 7      1177.225          44.500"
FOUR_OF_GALILEO = types("E   16 C8X L8X D8X S8X C1C L1C D1C S1C C1B L1B D1B S1B C1X")
WITHOUT_CHANNEL = "R27  20079294.057 6"
DOPPLER_CASES: list[Case] = [
    ({}, None),
    # all systems have Doppler, or none
    ({10: types("G    3 C5X L5X S5X")}, (11, C1)),
    ({11: types("R    3 C2P L2P S2P")}, (11, C1)),
    ({16: types("I    3 C5A L5A S5A")}, (16, C1)),
    ({10: types("G    8 C5X L5X D5X S5X C1C L1C D1C S1C")}, None),
    ({10: types("G    3 C5X L5X D5X")}, (10, C1)),
    ({10: types("G    4 C5X L5X D5X")}, (10, C1)),
    ({10: types("G    4 C5X L5X S5X D5X")}, (10, C1)),
    ({10: types("G    4 C5X D5X L5X S5X")}, (10, C1)),
    ({10: types("G    4 C5X L5X D1C S5X")}, (10, C1)),
    ({10: types("G    6 C5X L5X D5X S5X C1C L1C")}, (10, C1)),
    ({12: joined(FOUR_OF_GALILEO, types("       L1X D1X S1X"))}, None),
    ({12: joined(FOUR_OF_GALILEO, types("       L1X S1X D1X"))}, (13, C1)),
    ({12: FOUR_OF_GALILEO}, (13, C1)),
    ({31: SHIFTED}, None),
    ({31: SHIFTED.replace("  1177.225", "     0.001")}, None),
    ({31: SHIFTED.replace("  1177.225", " -1177.225")}, None),
    ({31: SHIFTED.replace("1177.225", "        ")}, None),
    ({31: SHIFTED.replace("  1177.225", "     0.000")}, (31, C3)),
    ({31: SHIFTED.replace("1177.225", "+177.225")}, (31, C3)),
    # a shift has no digits
    ({31: SHIFTED[:49] + "1" + SHIFTED[50:]}, (31, C3)),
    ({31: SHIFTED[:50] + "7" + SHIFTED[51:]}, (31, C3)),
    ({31: SHIFTED + " " * 15 + "1.000"}, (31, C2)),
    ({32: f"{WITHOUT_CHANNEL}{'':40}37.500"}, None),
    ({32: f"{WITHOUT_CHANNEL}{'':22}1244.632{'':10}37.500"}, (32, C3)),
    ({37: f"I14{'':38}1177.225"}, None),
]

# Files of one system, by what is left of the lines of the file of the rows: its letter, and the line of a satellite without types.
ONE_SYSTEM = {
    "G": (10, 19, 31, ()),
    "R": (11, 20, 32, (26, 27, 28)),
    "E": (12, 21, 33, ()),
    "C": (13, 22, 34, ()),
    "J": (14, 23, 35, ()),
    "S": (15, 24, 36, ()),
    "I": (16, 25, 37, ()),
}


def changed(case: dict[int, Optional[str]]) -> bytes:
    lines: list[str | None] = [None, *FILE.splitlines(), None]
    for at, text in case.items():
        lines[at] = text
    return "".join(f"{line}\n" for line in lines if line is not None).encode()


def with_doppler(text: str) -> str:
    """The file of the rows, or of one system, with a type and a value of Doppler behind those of the phases."""
    lines = []
    for line in text.splitlines():
        if line[60:].startswith("SYS / # / OBS TYPES"):
            line = types(f"{line[0]}    4 {line[7:14]} D{line[8:10]}{line[14:18]}")
        elif line[:3] in DOPPLER:
            line = f"{line[:35]}{fixed(DOPPLER[line[:3]], 3):>14}  {line[35:]}"
        lines.append(f"{line}\n")
    return "".join(lines)


def changed_with_doppler(case: dict[int, Optional[str]]) -> bytes:
    lines: list[str | None] = [None, *with_doppler(FILE).splitlines(), None]
    for at, text in case.items():
        lines[at] = text
    return "".join(f"{line}\n" for line in lines if line is not None).encode()


def file_of_one(letter: str) -> bytes:
    """The file with the lines of one system alone."""
    own = ONE_SYSTEM[letter]
    kept = [2, 3, 4, 5, 6, 7, 8, 9, own[0], 17, 18, own[1], *own[3], 29]
    lines = FILE.splitlines()
    epoch = "> 2024 05 17 12 00  0.0000000  0  1"
    return "".join(f"{line}\n" for line in [version(letter), *(lines[at - 1] for at in kept), epoch, lines[own[2] - 1]]).encode()
