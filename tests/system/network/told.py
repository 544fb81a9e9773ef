"""What the scripts take from texts of `summary`: the channels of GLONASS, and the systems that are left out because of their clocks; and
what is left of captures without the messages of a system.

A row has what it is, the codes of a station with the words of its row, the texts of the captures of a span and of those of the hours
beside it, the channels that the list has, and what is due. A text has the lines of the station, with a ; between, and perhaps the name of
its capture before a =; other captures are of other hours. What is due was worked out by hand. The last line is 'N passed, M failed'.
"""

from __future__ import annotations

import sys
from collections.abc import Iterator
from pathlib import Path
from typing import Optional

sys.path.insert(0, str(Path(__file__).resolve().parents[3] / "network"))

sys.path.insert(0, str(Path(__file__).resolve().parents[2] / "model"))

from rtcm2rinex_network.ends import Again, Refused  # noqa: E402
from rtcm2rinex_network.frames import without_systems  # noqa: E402
from rtcm2rinex_network.program import Program, Ran  # noqa: E402
from rtcm2rinex_network.summaries import told_of  # noqa: E402
from rtcm2rinex_network.table import read_row  # noqa: E402
from tally import tally  # noqa: E402
from wire import frame_of  # noqa: E402

R, C = "1C,R1C", "1C,C2I"
WRONG = "clock C +14.000 257 of 257"
OUT = "1C C +14.000 257 of 257"

ROWS: list[tuple[str, str, list[str], list[str], dict[int, int], str]] = [
    ("codes of GPS ask nothing", "1C,2W", ["status 1"], ["status 1"], {}, "1C,2W"),
    ("no channel", R, ["codes 1C,R1C"], [], {}, "1C,R1C none"),
    ("no capture", R, [], [], {}, "1C,R1C none"),
    ("channels", R, ["channels 9:-6,27:6,1:0"], [], {}, "1C,R1C 1:0,9:-6,27:6"),
    ("channels of another station", R, ["codes 1C; channels 9:-6", "other 9:5"], [], {}, "1C,R1C 9:-6"),
    ("channels of several captures", R, ["channels 1:0", "channels 9:-6"], [], {}, "1C,R1C 1:0,9:-6"),
    ("the channel of most captures", R, ["channels 9:-6", "channels 9:5", "channels 9:5"], [], {}, "1C,R1C 9:5"),
    ("of two alike the lesser", R, ["channels 9:5", "channels 9:-6"], [], {}, "1C,R1C 9:-6"),
    ("of one capture too", R, ["channels 9:4,9:5"], [], {}, "1C,R1C 9:4"),
    ("unless another capture tells", R, ["channels 9:4,9:5", "channels 9:5"], [], {}, "1C,R1C 9:5"),
    ("the captures of the span count first", R, ["channels 9:5"], ["channels 9:-6", "channels 9:-6"], {}, "1C,R1C 9:5"),
    ("and then those beside", R, ["channels 9:5"], ["channels 1:3", "channels 1:3,9:1"], {}, "1C,R1C 1:3,9:5"),
    ("a channel of the list stays", R, ["channels 9:5", "channels 9:5"], ["channels 2:0"], {9: -6, 7: 1}, "1C,R1C 2:0,7:1,9:-6"),
    ("channels of the row stay", f"{R} channels=9:-6,1:0", ["channels 9:5,2:1"], [], {}, "1C,R1C 1:0,9:-6"),
    ("and so do none", f"{R} channels=none", ["channels 9:5"], [], {}, "1C,R1C none"),
    ("a clock that is off", C, [WRONG], [], {}, OUT),
    ("by half a second", C, ["clock C -0.500 3 of 5"], [], {}, "1C C -0.500 3 of 5"),
    ("by less", C, ["clock C -0.499 5 of 5"], [], {}, f"{C} C -0.499 5 of 5 taken"),
    ("as often as it is right", C, ["clock C +14.000 2 of 4"], [], {}, f"{C} C +14.000 2 of 4 taken"),
    ("less often", C, ["clock C +14.000 1 of 900"], [], {}, f"{C} C +14.000 1 of 900 taken"),
    ("in most captures", C, ["clock C +14.000 11 of 11", "epochs 1127 10"], [], {}, "1C C +14.000 11 of 21"),
    ("in a few captures", C, ["clock C +14.000 10 of 10", "epochs 1124 1; epochs 1127 9"], [], {}, f"{C} C +14.000 10 of 20 taken"),
    ("of one link alone", C, ["1/11=clock C +14.000 9 of 9", "2/11=epochs 1127 9"], [], {}, f"{C} 1/11 C +14.000 9 of 9"),
    ("in another hour", C, ["1/11=clock C +14.000 9 of 9", "2/12=epochs 1127 10"], [], {}, f"{C} C +14.000 9 of 19 taken"),
    ("of most links", C, ["1/11=clock C +14.000 9 of 9", "2/11=epochs 1127 9", "3/11=clock C +1.000 1 of 9"], [], {},
        f"{C} 1/11 C +14.000 9 of 9, 3/11 C +1.000 1 of 9"),
    ("of a link without the system", C, ["1/11=clock C +14.000 9 of 9", "2/11=epochs 1097 9"], [], {}, OUT.replace("257", "9")),
    ("of two links", C, ["1/11=clock C +14.000 9 of 9", "2/11=clock C +14.000 9 of 9"], [], {}, OUT.replace("257", "18")),
    ("in two of a hundred", C, ["1/11=clock C +14.000 2 of 100", "2/11=epochs 1127 9"], [], {}, f"{C} 1/11 C +14.000 2 of 100"),
    ("in one of a hundred", C, ["1/11=clock C +14.000 1 of 100", "2/11=epochs 1127 9"], [], {}, f"{C} C +14.000 1 of 109 taken"),
    ("beside one that is off too", C, ["1/11=clock C +14.000 9 of 9", "2/11=clock C +14.000 2 of 100"], [], {}, f"{C} C +14.000 11 of 109 taken"),
    ("in the hour before", C, ["1/12=epochs 1127 9"], ["1/11=clock C +14.000 9 of 9", "2/11=epochs 1127 9"], {}, f"{C} 1/11 C +14.000 9 of 9"),
    ("a clock that was not compared", C, ["epochs 1127 9; unchecked C"], [], {}, f"{C} unchecked C"),
    ("but in another capture", C, ["epochs 1127 9; unchecked C", "clock C +14.000 9 of 9"], [], {}, OUT.replace("257", "9")),
    ("but in the hour before", C, ["epochs 1127 9; unchecked C"], ["epochs 1127 9"], {}, C),
    ("of a system alone", "C2I", ["epochs 1127 9; unchecked C"], [], {}, "C2I"),
    ("of a system without a code", C, ["epochs 1097 9; unchecked E"], [], {}, C),
    ("of two systems", "1C,E1C,C2I", ["unchecked E; unchecked C"], [], {}, "1C,E1C,C2I unchecked E C"),
    ("of GLONASS without its leap seconds", R, ["channels 9:5; unchecked R"], [], {}, "1C,R1C 9:5"),
    ("of GLONASS with them", R, ["date 2011-03-01T05:56:37 1013 8; channels 9:5; unchecked R"], [], {}, "1C,R1C 9:5 unchecked R"),
    *((f"which an MSM of {it[0]} tells", f"1C,{it}", [f"clock {it[0]} +14.000 9 of 9", f"epochs {msm} 9"], [], {}, f"1C,{it} {it[0]} +14.000 9 of 18 taken")
        for it, msm in [("E1C", 1097), ("S1C", 1107), ("J1C", 1117), ("C2I", 1127), ("I5A", 1137)]),
    ("and one of GLONASS", R, ["channels 9:5; clock R +14.000 9 of 9", "epochs 1087 9"], [], {}, "1C,R1C 9:5 R +14.000 9 of 18 taken"),
    ("by several offsets", C, ["clock C +14.000 5 of 5", "clock C +13.000 6 of 6"], [], {}, "1C C +13.000 6 of 11"),
    ("of which the most frequent is small", C, ["clock C +14.000 5 of 5", "clock C +0.001 6 of 6"], [], {}, f"{C} C +0.001 6 of 11 taken"),
    ("before the span alone", C, ["epochs 1127 1"], [WRONG], {}, C),
    ("before a span without it", C, ["epochs 1097 9"], [WRONG], {}, OUT),
    ("a clock of a system without a code", "1C,E1C", [WRONG], [], {}, "1C,E1C"),
    ("clocks of two systems", "1C,E1C,C2I,J1C", ["clock E -1.000 9 of 9; clock C +14.000 8 of 9"], [], {},
        "1C,J1C E -1.000 9 of 9, C +14.000 8 of 9"),
    ("the clock of GLONASS", R, ["channels 9:5; clock R -1.000 9 of 9"], [], {}, "1C R -1.000 9 of 9"),
    ("that the row dates", f"{R} leap_seconds=17", ["channels 9:5; clock R -1.000 9 of 9"], [], {}, "1C,R1C 9:5"),
    ("the clocks of all systems", "C2I", [WRONG], [], {}, "Refused the clocks of all systems of the row are wrong: C +14.000 257 of 257"),
    ("a capture that can't be read", R, ["channels 9:5"], ["status 1"], {}, "Again summary: read failed"),
]


class Summarizing(Program):
    """A program that knows the texts of captures by their names."""

    def __init__(self, texts: dict[str, str]) -> None:
        super().__init__("")
        self.texts = texts

    def ran(self, words: object, output: Optional[Path] = None, given: Optional[bytes] = None) -> Ran:
        assert isinstance(words, list) and words[0] == "summary" and given is None
        text = self.texts[words[1]]
        if text.startswith("status"):
            return Ran(1, "", "rtcm2rinex: read failed\n")
        if text.startswith("other"):
            return Ran(0, f"bytes 9\nstation 7\n channels {text[len('other '):]}\nother 1019 1\n", "")
        lines = "".join(f" {it.strip()}\n" for it in text.split(";"))
        return Ran(0, f"bytes 9\nframes 1\nstation 200\n channels 9:1\nstation 2003\n message 1087 1\n{lines}week 538 1019 1\n", "")


def told(words: str, own: list[str], beside: list[str], known: dict[int, int]) -> str:
    """What is converted: the codes, the channels, and the systems that are left out; or how it ends."""
    codes, _, more = words.partition(" ")
    row = read_row(1, f"2003 BASE BASE00XXX 01S {codes} 64 . {more}", Path("/"))
    texts: dict[str, str] = {}
    paths: list[list[Path]] = [[], []]
    for place, its in enumerate((own, beside)):
        for at, text in enumerate(its):
            name, _, lines = text.rpartition("=")
            name = name or f"{place}/{place}{at}"
            texts[name] = lines
            paths[place].append(Path(name))
    try:
        it = told_of(Summarizing(texts), row, paths[0], paths[1], known)
    except (Again, Refused) as end:
        return f"{type(end).__name__} {end}"
    clocks = [f"{system} {text}" for system, text in it.left_out.items()]
    clocks += [f"{path} {system} {text}" for path, its in it.of_captures.items() for system, text in its.items()]
    doubts = " ".join(line.replace("clock ", "") for line in it.doubts)
    return " ".join(filter(None, [it.row.codes, it.row.glonass.get("channels", ""), ", ".join(clocks), doubts]))


def frame(number: int, length: int = 12) -> bytes:
    """A frame with a message of this number, whose other bytes are what a frame begins with."""
    return frame_of((number << 4).to_bytes(2, "big") + (b"\xd3\x00" * length)[2:length])


# Of each row: what it is, the parts of a link as numbers of their messages, the systems of each part that are left out, and what is left.
# A part that begins with a . begins with the other half of the last frame of the one before.
FRAMES = [
    ("a system", [("1074 1124 1094", "C")], "1074 1094"),
    ("two systems", [("1074 1124 1094 1087", "CE")], "1074 1087"),
    ("all numbers of a system", [("1120 1121 1127 1128 1123", "C")], "1120 1128"),
    ("GLONASS", [("1081 1012 1009 1013 1008 1020 1087", "R")], "1013 1008 1020"),
    ("a part alone", [("1124 1004", "C"), ("1124 1004", "")], "1004 1124 1004"),
    ("none", [("1124", ""), ("1094", "C")], "1124 1094"),
    ("a message in two parts", [("1004 1124", "C"), (".1124 1004", "")], "1004 1124 1004"),
    ("of which the first one has it", [("1004 1124", ""), (".1124 1004", "C")], "1004 1124 1004"),
    ("an altered one", [("1004 !1124 1124", "C")], "1004 !1124"),
]


def bytes_of(words: str) -> bytes:
    """The frames with these numbers; a ! stands before one whose last bit is another one."""
    frames = [(frame(int(it.lstrip("!"))), it[0] == "!") for it in words.split()]
    return b"".join(it[:-1] + bytes([it[-1] ^ is_altered]) for it, is_altered in frames)


def left_of(parts: list[tuple[str, str]]) -> bytes:
    """What is left of a link."""
    texts = [(bytes_of(words.lstrip(".")), systems) for words, systems in parts]
    for at, (words, _) in enumerate(parts):
        if words[0] == ".":
            (before, systems), (text, own) = texts[at - 1], texts[at]
            texts[at - 1:at + 1] = [(before[:-5], systems), (before[-5:] + text, own)]
    return without_systems(texts)


def results() -> Iterator[tuple[str, str, str]]:
    for name, words, own, beside, known, due in ROWS:
        yield name, told(words, own, beside, known), due
    for name, parts, words in FRAMES:
        yield f"messages of {name}", str(left_of(parts)), str(bytes_of(words))
    text, begin = bytes_of("1004 1124 1004"), len(frame(1004))
    for cut in range(begin + 1, begin + len(frame(1124))):
        left = without_systems([(text[:cut], "C"), (text[cut:], "")])
        yield f"a message in two parts, of {cut - begin} bytes", str(left), str(bytes_of("1004 1004"))


sys.exit(tally(results()))
