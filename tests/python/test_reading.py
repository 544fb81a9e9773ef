"""`header`, `epochs` and `observations`: values that were read by eye, and lines that are not of the program's form."""

from __future__ import annotations

import gzip
import io
import random
from datetime import datetime

import rtcm2rinex
from rtcm2rinex import FormError, Observation
from support import EXAMPLES, NOON, Case, second

SESSION = (EXAMPLES / "session.rnx").read_bytes()
DAMAGED = 250  # texts


def rows_at(time: datetime, satellite: str) -> list:
    return [it for it in rtcm2rinex.observations(EXAMPLES / "session.rnx") if (it.time, it.satellite) == (time, satellite)]


class Values(Case):
    def test_rows(self) -> None:
        self.assertEqual(rows_at(second(0), "G13"), [
            Observation(NOON, "G13", "1C", 20301777.446, 106687117.588, 49.75, False, False),
            Observation(NOON, "G13", "2W", 20301778.446, 83133134.201, 40.75, False, False)])
        marked = {
            Observation(second(15), "G05", "5X", 21079287.576, 82719653.777, 47.0, True, True),
            Observation(second(7), "G05", "5X", 21082586.054, 82732597.720, 47.0, False, True),
            Observation(second(12), "G07", "2W", 22643569.590, 92721660.296, 32.75, True, False),
        }
        for row in marked:
            self.assertIn(row, rows_at(row.time, row.satellite))
        self.assertEqual([it.satellite for it in rtcm2rinex.observations(EXAMPLES / "session.rnx") if it.time == second(4)],
            ["G05"] * 3 + ["G07"] * 3 + ["G13"] * 2 + ["G21"] * 2)

    def test_values_that_are_not_there(self) -> None:
        head = b"".join(SESSION.splitlines(True)[:14])
        line = b"G05" + b" " * 16 + b"        -1.500 5" + b"        30.000  " + b"         0.001" + b"\n"
        rows = list(rtcm2rinex.observations(io.BytesIO(head + b"> 2024 05 17 12 00  0.0000000  0  1\n" + line)))
        self.assertEqual([it[2:] for it in rows], [("1C", None, -1.5, 30.0, False, False, None), ("2W", 0.001, None, None, False, False, None)])

    def test_epochs(self) -> None:
        found = list(rtcm2rinex.epochs(EXAMPLES / "session.rnx"))
        self.assertEqual([it.time for it in found], [second(it) for it in range(20)])
        self.assertEqual(sum(len(it.observations) for it in found), 184)  # 40 lines with three codes, 32 with two

    def test_headers(self) -> None:
        head = rtcm2rinex.header(EXAMPLES / "session.rnx")
        self.assertEqual((head.marker, head.made, head.first), ("BASE", datetime(2024, 5, 17, 13), NOON))
        self.assertEqual((head.position, head.antenna_delta), ((1114104.5999, -4850729.7108, 3975521.4643), (1.5, 0.0, 0.0)))
        self.assertEqual((head.codes, head.agency), (("1C", "2W", "5X"), ""))

    def test_types_on_two_lines(self) -> None:
        done = rtcm2rinex.convert(EXAMPLES / "base.rtcm", station=2003, near=NOON, marker="BASE", codes="1C,2W,2X,5X,1P")
        self.assertIn(f"{'':6} L1P S1P{'':46}SYS / # / OBS TYPES ", done.text.decode().splitlines())
        self.assertEqual((done.header().codes, len(list(done.observations()))), (("1C", "2W", "2X", "5X", "1P"), 2))

    def test_open_files(self) -> None:
        with gzip.open(io.BytesIO(gzip.compress(SESSION))) as packed:
            self.assertEqual(list(rtcm2rinex.observations(packed)), list(rtcm2rinex.observations(EXAMPLES / "session.rnx")))
        with self.assertRaises(FileNotFoundError):
            rtcm2rinex.header("nowhere")


def fault_of(text: bytes) -> tuple:
    """The line and the fault with which the reader ends; nothing if it takes the text."""
    try:
        for _ in rtcm2rinex.observations(io.BytesIO(text)):
            pass
    except FormError as fault:
        return fault.number, fault.fault
    return None, None


def damaged(text: bytes, chance: random.Random) -> bytes:
    """The text with one small change of a kind that hurts."""
    lines = text.splitlines(True)
    at = chance.randrange(len(lines))
    place = chance.randrange(len(text))
    kind = chance.randrange(7)
    if kind == 0:
        return text[:place]
    if kind == 1:
        return text[:place] + bytes([chance.choice(b" 0159.-+G>C\rZ\xb2")]) + text[place + 1 :]
    if kind == 2:
        return text[:place] + text[place + 1 :]
    if kind == 3:
        return text[:place] + b" " + text[place:]
    if kind == 4:
        return b"".join(lines[:at] + lines[at + 1 :])
    if kind == 5:
        return b"".join(lines[:at] + [lines[at]] + lines[at:])
    other = chance.randrange(len(lines))
    lines[at], lines[other] = lines[other], lines[at]
    return b"".join(lines)


class Forms(Case):
    def test_the_reader_refuses_what_check_refuses(self) -> None:
        """`check` is proved, so its answers are values from outside. Most of the files have three records, so that headers are hit too."""
        chance, refused = random.Random(5), 0
        texts = [b"".join(SESSION.splitlines(True)[:26]), (EXAMPLES / "slip_30s.rnx").read_bytes(), SESSION]
        for number in range(DAMAGED):
            text = damaged(texts[number % 3], chance)
            told = rtcm2rinex.check(io.BytesIO(text))
            self.assertEqual(fault_of(text), (told.line, told.fault), text)
            refused += not told
        self.assertGreater(refused, DAMAGED // 2)

    def test_each_kind_of_fault(self) -> None:
        """An edit of base.rnx, and what `check` says of it; without a line the file is good."""
        rows = [
            ("45.000", "45.125", 16, "C3 Value"),
            ("45.000", "64.000", 16, "C3 Value"),
            ("45.000", " 0.000", 16, "C3 Value"),
            ("45.000", "-5.000", 16, "C3 Value"),
            ("45.000", "      ", 16, "C3 Value"),
            ("45.000", "48.000", 16, "C3 Value"),
            ("472.060 7", "472.060 8", 16, "C3 Value"),
            ("903.547 7", "903.547 8", 16, "C3 Value"),
            ("903.547 7", "903.54747", 16, "C3 Value"),
            ("903.547 7", "903.54737", None, None),
            ("  21085472.060 7", "                ", None, None),
            ("  21085472.060", "   1085472.060", None, None),
            ("  21085472.060", "  01085472.060", 16, "C3 Value"),
            ("  21085472.060", "        -0.000", 16, "C3 Value"),
            ("  21085472.060 7 110804903.547 7        45.000", "  21085472.060 1 110804903.547 1         5.750", None, None),
            ("  21085472.060 7 110804903.547 7        45.000", "  21085472.060 9 110804903.547 9        63.750", None, None),
            ("0.0000000  0  1", "0.0000000  0  0", 15, "C2 Columns"),
            ("0.0000000  0  1", "0.0000000  0 33", 15, "C2 Columns"),
            ("0.0000000  0  1", "0.0000000  0  2", 17, "C5 Truncated"),
            ("> 2024 05 17 12 00  0.0", "> 2024 05 17 12 00  0.1", 15, "C4 Order"),
            ("> 2024 05 17", "> 2024 02 30", 15, "C2 Columns"),
            ("G05", "G00", 16, "C2 Columns"),
            ("G05", "G33", 16, "C2 Columns"),
            (f"{'':60}ANT #", f"{'':40}{'x':20}ANT #", 7, "C1 HeaderLine"),
            ("G    6", "G    7", 10, "C1 HeaderLine"),
            ("C2W L2W S2W", "C1C L1C S1C", 10, "C1 HeaderLine"),
            ("C2W L2W S2W", "C2W S2W L2W", 10, "C1 HeaderLine"),
            ("  1114104.5999", "9999999999.999", 8, "C1 HeaderLine"),
            ("     0.0000        0.0000        0.0000", "     6.5536        0.0000        0.0000", 9, "C1 HeaderLine"),
            ("     GPS", "     UTC", 12, "C1 HeaderLine"),
            ("20240517 130000", "20240517 250000", 2, "C1 HeaderLine"),
            ("GEODETIC", "GEODETIK", 4, "C1 HeaderLine"),
            ("BASE", " ASE", 3, "C1 HeaderLine"),
            ("DBHZ", "dBHZ", 11, "C1 HeaderLine"),
        ]
        for old, new, number, fault in rows:
            with self.subTest(f"{old} {new}"):
                text = (EXAMPLES / "base.rnx").read_text()
                self.assertEqual(text.count(old), 1)
                edited = text.replace(old, new).encode()
                told = rtcm2rinex.check(io.BytesIO(edited))
                self.assertEqual((told.line, told.fault), (number, fault))
                self.assertEqual(fault_of(edited), (number, fault))

    def test_records_and_satellites_rise(self) -> None:
        lines = SESSION.splitlines(True)
        head, record = lines[:14], lines[14:18]
        for text, number in ((head + record * 2, 19), (head + [record[0], record[2], record[1], record[3]], 17)):
            self.assertEqual(fault_of(b"".join(text)), (number, "C4 Order"))

    def test_long_lines(self) -> None:
        for tail in (b"G05" + b"1" * 5000, b" " * 999, b"x" * 1000 + b"\n"):
            text = SESSION + b"> 2024 05 17 12 01  0.0000000  0  1\n" + tail
            number, _ = fault_of(text)
            self.assertEqual(number, rtcm2rinex.check(io.BytesIO(text)).line)

    def test_labelled_files(self) -> None:
        text = rtcm2rinex.label(EXAMPLES / "slip.rnx", agency="Survey", marker_number="1", delta_height=-1, run_by="me").text
        self.assertEqual(fault_of(text), (None, None))
        for old, new in ((b"Survey ", b" Survey"), (b"MARKER NUMBER", b"MARKER NAMBER"), (b"-1.0000", b"-1.000 "), (b"  me ", b" m\te ")):
            with self.assertRaises(rtcm2rinex.FileError) as raised:
                rtcm2rinex.quality(io.BytesIO(text.replace(old, new)))
            number, fault = fault_of(text.replace(old, new))
            self.assertEqual(fault, "C1 HeaderLine")
            self.assertIsInstance(number, int)
            self.assertEqual(raised.exception.fault, fault)

    def test_the_records_before_a_fault_are_given(self) -> None:
        records = rtcm2rinex.epochs(io.BytesIO(SESSION[:-1]))
        self.assertEqual([next(records).time for _ in range(19)][-1], second(18))
        with self.assertRaises(FormError) as raised:
            next(records)
        self.assertEqual(str(raised.exception), "line 106: C5 Truncated")
