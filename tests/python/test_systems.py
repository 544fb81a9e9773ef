"""Files of several systems: the options of `convert`, the new lines of its report, and the reading of the files. The messages, their
values and their file are the rows of tests/model/worked_rows.py, which were worked by hand."""

from __future__ import annotations

import io
import random
from collections import OrderedDict
from datetime import timedelta

import rtcm2rinex
from rtcm2rinex import Conflict, Converter, Counts, Observation
from rtcm2rinex.converting import convert_words
from support import DOPPLER_CASES, MADE, NOON, ROOT, Case, changed_with_doppler, frame_of, with_doppler
from test_reading import damaged, fault_of
from worked_rows import CODES, DOPPLER, FILE, ROWS

SETUP = {"station": 1, "near": NOON, "made": MADE, "marker": "BASE"}
SEVEN = {**SETUP, "codes": CODES, "msm": 7, "channels": {10: -5}}
FRAMES = {row.name: frame_of(bytes.fromhex(row.payload)) for row in ROWS if row.kind == 7 or row.name == "E36"}
WHOLE = b"".join(frame for name, frame in FRAMES.items() if name != "E36")
OF_GLONASS = {**SETUP, "codes": "R2P", "msm": 7}
MIXED = (ROOT / "tests/program/mixed.rnx").read_bytes()
DAMAGED = 250  # texts
E9Z = "codes of E: 1C 1B 1X 6C 6B 6X 7I 7Q 7X 8I 8Q 8X 5I 5Q 5X"


def row_of(name: str) -> Observation:
    """The row of a satellite in FILE, by the values that were worked out."""
    row = next(it for it in ROWS if it.name == name and it.kind == 7)
    range_mm, phase_millicycles, strength = row.due
    return Observation(NOON, name, row.code, range_mm / 1000, phase_millicycles / 1000, strength / 1000, False, False)


class Words(Case):
    def test_options_as_words(self) -> None:
        rows = [
            ({}, ["--msm=4"]),
            ({"msm": 7}, ["--msm=7"]),
            ({"msm": "7,E4,C4"}, ["--msm=7,E4,C4"]),
            ({"msm": {"G": 7, "E": 5}}, ["--msm=4,G7,E5"]),
            ({"msm": OrderedDict(R=5)}, ["--msm=4,R5"]),
            ({"msm": {}}, ["--msm=4"]),
            ({"channels": {1: 1, 9: -6}}, ["--msm=4", "--channels=1:1,9:-6"]),
            ({"channels": "9:-6,1:1"}, ["--msm=4", "--channels=9:-6,1:1"]),
            ({"channels": {}}, ["--msm=4", "--channels=none"]),
            ({"channels": "none"}, ["--msm=4", "--channels=none"]),
            ({"leap_seconds": 18}, ["--msm=4", "--leap-seconds=18"]),
            ({"leap_seconds": 0}, ["--msm=4", "--leap-seconds=0"]),
            ({"with_1012": True}, ["--msm=4", "--with-1012"]),
            ({"msm": 7, "doppler": True}, ["--msm=7", "--doppler"]),
        ]
        for options, due in rows:
            given = {"msm": 4, "channels": None, "leap_seconds": None, "with_1012": False, "doppler": False, **options}
            words = convert_words(2003, NOON, MADE, "BASE", ("1C", "E1X"), 64, **given)
            self.assertEqual(words, ["convert", "--station=2003", "--near=2024-05-17T12:00:00", f"--made={MADE}", "--marker=BASE",
                "--codes=1C,E1X", "--window=64", *due], options)

    def test_what_the_program_refuses(self) -> None:
        """The fault line, and the lines behind it where clap does not say it."""
        clap = "error: invalid value '{}' for '{} <N>': {}"
        rows = [
            ({"codes": "1C,E9Z"}, "bad --codes", (E9Z,)),
            ({"codes": ["1C", "G1C"]}, "bad --codes", ("GPS codes have two characters: 1C",)),
            ({"codes": "9Z"}, "bad --codes", ()),
            ({"codes": "1C,R1C", "channels": None}, "R codes need --channels", ()),
            ({"codes": "1C,R1C", "channels": {28: 1}}, "bad --channels", ()),
            ({"codes": "1C,R1C", "channels": {1: 7}}, "bad --channels", ()),
            ({"codes": "1C,R1C", "channels": "1:1,1:1"}, "bad --channels", ()),
            ({"codes": "1C,E1X"}, "bad --channels", ()),
            ({"codes": "1C,E1X", "channels": {}}, "bad --channels", ()),
            ({"codes": "1C,E1X", "channels": None, "with_1012": True}, "--with-1012 needs R codes", ()),
            ({"codes": "1C,E1X", "channels": None, "msm": "7,E4", "doppler": True}, "--doppler needs MSM5 or MSM7 of E", ()),
            ({"msm": 8}, clap.format("8", "--msm", "8 is not in 4..=7"), ()),
            ({"msm": {"E": 8}}, clap.format("4,E8", "--msm", "invalid digit found in string"), ()),
            ({"msm": {"X": 4}}, clap.format("4,X4", "--msm", "invalid digit found in string"), ()),
            ({"msm": "7,E4,E5"}, clap.format("7,E4,E5", "--msm", "invalid digit found in string"), ()),
            ({"leap_seconds": 100}, clap.format("100", "--leap-seconds", "100 is not in 0..=99"), ()),
        ]
        for options, line, details in rows:
            with self.subTest(options), self.assertRaises(rtcm2rinex.WordsError) as raised:
                rtcm2rinex.convert(io.BytesIO(WHOLE), **{**SEVEN, **options})
            fault = raised.exception
            told = () if line.startswith("error: ") else fault.details
            self.assertEqual((fault.status, fault.line, told), (2, line, details))
        with self.assertRaises(rtcm2rinex.WordsError) as raised, Converter(**{**SEVEN, "channels": None}):
            pass
        self.assertEqual(raised.exception.line, "R codes need --channels")


class Conversions(Case):
    def test_seven_systems(self) -> None:
        done = rtcm2rinex.convert(io.BytesIO(WHOLE), **SEVEN)
        self.assertEqual(done.text.decode(), FILE)
        self.assertEqual(done.report, rtcm2rinex.Report(Counts(7, 0, 0, 0, 7, 0, 0, 0, 1)))
        self.assertEqual(list(done.observations()), [row_of(it) for it in ("G05", "R10", "E11", "C41", "J01", "S58", "I14")])
        head = done.header()
        self.assertEqual(head.codes, ("5X", "R2P", "E8X", "C1P", "J1X", "S5I", "I5A"))
        self.assertEqual((head.channels, head.leap_seconds, head.first), ({10: -5}, 18, NOON))
        again = rtcm2rinex.convert(io.BytesIO(WHOLE), **{**SEVEN, "codes": head.codes, "channels": head.channels})
        self.assertEqual(again.text.decode(), FILE)

    def test_doppler(self) -> None:
        """The file has the shifts that were worked out, and else what it has without them."""
        done = rtcm2rinex.convert(io.BytesIO(WHOLE), **SEVEN, doppler=True)
        self.assertEqual(done.text.decode(), with_doppler(FILE))
        self.assertEqual((done.header().doppler, done.header().codes), (True, ("5X", "R2P", "E8X", "C1P", "J1X", "S5I", "I5A")))
        rows = list(done.observations())
        self.assertEqual({it.satellite: it.doppler for it in rows}, {name: shift / 1000 for name, shift in DOPPLER.items()})
        plain = rtcm2rinex.convert(io.BytesIO(WHOLE), **SEVEN)
        self.assertEqual([it._replace(doppler=None) for it in rows], list(plain.observations()))
        self.assertFalse(plain.header().doppler)

    def test_doppler_in_the_numbers(self) -> None:
        counted = rtcm2rinex.quality(io.BytesIO(with_doppler(FILE).encode()))
        self.assertEqual([it.doppler for it in counted.systems],
            [(("5X", 1),), (("R2P", 1),), (("E8X", 1),), (("C1P", 1),), (("J1X", 1),), (("S5I", 1),), (("I5A", 1),)])
        self.assertEqual({it.doppler for it in rtcm2rinex.quality(io.BytesIO(FILE.encode())).systems}, {()})

    def test_kinds_by_systems(self) -> None:
        """1077 beside 1094: a kind that is not chosen is left out, and then the system has no message."""
        text = FRAMES["G05"] + FRAMES["E36"]
        rows = [({"G": 7}, ["G05", "E36"], ()), ("7,E4", ["G05", "E36"], ()), (7, ["G05"], ("E",)), (4, ["E36"], ("G",)), ({"E": 7}, [], ("G", "E"))]
        for msm, satellites, silent in rows:
            done = rtcm2rinex.convert(io.BytesIO(text), **SETUP, codes=["5X", "E7Q"], msm=msm)
            self.assertEqual([it.satellite for it in done.observations()], satellites, msm)
            self.assertEqual((done.report.no_message, done.report.counts.other), (silent, 2 - len(satellites)), msm)

    def test_channels(self) -> None:
        """The message tells channel -5 of slot 10."""
        rows = [({10: -5}, 83309237.891, (), ()), ({10: -7}, None, ("R10",), ()), ({9: -6}, None, (), ("R10",)), ({}, None, (), ("R10",))]
        for channels, phase, other, lacked in rows:
            done = rtcm2rinex.convert(io.BytesIO(FRAMES["R10"]), **OF_GLONASS, channels=channels)
            [row] = done.observations()
            self.assertEqual((row.range, row.phase, row.strength), (20079294.057, phase, 37.5), channels)
            self.assertEqual((done.report.other_channel, done.report.no_channel, done.report.no_message), (other, lacked, ()), channels)
            self.assertEqual(done.header().channels, channels)

    def test_leap_seconds(self) -> None:
        """A clock of GLONASS is UTC, so with a second less of leap seconds it is a second earlier in GPS time."""
        for seconds, told in ((None, 18), (18, 18), (17, 17)):
            done = rtcm2rinex.convert(io.BytesIO(FRAMES["R10"]), **OF_GLONASS, channels={10: -5}, leap_seconds=seconds)
            self.assertEqual([it.time for it in done.epochs()], [NOON - timedelta(seconds=18 - told)])
            self.assertEqual(done.header().leap_seconds, told)

    def test_conflicts_and_systems_without_a_message(self) -> None:
        """The frame of E11 again, whose strength (DF408) is 1 in place of 722, with the rate (DF404) behind it."""
        payload = bytes.fromhex(next(row.payload for row in ROWS if row.name == "E11"))
        bits = int.from_bytes(payload, "big")
        at = next(it for it in range(40) if bits >> it & (1 << 25) - 1 == 722 << 15 | 100)
        other = (bits & ~(1023 << at + 15) | 1 << at + 15).to_bytes(len(payload), "big")
        report = rtcm2rinex.convert(io.BytesIO(FRAMES["E11"] + frame_of(other)), **SETUP, codes="I5A,E8X,C2I", msm=7).report
        self.assertEqual(report.conflicts, (Conflict(1, 1097, NOON, "E11", "8X"),))
        self.assertEqual((report.no_message, report.other_channel, report.no_channel), (("C", "I"), (), ()))
        self.assertEqual(report.counts, Counts(2, 0, 0, 0, 1, 0, 1, 0, 1))

    def test_a_station_that_sends(self) -> None:
        made = io.BytesIO()
        with Converter(**SEVEN, output=made) as converter:
            for at in range(0, len(WHOLE), 13):
                converter.feed(WHOLE[at : at + 13])
            self.assertEqual(converter.finish().counts.taken, 7)
            [epoch] = converter.records()
        self.assertEqual((epoch.time, len(epoch.observations), epoch.observations[1]), (NOON, 7, row_of("R10")))
        self.assertEqual((made.getvalue().decode(), converter.header.channels), (FILE, {10: -5}))
        with Converter(**{**OF_GLONASS, "channels": {}}, leap_seconds=17) as converter:
            converter.feed(FRAMES["R10"])
            self.assertEqual(converter.finish().no_channel, ("R10",))
            self.assertEqual([it.time for it in converter.records()], [NOON - timedelta(seconds=1)])

    def test_a_part_and_a_label(self) -> None:
        done = rtcm2rinex.convert(io.BytesIO(WHOLE), **SEVEN)
        self.assertEqual(list(rtcm2rinex.cut(done.open(), every=1).observations()), list(done.observations()))
        part = rtcm2rinex.cut(done.open(), systems="RE")
        self.assertEqual((part.header().codes, part.header().channels), (("R2P", "E8X"), {10: -5}))
        self.assertEqual([it.satellite for it in part.observations()], ["R10", "E11"])
        with self.assertRaises(rtcm2rinex.FileError) as raised:
            rtcm2rinex.cut(part.open(), systems="RG")
        self.assertEqual((raised.exception.line, raised.exception.number), ("the file has no codes of G", 0))
        labelled = rtcm2rinex.label(done.open(), marker_number="1", agency="Survey").header()
        self.assertEqual((labelled.agency, labelled.codes, labelled.channels), ("Survey", done.header().codes, {10: -5}))


def fault_of_cut(text: bytes) -> tuple:
    """The line and the fault that `cut` names; nothing if it takes the text."""
    try:
        rtcm2rinex.cut(io.BytesIO(text), every=1)
    except rtcm2rinex.FileError as fault:
        return fault.number, fault.fault
    return None, None


class Reading(Case):
    def test_a_header_with_more_lines(self) -> None:
        """tests/program/mixed.rnx by eye."""
        head = rtcm2rinex.header(io.BytesIO(MIXED))
        self.assertEqual(head.codes, ("1C", "5X", "R2P", "E1X", "E8X", "C2I", "C6I", "C7I", "C5P", "C1P", "J1X", "S5I", "I5A"))
        self.assertEqual(head.channels, {1: 1, 2: -4, 3: 5, 4: 6, 7: 5, 8: 6, 9: -6, 10: -7, 17: 4, 22: -3})
        rows = [it for it in rtcm2rinex.observations(io.BytesIO(MIXED)) if it.time == NOON]
        self.assertEqual([it.satellite for it in rows], "G11 G11 R10 R26 E11 E11 C41 C41 J01 S58 I14".split())
        self.assertIn(Observation(NOON, "R26", "2P", 22345678.901, None, 33.25, False, False), rows)
        self.assertIn(Observation(NOON, "C41", "1P", 23168976.578, 121756438.318, 43.75, False, False), rows)

    def test_the_numbers_of_each_system(self) -> None:
        """tests/program/mixed.numbers, which was looked up by hand."""
        found = rtcm2rinex.quality(io.BytesIO(MIXED))
        self.assertEqual((found.marker, found.records, found.missing, found.gaps, found.interval), ("BASE", 4, 1, 1, 1.0))
        self.assertEqual((found.first, found.last, found.satellites, found.codes, found.hours), (NOON, NOON + timedelta(seconds=4), None, (), ()))
        self.assertEqual([gap.missing for gap in found.longest_gaps], [1])
        self.assertEqual("".join(it.system for it in found.systems), "GRECJSI")
        galileo, beidou = found.systems[2:4]
        self.assertEqual((galileo.satellites, galileo.slips, galileo.half_runs, galileo.mean_satellites), (1, 1, 1, 1.0))
        self.assertEqual([(it.satellite, it.code, it.phases, it.slips) for it in galileo.codes], [(None, "E1X", 4, 0), (None, "E8X", 4, 1)])
        self.assertEqual([(it.satellite, it.code) for it in galileo.satellite_codes], [("E11", "1X"), ("E11", "8X")])
        self.assertEqual(beidou.never, (("C41", "6I"), ("C41", "7I"), ("C41", "5P")))
        self.assertEqual(beidou.hours[0].mean_strengths, {1: 43.75, 2: 44.0, 5: None, 6: None, 7: None})

    def test_no_number_without_a_record(self) -> None:
        found = rtcm2rinex.quality(io.BytesIO(b"".join(MIXED.splitlines(True)[:31])))
        self.assertEqual((found.marker, found.records, found.gaps, found.systems, found.longest_gaps), ("BASE", 0, None, (), ()))

    def test_a_file_of_one_other_system(self) -> None:
        done = rtcm2rinex.convert(io.BytesIO(FRAMES["E36"]), **SETUP, codes="E7Q,E1X")
        self.assertEqual(done.text.decode().splitlines()[0][40:60], f"{'E':20}")
        self.assertEqual((done.header().codes, done.header().leap_seconds), (("E7Q", "E1X"), None))
        self.assertEqual([it[1:6] for it in done.observations()], [("E36", "7Q", 25782201.028, 103814285.756, 49.0)])

    def test_the_reader_refuses_what_check_refuses(self) -> None:
        """`check` is proved, so its answers are values from outside. It refuses fields of a label, which `cut` takes, as the reader."""
        chance, refused = random.Random(7), 0
        alone = rtcm2rinex.convert(io.BytesIO(FRAMES["R10"]), **OF_GLONASS, channels={it: -7 for it in range(3, 20)}).text
        texts = [MIXED, FILE.encode(), alone, with_doppler(FILE).encode()]
        for text in texts:
            self.assertTrue(rtcm2rinex.check(io.BytesIO(text)))
            self.assertEqual(fault_of(text), (None, None))
        for number in range(DAMAGED):
            text = damaged(texts[number % 4], chance)
            told = rtcm2rinex.check(io.BytesIO(text))
            if fault_of(text) != (told.line, told.fault):
                self.assertEqual(fault_of_cut(text), fault_of(text), text)
            refused += not told
        self.assertGreater(refused, DAMAGED // 2)

    def test_files_with_doppler(self) -> None:
        """The cases of the slow model, which were worked by hand."""
        for case, due in DOPPLER_CASES:
            self.assertEqual(fault_of(changed_with_doppler(case)), due or (None, None), case)

    def test_each_kind_of_fault(self) -> None:
        """An edit of FILE, and what `check` says of it; without a line the file is good."""
        rows = [
            ("DATA    M", "DATA    X", 1, "C1 HeaderLine"),
            ("DATA    M", "DATA    G", 11, "C1 HeaderLine"),
            ("G    3 C5X", "R    3 C5X", 10, "C1 HeaderLine"),
            ("G    3 C5X", "I    3 C5X", 10, "C1 HeaderLine"),
            ("R    3 C2P", "G    3 C2P", 11, "C1 HeaderLine"),
            ("R    3 C2P L2P S2P", "R    3 C5X L5X S5X", 11, "C1 HeaderLine"),
            ("I    3 C5A", "I    6 C5A", 16, "C1 HeaderLine"),
            ("  1 R10 -5", "  2 R10 -5", 26, "C1 HeaderLine"),
            ("  1 R10 -5", "  1 R10 -8", 26, "C1 HeaderLine"),
            ("  1 R10 -5", "  1 R28 -5", 26, "C1 HeaderLine"),
            ("  1 R10 -5", "  1 R00 -5", 26, "C1 HeaderLine"),
            ("  1 R10 -5", "  0       ", 32, "C3 Value"),
            ("  1 R10 -5", "  1 R10 -4", None, None),
            ("    18    ", "   118    ", 28, "C1 HeaderLine"),
            ("    18    ", "    18  18", 28, "C1 HeaderLine"),
            ("    18    ", "     0    ", None, None),
            ("0.0000000  0  7", "0.0000000  0222", 30, "C2 Columns"),
            ("R10  20", "R28  20", 32, "C2 Columns"),
            ("S58  39", "S19  39", 36, "C2 Columns"),
            ("S58  39", "S59  39", 36, "C2 Columns"),
            ("S58  39", "S20  39", None, None),
            ("C41  23", "C64  23", 34, "C2 Columns"),
            ("J01  36", "E01  36", 35, "C4 Order"),
            ("R10  20", "R11  20", 32, "C3 Value"),
        ]
        for old, new, number, fault in rows:
            with self.subTest(f"{old} {new}"):
                self.assertEqual(FILE.count(old), 1)
                edited = FILE.replace(old, new).encode()
                told = rtcm2rinex.check(io.BytesIO(edited))
                self.assertEqual((told.line, told.fault), (number, fault))
                self.assertEqual(fault_of(edited), (number, fault))


class Texts(Case):
    def test_reports(self) -> None:
        counts = [f"{it} 0" for it in ("frames", "other", "refused", "foreign", "taken", "repeat", "conflict", "late", "epochs")]
        told = rtcm2rinex.reports.read_report(["other-channel R09 R10", "no-channel -", "no-message E C", *counts])
        self.assertEqual((told.other_channel, told.no_channel, told.no_message), (("R09", "R10"), (), ("E", "C")))
        for number, line in ((1, "no-message"), (1, "no-message -"), (1, "other-channel G01"), (1, "no-channel R1"), (1, "no-channel")):
            with self.subTest(line), self.assertRaises(rtcm2rinex.FormError) as raised:
                rtcm2rinex.reports.read_report([line, *counts])
            self.assertEqual(raised.exception.number, number)
        with self.assertRaises(rtcm2rinex.FormError) as raised:  # behind the first count
            rtcm2rinex.reports.read_report([counts[0], "no-channel -", *counts[1:]])
        self.assertEqual(raised.exception.number, 2)
