"""`summary`, `check`, `quality`, `cut` and `label`: what they say, and their faults."""

from __future__ import annotations

import gzip
import io
from datetime import datetime
from pathlib import Path

import rtcm2rinex
from rtcm2rinex import ClockOffset, Date
from rtcm2rinex.captures import read_summary
from support import BASE, EXAMPLES, NOON, Case, equipment, frame_of, second

SLIP = EXAMPLES / "slip.rnx"


class Summaries(Case):
    def test_a_dated_capture(self) -> None:
        """As the tutorial shows it."""
        found = rtcm2rinex.summary(EXAMPLES / "dated.rtcm")
        self.assertEqual((found.bytes, found.outside_frames, found.frames, found.looks_like), (2915, 0, 55, None))
        self.assertEqual((found.other, found.weeks, found.untaken, found.refused, found.has_codes), ({1013: 1, 1019: 1}, {}, {}, {}, True))
        self.assertEqual(list(found.stations), [7, 2003])
        empty, station = found.stations[7], found.stations[2003]
        self.assertEqual((empty.messages, empty.satellites, empty.codes, empty.next), ({1004: 1}, (), (), None))
        self.assertEqual(station.messages, {1004: 20, 1006: 2, 1074: 30})
        self.assertEqual((station.first_tow, station.last_tow, station.changes_of_time), (475_200_000, 475_219_000, 19))
        self.assertEqual(station.dates, [Date(second(1), 1013, 1)])
        self.assertEqual((station.satellites, station.codes), (("G05", "G07", "G13", "G21"), ("1C", "2W", "5X")))
        self.assertEqual(station.auto, f"rtcm2rinex auto --station 2003 -o 2003.rnx {EXAMPLES / 'dated.rtcm'}")

    def test_several_systems(self) -> None:
        """The lines that a capture of several systems has."""
        found = read_summary(
            "bytes 10\nstation 1\n message 1074 2\n message 1087 2\n satellites G03 R09 S33\n codes 1C,R1C,S1C\n epochs 1087 2\n"
            " channels 1:1,9:-6,9:5\n clock C +14.000 257 of 260\n clock E -0.001 2 of 2\nweek 538 1019 1\nweek 957 1042 2\nweek 1289 1046 1\n")
        station = found.stations[1]
        self.assertEqual((station.satellites, station.codes), (("G03", "R09", "S33"), ("1C", "R1C", "S1C")))
        self.assertEqual((station.epochs, station.channels), ({1087: 2}, {1: (1,), 9: (-6, 5)}))
        self.assertEqual(station.clocks, {"C": ClockOffset(14_000, 257, 260), "E": ClockOffset(-1, 2, 2)})
        self.assertEqual((found.weeks, found.system_weeks), ({538: 1}, {1042: {957: 2}, 1046: {1289: 1}}))

    def test_antennas_and_receivers(self) -> None:
        changed = equipment(1008, b"A", 1, b"9", station=700) + equipment(1008, b"B", 2, b"8\n", station=700)
        receiver = equipment(1033, b"GPPNULLANTENNA", 0, b"", b"LEICA GRX1200+GNSS", b"9.20", b"496710", station=278)
        stations = rtcm2rinex.summary(io.BytesIO(receiver + changed)).stations
        self.assertEqual(stations[278].equipment, {"antenna-type": "GPPNULLANTENNA", "antenna-setup": "0",
            "receiver-type": "LEICA GRX1200+GNSS", "receiver-version": "9.20", "receiver-serial": "496710"})
        self.assertEqual(stations[700].equipment, {"antenna-type": "B", "antenna-serial": r"8\x0A", "antenna-setup": "2"})
        self.assertEqual(stations[700].changes, {"antenna-type": 1, "antenna-serial": 1, "antenna-setup": 1})
        self.assertIsNone(stations[700].first_tow)

    def test_what_is_not_converted(self) -> None:
        """A 1002, two short 1005, a payload without a number, and three bytes beside."""
        text = b"".join(frame_of(bytes.fromhex(it)) for it in ("3EA0", "3ED0", "3ED0", "")) + b"abc"
        found = rtcm2rinex.summary(io.BytesIO(text))
        self.assertEqual((found.frames, found.outside_frames), (4, 3))
        self.assertEqual((found.other, found.untaken), ({1002: 1}, {1002: 1}))
        self.assertEqual(found.refused, {("M3", 1005): 2, ("M1", None): 1})
        self.assertFalse(found.has_codes)

    def test_no_capture(self) -> None:
        found = rtcm2rinex.summary(io.BytesIO(gzip.compress(b"not a frame")))
        self.assertEqual((found.frames, found.looks_like, found.stations, found.has_codes), (0, "gzip", {}, False))
        with self.assertRaises(rtcm2rinex.WorkError) as raised:
            rtcm2rinex.summary("nowhere")
        self.assertEqual(raised.exception.line, "cannot open nowhere")

    def test_names_in_the_commands(self) -> None:
        for name, word in {"it's": r"'it'\''s'", "-5": "./-5"}.items():
            Path(name).write_bytes(BASE)
            self.assertEqual(rtcm2rinex.summary(name).stations[2003].auto, f"rtcm2rinex auto --station 2003 -o 2003.rnx {word}")

    def test_no_command_reads_a_pipe_twice(self) -> None:
        """A capture with such a name is read through standard input."""
        Path("a\nb").write_bytes(BASE)
        self.assertIsNone(rtcm2rinex.summary("a\nb").stations[2003].auto)


class Checks(Case):
    def test_a_good_file(self) -> None:
        good = rtcm2rinex.check(EXAMPLES / "session.rnx")
        self.assertTrue(good)
        self.assertEqual((good.epochs, good.satellite_lines, good.line, good.fault), (20, 72, None, None))

    def test_wrong_files(self) -> None:
        text = (EXAMPLES / "base.rnx").read_bytes()
        rows = {text[:-1]: (16, "C5 Truncated"), text.replace(b"GEODETIC", b"GEODESIC"): (4, "C1 HeaderLine"),
            text.replace(b"G05", b"G33"): (16, "C2 Columns"), text.replace(b"45.000", b"45.100"): (16, "C3 Value"),
            text + b"".join(text.splitlines(True)[-2:]): (17, "C4 Order"), b"": (1, "C5 Truncated")}
        for wrong, told in rows.items():
            bad = rtcm2rinex.check(io.BytesIO(wrong))
            self.assertFalse(bad)
            self.assertEqual((bad.line, bad.fault, bad.epochs), (*told, None))

    def test_a_file_that_cannot_be_read(self) -> None:
        with self.assertRaises(rtcm2rinex.WorkError) as raised:
            rtcm2rinex.check(self.folder)
        self.assertEqual((raised.exception.status, raised.exception.line), (1, "read failed"))


class Qualities(Case):
    def test_the_numbers_of_the_manual(self) -> None:
        found = rtcm2rinex.quality(EXAMPLES / "marks.rnx")
        self.assertEqual((found.marker, found.first, found.last, found.interval), ("BASE", NOON, second(99), 1.0))
        self.assertEqual((found.records, found.missing, found.satellites), (94, 6, 3))
        self.assertEqual((found.least_satellites, found.mean_satellites, found.greatest_satellites), (2, 2.4, 3))
        code = found.codes[1]
        self.assertEqual((code.satellite, code.code, code.phases, code.possible, code.percent), (None, "2W", 221, 224, 98.6))
        self.assertEqual((code.satellites, code.tracked, code.ranges_only, code.half_cycles, code.phases_per_slip), (3, 3, 3, 1, 221))
        self.assertEqual((code.slips, code.returns, code.rises), (1, 0, 0))
        self.assertEqual((code.least_strength, code.mean_strength, code.greatest_strength), (22.0, 30.74, 36.0))
        code = next(it for it in found.satellite_codes if (it.satellite, it.code) == ("G12", "1C"))
        self.assertEqual((code.phases, code.half_cycles, code.phases_per_slip, code.mean_strength), (74, 4, None, 39.2))
        self.assertEqual((code.satellites, code.tracked), (None, None))
        self.assertIn(rtcm2rinex.Pass("G12", second(20), second(99), 145, 1, 1, 0, 0.0), found.passes)
        self.assertIn(rtcm2rinex.Tracked("G12", 145, 1, 1, 0, 0.0), found.tracked)
        self.assertEqual((found.slips, found.moments, found.outages, found.outage_time), (2, 2, 0, 0.0))
        self.assertEqual(found.hours, (rtcm2rinex.Hour(NOON, 94, 100, 2.4, 2, 0, {1: 38.05, 2: 30.74}),))
        self.assertEqual((found.gaps, found.longest_gaps, found.falls), (1, (rtcm2rinex.Gap(second(39), second(46), 6),), ()))
        self.assertEqual(found.never, ())
        self.assertEqual((found.slips_together, found.longest_outages, found.most_slips_together), (0, (), ()))
        self.assertEqual((found.bursts, found.largest_bursts), (0, ()))
        self.assertEqual((found.half_runs, found.longest_half_runs), (1, (rtcm2rinex.HalfRun("G12", second(55), second(58), 4),)))
        self.assertEqual((found.missing_codes, found.longest_missing_codes), (0, ()))

    def test_a_burst(self) -> None:
        found = rtcm2rinex.quality(SLIP)
        self.assertEqual((found.bursts, found.largest_bursts), (1, (rtcm2rinex.Burst("G05", NOON, 3),)))

    def test_outages_and_slips_together(self) -> None:
        """G05 and G07 slip together at the second 10. G05 is away from 20 to 199, and G07 is there each second."""
        header, _ = (EXAMPLES / "slip.rnx").read_text().split("END OF HEADER       \n")
        text = header + "END OF HEADER       \n"
        for at in range(300):
            there = not 20 <= at < 200
            mark = "1" if at == 10 else " "
            text += f"> 2024 05 17 12 {at // 60:02} {at % 60:2}.0000000  0  {1 + there}\n"
            text += f"G05  21085472.060 7 110804903.547{mark}7        45.000\n" if there else ""
            text += f"G07  22963108.863 6 120671906.430{mark}6        41.500\n"
        found = rtcm2rinex.quality(io.BytesIO(text.encode("ascii")))
        self.assertEqual((found.outages, found.longest_outages), (1, (rtcm2rinex.Outage("G05", second(19), second(200), 180.0),)))
        self.assertEqual((found.slips_together, found.most_slips_together), (1, (rtcm2rinex.SlipsTogether(second(10), 2, 2),)))

    def test_a_missing_code(self) -> None:
        """Of five minutes G07 lacks 2W from the second 60 to 180, which are 121 s."""
        header, _ = (EXAMPLES / "slip.rnx").read_text().split("END OF HEADER       \n")
        text = header + "END OF HEADER       \n"
        for at in range(300):
            text += f"> 2024 05 17 12 {at // 60:02} {at % 60:2}.0000000  0  1\n"
            text += "G07  22963108.863 6 120671906.430 6        41.500"
            text += "\n" if 60 <= at <= 180 else "    22963108.870 5  94029401.117 5        30.250\n"
        found = rtcm2rinex.quality(io.BytesIO(text.encode("ascii")))
        self.assertEqual((found.missing_codes, found.longest_missing_codes), (1, (rtcm2rinex.MissingCode("G07", "2W", second(60), second(180), 121),)))

    def test_codes_that_a_satellite_never_has(self) -> None:
        found = rtcm2rinex.quality(EXAMPLES / "session.rnx")
        self.assertEqual(found.never, (("G13", "5X"), ("G21", "5X")))
        self.assertEqual(len(found.satellite_codes), 10)

    def test_no_records(self) -> None:
        header = b"".join((EXAMPLES / "base.rnx").read_bytes().splitlines(True)[:14])
        found = rtcm2rinex.quality(io.BytesIO(header))
        self.assertEqual((found.marker, found.records, found.first, found.codes, found.passes), ("BASE", 0, None, (), ()))
        self.assertEqual((found.gaps, found.slips, found.outage_time, found.tracked, found.hours), (None, None, None, (), ()))
        self.assertEqual((found.slips_together, found.longest_outages, found.most_slips_together), (None, (), ()))
        self.assertEqual((found.bursts, found.largest_bursts, found.half_runs, found.longest_half_runs), (None, (), None, ()))
        self.assertEqual((found.missing_codes, found.longest_missing_codes), (None, ()))

    def test_a_wrong_file(self) -> None:
        text = (EXAMPLES / "base.rnx").read_bytes().replace(b"45.000", b"45.100")
        for call in (rtcm2rinex.quality, lambda it: rtcm2rinex.cut(it, every=1), lambda it: rtcm2rinex.label(it, blank=True)):
            with self.assertRaises(rtcm2rinex.FileError) as raised:
                call(io.BytesIO(text))
            self.assertEqual((raised.exception.status, raised.exception.number, raised.exception.fault), (3, 16, "C3 Value"))


class Parts(Case):
    def test_every_thirtieth_second(self) -> None:
        part = rtcm2rinex.cut(SLIP, every=30)
        self.assertEqual((part.records, part.written, part.text), (61, 3, (EXAMPLES / "slip_30s.rnx").read_bytes()))

    def test_a_span(self) -> None:
        for since, until in ((second(5), second(15)), ("2024-05-17T12:00:05", "2024-05-17T12:00:15")):
            part = rtcm2rinex.cut(io.BytesIO(SLIP.read_bytes()), from_=since, until=until, output="part.rnx", force=True)
            self.assertEqual((part.records, part.written), (61, 10))
            self.assertEqual([it.time for it in part.epochs()], [second(it) for it in range(5, 15)])
        with self.assertRaises(rtcm2rinex.WordsError) as raised:
            rtcm2rinex.cut(SLIP, from_=second(15), until=second(5))
        self.assertEqual(raised.exception.line, "bad --until")


class Labels(Case):
    def test_fields_and_no_fields(self) -> None:
        """The columns of RINEX 3.05, Table A2."""
        done = rtcm2rinex.label(SLIP, agency="Survey of Somewhere", receiver_type="LEICA GR50", antenna_type="LEIAR25.R3      LEIT",
            marker_number="12345M001", delta_height=1.5, delta_east="-0.0120", delta_north=0.00004)
        lines = done.text.decode().splitlines()
        self.assertIn(f"{'':20}{'Survey of Somewhere':40}OBSERVER / AGENCY   ", lines)
        self.assertIn(f"{'':20}{'LEICA GR50':40}REC # / TYPE / VERS ", lines)
        self.assertIn(f"{'12345M001':60}MARKER NUMBER       ", lines)
        self.assertIn(f"{'+1.5000':>14}{'-0.0120':>14}{'+0.0000':>14}{'':18}ANTENNA: DELTA H/E/N", lines)
        head = done.header()
        self.assertEqual((head.agency, head.receiver_type), ("Survey of Somewhere", "LEICA GR50"))
        self.assertEqual(head.antenna_type, "LEIAR25.R3      LEIT")
        self.assertEqual((head.marker_number, head.antenna_delta, head.run_by, head.observer), ("12345M001", (1.5, -0.012, 0.0), "", ""))
        self.assertFalse(rtcm2rinex.check(done.open()))
        plain = rtcm2rinex.label(done.open(), blank=True, output="plain.rnx")
        self.assertEqual(Path("plain.rnx").read_bytes(), SLIP.read_bytes())
        self.assertEqual(plain.header().made, datetime(2024, 5, 17, 13))

    def test_lines_of_the_records(self) -> None:
        """The file has a record each second from 12:00:00 to 12:01:00."""
        done = rtcm2rinex.label(SLIP, interval=True, last=True)
        lines = done.text.decode().splitlines()
        self.assertEqual(lines[9:11], [f"{'1.000':>10}{'':50}INTERVAL            ",
            f"{2024:6}{5:6}{17:6}{12:6}{1:6}{'0.0000000':>13}{'GPS':>8}{'':9}TIME OF LAST OBS    "])
        head = done.header()
        self.assertEqual((head.interval, head.last), (1.0, datetime(2024, 5, 17, 12, 1)))
        part = rtcm2rinex.cut(done.open(), every=30, output="part.rnx")
        self.assertEqual((part.header().interval, part.header().last), (30.0, datetime(2024, 5, 17, 12, 1)))
        one = rtcm2rinex.label(SLIP, last=True).header()
        self.assertEqual((one.interval, one.last), (None, head.last))
        rtcm2rinex.label(done.open(), blank=True, output="plain.rnx")
        self.assertEqual(Path("plain.rnx").read_bytes(), SLIP.read_bytes())

    def test_refused_fields(self) -> None:
        for options, line in (({"run_by": "x" * 21}, "bad --run-by"), ({"delta_north": 10_000.0}, "bad --delta-north")):
            with self.assertRaises(rtcm2rinex.WordsError) as raised:
                rtcm2rinex.label(SLIP, **options)
            self.assertEqual((raised.exception.status, raised.exception.line), (2, line))
        with self.assertRaises(rtcm2rinex.WordsError) as raised:
            rtcm2rinex.label(EXAMPLES / "session.rnx", delta_height=1.0)
        self.assertEqual(raised.exception.line, "bad --delta-height: the file tells a height")
