"""`convert` and `auto`: files, reports, inputs, outputs and faults."""

from __future__ import annotations

import gzip
import io
import os
import subprocess
import sys
import time
from datetime import datetime, timedelta, timezone
from pathlib import Path

import rtcm2rinex
from rtcm2rinex import Conflict, Counts, LateMessage, RefusedMessage
from support import BASE, EXAMPLES, MADE, NOON, PROGRAM, ROOT, SETUP, TWO_CODES, Case, P, Q
from support import capture, frame_of, observations_at, point, second

SESSION = {**SETUP, "codes": ["1C", "2W", "5X"]}
PATIENCE = 6000  # tenths of a second


def example(name: str) -> bytes:
    return (EXAMPLES / name).read_bytes()


class Reports(Case):
    def report_of(self, *frames: bytes) -> rtcm2rinex.Report:
        return rtcm2rinex.convert([io.BytesIO(b"".join(frames))], **TWO_CODES).report

    def test_one_capture_gives_the_published_file(self) -> None:
        done = rtcm2rinex.convert(EXAMPLES / "base.rtcm", **TWO_CODES)
        self.assertEqual(done.text, example("base.rnx"))
        wanted = Counts(frames=2, other=0, refused=0, foreign=0, taken=2, repeat=0, conflict=0, late=0, epochs=1)
        self.assertEqual(done.report.counts, wanted)

    def test_two_links_give_the_published_file_in_either_order(self) -> None:
        links = [EXAMPLES / "session_link1.rtcm", EXAMPLES / "session_link2.rtcm"]
        for order in links, links[::-1]:
            done = rtcm2rinex.convert(order, **SESSION)
            self.assertEqual(done.text, example("session.rnx"))
            self.assertEqual(done.report.counts, Counts(88, 1, 0, 3, 51, 33, 0, 0, 20))
            self.assertEqual((done.report.late, done.report.conflicts, done.report.refused), ((), (), ()))

    def test_two_equal_links_repeat(self) -> None:
        done = rtcm2rinex.convert([io.BytesIO(BASE), io.BytesIO(BASE)], **TWO_CODES)
        self.assertEqual(done.text, example("base.rnx"))
        self.assertEqual(done.report.counts, Counts(4, 0, 0, 0, 2, 2, 0, 0, 1))

    def test_late_messages(self) -> None:
        done = rtcm2rinex.convert(EXAMPLES / "late.rtcm", **TWO_CODES)
        self.assertEqual(done.text, example("late.rnx"))
        self.assertEqual(done.report.late, (LateMessage(1, 1004, second(2)),))
        self.assertEqual(done.report.counts, Counts(6, 0, 0, 0, 5, 0, 0, 1, 5))
        self.assertEqual(self.report_of(observations_at(1, 2), P).late, (LateMessage(1, 1005, None),))

    def test_conflicts(self) -> None:
        other = capture(point(itrf_year=1))
        self.assertEqual(self.report_of(P, other).conflicts, (Conflict(1, 1005, None, None, None),))
        self.assertEqual(self.report_of(Q, observations_at(0, l1_cnr=181)).conflicts, (Conflict(1, 1004, NOON, "G05", "1C"),))

    def test_refused_other_and_foreign_messages(self) -> None:
        short = frame_of(bytes.fromhex("3ED7D302"))
        report = self.report_of(short, bytes.fromhex("D3000047EA4B"), frame_of(bytes.fromhex("3FB0")), capture(point(station=7)))
        self.assertEqual(report.refused, (RefusedMessage(1, "M3", 1005), RefusedMessage(1, "M1", None)))
        self.assertEqual(report.counts, Counts(4, 1, 2, 1, 0, 0, 0, 0, 0))


class Inputs(Case):
    def converts(self, *links: object) -> None:
        """These links give the file of base.rtcm."""
        self.assertEqual(rtcm2rinex.convert(list(links), **TWO_CODES).text, example("base.rnx"))

    def test_names(self) -> None:
        for name in ("stdin", "-5", "--codes", "a b", "Zürich", "a\nb"):
            with self.subTest(name):
                Path(name).write_bytes(BASE)
                self.converts(name)
                self.converts(Path(name), Path(name))

    def test_open_files(self) -> None:
        Path("base.gz").write_bytes(gzip.compress(BASE))
        with gzip.open("base.gz") as packed, open(EXAMPLES / "base.rtcm", "rb") as plain:
            self.converts(packed, plain, io.BytesIO(P), EXAMPLES / "base.rtcm")

    def test_several_open_files_without_standard_streams(self) -> None:
        """As in a service: the pipes of the links would else get the numbers of standard input, output and error."""
        script = (f"import io, os, rtcm2rinex; done = rtcm2rinex.convert([io.BytesIO({BASE!r}) for _ in range(3)], **{TWO_CODES!r}); "
            "open('made.rnx', 'wb').write(done.text)")
        words = ["sh", "-c", 'exec "$@" <&- >&- 2>&-', "sh", sys.executable, "-B", "-c", script]
        ran = subprocess.run(words, timeout=PATIENCE / 10)
        self.assertEqual((ran.returncode, Path("made.rnx").read_bytes()), (0, example("base.rnx")))

    def test_a_script_that_a_closed_pipe_ends(self) -> None:
        """As scripts are that write to `head`. The program that refuses its words reads nothing of the pipe."""
        script = f"""
import io, signal, rtcm2rinex
signal.signal(signal.SIGPIPE, signal.SIG_DFL)
try:
    rtcm2rinex.convert(io.BytesIO(bytes(1_000_000)), **{({**TWO_CODES, "codes": "9Z"})!r})
except rtcm2rinex.WordsError as fault:
    print(fault.line)
"""
        ran = subprocess.run([sys.executable, "-B", "-c", script], capture_output=True, text=True)
        self.assertEqual((ran.stdout, ran.returncode), ("bad --codes\n", 0))

    def test_a_file_that_is_read_from_its_place_on(self) -> None:
        with open(EXAMPLES / "base.rtcm", "rb") as file:
            file.seek(len(P))
            self.assertEqual(rtcm2rinex.convert(file, **TWO_CODES).report.counts.taken, 1)

    def test_long_open_files_side_by_side(self) -> None:
        frames = [observations_at(*range(start, start + 1200)) * 8 for start in (0, 1200, 2400)]
        report = rtcm2rinex.convert([io.BytesIO(it) for it in frames], **{**TWO_CODES, "window": 4096}).report
        self.assertEqual((report.counts.frames, report.counts.taken, report.counts.epochs), (28_800, 3600, 3600))

    def test_an_open_file_that_fails(self) -> None:
        with open("cut.gz", "wb") as file:
            file.write(gzip.compress(BASE)[:-12])
        with gzip.open("cut.gz") as packed, self.assertRaises(EOFError):
            rtcm2rinex.convert(packed, **TWO_CODES, output="made.rnx")
        with self.assertRaises(TypeError):
            rtcm2rinex.convert(io.StringIO("text"), **TWO_CODES, output="made.rnx")
        self.assertEqual(self.there(), ["cut.gz"])

    def test_an_open_file_that_does_not_wait(self) -> None:
        """Half a capture in a pipe whose sender has more is no whole capture."""
        for call in (lambda it: rtcm2rinex.convert(it, **TWO_CODES, output="made.rnx"), rtcm2rinex.auto, rtcm2rinex.summary):
            reading, writing = os.pipe()
            os.set_blocking(reading, False)
            os.write(writing, P)
            with open(reading, "rb", buffering=0) as file, open(writing, "wb"), self.assertRaises(BlockingIOError):
                call(file)
        self.assertEqual(self.there(), [])

    def test_bytes_are_no_name(self) -> None:
        text = (EXAMPLES / "base.rnx").read_bytes()
        calls = {
            "convert": lambda: rtcm2rinex.convert(BASE, **TWO_CODES), "auto": lambda: rtcm2rinex.auto([BASE]),
            "summary": lambda: rtcm2rinex.summary(BASE), "check": lambda: rtcm2rinex.check(text),
            "cut": lambda: rtcm2rinex.cut(text, every=5, output="made.rnx"), "header": lambda: rtcm2rinex.header(text),
            "observations": lambda: list(rtcm2rinex.observations(text)),
        }
        for name, call in calls.items():
            with self.subTest(name), self.assertRaises(TypeError) as raised:
                call()
            self.assertIn("io.BytesIO", str(raised.exception))
        self.assertEqual(self.there(), [])

    def test_no_end_of_a_pipe_stays_open(self) -> None:
        before = sorted(os.listdir("/dev/fd"))
        for links in [io.BytesIO(BASE)] * 3, [io.BytesIO(BASE), "nowhere"]:
            try:
                rtcm2rinex.convert(links, **TWO_CODES)
            except rtcm2rinex.WorkError:
                pass
        waited = 0
        while sorted(os.listdir("/dev/fd")) != before and waited < PATIENCE:  # a thread closes its end when it sees that nobody reads
            time.sleep(0.1)
            waited += 1
        self.assertEqual(sorted(os.listdir("/dev/fd")), before)


class Outputs(Case):
    def test_a_file_gets_its_name_when_it_is_whole(self) -> None:
        done = rtcm2rinex.convert(EXAMPLES / "base.rtcm", **TWO_CODES, output="made.rnx")
        self.assertEqual((done.text, done.output), (None, Path("made.rnx")))
        self.assertEqual(Path("made.rnx").read_bytes(), example("base.rnx"))
        self.assertEqual(self.there(), ["made.rnx"])
        with self.assertRaises(FileExistsError):
            rtcm2rinex.convert(EXAMPLES / "late.rtcm", **TWO_CODES, output="made.rnx")
        self.assertEqual(Path("made.rnx").read_bytes(), example("base.rnx"))
        rtcm2rinex.convert(EXAMPLES / "late.rtcm", **TWO_CODES, output="made.rnx", force=True)
        self.assertEqual(Path("made.rnx").read_bytes(), example("late.rnx"))

    def test_a_fault_leaves_no_file(self) -> None:
        with self.assertRaises(rtcm2rinex.WorkError):
            rtcm2rinex.convert([EXAMPLES / "base.rtcm", self.folder], **TWO_CODES, output="made.rnx")
        self.assertEqual(self.there(), [])

    def test_an_output_that_is_no_regular_file(self) -> None:
        """It is not replaced, as by the program itself: a call with /dev/null would take it from all others."""
        Path("target").write_text("old")
        Path("link").symlink_to("target")
        Path("folder").mkdir()
        os.mkfifo("pipe")
        for name in "link", "folder", "pipe", "":
            with self.subTest(name), self.assertRaises(FileExistsError):
                rtcm2rinex.convert(EXAMPLES / "base.rtcm", **TWO_CODES, output=name, force=True)
            with self.subTest(name), self.assertRaises(rtcm2rinex.WorkError):
                rtcm2rinex.auto(EXAMPLES / "dated.rtcm", output=name, force=True)
        self.assertEqual(self.there(), ["folder", "link", "pipe", "target"])
        self.assertTrue(Path("link").is_symlink() and Path("pipe").is_fifo())

    def test_an_output_that_is_an_input(self) -> None:
        Path("base").write_bytes(BASE)
        os.link("base", "linked")
        with self.assertRaises(ValueError):
            rtcm2rinex.convert("base", **TWO_CODES, output="linked", force=True)
        self.assertEqual(Path("linked").read_bytes(), BASE)


class Options(Case):
    def header_of(self, **options: object) -> rtcm2rinex.Header:
        return rtcm2rinex.convert(EXAMPLES / "base.rtcm", **{**TWO_CODES, **options}).header()

    def test_times(self) -> None:
        self.assertEqual(rtcm2rinex.convert(EXAMPLES / "base.rtcm", **{**TWO_CODES, "near": NOON}).text, example("base.rnx"))
        east = timezone(timedelta(hours=2))
        self.assertEqual(self.header_of(made=datetime(2024, 5, 17, 15, 0, 0, 999_999, east)).made, datetime(2024, 5, 17, 13))
        self.assertEqual(self.header_of(made=datetime(2024, 5, 17, 15)).made, datetime(2024, 5, 17, 15))
        for near in NOON.replace(tzinfo=timezone.utc), NOON.replace(microsecond=1):
            with self.assertRaises(ValueError):
                self.header_of(near=near)

    def test_the_time_of_making_is_the_present(self) -> None:
        before = datetime.now(timezone.utc).replace(tzinfo=None, microsecond=0)
        made = self.header_of(made=None).made
        self.assertTrue(before <= made <= datetime.now(timezone.utc).replace(tzinfo=None), made)

    def test_the_msm(self) -> None:
        done = rtcm2rinex.convert(self.captures("of_1077"), **SETUP, codes="1C", msm=7)
        self.assertEqual((done.report.counts.taken, done.report.counts.other), (2, 1))
        self.assertEqual([it.strength for it in done.observations()], [40.0, 40.0])  # 640 sixteenths

    def test_words_that_the_program_refuses(self) -> None:
        rows = {"codes": ("1C,9Z", "bad --codes"), "marker": (" X", "bad --marker"), "near": ("2024-02-30T00:00:00", "bad --near"),
            "window": (1, "error: invalid value '1' for '--window <N>': 1 is not in 2..=4096")}
        for option, (value, line) in rows.items():
            with self.subTest(option), self.assertRaises(rtcm2rinex.WordsError) as raised:
                self.header_of(**{option: value})
            self.assertEqual((raised.exception.status, raised.exception.line), (2, line))

    def test_work_that_is_not_done(self) -> None:
        with self.assertRaises(rtcm2rinex.WorkError) as raised:
            rtcm2rinex.convert("nowhere", **TWO_CODES)
        self.assertEqual((raised.exception.status, raised.exception.line), (1, "cannot open nowhere"))
        self.assertEqual(str(raised.exception), "status 1: cannot open nowhere")


class Auto(Case):
    def test_the_published_file(self) -> None:
        done = rtcm2rinex.auto(EXAMPLES / "dated.rtcm", made=MADE, marker="BASE")
        self.assertEqual(done.text, example("session.rnx"))
        self.assertEqual(done.report.counts, Counts(55, 2, 0, 1, 51, 1, 0, 0, 20))
        found = done.found
        self.assertEqual((found.first, found.last, found.dated_by), (second(0), second(19), "1013"))
        self.assertEqual((found.other_dates, found.label, found.notes), ((), None, ()))
        folder = self.folder / "bin"
        folder.mkdir()
        (folder / "rtcm2rinex").symlink_to(PROGRAM)
        again = subprocess.run(["sh", "-c", found.convert], env={"PATH": f"{folder}:{os.environ['PATH']}"}, capture_output=True, check=True)
        self.assertEqual(again.stdout, example("session.rnx"))

    def test_links_and_their_open_files(self) -> None:
        links = [EXAMPLES / "dated_link1.rtcm", EXAMPLES / "dated_link2.rtcm"]
        packed = [io.BytesIO(gzip.compress(path.read_bytes())) for path in links]
        for captures in links, [gzip.open(it) for it in packed], [links[1], io.BytesIO(links[0].read_bytes())]:
            done = rtcm2rinex.auto(captures, made=MADE, marker="BASE", codes="1C,2W,5X")
            self.assertEqual((done.text, done.report.counts), (example("session.rnx"), Counts(107, 4, 0, 1, 51, 51, 0, 0, 20)))

    def test_systems(self) -> None:
        links = [EXAMPLES / "systems_link1.rtcm", EXAMPLES / "systems_link2.rtcm"]
        done = rtcm2rinex.auto(links, made=MADE, marker="BASE")
        self.assertEqual((done.text, done.report.counts), (example("systems.rnx"), Counts(66, 2, 0, 0, 41, 23, 0, 0, 10)))
        done = rtcm2rinex.auto(links, systems="RE", channels={10: -7}, leap_seconds=18)
        self.assertIn(" --codes R1C,R2C,E1X,E5X --msm 7 --window 4096 --channels 1:1,10:-7 --leap-seconds 18 ", done.found.convert)
        self.assertEqual(done.report.no_channel, ())

    def test_an_output(self) -> None:
        Path("made.rnx").write_text("old")
        with self.assertRaises(rtcm2rinex.WorkError) as raised:
            rtcm2rinex.auto(EXAMPLES / "dated.rtcm", output="made.rnx")
        self.assertEqual(raised.exception.line, "made.rnx is there, and -f would replace it")
        done = rtcm2rinex.auto(EXAMPLES / "dated.rtcm", output="made.rnx", force=True, made=MADE, marker="BASE")
        self.assertEqual((done.text, Path("made.rnx").read_bytes()), (None, example("session.rnx")))
        self.assertEqual(len(list(done.epochs())), 20)

    def test_notes_and_late_messages(self) -> None:
        os.chdir(ROOT)
        done = rtcm2rinex.auto("examples/late.rtcm", near=NOON, window=2)
        self.assertEqual(done.report.late, (LateMessage(1, 1004, second(2)),))
        self.assertEqual(done.found.dated_by, "--near")
        self.assertEqual(done.found.notes, (
            "no-position: the header has zeros, as no 1005 or 1006 came in time, or the first one has zeros",
            "late 1: observations after 2 newer epochs, and new positions after 2 epochs, are left out",
            "time-falls examples/late.rtcm"))
        short = rtcm2rinex.auto("examples/late.rtcm", near=NOON, window=2, report=False).report
        self.assertEqual((short.late, short.counts), ((), done.report.counts))

    def test_other_dates_of_a_week(self) -> None:
        found = rtcm2rinex.auto(self.captures("by_week"), made="2024-06-01T13:00:00").found
        self.assertEqual((found.first, found.dated_by, found.other_dates), (NOON, "1019", ("2004-10-01", "2044-01-01")))
        self.assertEqual(rtcm2rinex.auto(self.captures("by_other")).found.dated_by, "1013 of station 7")

    def test_captures_that_are_joined(self) -> None:
        done = rtcm2rinex.auto(self.captures("later", "one"))
        self.assertTrue(done.found.convert.startswith("cat one later | rtcm2rinex convert --station 2003 "), done.found.convert)
        self.assertEqual(done.report.counts.epochs, 4)
        done = rtcm2rinex.auto(self.captures("part2", "part0", "part3", "part1"))
        self.assertEqual([line.split()[0] for line in done.found.convert.split("\n")], ["mkdir", "cat", "cat", "rtcm2rinex"])
        self.assertEqual((done.report.counts.epochs, done.report.counts.repeat), (130, 30))

    def test_labels(self) -> None:
        done = rtcm2rinex.auto(self.captures("equipped"), output="made.rnx", label=True)
        head = done.header()
        self.assertEqual((head.antenna_type, head.antenna_number), ("TRM55971.00     NONE", "1440911917"))
        self.assertEqual((head.receiver_type, head.receiver_version, head.receiver_number), ("TRIMBLE NETR9", "4.48", "5148K72868"))
        self.assertEqual(done.found.label, "rtcm2rinex label --antenna-type 'TRM55971.00     NONE' --antenna-number 1440911917 "
            "--receiver-type 'TRIMBLE NETR9' --receiver-version 4.48 --receiver-number 5148K72868 made.rnx")

    def test_captures_that_tell_too_little(self) -> None:
        names = self.captures("one", "stations", "undated", "zip")
        rows = {
            "undated": ("the captures tell no date; give one, as in --near GPS-TIME-WITHIN-HALF-A-WEEK", ()),
            "stations": ("several stations have observations; choose one by --station", ("station 7 in stations: 1 epochs", "station 2003 in stations: 2 epochs")),
            "zip": ("the captures have no frame of RTCM 3", ("zip looks like zip; unpack it: unzip -p zip >zip.rtcm",)),
        }
        for name, told in rows.items():
            with self.subTest(name), self.assertRaises(rtcm2rinex.CapturesError) as raised:
                rtcm2rinex.auto(name, output="made.rnx")
            fault = raised.exception
            self.assertEqual((fault.status, fault.line, fault.details), (3, *told))
        self.assertEqual(self.there(), names)
        done = rtcm2rinex.auto(["one", "zip"], skip_empty=True)
        self.assertEqual(done.found.notes[-1], "skipped zip looks like zip; unpack it: unzip -p zip >zip.rtcm")
        self.assertEqual(rtcm2rinex.auto("stations", station=7).report.counts.foreign, 2)

    def test_a_header_alone(self) -> None:
        with self.assertRaises(rtcm2rinex.NoRecordError) as raised:
            rtcm2rinex.auto(EXAMPLES / "dated.rtcm", codes="5I")
        fault = raised.exception
        self.assertEqual((fault.status, fault.line), (3, "no record came; the file is a header alone"))
        self.assertEqual((fault.conversion.report.counts.epochs, fault.conversion.header().codes), (0, ("5I",)))
        self.assertEqual(list(fault.conversion.observations()), [])

    def test_links_as_given(self) -> None:
        with self.assertRaises(rtcm2rinex.CapturesError):
            rtcm2rinex.auto(self.captures("there", "here"))
        done = rtcm2rinex.auto(["here", "there"], links_as_given=True)
        self.assertEqual(done.report.conflicts, (Conflict(2, 1005, None, None, None),))

    def test_a_name_that_cannot_be_read_back(self) -> None:
        Path("a\nb").write_bytes(BASE)
        with self.assertRaises(ValueError):
            rtcm2rinex.auto("a\nb")
