"""How the program is found, and what is wrong with words that it does not say."""

from __future__ import annotations

import os
import pickle
import platform
import shutil
import subprocess
import sys
from pathlib import Path
from unittest import mock

import rtcm2rinex
from rtcm2rinex.captures import read_summary
from rtcm2rinex.converting import found_of
from rtcm2rinex.qualities import read_quality
from rtcm2rinex.reports import read_report
from support import EXAMPLES, PROGRAM, ROOT, Case

WITHOUT = {"PATH": "/nowhere:/else"}


def stand_in(path: str, text: str = "rtcm2rinex 9.9.9") -> str:
    """A program that prints this text."""
    Path(path).parent.mkdir(parents=True, exist_ok=True)
    Path(path).write_text(f"#!/bin/sh\necho '{text}'\n")
    Path(path).chmod(0o755)
    return path


class Places(Case):
    def test_the_argument_is_before_the_variable(self) -> None:
        here = stand_in("./here/program")
        with mock.patch.dict(os.environ, {"RTCM2RINEX": stand_in("./there/program", "rtcm2rinex 8.8.8")}):
            self.assertEqual(rtcm2rinex.version(Path(here)), "9.9.9")
            self.assertEqual(rtcm2rinex.version(), "8.8.8")

    def test_what_is_named_must_be_there(self) -> None:
        rows = {"the argument": lambda: rtcm2rinex.find_program("./nowhere"), "the variable RTCM2RINEX": rtcm2rinex.version}
        for words, call in rows.items():
            with mock.patch.dict(os.environ, {"RTCM2RINEX": "./nowhere"}), self.assertRaises(rtcm2rinex.ProgramNotFound) as raised:
                call()
            self.assertEqual(str(raised.exception), f"{words} names ./nowhere, which is no program that can be run")
            self.assertEqual(raised.exception.places, ("./nowhere",))

    def test_the_copy_of_a_checkout_and_then_the_path(self) -> None:
        shutil.copytree(ROOT / "python", "checkout/python", ignore=shutil.ignore_patterns("__pycache__"))
        copy = f"checkout/dist/{platform.machine()}-linux-gnu/rtcm2rinex"
        stand_in("bin/rtcm2rinex", "rtcm2rinex 7.7.7")
        environment = {"PATH": str(self.folder / "bin"), "PYTHONPATH": str(self.folder / "checkout/python")}
        script = "import rtcm2rinex; print(rtcm2rinex.version())"

        def printed(**more: str) -> str:
            words = [sys.executable, "-B", "-c", script]
            return subprocess.run(words, env={**environment, **more}, capture_output=True, text=True).stdout.strip()

        self.assertEqual(printed(RTCM2RINEX=""), "7.7.7")
        stand_in(copy)
        self.assertEqual(printed(), "9.9.9")
        # One that does not run here gives way to the next kind.
        Path(copy).write_text("#!/nowhere/loader\n")
        self.assertEqual(printed(), "7.7.7")
        stand_in(f"checkout/dist/{platform.machine()}-linux-musl/rtcm2rinex", "rtcm2rinex 6.6.6")
        self.assertEqual(printed(), "6.6.6")

    def test_no_program(self) -> None:
        with mock.patch.dict(os.environ, WITHOUT), mock.patch("rtcm2rinex.program.CHECKOUT", self.folder):
            del os.environ["RTCM2RINEX"]
            with self.assertRaises(rtcm2rinex.ProgramNotFound) as raised:
                rtcm2rinex.check(EXAMPLES / "base.rnx")
        kinds = ("linux-gnu", "baseline-linux-gnu", "linux-musl")
        copies = [str(self.folder / "dist" / f"{platform.machine()}-{kind}" / "rtcm2rinex") for kind in kinds]
        self.assertEqual(raised.exception.places, (*copies, "/nowhere/rtcm2rinex", "/else/rtcm2rinex"))
        self.assertIn(copies[0], str(raised.exception))

    def test_a_program_that_does_not_run(self) -> None:
        Path("program").write_bytes(b"\x7fELF of another machine")
        Path("program").chmod(0o755)
        with self.assertRaises(rtcm2rinex.ProgramNotFound) as raised:
            rtcm2rinex.version("./program")
        self.assertIn("./program does not run: ", str(raised.exception))

    def test_the_program_that_is_tested(self) -> None:
        told = subprocess.run([PROGRAM, "--version"], capture_output=True, text=True).stdout
        self.assertEqual(f"rtcm2rinex {rtcm2rinex.version()}\n", told)


class Exceptions(Case):
    def test_they_come_from_another_process(self) -> None:
        calls = {
            rtcm2rinex.WorkError: lambda: rtcm2rinex.check("nowhere"),
            rtcm2rinex.WordsError: lambda: rtcm2rinex.cut(EXAMPLES / "slip.rnx", every=0),
            rtcm2rinex.CapturesError: lambda: rtcm2rinex.auto(EXAMPLES / "session.rtcm"),
            rtcm2rinex.NoRecordError: lambda: rtcm2rinex.auto(EXAMPLES / "dated.rtcm", codes="5I"),
            rtcm2rinex.FileError: lambda: rtcm2rinex.quality(EXAMPLES / "base.rtcm"),
            rtcm2rinex.FormError: lambda: rtcm2rinex.header(EXAMPLES / "base.rtcm"),
            rtcm2rinex.ProgramNotFound: lambda: rtcm2rinex.version("./nowhere"),
        }
        for kind, call in calls.items():
            with self.subTest(kind.__name__):
                with self.assertRaises(rtcm2rinex.Error) as raised:
                    call()
                again = pickle.loads(pickle.dumps(raised.exception))
                self.assertIs(type(again), kind)
                self.assertEqual((str(again), vars(again)), (str(raised.exception), vars(raised.exception)))


class Texts(Case):
    """A text of another program, or of another version, is a fault with its line."""

    def refuses(self, number: int, call, *words: object) -> None:
        with self.assertRaises(rtcm2rinex.FormError) as raised:
            call(*words)
        self.assertEqual(raised.exception.number, number)

    def test_reports(self) -> None:
        counts = [f"{it} 0" for it in ("frames", "other", "refused", "foreign", "taken", "repeat", "conflict", "late", "epochs")]
        self.assertEqual(read_report(counts).counts.epochs, 0)
        self.refuses(10, read_report, counts[:-1], 2)
        self.refuses(2, read_report, [counts[0], *counts])
        self.refuses(10, read_report, [*counts, "more 0"])
        self.refuses(1, read_report, ["link 1 lost 1074 2024-05-17 12:00:00.000", *counts])
        self.refuses(9, read_report, [*counts[:-1], "epochs -1"])
        self.refuses(1, read_report, ["link 1 late 1074 2024-13-17 12:00:00.000", *counts])

    def test_other_texts(self) -> None:
        self.refuses(2, read_summary, "bytes 1\nframes x\n")
        self.refuses(1, read_summary, " message 1004 1\n")
        self.refuses(2, read_summary, "station 1\n date 2024-13-17T12:00:00 1 1\n")
        self.refuses(1, found_of, ["from 2024"], ())
        self.refuses(1, found_of, [" from 2024-13-17T12:00:00 until 2024-05-17T12:00:00 by 1013"], ())
        self.refuses(1, read_quality, '{"file":{"marker":"BASE"}}\n')
        self.refuses(1, read_quality, "[]\n")
        self.refuses(1, read_quality, "marker BASE\n")
        with self.assertRaises(rtcm2rinex.FormError):
            rtcm2rinex.check(EXAMPLES / "base.rnx", program=stand_in("./program", "fine"))
        self.refuses(1, rtcm2rinex.version, stand_in("./program", ""))
