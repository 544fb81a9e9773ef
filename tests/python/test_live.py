"""`Converter`: what is fed, what comes out and when, and that nothing stays open."""

from __future__ import annotations

import io
import os
import signal
import subprocess
import sys
import threading
import time
from unittest import mock

import rtcm2rinex
from rtcm2rinex import Converter, Counts, LateMessage
from support import BASE, EXAMPLES, NOON, SETUP, TWO_CODES, Case, P, observations_at, second

SESSION = {**SETUP, "codes": "1C,2W,5X", "window": 2}
PATIENCE = 600.0  # seconds, for what must come, however busy the machine is


# A script that is interrupted once it has printed the first record, also if the tests are run where SIGINT is ignored
INTERRUPTED = f"""
import signal, sys
import rtcm2rinex
signal.signal(signal.SIGINT, signal.default_int_handler)
with rtcm2rinex.Converter(**{TWO_CODES}) as converter:
    try:
        converter.feed(sys.stdin.buffer.read1())
        print(next(converter.records(wait={PATIENCE})).time, flush=True)
        sys.stdin.buffer.read()
    except KeyboardInterrupt:
        print(converter.finish().counts.epochs, [str(it.time) for it in converter.records()])
"""


def refused(thread: threading.Thread) -> None:
    """What starting a thread does where the system has no room for one."""
    raise RuntimeError("can't start new thread")


def first_record(converter: Converter) -> rtcm2rinex.Epoch:
    """The next record that comes."""
    return next(converter.records(wait=PATIENCE))


class Flow(Case):
    def test_the_first_record_stands_after_two_newer_epochs(self) -> None:
        """A window of 2: the record of noon comes while nothing has ended, and the same message is then late."""
        pieces = [observations_at(it) for it in range(3)]
        with Converter(**TWO_CODES) as converter:
            for piece in pieces[:2]:
                converter.feed(piece)
            self.assertEqual(list(converter.records(wait=0.5)), [])
            self.assertIsNone(converter.header)
            converter.feed(pieces[2])
            epoch = first_record(converter)
            self.assertEqual((epoch.time, len(epoch.observations)), (NOON, 2))
            # the exact fractions of these fields, rounded once
            self.assertEqual(epoch.observations[0][1:6], ("G05", "1C", 21085472.060, 110804903.547, 45.0))
            self.assertEqual(epoch.observations[1][1:6], ("G05", "2W", 21085474.060, 86341483.283, 35.0))
            self.assertEqual(converter.header.marker, "BASE")
            converter.feed(pieces[0])
            report = converter.finish()
            self.assertEqual([it.time for it in converter.records()], [second(1), second(2)])
        self.assertEqual(report.late, (LateMessage(1, 1004, NOON),))
        self.assertEqual(report.counts, Counts(4, 0, 0, 0, 3, 0, 0, 1, 3))

    def test_pieces_of_any_length(self) -> None:
        text = (EXAMPLES / "session.rtcm").read_bytes()
        for length in 1, 13, 512, len(text):
            made = io.BytesIO()
            with self.subTest(length), Converter(**SESSION, output=made) as converter:
                for at in range(0, len(text), length):
                    converter.feed(text[at : at + length])
                counts = converter.finish().counts
                self.assertEqual(len(list(converter.records())), 20)
            self.assertEqual((counts.frames, counts.taken, counts.epochs), (54, 51, 20))
            self.assertEqual(made.getvalue(), (EXAMPLES / "session.rnx").read_bytes())

    def test_nobody_takes_the_records(self) -> None:
        """Some 4 MB of text, which is more than a pipe holds, from 3 MB that are fed at once."""
        text = observations_at(*range(3600)) * 20 + b"\0" * 1_000_000
        with Converter(**TWO_CODES) as converter:
            converter.feed(text)
            counts = converter.finish().counts
            self.assertEqual((counts.frames, counts.taken, counts.late), (72_000, 3600, 68_362))
            self.assertEqual(sum(1 for _ in converter.records()), 3600)

    def test_two_links_of_which_one_is_behind(self) -> None:
        with Converter(**{**SESSION, "window": 64}, links=2) as converter:
            converter.feed((EXAMPLES / "session_link2.rtcm").read_bytes() + b"\0" * 500_000, link=2)
            self.assertEqual(list(converter.records(wait=0.3)), [])  # it waits for the first link
            converter.feed((EXAMPLES / "session_link1.rtcm").read_bytes(), link=1)
            converter.end(1)
            counts = converter.finish().counts
            self.assertEqual(len(list(converter.records())), 20)
        self.assertEqual((counts.frames, counts.taken, counts.repeat, counts.late), (88, 51, 33, 0))

    def test_one_thread_feeds_and_another_takes(self) -> None:
        times = []
        with Converter(**TWO_CODES) as converter:
            taker = threading.Thread(target=lambda: times.extend(it.time for it in converter.records(wait=None)))
            taker.start()
            for it in range(10):
                converter.feed(observations_at(it))
                time.sleep(0.01)
            converter.finish()
            taker.join(PATIENCE)
        self.assertEqual(times, [second(it) for it in range(10)])

    def test_an_output_that_grows(self) -> None:
        with open("made.rnx", "wb") as made, Converter(**TWO_CODES, output=made) as converter:
            converter.feed(observations_at(0, 1, 2))
            first_record(converter)
            with open("made.rnx", "rb") as grown:
                self.assertEqual([it.time for it in rtcm2rinex.epochs(grown)], [NOON])

    def test_an_output_that_takes_a_few_bytes_at_a_time(self) -> None:
        class Narrow(io.RawIOBase):
            text = b""

            def write(self, piece: bytes) -> int:
                self.text += piece[:10]
                return min(len(piece), 10)

        class Mute(list):
            """A file that does not say how many bytes it takes."""

            def write(self, piece: bytes) -> None:
                self.append(piece)

            def flush(self) -> None:
                pass

        narrow, mute = Narrow(), Mute()
        for output in narrow, mute:
            with Converter(**TWO_CODES, output=output) as converter:
                converter.feed(BASE)
        self.assertEqual([narrow.text, b"".join(mute)], [(EXAMPLES / "base.rnx").read_bytes()] * 2)

    def test_an_interrupt_leaves_the_last_records(self) -> None:
        """Ctrl+C in a terminal sends SIGINT to all processes of a group, which are here the script and what it starts."""
        with subprocess.Popen([sys.executable, "-c", INTERRUPTED], stdin=subprocess.PIPE, stdout=subprocess.PIPE,
                start_new_session=True) as script:
            script.stdin.write(observations_at(0, 1, 2))
            script.stdin.flush()
            self.assertEqual(script.stdout.readline(), b"2024-05-17 12:00:00\n")
            os.killpg(script.pid, signal.SIGINT)
            told, _ = script.communicate(timeout=PATIENCE)
            self.assertEqual((told, script.returncode), (b"3 ['2024-05-17 12:00:01', '2024-05-17 12:00:02']\n", 0))

    def test_a_block_without_finish(self) -> None:
        with Converter(**TWO_CODES) as converter:
            converter.feed(BASE)
        self.assertEqual(len(list(converter.records())), 1)
        self.assertEqual(converter.header.position, (1114104.5999, -4850729.7108, 3975521.4643))
        self.assertEqual(converter.finish().counts.epochs, 1)


class Faults(Case):
    def setUp(self) -> None:
        super().setUp()
        self.ends, self.threads = sorted(os.listdir("/dev/fd")), threading.active_count()

    def closed(self) -> None:
        """No end of a pipe, no thread and no program is left."""
        self.assertEqual((sorted(os.listdir("/dev/fd")), threading.active_count()), (self.ends, self.threads))
        with self.assertRaises(ChildProcessError):
            os.waitpid(-1, os.WNOHANG)

    def test_an_exception_of_the_caller_ends_the_program(self) -> None:
        with self.assertRaises(KeyboardInterrupt), Converter(**TWO_CODES, links=3) as converter:
            converter.feed(observations_at(*range(3000)), link=3)
            raise KeyboardInterrupt
        self.closed()

    def test_too_many_threads(self) -> None:
        """Whichever thread cannot be started, nothing is left."""
        for count in range(4):
            starts = iter([threading.Thread.start] * count)

            def start(thread: threading.Thread) -> None:
                next(starts, refused)(thread)

            with self.subTest(count), mock.patch.object(threading.Thread, "start", start), self.assertRaises(RuntimeError):
                with Converter(**TWO_CODES, links=2):
                    pass
            self.closed()
        with mock.patch.object(threading.Thread, "start", refused), self.assertRaises(RuntimeError):
            rtcm2rinex.convert(io.BytesIO(BASE), **TWO_CODES)
        self.closed()

    def test_refused_words(self) -> None:
        with self.assertRaises(rtcm2rinex.WordsError) as raised, Converter(**{**TWO_CODES, "codes": "9Z"}) as converter:
            while True:
                converter.feed(P)
        self.assertEqual((raised.exception.status, raised.exception.line), (2, "bad --codes"))
        self.closed()
        with self.assertRaises(LookupError), Converter(**{**TWO_CODES, "codes": "9Z"}) as converter:
            with self.assertRaises(rtcm2rinex.WordsError):
                list(converter.records(wait=PATIENCE))
            raise LookupError
        self.closed()

    def test_a_program_that_is_ended(self) -> None:
        with self.assertRaises(rtcm2rinex.WorkError) as raised, Converter(**TWO_CODES) as converter:
            converter.feed(observations_at(0, 1, 2))
            first_record(converter)
            converter._process.kill()
            converter.finish()
        self.assertEqual((raised.exception.status, raised.exception.line), (-9, "ended by signal 9"))
        self.closed()

    def test_an_output_that_does_not_wait(self) -> None:
        reading, writing = os.pipe()
        os.set_blocking(writing, False)
        with open(reading, "rb"), open(writing, "wb", buffering=0) as full:
            with self.assertRaises(BlockingIOError), Converter(**TWO_CODES, output=full) as converter:
                converter.feed(observations_at(*range(3600)))
        self.closed()

    def test_an_output_that_fails(self) -> None:
        with open("/dev/full", "wb", buffering=0) as full, self.assertRaises(OSError) as raised:
            with Converter(**TWO_CODES, output=full) as converter:
                converter.feed(observations_at(0, 1, 2))
                self.assertEqual(first_record(converter).time, NOON)  # the conversion goes on
                converter.feed(P)
        self.assertEqual(raised.exception.strerror, "No space left on device")
        self.closed()

    def test_a_link_that_has_ended(self) -> None:
        with Converter(**TWO_CODES) as converter:
            converter.end()
            with self.assertRaises(ValueError):
                converter.feed(P)
            for link in 0, 2:
                with self.assertRaises(ValueError):
                    converter.feed(P, link=link)
                with self.assertRaises(ValueError):
                    converter.end(link)
            self.assertEqual(converter.finish().counts.frames, 0)
        self.closed()

    def test_outside_its_block(self) -> None:
        converter = Converter(**TWO_CODES)
        for use in (lambda: converter.feed(P), lambda: list(converter.records()), lambda: converter.header):
            with self.assertRaises(rtcm2rinex.Error):
                use()
        with converter:
            pass
        with self.assertRaises(rtcm2rinex.Error), converter:
            pass
        self.closed()
