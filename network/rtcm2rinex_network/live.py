"""The command live-station: the stream of a link is kept, and converted while it comes."""

from __future__ import annotations

import os
import re
import signal
import subprocess
import sys
import threading
import time
from pathlib import Path
from typing import BinaryIO, Callable, Iterator, List, NamedTuple, NoReturn, Optional, Sequence

from .captures import Unread, pieces_of
from .ends import DONE, REFUSED, Again, Ended, Refused, Usage, say
from .keeping import PIECE, Keeper, gps_hour, keep_input, write_all
from .names import LINK, capture_name, read_name
from .places import folder_with, form_of
from .placing import write_whole
from .program import Program, find_program
from .rinex import read_header
from .settings import HERE, HOUR, Settings, read_settings
from .sources import faults_of_sources, find_source
from .streams import take_for_ever
from .summaries import Told, told_of
from .systems import NO_CHANNELS
from .table import Row, find_row, read_table
from .times import LENGTHS, Span, text_of

SCRIPT = "live-station"
AFTER_HOUR = 2  # seconds in which what came before the end of an hour is written
LONGEST_HEADER = 8_192  # bytes


class LiveJob(NamedTuple):
    """What is converted while it comes: a link of a station, in spans of a length."""

    settings: Settings
    row: Row
    link: int
    length: str
    program: str

    @property
    def folder(self) -> Path:
        """The folder of the captures."""
        return self.row.directory / f"link{self.link}"

    @property
    def out(self) -> Path:
        """The folder of the files."""
        return self.row.directory / "rinex"

    def live_file(self, span: Span) -> Path:
        """The live file of a span."""
        return self.out / (f"{self.row.name(span)}" + (f".link{self.link}" if self.link > 1 else "") + ".live")

    def words(self, span: Span, row: Row) -> List[str]:
        """The words of `convert` by a row as captures tell it. A number of epochs by which it is behind the stream stands for the window of
        the row."""
        return ["convert", *row.options(row.msm(self.settings)), "--near", row.near(span), "--made", text_of(time.time()),
            "--window", self.settings.word("WINDOW", "4"), "stdin"]


class Live(threading.Thread):
    """Converts the span that it is, from the captures as they grow; then the next one."""

    def __init__(self, job: LiveJob, came: threading.Event, tell: Callable[[str], None]) -> None:
        super().__init__(daemon=True)
        self.job, self.came, self.tell, self.fault = job, came, tell, ""

    def run(self) -> None:
        """Goes on for ever. Of a full disk the one who keeps the captures tells."""
        while True:
            try:
                self.convert()
            except Ended as fault:
                self.note(str(fault))
            except OSError:
                pass
            time.sleep(1)

    def note(self, fault: str) -> None:
        """Tells why a conversion ended, unless the last one ended so too."""
        if fault and fault != self.fault:
            self.tell(f"the live conversion ended: {fault}")
        self.fault = fault

    def span_of_now(self) -> Span:
        """The span that it is."""
        length = LENGTHS[self.job.length]
        return Span(gps_hour(self.job.settings) // length * length, self.job.length)

    def convert(self) -> None:
        """Converts the span of now to its end."""
        span = self.span_of_now()
        live = self.job.live_file(span)
        report = live.with_name(f"{live.name}.report")
        self.remove_old(span)
        write_whole(live, "")
        write_whole(report, "")
        told = self.told(span)
        write_whole(report, told.report)
        wait = str(self.job.settings.number("WAIT", 60))
        known = [str(HERE / "position-first"), self.job.row.station, wait, *map(str, self.captures_before(span.begin))]
        with open(live, "ab") as file, open(report, "ab") as faults:
            first = subprocess.Popen(known, stdin=subprocess.PIPE, stdout=subprocess.PIPE, bufsize=0, restore_signals=False)
            last = subprocess.Popen([self.job.program, *self.job.words(span, told.row)], stdin=first.stdout, stdout=file, stderr=faults,
                restore_signals=False)
        assert first.stdin and first.stdout
        first.stdout.close()
        self.feed(first.stdin.fileno(), span, live, report)
        first.stdin.close()
        first.wait()
        last.wait()
        self.note(report.read_text(errors="replace").strip().split("\n")[-1] if last.returncode > 0 else "")

    def feed(self, pipe: int, span: Span, live: Path, report: Path) -> None:
        """Writes the captures of the span into the conversion, until the span or the conversion is over."""
        has_header = False
        try:
            for piece in self.follow(span):
                write_all(pipe, piece)
                has_header = has_header or note_position(live, report)
        except BrokenPipeError:
            pass
        if not has_header:
            note_position(live, report)

    def follow(self, span: Span) -> Iterator[bytes]:
        """The captures of a span, each as it grows until its hour is over; nothing now and then, while nothing comes."""
        for hour in range(span.begin, span.end, HOUR):
            path = self.job.row.directory / capture_name(self.job.link, hour)
            file: Optional[BinaryIO] = None
            while True:
                is_over = time.time() + self.job.settings.leap_seconds >= hour + HOUR + AFTER_HOUR
                if file is None and path.is_file():
                    file = open(path, "rb")
                piece = file.read(PIECE) if file else b""
                if piece:
                    yield piece
                elif is_over:
                    break
                else:
                    self.came.wait(1)
                    self.came.clear()
                    yield b""
            if file:
                file.close()
            else:
                yield unpacked(path.with_name(f"{path.name}.gz"))

    def told(self, span: Span) -> Told:
        """The row as captures of the span and of the hour before tell it. Where only the stream can tell channels, this waits until it
        does, but not longer than for the position."""
        job, before = self.job, self.captures_before(span.begin)
        program, last = Program(job.program), float("inf")
        while True:
            names = [capture_name(job.link, hour) + form for hour in span.own_hours for form in ("", ".gz")]
            captures = [path for it in names if (path := job.row.directory / it).is_file()]
            told = told_of(program, job.row, captures, before, {})
            is_over = time.monotonic() >= last or self.span_of_now() != span
            if before or is_over or not job.row.has_auto_channels or told.row.glonass.get("channels") != NO_CHANNELS:
                return told
            if captures:
                last = min(last, time.monotonic() + job.settings.number("WAIT", 60))
            self.came.wait(1)
            self.came.clear()

    def captures_before(self, begin: int) -> List[Path]:
        """The captures of the hour before, of this link first."""
        name = Path(capture_name(self.job.link, begin - HOUR)).name
        folders = dict.fromkeys([self.job.folder, *sorted(self.job.row.directory.glob("link*"))])
        return [path for folder in folders for path in (folder / name, folder / f"{name}.gz") if path.is_file()]

    def remove_old(self, span: Span) -> None:
        """Removes the live files of other spans whose file is made, perhaps with another type of data."""
        now = self.job.row.name(span)
        for live in self.job.out.glob("*.live"):
            name = read_name(re.sub(r"(\.link\d+)?\.live$", "", live.name))
            if name and name != now and any(form_of(folder_with(self.job.out, it) / str(it)).is_file() for it in (name, *name.others)):
                live.unlink()
                live.with_name(f"{live.name}.report").unlink(missing_ok=True)


def note_position(live: Path, report: Path) -> bool:
    """Whether the header is there. If it has no position, the report says so."""
    with open(live, "rb") as file:
        if b"END OF HEADER" not in file.read(LONGEST_HEADER):
            return False
    if read_header(live).position is None:
        with open(report, "ab") as told:
            told.write(b"position none\n")
    return True


def unpacked(path: Path) -> bytes:
    """The bytes of a gzipped capture; none if it is not there or broken."""
    try:
        return b"".join(pieces_of(path))
    except Unread:
        return b""


# ---------------------------------------------------------------- the command


def job_of(settings: Settings, word: str) -> LiveJob:
    """What a command with this word is to do: a station, and its link."""
    match = re.fullmatch(rf"([A-Z0-9]+)(?::({LINK}))?", word)
    if not match:
        raise Usage
    length = settings.word("SPAN", "01H")
    row = find_row(settings.stations, match[1], time.time() + settings.leap_seconds)
    row.msm(settings)
    row.refuse_long(length)
    settings.number("WAIT", 60)
    settings.word("WINDOW", "4")
    return LiveJob(settings, row, int(match[2] or 1), length, find_program(settings))


def make_folders(job: LiveJob) -> None:
    """Makes the folders that are not there, and refuses those that may not be written."""
    for folder in (job.folder, job.out):
        try:
            folder.mkdir(parents=True, exist_ok=True)
        except OSError as fault:
            if os.access(job.row.directory, os.W_OK):
                raise Again(f"can't make {folder}: {fault.strerror}") from None
        if not os.access(folder, os.W_OK):
            raise Refused(f"{folder} may not be written")


def keep_stream(settings: Settings, word: str) -> None:
    """Keeps a stream and converts it, until it is told to end."""
    job = job_of(settings, word)
    source = find_source(settings, job.row, job.link)
    came = threading.Event()

    def tell(text: str) -> None:
        """Says a line of this link."""
        say(SCRIPT, f"{job.row.name9} link {job.link}: {text}")

    try:
        make_folders(job)
        keeper = Keeper(job.folder, settings)
        for it in (signal.SIGHUP, signal.SIGINT, signal.SIGTERM):
            signal.signal(it, lambda *_: sys.exit(DONE))
        Live(job, came, tell).start()
        take_for_ever(source, keeper, came, tell)
    except SystemExit:
        end(DONE)
    except Ended as fault:
        tell(fault.told())
        end(fault.status)


def end(status: int) -> NoReturn:
    """Ends the process at once, since the thread that converts may wait."""
    sys.stdout.flush()
    os._exit(status)


def check_sources(settings: Settings) -> int:
    """Says of each bad row of the table of sources why."""
    faults = list(faults_of_sources(settings.sources, read_table(settings.stations)))
    for number, fault, _ in faults:
        print(f"{settings.sources}:{number}: {fault}")
    return DONE if all(is_note for _, _, is_note in faults) else REFUSED


def live_station(words: Sequence[str]) -> int:
    """The command live-station."""
    settings = read_settings()
    if len(words) == 2 and words[0] == "--keep":
        keep_input(words[1], settings)
    elif list(words) == ["--check"]:
        return check_sources(settings)
    elif len(words) == 1:
        keep_stream(settings, words[0])
    else:
        raise Usage
    return DONE


def keep_hours(words: Sequence[str]) -> int:
    """The command keep-hours."""
    if len(words) != 1:
        raise Usage
    return live_station(["--keep", *words])
