"""A conversion: the captures of a span become its file, its thinned files and its report, all in one folder."""

from __future__ import annotations

import os
from pathlib import Path
from typing import Dict, Iterator, List, NamedTuple, Optional, Sequence, Tuple

from .before import Before
from .captures import Capture, Unread, pieces_of, sum_of
from .ends import Again, Refused
from .frames import without_systems
from .guards import count_of
from .labels import fields_of_options
from .lists import Made, row_line
from .names import Name, read_name
from .places import folder_of, form_of, has_list, plain_name
from .program import Program
from .rinex import Measure, ends_of, read_header
from .settings import DAY, Settings
from .summaries import Told
from .table import Row
from .times import Span, interval_of, ms_of, text_of

CHECKED = "valid: "
FIRST_DATE = "1980-01-06"  # that a file can have; a clock that was never set is before it


class Job(NamedTuple):
    """What a run is to make: the file of a span of a station, by these settings."""

    settings: Settings
    program: Program
    version: str
    row: Row
    msm: str
    label: str
    options: Sequence[str]
    span: Span

    @property
    def name(self) -> Name:
        """The name of the file."""
        return self.row.name(self.span)

    @property
    def folder(self) -> Path:
        """The folder of the files."""
        return folder_of(self.settings, self.row.directory / "rinex", self.span.begin)

    @property
    def path(self) -> Path:
        """Where the file gets to."""
        return self.folder / str(self.name)

    @property
    def every(self) -> str:
        """The interval of the thinned file that is asked for; nothing if none is, or if that of the file is no shorter."""
        every = self.settings.get("EVERY")
        return every if (ms_of(every) or 0) > self.row.interval_ms else ""

    def head(self) -> List[str]:
        """The lines of the list before the captures. If the row, the MSM or the label changes, the file is made anew."""
        return [self.version, row_line(self.row.text, self.msm, self.row.glonass, self.label)]

    def used(self, row: Row, thins: Sequence[str]) -> str:
        """What the conversion was told by its row, as the list notes it, with the intervals of the thinned files."""
        msm = row.msm(self.settings)
        told = {"msm": msm, "window": row.window, "codes": row.codes, **row.glonass, "every": ",".join(thins) or "-"}
        return " ".join(f"{name} {it}" for name, it in told.items())

    def fields(self) -> Dict[str, str]:
        """The fields of the header that the tables fill."""
        return {**fields_of_options(self.options), "marker": self.row.marker}


class Conversion:
    """What was made in a folder: the files by their names, the first one being that of the span; and the text of the report."""

    def __init__(self) -> None:
        self.made: Dict[str, Made] = {}
        self.report = ""


def seconds_of_thin(interval: str) -> int:
    """The seconds of an interval of a thinned file; 0 if they are not whole, or more than those of a day."""
    ms = ms_of(interval)
    return ms // 1000 if ms and ms % 1000 == 0 and ms <= DAY * 1000 else 0


def check_every(settings: Settings) -> None:
    """Refuses an interval that thinned files can't have."""
    every = settings.get("EVERY")
    if every and not seconds_of_thin(every):
        raise Refused(f"EVERY={every} is no interval in whole seconds")


def thins_of(job: Job, before: Before) -> List[Name]:
    """The thinned files: the one that is asked for, and those that are there, also under a name of before. A list that was lost or cut off
    does not name them."""
    texts = [*before.record.made, *(it for it in os.listdir(job.folder) if it.startswith(job.name.begin))]
    wanted = [job.every] if job.every else []
    for name in sorted(filter(None, map(read_name, map(plain_name, texts))), key=str):
        is_of_span = name in (it.with_interval(name.interval) for it in before.names)
        is_thin = is_of_span and seconds_of_thin(name.interval) * 1000 > job.row.interval_ms
        if is_thin and name.interval not in wanted and form_of(job.folder / str(name)).exists() and not has_list(job.folder, name):
            wanted.append(name.interval)
    return [job.name.with_interval(it) for it in wanted]


def join_links(captures: Sequence[Capture], told: Told, work: Path) -> List[Path]:
    """One file for each link, its captures in order. Files and no pipes: a file gives each read 512 bytes, so each run reads the links
    in the same order. Gzipped captures beside plain ones count as another link, behind all others. Messages of systems whose clocks are
    wrong in a capture, where another link has them right, are left out."""
    links: Dict[Path, List[Capture]] = {}
    for capture in sorted(captures, key=lambda it: it.is_second):
        link = work / f"link{capture.link}{'.second' if capture.is_second else ''}"
        links.setdefault(link, []).append(capture)
    for link, parts in links.items():
        left_out = ["".join(told.of_captures.get(it.path, ())) for it in parts]
        with open(link, "wb") as file:
            if any(left_out):
                file.write(without_systems([(b"".join(bytes_of(it)), systems) for it, systems in zip(parts, left_out)]))
            else:
                file.writelines(piece for it in parts for piece in bytes_of(it))
    return list(links)


def bytes_of(capture: Capture) -> Iterator[bytes]:
    """The bytes of a capture."""
    try:
        yield from pieces_of(capture.path)
    except Unread as fault:
        raise Again(str(fault)) from None


def time_of_making(job: Job, captures: Sequence[Capture], is_made: bool) -> str:
    """The time that the file shows. If the file is there and a thinned one alone is made, it is that of the file."""
    if is_made:
        return read_header(form_of(job.path)).made
    if made := job.settings.get("MADE"):
        return made
    try:
        made = text_of(max(os.stat(it.path).st_mtime for it in captures))
    except FileNotFoundError:
        raise Again("captures go while they are read") from None
    if made < FIRST_DATE:
        raise Refused(f"the newest capture was written at {made}: set MADE to a later time")
    return made


def convert(job: Job, told: Told, captures: Sequence[Capture], before: Before, work: Path, is_made: bool, done: Conversion) -> None:
    """Converts the captures by the row as they tell it, and cuts the file and its thinned files out of what comes."""
    row = told.row
    links = join_links(captures, told, work)
    made = time_of_making(job, captures, is_made)
    words = ["convert", *row.options(row.msm(job.settings)), "--near", row.near(job.span), "--made", made, "--window", row.window,
        *map(str, links)]
    done.report = job.program.write(work / "whole", words) + told.report
    for link in links:
        link.unlink()
    name = str(job.name)
    done.made[name], step = cut_out(job, work, name, [])
    if not done.made[name].epochs:
        raise Refused(f"the captures have no epoch of this span{hint_of(done.report, work / 'whole')}")
    if step is not None and step != row.interval_ms:
        raise Refused("; ".join([f"the interval is {interval_of(step) or f'{step} ms'}, and the row has {row.interval}", *told.doubts]))
    if read_header(work / name).position is None:
        done.report += "position none\n"
    (work / f"{name}.report").write_text(done.report)
    for thin in thins_of(job, before):
        seconds = seconds_of_thin(thin.interval)
        done.made[str(thin)], _ = cut_out(job, work, str(thin), ["--every", str(seconds)])
    (work / "whole").unlink()


def hint_of(report: str, whole: Path) -> str:
    """What would help, if nothing of the station was taken, or what was taken is of another time."""
    if count_of(report, "taken"):
        first, last = ends_of(whole)
        return f", but those from {first} to {last}: the names of captures may be those of other hours" if first else ""
    if not count_of(report, "frames"):
        return ""
    if foreign := count_of(report, "foreign"):
        return f": foreign {foreign}, so the row may have another number than the station"
    return ": `rtcm2rinex summary` of a capture says which messages came"


def cut_out(job: Job, work: Path, name: str, words: Sequence[str]) -> Tuple[Made, Optional[int]]:
    """Cuts the span out of the whole, and checks it. Answers what was made, and its step in ms."""
    whole, path = work / "whole", work / name
    job.program.write(path, ["cut", str(whole), "--from", job.span.start, "--until", text_of(job.span.end), *words])
    checked = work / "checked"
    job.program.write(checked, ["check", str(path)])
    told = checked.read_text()
    checked.unlink()
    words_of_check = told[len(CHECKED):].split(" epochs,")
    if not told.startswith(CHECKED) or not words_of_check[0].isdecimal():
        raise Again("check: no answer")
    epochs = int(words_of_check[0])
    it = Measure(path)
    return (Made(it.sum.size, epochs, it.values, it.sum.digest), it.step) if epochs else (Made(0, 0, 0, "-"), None)


def label_files(job: Job, work: Path, done: Conversion) -> None:
    """Gives each new file the fields of the label, now that it is checked."""
    for name, made in done.made.items() if job.options else []:
        if made.is_none:
            continue
        labelled = work / f"{name}.labelled"
        job.program.write(labelled, ["label", str(work / name), *job.options])
        os.replace(labelled, work / name)
        it = sum_of(work / name)
        done.made[name] = Made(it.size, made.epochs, made.values, it.digest)
