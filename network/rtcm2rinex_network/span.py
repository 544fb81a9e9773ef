"""The file of a span: it is made if what it is made from changed, and no worse file replaces it."""

from __future__ import annotations

import fcntl
import os
import time
from pathlib import Path
from typing import Dict, Iterator, List, NamedTuple, Optional, Sequence

from .after import call_after, note_after
from .before import Before, list_of
from .captures import Broken, Capture, Sum, Unread, find_captures, has_grown, is_old, look_at, sum_of, went
from .ends import Again, Ended, NoCaptures, Refused, Stopped, Usage, say
from .guards import (MadeBy, New, Old, captures_that_differ, faults_of, guard_captures, guard_compact, guard_words, may_be_fewer,
    old_files, without_bytes)
from .labels import checked_options, find_label, labels_beside
from .lists import Record
from .making import Conversion, Job, check_every, convert, label_files
from .names import Name
from .places import adopt, compact_forms, dated, form_of, has_list, is_compact, names_before
from .noting import drop_notes_of_span, noted
from .placing import UNREAD, give_to_owner, is_other, locked, make_folder, put, sync, work_folder, write_whole
from .program import Program, find_program
from .settings import Settings
from .summaries import Told, told_of
from .table import find_row
from .times import LENGTHS, span_of

SCRIPT = "convert-span"


def job_of(settings: Settings, word: str, start: str, length: str) -> Job:
    """What a run with these words is to make. Refuses words and rows that can't be."""
    if length not in LENGTHS:
        raise Usage
    span = span_of(start, length)
    row = find_row(settings.stations, word, span.begin if span else time.time())
    if span is None:
        raise Refused(f"START is no begin of a span of {length}")
    row.refuse_long(length)
    check_every(settings)
    msm = row.msm(settings)
    program = Program(find_program(settings))
    version = program.version()
    labels = labels_beside(settings.stations)
    label = find_label(labels, row, span.begin)
    options = checked_options(program, labels, row, label)
    if not row.directory.is_dir():
        raise Refused(f"there is no folder {row.directory}")
    return Job(settings, program, version, row, msm, label, options, span)


def convert_span(settings: Settings, words: Sequence[str]) -> str:
    """Makes the file of a span, and answers what became of it: `done NAME` or `unchanged NAME`."""
    job = job_of(settings, *words)
    with noted(job):
        if not is_listed(job) and not has_own(job, find_captures(job.row.directory, job.span)):
            raise NoCaptures(f"no captures for {job.name}")
        record = list_of(job.folder, job.name)
        for path in (record, job.path, job.path.with_name(f"{job.name}.report")):
            if is_other(path):
                raise Refused(f"{path} is no regular file, and is not replaced")
        make_folder(job.folder)
        with locked(record, *(list_of(job.folder, it) for it in names_before(job.folder, job.name))) as held, noted(job):
            held += adopt(job.row.directory / "rinex", job.folder, job.name)
            run = Run(job, record, Before(job.folder, job.name, held))
            told = run.made()
            run.note_unread()
            call_after(settings, [job.folder / name for name in run.now.made or run.before.made])
            drop_notes_of_span(job)
            return told


def is_listed(job: Job) -> bool:
    """Whether there is a list of the file, in the folder of either layout, perhaps under a name of before."""
    rinex = job.row.directory / "rinex"
    return any(has_list(folder, it) for folder in (rinex, dated(rinex, job.span.begin)) for it in (job.name, *job.name.others))


def has_own(job: Job, captures: Sequence[Capture]) -> bool:
    """Whether a capture of the span itself is there."""
    return any(capture.hour in job.span.own_hours for capture in captures)


class Found(NamedTuple):
    """The captures that are there and can be read, with their sums in the list of now; and what `stat` said of each file, and when."""

    captures: List[Capture]
    looked: Dict[str, str]
    at: float


class Run:
    """A run over a span, whose lists are locked."""

    def __init__(self, job: Job, record: Path, lists: Before) -> None:
        self.job, self.record, self.lists = job, record, lists
        self.before = lists.record
        self.captures = find_captures(job.row.directory, job.span)  # now, since the lock may have come late
        self.now = Record(head=job.head())
        self.faults: List[str] = []  # of captures that can't be read
        self.found = self.look()

    # ------------------------------------------------------------ what is there

    def look(self) -> Found:
        """Looks at each capture and at each file that was made, and takes the sums of captures that were written since the last look."""
        at = time.time()
        looked: Dict[str, str] = {}
        readable: List[Capture] = []
        files = [*map(self.form, self.before.made), self.job.folder / f"{self.job.name}.report"]
        for path in files:
            if it := look_at(path):
                looked[f"rinex/{path.name}"] = it
        for capture in self.captures:
            it = look_at(capture.path)
            if it is None and went(capture.path):
                raise Again("captures go while they are read")
            try:
                if found := self.sum_of_capture(capture, it):
                    looked[capture.seen_name] = it or ""
                    self.now.captures[capture.name] = found
                    readable.append(capture)
            except Unread as fault:
                self.now.unread.add(capture.name)
                self.faults.append(str(fault))
        return Found(readable, looked, at)

    def sum_of_capture(self, capture: Capture, looked: Optional[str]) -> Optional[Sum]:
        """Size and sum of a capture, of which `stat` says this. None of a gzipped one that adds nothing to a plain one: it has the same bytes,
        or none, or it is not whole, as while a capture is compressed."""
        before = self.before.captures
        known = before.get(capture.seen_name if capture.seen_name in before else capture.name)
        if looked is None:
            raise Unread(f"can't read {capture.path}: {'a link that leads nowhere' if capture.path.is_symlink() else 'no regular file'}")
        if known and self.before.seen.get(capture.seen_name) == looked:
            return known
        try:
            found = sum_of(capture.path)
        except Broken:
            if capture.is_second and not known:
                return None
            raise
        is_more = found.size and found != self.now.captures.get(capture.first_name)
        return found if is_more or not capture.is_second else None

    def is_as_made(self, name: str, due: Optional[Sum]) -> bool:
        """Whether a file is there with the bytes with which it was made."""
        path = self.form(name)
        looked = self.found.looked.get(f"rinex/{path.name}")
        if due is None or looked is None:
            return False
        try:
            return is_compact(path) or self.before.seen.get(f"rinex/{path.name}") == looked or sum_of(path) == due
        except Broken:
            return False
        except Unread as fault:
            raise Again(str(fault)) from None

    def form(self, name: str) -> Path:
        """A file of the folder as it is there."""
        return form_of(self.job.folder / name)

    def is_intact(self, name: str) -> bool:
        """The same of a file of the list."""
        return name in self.before.made and self.is_as_made(name, self.before.made[name].sum)

    def is_made(self) -> bool:
        """Whether the file and its report are there, made from what is there now, and none under a name of before."""
        name = str(self.job.name)
        return not self.lists.others and self.now.source() == self.before.source() and self.is_intact(name) and \
            self.is_as_made(f"{name}.report", self.before.report)

    def are_thins_made(self) -> bool:
        """Whether the thinned file that is asked for is there, and each other one, if it is there, is as it was made."""
        made = self.before.made
        wanted = str(self.job.name.with_interval(self.job.every)) if self.job.every else None
        if wanted and not (wanted in made and (made[wanted].is_none or self.is_intact(wanted))):
            return False
        return all(it.is_none or not self.form(name).exists() or self.is_intact(name) for name, it in made.items())

    def are_deleted(self) -> bool:
        """Whether `delete-captures` deleted each capture of the list that is not there, and there is no other one. So nothing better can
        be made. A file that is there was not changed."""
        gone = {name for name in self.before.captures if name not in self.now.captures}
        if not gone or not gone <= self.before.deleted or self.now.unread:
            return False
        is_known = all(self.before.captures.get(name) == it for name, it in self.now.captures.items())
        return is_known and all(self.is_intact(it) for it in self.there() if it in self.before.made)

    def there(self) -> List[str]:
        """The names under which the file is there."""
        return [name for name in map(str, self.lists.names) if self.form(name).exists()]

    def has_lost_bytes(self, record: Record, has_fewer: bool) -> bool:
        """Whether the bytes of a capture of a list are there no more, and it has no more of them now. If there are fewer messages than
        before, more bytes count only behind those that it had."""
        known, now = record.captures, self.now.captures
        paths = {it.name: it.path for it in self.found.captures}
        return any(name not in paths or now[name].size <= known[name].size or (has_fewer and not has_grown(paths[name], known[name]))
            for name in without_bytes(known, now))

    # ------------------------------------------------------------ what is made

    def made(self) -> str:
        """Makes what is not made, and answers what became of it."""
        job, is_made = self.job, self.is_made()
        if is_made and self.are_thins_made():
            self.note_seen()
            return f"unchanged {job.name}"
        if not job.settings.is_forced and self.are_deleted():
            if not self.there():
                raise NoCaptures(f"no captures for {job.name}")
            return f"unchanged {self.there()[0]}, whose captures were deleted"
        done = Conversion()
        try:
            with work_folder(job.folder, str(job.name)) as work:
                self.judge(guard_captures(self.before.captures, self.now.captures, self.now.unread), done)
                if not has_own(job, self.captures):
                    raise NoCaptures(f"no captures for {job.name}")
                self.make(work, is_made, done)
        except Refused as end:
            end.report = done.report
            raise self.excused(end) from None
        except Again as end:
            end.report = done.report
            raise
        return f"done {job.name}"

    def make(self, work: Path, is_made: bool, done: Conversion) -> None:
        """Converts in a folder, judges what came, and puts it in its place."""
        job = self.job
        if not has_own(job, self.found.captures):
            raise Again("; ".join(self.faults))
        name, told = str(job.name), self.told()
        by = MadeBy(job.row.station, job.msm, told.row.code_names, job.fields(), "".join(told.left_out))
        olds = [(self.old_files(it), self.lists.lists[it]) for it in self.lists.names]
        for old, _ in olds:
            self.judge(guard_words(old, by), done, False)
        convert(job, told, self.found.captures, self.lists, work, is_made, done)
        label_files(job, work, done)
        for old, _ in olds:
            self.judge(guard_compact(old, done.made), done, False)
        for old, record in olds:
            lost_bytes = self.has_lost_bytes(record, may_be_fewer(old, by, done.report))
            new = New(by, done.made, work / name, done.report, self.now.source() == record.source(), lost_bytes)
            self.judge(faults_of(job.program, old, new), done)
        self.now.made = done.made
        self.now.report = sum_of(work / f"{name}.report")
        self.now.used = job.used(told.row, [file.split("_")[4] for file in list(done.made)[1:]])
        self.put_in_place(work)

    def told(self) -> Told:
        """The row as captures tell it. A channel of the list stays, so that a later run makes the same file."""
        job, hours = self.job, self.job.span.own_hours
        own, beside = ([it.path for it in self.found.captures if (it.hour in hours) == is_own] for is_own in (True, False))
        return told_of(job.program, job.row, own, beside, {} if job.settings.is_forced else self.before.channels())

    def old_files(self, name: Name) -> Old:
        """What is known of the files of before under a name."""
        record = self.lists.lists[name]
        return old_files(self.job.folder / str(name), record, frozenset(filter(self.is_intact, record.made)))

    def judge(self, faults: Iterator[str], done: Conversion, may_be_excused: bool = True) -> None:
        """Refuses a worse file, or with FORCE says why it is worse. The lists of both are shown where they differ, and noted whole. A
        cause that the captures can't mend is not excused by one that can't be read."""
        for why, *more in (it.split("\n") for it in faults):
            if self.job.settings.is_forced:
                say(SCRIPT, f"{what_of(self.job)}: FORCE: {why}")
                continue
            now = [*self.now.source(), *(it.line(name) for name, it in done.made.items())]
            kept = [*more, "before:", *self.before.source(), *self.before.result(), "now:", *now]
            shown = "\n".join(captures_that_differ(self.before, self.now))
            end = Refused(f"{why}; to replace it nevertheless, {self.job.settings.force_hint}", shown, "\n".join(kept))
            end.may_be_excused = may_be_excused
            raise end

    def excused(self, end: Refused) -> Ended:
        """A file may be worse because a capture can't be read now; another run may read it."""
        if not self.faults or not end.may_be_excused:
            return end
        again = Again(f"{'; '.join(self.faults)}; without it: {end}")
        again.report = end.report
        return again

    # ------------------------------------------------------------ what is written

    def put_list(self, work: Path) -> None:
        """Puts the list of now in the place of that of before. The list is the lock too, so the new one is locked before it gets its name,
        and held until this run ends."""
        path = work / "captures"
        path.write_text(self.now.text(), encoding="utf-8", errors="surrogateescape")
        sync(path)
        give_to_owner(path, self.job.folder)
        held = open(path, "ab")
        fcntl.flock(held, fcntl.LOCK_EX | fcntl.LOCK_NB)
        os.replace(path, self.record)
        self.lists.held.append(held)

    def seen_now(self, names: Sequence[str]) -> Dict[str, str]:
        """What the list notes of these files."""
        looked = self.found.looked
        return {name: looked[name] for name in names if name in looked and is_old(looked[name], self.found.at)}

    def note_seen(self) -> None:
        """Notes what `stat` says now, so that the next run need not take the sums again. If this fails, that run takes them."""
        self.now.made, self.now.report, self.now.used = self.before.made, self.before.report, self.before.used
        self.now.seen = self.seen_now(list(self.found.looked))
        if self.now.seen == self.before.seen:
            return
        try:
            with work_folder(self.job.folder, str(self.job.name)) as work:
                self.put_list(work)
        except Stopped:
            raise
        except (OSError, Ended):
            pass

    def note_unread(self) -> None:
        """Notes why captures could not be read that the file lacks, so that `status` need not look at all lists."""
        note = self.job.path.with_name(f"{self.job.name}{UNREAD}")
        if self.faults:
            write_whole(note, "".join(f"{it}\n" for it in self.faults))
        elif note.exists():
            note.unlink(missing_ok=True)

    def put_in_place(self, work: Path) -> None:
        """Gives the files their names, the list first. So whatever ends this run, the list has at least the captures of the file that is
        there, and the next run finds that the sum of the file is another one, and makes it. A compact file stays where nothing changed. At
        last the files go that have other names."""
        folder, name, made = self.job.folder, str(self.job.name), self.now.made
        self.now.seen = self.seen_now([capture.seen_name for capture in self.captures])
        new = [file for file, it in made.items() if not (self.before.made.get(file) == it and self.is_intact(file))]
        stay = [file for file in made if file not in new and is_compact(self.form(file))]
        self.put_list(work)
        sync(folder)
        note_after(self.job.settings, [folder / file for file in new if not made[file].is_none])
        put(work / f"{name}.report", folder / f"{name}.report")
        for file in [*list(made)[1:], name]:
            if file not in stay:
                self.put_file(work, file)
        sync(folder)
        self.lists.remove_others(made)

    def put_file(self, work: Path, file: str) -> None:
        """Gives a file its name in the form in which it is there, perhaps under a name of before, but plain in the place of a compact one.
        One without epochs goes."""
        plain = self.job.folder / file
        form = next((it for it in map(self.form, self.lists.names_of(file)) if it.is_file()), plain)
        place = plain.with_name(f"{file}.gz") if form.name.endswith(".rnx.gz") else plain
        if self.now.made[file].is_none:
            place.unlink(missing_ok=True)
        else:
            put(work / file, place)
        for compact in compact_forms(plain):
            compact.unlink(missing_ok=True)


def what_of(job: Job) -> str:
    """What messages say the run is of."""
    return f"{job.row.name9} {job.span}"
