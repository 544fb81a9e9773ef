"""Notes beside a file of why its runs failed: NAME.refused, or NAME.again."""

from __future__ import annotations

import os
from contextlib import contextmanager
from typing import Iterator, Optional

from .ends import Again, Ended, NoCaptures
from .making import Job
from .placing import NOTES, failures, make_folder, note_end


@contextmanager
def noted(job: Job) -> Iterator[None]:
    """Notes why a run failed, also one that found no place for its file."""
    try:
        yield
    except NoCaptures:
        raise
    except Ended as end:
        note_failure(job, end)
        raise
    except OSError as fault:
        again = Again(f"{fault.filename or job.folder}: {fault.strerror}")
        note_failure(job, again)
        raise again from None


def note_failure(job: Job, end: Ended) -> None:
    """Notes once why a run failed, so that the span has notes under one name alone."""
    if end.is_noted:
        return
    end.is_noted = True
    try:
        make_folder(job.folder)
    except Ended:
        return
    note_end(job.path, end)
    if failures(job.path)[0]:
        drop_notes_of_span(job, str(job.name))


def drop_notes_of_span(job: Job, but: Optional[str] = None) -> None:
    """Removes the notes of the span, but for those of a name. Other names have the interval or the type of data that the row had when their
    runs failed. In a folder that may not be written they stay."""
    for name in os.listdir(job.folder):
        if name.startswith(job.name.begin) and name.endswith(NOTES) and name.rpartition(".")[0] != but:
            try:
                (job.folder / name).unlink(missing_ok=True)
            except OSError:
                return
