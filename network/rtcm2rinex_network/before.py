"""The lists of the files of a span that a run finds: the one under the name that its row gives, and those under names of before, whose
types of data are others, because the row named codes of other systems. A file under such a name whose list was lost counts too.

The files of a list of before count as those of before, and go once the new ones have their places. Its list goes last. So whatever ends a
run, the next one finds what there is to compare and to remove.
"""

from __future__ import annotations

from pathlib import Path
from typing import BinaryIO, Iterable, List

from .lists import joined, read_list
from .names import Name, read_name
from .places import forms_of, names_before
from .placing import UNREAD, is_at, lock_if_there, remove_left, sync

BESIDE = (".after", ".report", UNREAD)  # of a file, but for its list and the notes of runs that failed, which a run that succeeds removes


class Before:
    """The lists of a file. That of its own name is locked already, and so are those that are held open; others, which came late, are locked
    as long as this is there."""

    def __init__(self, folder: Path, name: Name, held: List[BinaryIO]) -> None:
        self.folder, self.name = folder, name
        paths = [list_of(folder, it) for it in names_before(folder, name)]
        late = [path for path in paths if not any(is_at(file, path) for file in held)]
        self.held = [*held, *(file for path in late for file in lock_if_there(path))]
        self.others = names_before(folder, name)  # now, since a lock may have come late
        self.lists = {it: read_list(list_of(folder, it)) for it in self.names}
        self.record = joined(self.lists[name], [self.lists[it] for it in self.others])

    @property
    def names(self) -> List[Name]:
        """The names of the file, its own first."""
        return [self.name, *self.others]

    def names_of(self, file: str) -> List[str]:
        """The names under which a file of the span may be there, its own first."""
        name = read_name(file)
        return [file, *(str(name.with_kind(it.kind)) for it in self.others if name)]

    def remove_others(self, made: Iterable[str]) -> None:
        """Removes the files of before under other names than these, which are in their places."""
        new = list(made)
        for other in self.others:
            names = filter(None, map(read_name, [*self.lists[other].made, *new]))
            for file in sorted({str(it.with_kind(other.kind)) for it in names}):
                for path in [*forms_of(self.folder / file), *(self.folder / f"{file}{end}" for end in BESIDE)]:
                    path.unlink(missing_ok=True)
            remove_left(self.folder, str(other))
            sync(self.folder)
            list_of(self.folder, other).unlink(missing_ok=True)
        if self.others:
            sync(self.folder)


def list_of(folder: Path, name: Name) -> Path:
    """The list of a file."""
    return folder / f"{name}.captures"
