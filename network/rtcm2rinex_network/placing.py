"""Files that get their names once they are whole, and the lock of a file's list.

A file is written beside its place and renamed over what is there, which must be a regular file: as root a rename would else replace
a device.
"""

from __future__ import annotations

import fcntl
import os
import re
import stat
import time
from contextlib import ExitStack, contextmanager
from pathlib import Path
from typing import IO, Any, BinaryIO, Iterator, List, Optional, Tuple

from .ends import Again, Ended, Refused, blamed

PATIENCE = 600  # seconds to wait for a lock
TURN = 0.1  # seconds from try to try
NOTES = (".refused", ".again")  # of runs that failed
UNREAD = ".unread"  # of captures that a file lacks
COUNT = r"times ([0-9]+) since (\S+)\n?\Z"


def is_free(path: Path) -> bool:
    """Whether a file may get this name: there is nothing, or a regular file."""
    try:
        return stat.S_ISREG(os.lstat(path).st_mode)
    except FileNotFoundError:
        return True


def is_other(path: Path) -> bool:
    """Whether something else than a file has this name, as a folder, a pipe or a device. A link counts as what it leads to."""
    return path.exists() and not path.is_file()


def refuse_taken(path: Path) -> None:
    """Refuses a name that no file may get."""
    if not is_free(path):
        raise Refused(f"{path} is no regular file, and is not replaced")


def sync(path: Path) -> None:
    """Waits until a file or folder is on the disk."""
    number = os.open(path, os.O_RDONLY)
    try:
        os.fsync(number)
    finally:
        os.close(number)


def write_whole(path: Path, text: str) -> None:
    """Writes a file that gets its name once it is whole. It is a new file, so no link leads it elsewhere that others put there."""
    refuse_taken(path)
    new = path.with_name(f".{path.name}.{os.getpid()}")
    new.unlink(missing_ok=True)
    new.touch(exist_ok=False)
    try:
        new.write_text(text, encoding="utf-8", errors="surrogateescape")
        os.replace(new, path)
    except OSError:
        new.unlink(missing_ok=True)
        raise


def has_bytes_of(new: Path, path: Path) -> bool:
    """Whether a file with these bytes has the name already."""
    import filecmp  # here, because most runs do without it, and it would take a part of their time

    return path.is_file() and filecmp.cmp(new, path, shallow=False)


def packed(path: Path, archive: Path) -> Path:
    """Gzips a file, always to the same bytes."""
    import gzip  # here, because most runs do without it, and it would take a part of their time
    import shutil

    with open(path, "rb") as file, open(archive, "wb") as raw, gzip.GzipFile("", "wb", fileobj=raw, mtime=0) as writer:
        shutil.copyfileobj(file, writer)
    return archive


def put(new: Path, path: Path) -> None:
    """Gives a file its name, unless a file with the same bytes has that name. A name that ends in .gz gets the file gzipped."""
    if path.suffix == ".gz":
        new = packed(new, new.with_name(path.name))
    if not has_bytes_of(new, path):
        refuse_taken(path)
        sync(new)
        os.replace(new, path)


def give_to_owner(path: Path, folder: Path) -> None:
    """What root makes belongs to the owner of the folder, so that this user can go on with it."""
    try:
        owner = os.stat(folder)
        os.chown(path, owner.st_uid, owner.st_gid)
    except OSError:
        pass


def make_folder(folder: Path) -> None:
    """Makes a folder if it is not there."""
    if folder.is_dir():
        return
    make_folder(folder.parent)
    try:
        folder.mkdir(exist_ok=True)
    except OSError as fault:
        if folder.exists():
            raise Refused(f"{folder} is no folder") from None
        if folder.is_symlink():
            raise Again(f"{folder} is a link that leads nowhere") from None
        raise blamed(str(folder.parent), f"can't make {folder}: {fault.strerror}") from None
    give_to_owner(folder, folder.parent)


def opened_list(path: Path, makes: bool) -> BinaryIO:
    """Opens a list to lock it. One that may not be written is read, which is enough for a run that finds nothing to do."""
    try:
        return open(path, "ab") if makes else open(path, "r+b")
    except OSError:
        if os.access(path, os.W_OK) or not path.is_file():
            raise
        return open(path, "rb")


def lock(path: Path, makes: bool = True) -> BinaryIO:
    """Opens and locks a list, which is there after it. Another run may put a new list in its place meanwhile, and then that one is
    locked. If it is not to be made, a list that is gone raises a FileNotFoundError."""
    while True:
        try:
            file = opened_list(path, makes)
        except OSError as fault:
            if not makes and isinstance(fault, FileNotFoundError):
                raise
            place = path if path.exists() else path.parent
            raise blamed(str(place), f"can't write {path}: {fault.strerror}") from None
        wait_for(file, path)
        if is_at(file, path):
            return file
        file.close()


def lock_if_there(path: Path) -> List[BinaryIO]:
    """The same of a list that another run may remove meanwhile; nothing if it is gone."""
    try:
        return [lock(path, False)]
    except FileNotFoundError:
        return []


@contextmanager
def locked(own: Path, *others: Path) -> Iterator[List[BinaryIO]]:
    """Holds the locks of a list, which is made if it is not there, and of others. All runs take them in the order of their names, so that no
    two wait for each other."""
    with ExitStack() as stack:
        files = (it for path in sorted({own, *others}) for it in ([lock(path)] if path == own else lock_if_there(path)))
        yield [stack.enter_context(it) for it in files]


def wait_for(file: BinaryIO, path: Path) -> None:
    """Locks an open file when the one that has it goes on."""
    end = time.monotonic() + PATIENCE
    while True:
        try:
            fcntl.flock(file, fcntl.LOCK_EX | fcntl.LOCK_NB)
            return
        except BlockingIOError:
            if time.monotonic() > end:
                raise Again(f"can't lock {path}") from None
            time.sleep(TURN)


def is_at(file: IO[Any], path: Path) -> bool:
    """Whether an open file still has this name."""
    try:
        return os.path.samestat(os.fstat(file.fileno()), os.stat(path))
    except FileNotFoundError:
        return False


def remove(path: Path) -> None:
    """Removes a folder with all that it has, or a file. What can't be removed stays."""
    try:
        if path.is_dir() and not path.is_symlink():
            for it in list(path.iterdir()):
                remove(it)
            path.rmdir()
        else:
            path.unlink()
    except OSError:
        pass


def remove_left(folder: Path, name: str) -> None:
    """Removes what a run left beside the place of a file that was killed."""
    for left in folder.glob(f".{name}.*"):
        remove(left)


@contextmanager
def work_folder(folder: Path, name: str) -> Iterator[Path]:
    """A folder for the files of a run, beside their places. It is removed at the end, and so is what a run left that was killed."""
    remove_left(folder, name)
    work = folder / f".{name}.{os.getpid()}"
    try:
        work.mkdir(0o700)
    except OSError as fault:
        raise blamed(str(folder), f"can't write to {folder}: {fault.strerror}") from None
    try:
        yield work
    finally:
        remove(work)


# ---------------------------------------------------------------- runs that failed


def note_of(path: Path, end: Ended) -> Path:
    """The note of a run of this file that failed: NAME.refused, or NAME.again if another run may mend it."""
    return path.with_name(path.name + (".refused" if isinstance(end, Refused) else ".again"))


def note_end(path: Path, end: Ended) -> None:
    """Notes why a run of a file failed, and how often runs have since when. A note that can't be written is left out, as on a full
    disk."""
    count, since = failures(path)
    since = since or time.strftime("%Y-%m-%dT%H:%M:%SZ", time.gmtime())
    parts = [str(end), *filter(None, [end.kept, end.report.rstrip("\n")]), f"times {count + 1} since {since}"]
    note = note_of(path, end)
    try:
        write_whole(note, "\n".join(parts) + "\n")
    except (OSError, Ended):
        return
    drop_notes(path, note)


def failures(path: Path) -> Tuple[int, Optional[str]]:
    """How many runs of a file failed one after another, and the UTC time of the first; 0 if the last one did not fail."""
    for end in NOTES:
        try:
            text = path.with_name(path.name + end).read_text(errors="replace")
        except OSError:
            continue
        match = re.search(COUNT, text)
        return (int(match[1]), match[2]) if match else (1, None)
    return 0, None


def drop_notes(path: Path, but: Path) -> None:
    """Removes the notes of a file, but for one."""
    for note in [path.with_name(path.name + end) for end in NOTES]:
        if note != but:
            note.unlink(missing_ok=True)
