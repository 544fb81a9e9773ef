"""Where the files of a span lie: all in the folder `rinex`, or in folders of years and days below it; plain, or compressed by whoever
keeps them."""

from __future__ import annotations

import os
import re
import time
from pathlib import Path
from typing import BinaryIO, Iterator, List

from .names import Name, read_name
from .placing import lock, make_folder
from .settings import Settings

COMPACT = (".crx.gz", ".crx")  # in place of .rnx: the form of Hatanaka, which can't be read here


def folder_of(settings: Settings, rinex: Path, begin: int) -> Path:
    """The folder of the files of a span that begins then."""
    return dated(rinex, begin) if settings.word("LAYOUT", "flat") == "year/day" else rinex


def dated(rinex: Path, begin: int) -> Path:
    """The folder of the day of a span."""
    return rinex / time.strftime("%Y/%j", time.gmtime(begin))


def has_list(folder: Path, name: Name) -> bool:
    """Whether a file has a list, as a thinned one never has. An empty one is a lock alone."""
    path = folder / f"{name}.captures"
    return path.is_file() and path.stat().st_size > 0


def names_before(folder: Path, name: Name) -> List[Name]:
    """The names of other types of data under which a file has a list, or is there though its list was lost, because its row named codes of
    other systems."""
    return [it for it in name.others if has_list(folder, it) or is_without_list(folder, it)]


def is_without_list(folder: Path, name: Name) -> bool:
    """Whether a file is there whose list was lost. A thinned file never has one, but then that of its span has another interval."""
    if not form_of(folder / str(name)).is_file():
        return False
    lists = folder.glob(f"{name.begin}*_{name.kind}.rnx.captures")
    return not any(path.stat().st_size and path.name != f"{name}.captures" for path in lists)


def folder_with(rinex: Path, name: Name) -> Path:
    """The folder in which the list of a file lies."""
    folder = dated(rinex, name.span.begin)
    return folder if (folder / f"{name}.captures").exists() else rinex


def folders_below(rinex: Path) -> Iterator[Path]:
    """All folders of files that are there."""
    if rinex.is_dir():
        yield rinex
        yield from (it for it in rinex.glob("[0-9]*/[0-9]*") if re.fullmatch(r"\d{4}/\d{3}", f"{it.parent.name}/{it.name}", re.ASCII))


def names_below(rinex: Path) -> List[str]:
    """The names of all files that are there, sorted."""
    return sorted(name for folder in folders_below(rinex) for name in os.listdir(folder))


def plain_name(text: str) -> str:
    """The name of a RINEX file, by that of another form of it or of a file beside it, as NAME.report."""
    return re.sub(r"\.(rnx|crx)\b.*", ".rnx", text)


def compact_forms(path: Path) -> List[Path]:
    """The names that a file has if it is compact."""
    return [*(path.with_name(path.name[:-len(".rnx")] + end) for end in COMPACT), path.with_name(f"{path.name}.crx.gz")]


def forms_of(path: Path) -> List[Path]:
    """All names that a file has if it is plain, as NAME.gz, or compact."""
    return [path, path.with_name(f"{path.name}.gz"), *compact_forms(path)]


def form_of(path: Path) -> Path:
    """A file as it is there: plain, as NAME.gz, or compact; else its plain name."""
    return next((it for it in forms_of(path) if it.is_file()), path)


def is_compact(path: Path) -> bool:
    """Whether a form of a file can't be read here."""
    return path.name.endswith(COMPACT)


def adopt(rinex: Path, folder: Path, name: Name) -> List[BinaryIO]:
    """Moves what lies of a span in the folder of the other layout to its place, so that it is never made twice. The list of `folder` is
    locked. A list that comes from the other folder is locked before it gets its name, and answered open."""
    other = dated(rinex, name.span.begin) if folder == rinex else rinex
    held: List[BinaryIO] = []
    for path in sorted(other.glob(f"{name.begin}*")):
        target = folder / path.name
        is_empty = target.name.endswith(".captures") and target.is_file() and target.stat().st_size == 0
        if not read_name(plain_name(path.name)) or path.name.endswith((".live", ".live.report")) or not path.is_file():
            continue
        if os.path.lexists(target) and not is_empty:
            continue
        make_folder(folder)
        if path.name.endswith(".captures"):
            held.append(lock(path))
        os.replace(path, target)
    return held
