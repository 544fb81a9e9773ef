"""Many spans: the last ones of a station, and those of a list of tasks."""

from __future__ import annotations

import re
import shlex
import subprocess
import sys
import time
from pathlib import Path
from typing import Dict, Iterable, Iterator, List, Sequence, Tuple

from .ends import AGAIN, DONE, NOTHING, REFUSED, Ended, Refused, Stopped, Usage, say
from .program import find_program
from .settings import HERE, Settings, read_settings
from .span import SCRIPT, convert_span
from .table import find_row, read_table
from .times import LENGTHS, text_of, time_of

STARTS_NOT = (126, 127)  # how a shell tells a script that is not there, or may not be run
OUTCOMES = ("done", "unchanged", "no captures", "refused", "again")


def end_of_span(settings: Settings, words: Sequence[str]) -> int:
    """Runs a span, says what became of it, and answers the status."""
    try:
        print(convert_span(settings, words), flush=True)
        return DONE
    except Usage:
        say(SCRIPT, f"refused: usage: convert-span STATION START {'|'.join(LENGTHS)}")
        return REFUSED
    except Ended as end:
        say(SCRIPT, f"{named(settings, words)}: {end.told()}")
        if isinstance(end, Stopped):
            raise SystemExit(end.status) from None
        return end.status


def named(settings: Settings, words: Sequence[str]) -> str:
    """The words of a span, with the name of nine characters of its station if the table has it."""
    try:
        row = find_row(settings.stations, words[0], time_of(words[1]) or 0)
        return " ".join([row.name9, *words[1:]])
    except Ended:
        return " ".join(map(shlex.quote, words))


def convert_one(words: Sequence[str]) -> int:
    """The command convert-span."""
    if len(words) != 3:
        raise Usage
    return end_of_span(read_settings(), words)


def convert_last(words: Sequence[str]) -> int:
    """The command convert-last: the greatest status of its spans, where that of no captures counts least."""
    if len(words) not in (2, 3) or words[1] not in LENGTHS or not re.fullmatch("[1-9][0-9]?", "".join(words[2:]) or "1"):
        raise Usage
    settings = read_settings()
    settings = settings.with_word("RTCM2RINEX", find_program(settings))
    length = LENGTHS[words[1]]
    now = int(time.time()) + settings.leap_seconds
    last = now - now % length
    begins = range(last - length * int("".join(words[2:]) or "1"), last, length)
    statuses = [end_of_span(settings, [words[0], text_of(begin), words[1]]) for begin in begins]
    return max((it for it in statuses if it != NOTHING), default=NOTHING)


def tasks_of(settings: Settings, begin: str, end: str, length: str) -> Iterator[str]:
    """The words of convert-span for each station whose row holds, span by span. A row without a name of nine characters is listed by
    its number, so that convert-span refuses it."""
    times = [time_of(begin), time_of(end)]
    if length not in LENGTHS or None in times:
        raise Usage
    first, last = (it or 0 for it in times)
    if first >= last:
        raise Refused("FROM is not before UNTIL")
    rows = read_table(settings.stations)
    for at in range(first, last, LENGTHS[length]):
        for row in rows:
            if row.dates.has(at):
                yield f"{row.name9 or row.station} {text_of(at)} {length}"


def print_tasks(words: Sequence[str]) -> int:
    """The command tasks."""
    if len(words) != 3:
        raise Usage
    for task in tasks_of(read_settings(), *words):
        print(task)
    return DONE


# ---------------------------------------------------------------- what became of them


def outcome_of(status: int, word: str) -> str:
    """What became of a task, by its status and the first word that it told."""
    if status == DONE:
        return "unchanged" if word.startswith("unchanged") else "done"
    if status == NOTHING:
        return "no captures"
    return "refused" if status == REFUSED or status in STARTS_NOT else "again"


def tell_counts(tasks: Iterable[str], lines: Iterable[str]) -> int:
    """Prints the counts of the tasks, and answers their status. A line has the status of a task that ended, its words, and what it
    told. Of several lines for a task the last one counts. A task without a line was not run, or was killed with its engine."""
    outcomes: Dict[str, str] = {" ".join(task.split()): "again" for task in tasks if len(task.split()) == 3}
    for line in lines:
        words = line.split()
        task = " ".join(words[1:4])
        if task in outcomes and words[0].isdecimal():
            outcomes[task] = outcome_of(int(words[0]), "".join(words[4:5]))
    counts = {it: list(outcomes.values()).count(it) for it in OUTCOMES}
    print(f"{len(outcomes)} spans: {', '.join(f'{count} {it}' for it, count in counts.items())}", flush=True)
    return AGAIN if counts["again"] else REFUSED if counts["refused"] else DONE


def read_tasks(path: str) -> List[str]:
    """The lines of a list of tasks."""
    try:
        return Path(path).read_text(errors="replace").splitlines()
    except OSError:
        raise Usage from None


def count_lines(words: Sequence[str]) -> int:
    """The command counts."""
    if len(words) != 1:
        raise Usage
    return tell_counts(read_tasks(words[0]), (line for line in sys.stdin))


def run_alone(settings: Settings, task: str) -> Tuple[int, str]:
    """Runs a task as a process of its own, so that whatever ends it, the others go on. Answers its status and what it told."""
    ran = subprocess.run([HERE / SCRIPT, *task.split()], stdin=subprocess.DEVNULL, stdout=subprocess.PIPE, stderr=subprocess.STDOUT,
        env=dict(settings.words), check=False)
    status = ran.returncode if ran.returncode >= 0 else 128 - ran.returncode
    return status, ran.stdout.decode(errors="replace").rstrip("\n")


def run_task_of_array(words: Sequence[str]) -> int:
    """The script slurm.sbatch: a task of an array takes every N-th line of the list, one after another."""
    settings = read_settings()
    count = settings.number("SLURM_ARRAY_TASK_COUNT", 1)
    task = settings.number("SLURM_ARRAY_TASK_ID", 0) - settings.number("SLURM_ARRAY_TASK_MIN", 0)
    if len(words) != 1 or task >= count:
        raise Usage
    mine = [line for number, line in enumerate(read_tasks(words[0])) if number % count == task and len(line.split()) == 3]
    settings = settings.with_word("RTCM2RINEX", find_program(settings))
    ended = []
    for line in mine:
        status, told = run_alone(settings, line)
        print(status, line, told, flush=True)
        ended.append(f"{status} {line} {told}".split("\n")[0])
    return tell_counts(mine, ended)
