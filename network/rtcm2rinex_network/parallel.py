"""Many spans by GNU parallel."""

from __future__ import annotations

import shutil
import subprocess
import tempfile
from pathlib import Path
from typing import Dict, Iterator, List, Sequence, Tuple

from .ends import Refused, Usage
from .placing import is_other
from .program import find_program
from .settings import HERE, Settings, read_settings
from .span import SCRIPT
from .spans import tasks_of, tell_counts

PASSED_ON = ("STATIONS", "RTCM2RINEX", "MSM", "MADE", "EVERY", "FORCE", "AFTER", "LAYOUT")  # to other machines too
FAILED = 255  # the status of parallel if it did not begin, and of ssh


def with_parallel(words: Sequence[str]) -> int:
    """The command with-parallel."""
    if len(words) < 4:
        raise Usage
    if not shutil.which("parallel"):
        raise Refused("parallel is not in PATH")
    settings = read_settings()
    settings = settings.with_word("RTCM2RINEX", find_program(settings))
    tasks = list(tasks_of(settings, *words[1:4]))
    log = words[0] if words[0].startswith("/") else f"./{words[0]}"  # a name that begins with + or - is no option
    empty(log)
    told: Dict[str, str] = {}
    if tasks:
        status = run_parallel(settings, tasks, log, words[4:], told)
        if status == FAILED and not list(lines_of_log(log)):
            raise Refused(f"parallel ended with status {FAILED}, before the first span")
    ended = [(status, tasks[number - 1]) for number, status in lines_of_log(log) if number <= len(tasks)]
    return tell_counts(tasks, [f"{status} {task} {told.get(task, '')}" for status, task in ended])


def empty(log: str) -> None:
    """Begins the log anew."""
    try:
        if not is_other(Path(log)):
            Path(log).write_text("")
            return
    except OSError:
        pass
    raise Refused(f"can't write the file {log}")


def run_parallel(settings: Settings, tasks: List[str], log: str, options: Sequence[str], told: Dict[str, str]) -> int:
    """Runs parallel over the tasks, and prints what they tell. Keeps the first word of each in `told`, and answers the status."""
    passed_on = [word for name in PASSED_ON if settings.get(name) for word in ("--env", name)]
    command = ["parallel", "--quote", "--colsep", " ", "--tag", *options, *passed_on, "--joblog", log, str(HERE / SCRIPT), "{1}", "{2}",
        "{3}"]
    with tempfile.TemporaryFile("w+") as file:
        file.writelines(f"{task}\n" for task in tasks)
        file.seek(0)
        with subprocess.Popen(command, stdin=file, stdout=subprocess.PIPE, env=dict(settings.words), text=True, errors="replace") as process:
            try:
                for line in process.stdout or []:
                    print(line, end="", flush=True)
                    task, _, text = line.partition("\t")
                    told[task] = "".join(text.split()[:1])
            except BaseException:
                process.terminate()  # so that nobody waits for all its spans
                raise
    return process.returncode


def lines_of_log(log: str) -> Iterator[Tuple[int, int]]:
    """The number of each task of the log of parallel, and its status. A signal counts as a shell tells it."""
    for line in Path(log).read_text(errors="replace").split("\n")[1:]:
        columns = line.split("\t")
        if len(columns) > 8 and columns[0].isdecimal():
            signal = int(columns[7])
            yield int(columns[0]), 128 + signal if signal else int(columns[6])
