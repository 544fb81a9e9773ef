"""The commands that pages show, run as a reader runs them, and what they print, compared to the byte.

- A block `console` has commands behind `$ `, each with what a terminal shows of it. A command goes on in the next line where it ends
  in a backslash. The commands of a page run in one shell, in a folder of their own that holds examples/ and bin/rtcm2rinex. A command
  ends with status 0, unless `echo $?` comes next. The word after `--made ` that a command did not get is the moment of its run.
- A block `sh` has commands that need root, a network or other programs. They are counted and not run.
- Other blocks and indented lines have no commands. Of README, blocks in `rust` and `antt` are lines of the sources.
- A picture of examples/ is a file that the commands of the page wrote.
"""

import os
import re
import shutil
import subprocess
import tempfile
from pathlib import Path
from typing import NamedTuple

PAGES = ("README.md", "docs/TUTORIAL.md", "docs/MANUAL.md")
LANGUAGES = {"console", "sh", "text", "rust", "antt", "indented"}
IS_MADE = r"(?<= --made )\d{4}-\d\d-\d\dT\d\d:\d\d:\d\d"
MOST_SECONDS = 3600  # by the clock: a command that takes longer sleeps for ever, however busy the machine is


class Block(NamedTuple):
    """A block of code: its language, and its lines."""

    language: str
    lines: list


class Shown(NamedTuple):
    """A command that a page shows, what it prints there, and whether it must end with status 0."""

    command: str
    printed: str
    must_work: bool


class Ran(NamedTuple):
    """What a command printed, its status, and between which moments it ran."""

    printed: str
    status: str
    begin: str
    end: str


def blocks_of(text):
    lines, at = text.split("\n"), 0
    while at < len(lines):
        start = at
        if lines[at].startswith("```"):
            at = lines.index("```", at + 1) + 1
            yield Block(lines[start][3:], lines[start + 1 : at - 1])
        elif lines[at].startswith("    ") and not lines[at - 1].strip():
            while at < len(lines) and lines[at].startswith("    "):
                at += 1
            yield Block("indented", [line[4:] for line in lines[start:at]])
        else:
            at += 1


def whole_commands(lines):
    """The lines, each with those that it goes on in."""
    return re.sub(r"\\\n", "\\\\\0", "\n".join(lines)).split("\n")


def shown_in(block):
    """The commands of a block in the language `console`."""
    entries = []
    for line in whole_commands(block.lines):
        text = line.replace("\0", "\n")
        if text.startswith("$ "):
            entries.append([text[2:], ""])
        elif entries:
            entries[-1][1] += text + "\n"
    following = [command for command, _ in entries[1:]] + [""]
    return [Shown(command, printed, after != "echo $?") for (command, printed), after in zip(entries, following)]


def script_of(commands, told):
    """Runs the commands in turn, each with the status of the one before it. Of each it leaves what was printed, and then, in one
    line, its status and between which moments it ran."""
    lines = ["status=0"]
    for number, command in enumerate(commands):
        lines += [f"exec >'{told}/{number}.printed' 2>&1", "begin=$(date -u +%FT%T)", "(exit $status)", command, "status=$?",
            f"echo $status $begin $(date -u +%FT%T) >'{told}/{number}.end'"]
    return "\n".join(lines) + "\n"


def run_all(commands, root, program, folder):
    """What became of each command, in the new folder `work` of this one; None if the command was not run to its end."""
    work, told = folder / "work", folder / "told"
    shutil.copytree(root / "examples", work / "examples")
    (work / "bin").mkdir()
    (work / "bin/rtcm2rinex").symlink_to(program)
    told.mkdir()
    subprocess.run(["bash", "-c", script_of(commands, told)], cwd=work, stdin=subprocess.DEVNULL, timeout=MOST_SECONDS,
        env={"PATH": f"{work}/bin:{os.environ['PATH']}", "HOME": str(work), "LC_ALL": "C.UTF-8"})
    for number in range(len(commands)):
        end = told / f"{number}.end"
        yield Ran((told / f"{number}.printed").read_text(errors="replace"), *end.read_text().split()) if end.exists() else None


def unmade(printed, command, is_moment=lambda word: True):
    """The text with each moment of its run as one word."""
    if " --made " in command:
        return printed
    return re.sub(IS_MADE, lambda found: "NOW" if is_moment(found[0]) else found[0], printed)


def test_page(compare, page, root, program):
    blocks = list(blocks_of((root / page).read_text()))
    consoles = [block for block in blocks if block.language == "console"]
    first = ["".join(block.lines[:1]) for block in consoles]
    compare(f"each console of {page} begins with a command", [line for line in first if not line.startswith("$ ")], [])
    shown = [it for block in consoles for it in shown_in(block)]
    compare(f"{page} shows commands", len(shown) > 0, True)
    compare(f"the blocks of {page} have known languages", {block.language for block in blocks} - LANGUAGES, set())
    with tempfile.TemporaryDirectory() as folder:
        for it, ran in zip(shown, run_all([it.command for it in shown], root, program, Path(folder))):
            name = f"{page}: {it.command.splitlines()[0]}"
            if ran is None:
                compare(name, "not run to its end", it.printed)
                continue
            printed = unmade(ran.printed, it.command, lambda word: ran.begin <= word <= ran.end)
            compare(name, (printed, ran.status), (unmade(it.printed, it.command), "0" if it.must_work else ran.status))
        made = {path.read_bytes() for path in Path(folder).glob("work/*") if path.is_file()}
    pictures = re.findall(r"!\[[^]]*\]\(([^)]*)\)", (root / page).read_text())
    unmade_pictures = [it for it in pictures if ((root / page).parent / it).read_bytes() not in made]
    compare(f"the pictures of {page} are made by its commands", unmade_pictures, [])
    test_other_blocks(compare, page, blocks, shown)


def test_other_blocks(compare, page, blocks, shown):
    """What is no command of a `console` can't be run here, and nothing is written outside the folder."""
    left = [line for block in blocks if block.language == "sh" for line in whole_commands(block.lines) if line.strip()]
    runnable = [line for line in left if re.match(r"(bin/)?rtcm2rinex (?!.*\|)", line)]
    compare(f"{page}: commands for other programs are not run ({len(left)})", runnable, [])
    hidden = [line for block in blocks if block.language not in ("console", "sh") for line in block.lines
        if re.match(r"\s*(\$ |bin/)", line)]
    compare(f"{page}: no other block has commands", hidden, [])
    compare(f"{page}: commands write into the folder", [it.command for it in shown if "/tmp" in it.command], [])


def test_table(compare, root, program):
    """The rows that bench/versus prints stand in README. The column of convbin counts if it is here, in the version that README names."""
    ran = subprocess.run([root / "bench/versus", "--examples", program], capture_output=True, text=True)
    head, _, *rows = ran.stdout.splitlines() or ["", ""]
    compare("bench/versus makes rows", (ran.returncode, len(rows) > 3), (0, True))
    readme = (root / "README.md").read_text().splitlines()
    columns = 4 if head in readme else 3
    here = {tuple(row.split("|")[:columns]) for row in readme}
    for row in rows:
        cells = tuple(row.split("|")[:columns])
        compare(f"README has the row{cells[1]}", cells in here, True)


def test_quoted(compare, root):
    """The contracts that README shows stand in the sources."""
    for language, pattern in (("rust", "crates/*/src/*.rt"), ("antt", "crates/*/specs/*.antt")):
        quoted = ["\n".join(block.lines) for block in blocks_of((root / "README.md").read_text()) if block.language == language]
        sources = [path.read_text() for path in root.glob(pattern)]
        compare(f"README quotes sources in {language}", len(quoted) > 0, True)
        compare(f"what README quotes in {language} is there", [text for text in quoted if not any(text in it for it in sources)], [])


def test_commands(compare, root, program):
    for page in PAGES:
        test_page(compare, page, root, program)
    test_table(compare, root, program)
    test_quoted(compare, root)
