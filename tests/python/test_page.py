"""docs/PYTHON.md as its reader types it, in a folder with copies of examples/ and python/: what it prints is what the page shows.

- The blocks `python` are one session. A block whose first line is a comment with a name of a file is saved under this name.
- A block `text` is what the block before it prints. A block `python` without one prints nothing.
- The blocks `console` are read as tests/repository/documents reads them. Other blocks need a network, and are not run.
- In the place of matplotlib stands a module whose picture tells what was plotted.
"""

from __future__ import annotations

import contextlib
import io
import json
import os
import re
import shutil
import subprocess
import sys
from pathlib import Path

import rtcm2rinex
from support import EXAMPLES, ROOT, Case

sys.path.insert(0, str(ROOT / "tests/repository/documents"))

from commands import blocks_of, shown_in  # noqa: E402

PAGE = ROOT / "docs/PYTHON.md"
STAND_IN = ROOT / "tests/python/stand-in"
SECONDS = 600  # after which a command is stuck


class Pages(Case):
    def setUp(self) -> None:
        super().setUp()
        shutil.copytree(EXAMPLES, "examples")
        shutil.copytree(ROOT / "python", "python", ignore=shutil.ignore_patterns("__pycache__"))
        self.environment = {**os.environ, "PYTHONPATH": f"{self.folder / 'python'}:{STAND_IN}", "PYTHONDONTWRITEBYTECODE": "1"}

    def ran(self, command: str) -> subprocess.CompletedProcess:
        return subprocess.run(["bash", "-c", command], env=self.environment, stdout=subprocess.PIPE, stderr=subprocess.STDOUT, text=True,
            stdin=subprocess.DEVNULL, timeout=SECONDS)

    def test_the_page(self) -> None:
        names: dict = {}
        blocks = list(blocks_of(PAGE.read_text()))
        self.assertEqual({it.language for it in blocks}, {"python", "text", "console", "sh"})
        for block, after in zip(blocks, [*blocks[1:], None]):
            text = "\n".join(block.lines) + "\n"
            with self.subTest(block.lines[0]):
                if block.language == "python":
                    wanted = "\n".join(after.lines) + "\n" if after and after.language == "text" else ""
                    self.assertEqual(self.printed(text, names), wanted)
                elif block.language == "console":
                    for shown in shown_in(block):
                        ran = self.ran(shown.command)
                        self.assertEqual((ran.stdout, ran.returncode), (shown.printed, 0))

    def printed(self, text: str, names: dict) -> str:
        """What a snippet prints; nothing if it is saved."""
        if saved := re.match(r"# (\w+\.py)\n", text):
            Path(saved[1]).write_text(text)
            return ""
        with contextlib.redirect_stdout(io.StringIO()) as out:
            exec(compile(text, str(PAGE), "exec"), names)
        return out.getvalue()

    def test_the_names_of_the_package(self) -> None:
        """The page names each function and each exception, and all names are there."""
        named = set(re.findall(r"\b\w+\b", PAGE.read_text()))
        public = {it for it in rtcm2rinex.__all__ if it[0].islower() or it.endswith("Error") or it == "ProgramNotFound"}
        self.assertEqual(public - named, set())
        self.assertEqual([it for it in rtcm2rinex.__all__ if not hasattr(rtcm2rinex, it)], [])

    def test_the_plot(self) -> None:
        """The strengths of satellite 21 in session.rnx, read by eye."""
        ran = self.ran("python3 python/examples/plot_strengths.py examples/session.rnx strengths.png")
        self.assertEqual((ran.stdout, ran.returncode), ("", 0))
        panels = json.loads(Path("strengths.png").read_text())
        self.assertEqual([panel["label"] for panel in panels], ["1C, dB-Hz", "2W, dB-Hz", "5X, dB-Hz"])
        self.assertEqual([sorted(panel["lines"]) for panel in panels], [["G05", "G07", "G13", "G21"]] * 2 + [["G05", "G07"]])
        times, values = panels[0]["lines"]["G21"]
        self.assertEqual((times[0], values[:5]), ("2024-05-17 12:00:04", [30.5, 30.75, 30.25, 30.5, 30.75]))
        self.assertEqual(panels[0]["title"], "Strengths of BASE from 2024-05-17 12:00:00")

    def test_a_plot_that_cannot_be_made(self) -> None:
        Path("empty.rnx").write_bytes(b"".join((EXAMPLES / "base.rnx").read_bytes().splitlines(True)[:14]))
        script = "python3 python/examples/plot_strengths.py"
        rows = {"": "usage: plot_strengths.py FILE PICTURE", "empty.rnx a.png": "plot_strengths.py: empty.rnx has no strength"}
        for words, told in rows.items():
            ran = self.ran(f"{script} {words}")
            self.assertEqual((ran.stdout, ran.returncode), (f"{told}\n", 1))
