"""The form of the package of network/: each module imports only modules that its first page names above it, and has at most 400 lines;
each function has at most 40 lines, types, and a sentence that says what it does. The last line is 'N passed, M failed'."""

from __future__ import annotations

import ast
import re
import sys
from collections.abc import Iterator
from pathlib import Path

PACKAGE = Path(__file__).resolve().parents[3] / "network/rtcm2rinex_network"


def faults_of(tree: ast.Module, above: list[str]) -> Iterator[str]:
    """What is wrong with a module."""
    for node in ast.walk(tree):
        if isinstance(node, ast.ImportFrom) and node.level and node.module not in above:
            yield f"it imports {node.module}, which does not stand above it"
        if isinstance(node, (ast.FunctionDef, ast.ClassDef)) and not node.name.startswith("__") and not ast.get_docstring(node):
            yield f"{node.name} does not say what it is"
        if isinstance(node, ast.FunctionDef):
            words = [it for it in node.args.args + node.args.kwonlyargs if it.arg != "self"]
            if node.returns is None or any(it.annotation is None for it in words):
                yield f"{node.name} lacks types"
            if (node.end_lineno or 0) - node.lineno >= 40:
                yield f"{node.name} has more than 40 lines"
        if isinstance(node, ast.Global):
            yield "it has a global"


def main() -> int:
    named = re.findall(r"`([a-z]+)`(?=.*:)", (PACKAGE / "__init__.py").read_text())
    there = {path.stem for path in PACKAGE.glob("*.py")} - {"__init__"}
    faults = {"": [f"{it} is there and not named, or named and not there" for it in there ^ set(named)]}
    for at, name in enumerate(named):
        text = (PACKAGE / f"{name}.py").read_text()
        long = ["it has more than 400 lines"] if text.count("\n") > 400 else []
        faults[name] = long + list(faults_of(ast.parse(text), named[:at]))
    for name, found in faults.items():
        print("\n".join(f"FAILED {name}: {it}" for it in found) or f"ok {name or 'the modules'}")
    failed = sum(map(bool, faults.values()))
    print(f"{len(faults) - failed} passed, {failed} failed")
    return int(failed > 0)


sys.exit(main())
