"""Runs the tests of the files beside it, and counts them as `bin/test` wants it. Run by `run` beside it."""

from __future__ import annotations

import sys
import traceback
import unittest
from pathlib import Path

HERE = Path(__file__).resolve().parent


class Counted(unittest.TestResult):
    """Prints a line for each test at its end. A test fails once, however many of its rows fail."""

    def __init__(self) -> None:
        super().__init__()
        self.passed = self.failed = 0
        self.told: list[str] = []

    def startTest(self, test):
        super().startTest(test)
        self.told = []

    def addSuccess(self, test):
        super().addSuccess(test)
        self.told.append("ok")

    def addSkip(self, test, reason):
        super().addSkip(test, reason)
        self.told.append(f"left out {test.id()}: {reason}")

    def addError(self, test, fault):
        super().addError(test, fault)
        self.tell(test, fault)

    def addFailure(self, test, fault):
        super().addFailure(test, fault)
        self.tell(test, fault)

    def addSubTest(self, test, subtest, fault):
        super().addSubTest(test, subtest, fault)
        if fault:
            self.tell(subtest, fault)

    def tell(self, test, fault):
        """Why a test failed; a fault outside any test, as of an import, counts too."""
        why = "".join(traceback.format_exception(*fault))
        self.told.append(f"FAILED {test.id()}: {why}")

    def stopTest(self, test):
        super().stopTest(test)
        failures = [it for it in self.told if it.startswith("FAILED")]
        self.failed += bool(failures)
        self.passed += self.told == ["ok"]
        print("\n".join(failures or (f"ok {test.id()}" if it == "ok" else it for it in self.told)), flush=True)


def main() -> None:
    loader = unittest.TestLoader()
    if len(sys.argv) > 1:
        loader.testNamePatterns = [f"*{word}*" for word in sys.argv[1:]]
    result = Counted()
    loader.discover(str(HERE), pattern="test_*.py").run(result)
    print(f"{result.passed} passed, {result.failed} failed")
    sys.exit(result.failed > 0)


main()
