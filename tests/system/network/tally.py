"""How a script ends whose rows were worked out by hand."""

from __future__ import annotations

from collections.abc import Iterable


def tally(rows: Iterable[tuple[str, object, object]]) -> int:
    """Prints of each row whether what was found is what is due, and in the last line 'N passed, M failed'. Gives the number that failed."""
    found = list(rows)
    for name, got, due in found:
        print(f"ok {name}" if got == due else f"FAILED {name}: {got}, and not {due}")
    failed = sum(got != due for _, got, due in found)
    print(f"{len(found) - failed} passed, {failed} failed")
    return failed
