"""The calls of matplotlib that the example makes. Any other call fails."""

from __future__ import annotations

import json


class Panel:
    """An `Axes`: it keeps its label and its lines."""

    def __init__(self) -> None:
        self.told: dict = {"lines": {}}

    def plot(self, times, values, linestyle: str, marker: str, label: str) -> None:
        self.told["lines"][label] = [[str(time) for time in times], values]

    def set_ylabel(self, label: str) -> None:
        self.told["label"] = label

    def legend(self, loc: str, bbox_to_anchor: tuple) -> None:
        pass

    def set_title(self, title: str) -> None:
        self.told["title"] = title

    def set_xlabel(self, label: str) -> None:
        self.told["below"] = label


class Figure:
    """A `Figure`, whose picture tells its panels."""

    def __init__(self, panels: list) -> None:
        self.panels = panels

    def savefig(self, name: str, bbox_inches: str) -> None:
        with open(name, "w") as file:
            json.dump([panel.told for panel in self.panels], file)


class Panels:
    """Panels that are taken as `panels[:, 0]` and `panels[row, 0]`."""

    def __init__(self, panels: list) -> None:
        self.panels = panels

    def __getitem__(self, index: tuple):
        row, column = index
        assert column == 0
        return self.panels[row]


def subplots(rows: int, columns: int, sharex: bool, squeeze: bool, figsize: tuple) -> tuple:
    assert columns == 1 and not squeeze
    panels = [Panel() for _ in range(rows)]
    return Figure(panels), Panels(panels)
