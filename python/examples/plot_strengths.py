#!/usr/bin/env python3
"""Plots the strengths of a RINEX file of rtcm2rinex: a panel for each code, and in it a dot for each epoch of each satellite.

    plot_strengths.py FILE PICTURE

PICTURE is a file such as strengths.png. It needs matplotlib, and the package rtcm2rinex in PYTHONPATH.
"""

from __future__ import annotations

import sys
from importlib import import_module
from typing import Any, Dict, List, Tuple

import rtcm2rinex

Line = Tuple[List[Any], List[float]]  # times and strengths


def strengths_of(file: str) -> Dict[str, Dict[str, Line]]:
    """The strengths in dB-Hz by code and satellite. A code of another system than GPS has the letter of the system before it."""
    found: Dict[str, Dict[str, Line]] = {}
    for row in rtcm2rinex.observations(file):
        if row.strength is not None:
            code = row.code if row.satellite.startswith("G") else row.satellite[0] + row.code
            times, strengths = found.setdefault(code, {}).setdefault(row.satellite, ([], []))
            times.append(row.time)
            strengths.append(row.strength)
    return found


def plot(strengths: Dict[str, Dict[str, Line]], title: str, picture: str) -> None:
    """Draws the panels one below another."""
    pyplot = import_module("matplotlib.pyplot")
    figure, panels = pyplot.subplots(len(strengths), 1, sharex=True, squeeze=False, figsize=(9, 2.5 * len(strengths)))
    for panel, (code, satellites) in zip(panels[:, 0], sorted(strengths.items())):
        for satellite, (times, values) in sorted(satellites.items()):
            panel.plot(times, values, linestyle="none", marker=".", label=satellite)  # no line across a gap
        panel.set_ylabel(f"{code}, dB-Hz")
        panel.legend(loc="center left", bbox_to_anchor=(1, 0.5))
    panels[0, 0].set_title(title)
    panels[-1, 0].set_xlabel("GPS time")
    figure.savefig(picture, bbox_inches="tight")


def main(words: List[str]) -> None:
    """Plots the file that the words of the command name."""
    if len(words) != 2:
        sys.exit("usage: plot_strengths.py FILE PICTURE")
    file, picture = words
    try:
        import_module("matplotlib").use("Agg")
    except ModuleNotFoundError:
        sys.exit("plot_strengths.py: matplotlib is not installed")
    strengths = strengths_of(file)
    if not strengths:
        sys.exit(f"plot_strengths.py: {file} has no strength")
    head = rtcm2rinex.header(file)
    plot(strengths, f"Strengths of {head.marker} from {head.first}", picture)


if __name__ == "__main__":
    main(sys.argv[1:])
