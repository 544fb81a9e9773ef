"""Observations as arrays of numpy or as a frame of pandas, where these are installed."""

from __future__ import annotations

from importlib import import_module
from types import ModuleType
from typing import Any, Dict, List, Union

from .inputs import Name
from .rinex import ReadableLines, observations


def arrays(file: Union[Name, ReadableLines]) -> Dict[str, Any]:
    """Gives the observations of a RINEX file as arrays of numpy, which must be installed. All arrays have the same length.

    - `time` has GPS times as `datetime64[ms]`.
    - `satellite` and `code` have texts such as `G05` and `1C`. The letter of the system is in `satellite` alone.
    - `range` is in metres (m), `phase` in cycles, and `strength` in dB-Hz. A value that the file lacks is NaN.
    - `loss_of_lock` and `half_cycle` are true where the file has these marks.
    - `doppler` is in hertz (Hz). A file that was converted without Doppler has NaN throughout.

    Raises `ModuleNotFoundError` without numpy, and `FormError` if the text is not as the program writes it.
    """
    numpy = installed("numpy", "arrays")
    kinds = {"time": "datetime64[ms]", "satellite": "U3", "code": "U2", "range": "f8", "phase": "f8", "strength": "f8",
        "loss_of_lock": "?", "half_cycle": "?", "doppler": "f8"}
    columns: List[List[object]] = [[] for _ in kinds]
    for row in observations(file):
        for column, value in zip(columns, row):
            column.append(value)
    return {name: numpy.array(column, dtype=kind) for (name, kind), column in zip(kinds.items(), columns)}


def frame(file: Union[Name, ReadableLines]) -> Any:
    """Gives the observations of a RINEX file as a frame of pandas, which must be installed.

    The frame has a row for each satellite and code at an epoch, and the columns of `arrays`, in the same units.

    Raises `ModuleNotFoundError` without pandas, and `FormError` if the text is not as the program writes it.
    """
    return installed("pandas", "frame").DataFrame(arrays(file))


def installed(name: str, wanted_by: str) -> ModuleType:
    """A module that need not be installed."""
    try:
        return import_module(name)
    except ModuleNotFoundError as fault:
        if fault.name != name:
            raise
        raise ModuleNotFoundError(f"rtcm2rinex.{wanted_by} needs {name}, which is not installed here", name=name) from fault
