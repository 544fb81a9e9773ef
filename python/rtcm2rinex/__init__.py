"""Converts RTCM 3 captures of a base station to RINEX 3.05, by the program `rtcm2rinex`.

- `auto` and `convert` convert captures, and `Converter` converts what a station sends while it comes.
- `summary` says what a capture holds.
- `check`, `quality`, `cut` and `label` take a RINEX file of the program.
- `header`, `epochs` and `observations` read such a file, and `arrays` and `frame` give it to numpy and pandas.
- All exceptions of the package are an `Error`.

Each call runs the program as a process. Options have the names of the options of the commands, with `_` for the hyphen. All times of
observations are GPS times, as a `datetime` without a time zone. docs/PYTHON.md shows how to use the package.
"""

from .captures import ClockOffset, Date, StationSummary, Summary, summary
from .converting import AutoConversion, Conversion, Found, auto, convert
from .faults import CapturesError, Error, FileError, FormError, NoRecordError, ProgramError, ProgramNotFound, WordsError, WorkError
from .files import Check, Part, check, cut, label
from .headers import Header
from .live import Converter
from .program import find_program, version
from .qualities import Burst, CodeQuality, Fall, Gap, HalfRun, Hour, MissingCode, Outage, Pass, Quality, SlipsTogether, SystemQuality, Tracked, quality
from .reports import Conflict, Counts, LateMessage, RefusedMessage, Report
from .rinex import Epoch, Observation, epochs, header, observations
from .tables import arrays, frame
from .writing import Written

__all__ = [
    "AutoConversion", "Burst", "CapturesError", "Check", "ClockOffset", "CodeQuality", "Conflict", "Conversion", "Converter", "Counts", "Date", "Epoch",
    "Error", "Fall", "FileError", "FormError", "Found", "Gap", "HalfRun", "Header", "Hour", "LateMessage", "MissingCode", "NoRecordError", "Observation", "Outage",
    "Part", "Pass", "ProgramError", "ProgramNotFound", "Quality", "RefusedMessage", "Report", "SlipsTogether", "StationSummary",
    "Summary", "SystemQuality", "Tracked", "WordsError", "WorkError", "Written", "arrays", "auto", "check", "convert", "cut", "epochs", "find_program", "frame", "header",
    "label", "observations", "quality", "summary", "version",
]
