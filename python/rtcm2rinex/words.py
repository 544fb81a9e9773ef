"""Options as words of the command line. A time may be given as a text or as a `datetime`."""

from __future__ import annotations

from datetime import datetime, timezone
from decimal import Decimal
from typing import Dict, List, Mapping, Optional, Sequence, Union

Time = Union[str, datetime]
Codes = Union[str, Sequence[str]]
Kinds = Union[int, str, Mapping[str, int]]
Channels = Union[str, Mapping[int, int]]
Metres = Union[str, float, Decimal]
Value = Union[None, bool, int, str]


def option_words(options: Dict[str, Value]) -> List[str]:
    """The words of these options. None and False leave an option out, and True gives it without a value."""
    words = []
    for name, value in options.items():
        option = "--" + name.replace("_", "-")
        if value is True:
            words.append(option)
        elif value is not None and value is not False:
            words.append(f"{option}={value}")
    return words


def gps_word(time: Optional[Time]) -> Optional[str]:
    """A GPS time as the program takes it. A `datetime` has no zone, since GPS time has none, and whole seconds."""
    if not isinstance(time, datetime):
        return time
    if time.tzinfo is not None:
        raise ValueError("a GPS time has no time zone: leave tzinfo out")
    if time.microsecond:
        raise ValueError("the time has a part of a second, which the program does not take")
    return time.isoformat()


def utc_word(time: Optional[Time]) -> Optional[str]:
    """A time of making as the program takes it. A `datetime` without a zone is UTC, and a part of a second is left out."""
    if not isinstance(time, datetime):
        return time
    moment = time if time.tzinfo is None else time.astimezone(timezone.utc).replace(tzinfo=None)
    return moment.replace(microsecond=0).isoformat()


def present() -> datetime:
    """The present time in UTC."""
    return datetime.now(timezone.utc)


def code_word(codes: Optional[Codes]) -> Optional[str]:
    """Codes as the program takes them, joined by commas."""
    return codes if codes is None or isinstance(codes, str) else ",".join(codes)


def kind_word(kinds: Kinds) -> str:
    """Kinds of MSM as the program takes them. In a mapping they stand by the letters of systems, and a system that it lacks has MSM4."""
    if isinstance(kinds, Mapping):
        return ",".join(["4", *(f"{letter}{kind}" for letter, kind in kinds.items())])
    return str(kinds)


def channel_word(channels: Optional[Channels]) -> Optional[str]:
    """Channels by slots as the program takes them. An empty mapping says that no slot has a channel."""
    if isinstance(channels, Mapping):
        return ",".join(f"{slot}:{channel}" for slot, channel in channels.items()) or "none"
    return channels


def metre_word(metres: Optional[Metres]) -> Optional[str]:
    """An offset as the program takes it, with its sign and four decimals."""
    return metres if metres is None or isinstance(metres, str) else f"{metres:+.4f}"
