"""The slow model of several systems, eighth part: the file and the report of a list of links.

Which messages are late, repeats or in conflict is said by model.py, whatever the system: here stand the options, what is taken of
a payload, and the lines that are told of systems.
"""

from __future__ import annotations

from dataclasses import dataclass
from typing import Iterable, Mapping, Optional

from clocks import moment_of
from messages import Cell, Refusal
from mixed_cells import Channels, MixedCell, all_cells, cells_of_1004, cells_of_1012, has_sbas, marked_slots
from mixed_files import MixedSetup, listed, records_of, text_of
from model import Conversion, Judged, Kept, Setup, dated, found_frames, report_of
from msm import LEGACY, LEGACY_GLONASS, letter_of, read_any, system_of
from systems import BY_LETTER, GLONASS, GPS, LETTERS, SBAS, number_of
from wire import Message

DEFAULT_KIND = "4"


def kinds_of(text: str) -> dict[str, int]:
    """The kind of MSM of each system: one for all, and then exceptions, as in 7,E4."""
    every, *others = text.split(",")
    return {**dict.fromkeys(LETTERS, int(every)), **{it[0]: int(it[1]) for it in others}}


def channels_text(channels: Channels) -> str:
    """Slots and channels in the order in which they stand."""
    return ",".join(f"{slot}:{channel}" for slot, channel in channels.items()) or "none"


@dataclass(frozen=True)
class Options:
    """The options of a conversion; times in ms of GPS time. The names are those of codes in any order, a name of GPS without the
    letter of its system. If no channel is known, `channels` is empty, and None if the option is not given."""

    station: int
    near: int
    made: int
    marker: str
    names: tuple[str, ...]
    window: int
    msm: Optional[str] = None
    channels: Optional[Channels] = None
    leap: Optional[int] = None
    with_1012: bool = False
    doppler: bool = False

    @property
    def codes(self) -> dict[str, tuple[str, ...]]:
        return listed(",".join(self.names))

    @property
    def kinds(self) -> dict[str, int]:
        return kinds_of(self.msm or DEFAULT_KIND)

    @property
    def msm_number(self) -> int:
        """The MSM of GPS that is taken."""
        return number_of(GPS, self.kinds["G"])

    def words(self) -> list[str]:
        more = {
            "--msm": self.msm,
            "--channels": None if self.channels is None else channels_text(self.channels),
            "--leap-seconds": self.leap,
        }
        plain = Setup(self.station, self.near, self.made, self.marker, self.names, self.window)
        given = [f"{name}={value}" for name, value in more.items() if value is not None]
        return plain.words() + given + ["--with-1012"] * self.with_1012 + ["--doppler"] * self.doppler


class Taking:
    """What a conversion takes of payloads: messages of the listed systems, their moments and their cells."""

    def __init__(self, options: Options) -> None:
        self.station = options.station
        self.window = options.window
        channels = {} if options.channels is None else options.channels
        self.file = MixedSetup(
            options.near, options.made, options.marker, options.codes, channels, options.leap, options.station, options.doppler
        )
        self.letters = self.file.letters
        self.with_1012 = options.with_1012
        self.with_sbas = SBAS.letter in self.letters
        numbers = [number_of(BY_LETTER[it], options.kinds[it]) for it in self.letters]
        self.numbers = frozenset(numbers + [LEGACY_GLONASS] * options.with_1012)
        self.read_before: dict[bytes, Message | Refusal] = {}  # links tell the same
        self.cells_before: dict[Message, list[MixedCell]] = {}

    def read(self, payload: bytes) -> Message | Refusal:
        if payload not in self.read_before:
            self.read_before[payload] = self._read(payload)
        return self.read_before[payload]

    def _read(self, payload: bytes) -> Message | Refusal:
        """A 1004 is of GPS, and may have satellites of SBAS: if no code of these is listed, it is another message, whatever is wrong
        with it."""
        message = read_any(payload, self.numbers, self.with_1012)
        number = message.number if isinstance(message, Refusal) else message.header["number"]
        takes = GPS.letter in self.letters or self.with_sbas
        return message if number != LEGACY or takes else Refusal("M2", LEGACY)

    def time_of(self, message: Message) -> int | None:
        """The moment of observations, which is told by the clock of their system."""
        system = system_of(message)
        if system is None:
            return None
        if message.header["number"] == LEGACY:
            return dated(self.file.near, message.header["tow"])
        return moment_of(system, message.header["tow"], self.file.near, self.file.leap)

    def cells_of(self, message: Message) -> list[MixedCell]:
        if message not in self.cells_before:
            self.cells_before[message] = self._cells_of(message)
        return self.cells_before[message]

    def _cells_of(self, message: Message) -> list[MixedCell]:
        if message.header["number"] == LEGACY:
            return cells_of_1004(message, self.with_sbas)
        if message.header["number"] == LEGACY_GLONASS:
            return cells_of_1012(message, self.file.channels)
        return all_cells(message, self.file.channels, self.file.doppler)

    def name_of(self, satellite: str) -> str:
        return satellite


def observations(judged: Iterable[Judged], kinds: tuple[str, ...]) -> list[Message]:
    """The observations that came to one of these ends."""
    messages = (it.found.message for it in judged if it.kind in kinds)
    return [it for it in messages if isinstance(it, Message) and letter_of(it) is not None]


# The ends of a message of the station that has a moment.
DATED = ("taken", "repeat", "conflict", "late")


def channel_lines(taking: Taking, judged: Iterable[Judged]) -> list[str]:
    """The slots of dated messages that name another channel than the given one, and those without a given one."""
    dated_messages = [it for it in observations(judged, DATED) if letter_of(it) == GLONASS.letter]
    marked = [marked_slots(message, taking.file.channels) for message in dated_messages]
    lines = []
    for at, word in enumerate(("other-channel", "no-channel")):
        slots = sorted({slot for it in marked for slot in it[at]})
        names = [name for name in map(GLONASS.name, slots) if name is not None]
        lines.append(" ".join([word, *(names or "-")]))
    return lines


def lines_of_systems(taking: Taking, judged: list[Judged]) -> list[str]:
    """What the report says of systems before its counts; nothing if GPS alone is listed."""
    lines = channel_lines(taking, judged) if GLONASS.letter in taking.letters else []
    taken = observations(judged, ("taken",))
    heard = {letter_of(message) for message in taken} | {SBAS.letter for message in taken if taking.with_sbas and has_sbas(message)}
    silent = [letter for letter in taking.letters if letter not in heard]
    if taking.letters != GPS.letter and silent:
        lines.append(" ".join(["no-message", *silent]))
    return lines


def listed_cells(codes: Mapping[str, tuple[str, ...]], cells: Mapping[tuple[str, str], Cell]) -> dict[str, dict[str, Cell]]:
    """The cells of these codes by satellites and codes."""
    epoch: dict[str, dict[str, Cell]] = {}
    for (name, code), cell in cells.items():
        if code in codes.get(name[0], ()):
            epoch.setdefault(name, {})[code] = cell
    return epoch


def convert_mixed(options: Options, texts: list[bytes]) -> Conversion:
    """What `convert` is due to write, and to which end each frame came."""
    taking = Taking(options)
    kept = Kept(taking)
    judged = [kept.judge(found) for found in found_frames(taking, texts)]
    epochs = {epoch: listed_cells(taking.file.codes, kept.shown_cells(epoch)) for epoch in kept.epochs}
    records = records_of(taking.file, epochs)
    report = report_of(judged, len(records), lines_of_systems(taking, judged))
    closed = sum(kept.is_late(epoch) for epoch in records)
    return Conversion(text_of(taking.file, records, kept.stations), report, judged, len(records), closed)
