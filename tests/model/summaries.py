"""The slow model, third part: what a capture holds. All frames are found first, then counted."""

from __future__ import annotations

import shlex
import string
from collections import Counter
from datetime import datetime, timedelta
from itertools import groupby

from chains import TIMING, Date, clock_lines, is_wrong, offsets_of, week_lines
from channels import LAST_CHANNEL, most_told, told_by
from choosing import DEFAULT_KIND, has_value_of_1012, kind_of, names_shown, numbers_of, slots_shown, told_time
from equipment import Told, equipment_lines, equipment_of
from finding import FIRST_DAY, date_of
from messages import CODES, Refusal, cells_of, frames_of
from msm import BESIDE_GPS, LEGACY_GLONASS, letter_of, read_frame
from systems import GLONASS, GPS, INDEX, LETTERS
from valued import NAMES, has_value, letter_of_name, names_in, shown_in
from wire import MSMS, WEEK_MS, Fields, Message

UNTAKEN = (1001, 1002, 1003, 1071, 1072, 1073)
NO_DATE = "GPS-TIME-WITHIN-HALF-A-WEEK"
MADE = '--made "$(date -u +%FT%T)"'
MARKS = {b"": "empty", b"\x1f\x8b": "gzip", b"BZh": "bzip2", b"\xfd7zXZ\0": "xz", b"PK\3\4": "zip", b"\xb5b": "u-blox", b"$@": "SBF",
         b"\xaaD\x12": "NovAtel", b"\xaaD\x13": "NovAtel", b"JP055": "JPS"}


def summary_of(text: bytes, name: str = "file") -> str:
    """The lines of a capture's summary, as one text."""
    frames = frames_of(text)
    read = [read_frame(frame.payload) for frame in frames]
    messages = [it for it in read if not isinstance(it, Refusal)]
    dates = [it for it in (date_of(frame.payload) for frame in frames) if it]
    told = [it for it in (equipment_of(frame.payload) for frame in frames) if it]
    framed = sum(6 + len(frame.payload) for frame in frames)
    lines = [f"bytes {len(text)}", f"outside-frames {len(text) - framed}", f"frames {len(frames)}"]
    if not frames:
        lines.append(f"looks-like {look_of(text)}")
    dated = [it for it in dates if "day" in it and civil_of(it)]
    for station in sorted({it.header["station"] for it in messages} | {it["station"] for it in dated} | {it for it, _ in told}):
        of_station = [it for it in messages if it.header["station"] == station]
        dates_of_station = [it for it in dated if it["station"] == station]
        lines += [f"station {station}"]
        lines += station_lines(name, station, of_station, dates_of_station, [it for of, it in told if of == station])
    weeks = Counter(it["week"] for it in dates if "week" in it)
    lines += [f"week {week} 1019 {weeks[week]}" for week in sorted(weeks)]
    lines += week_lines([frame.payload for frame in frames])
    lines += unread_lines(Counter(it for it in read if isinstance(it, Refusal)))
    if not any(line.startswith(" codes ") and line != " codes -" for line in lines):
        lines.append("nothing taken")
    return "".join(f"{line}\n" for line in lines)


def look_of(text: bytes) -> str:
    """What a file looks like that has no frame."""
    for mark, look in reversed(MARKS.items()):
        if mark and text.startswith(mark):
            return look
    if not text:
        return MARKS[b""]
    if text[60:80] in (b"RINEX VERSION / TYPE", b"CRINEX VERS   / TYPE"):
        return "RINEX"
    first = text[:64].decode("latin-1")
    if len(first) > 2 and first[0] in "$!" and all(it in string.ascii_uppercase for it in first[1:3]):
        return "NMEA"
    if first[0] in string.hexdigits and all(it in string.hexdigits + " \r\n" for it in first):
        return "hex-text"
    return "unknown"


def civil_of(date: Fields) -> str | None:
    """The date of a 1013 or a 1029, if it is one near which `convert` dates."""
    moment = datetime(1858, 11, 17) + timedelta(days=date["day"], seconds=date["second"])
    is_date = date["day"] >= 44_251 and date["second"] <= 86_400
    return moment.isoformat() if is_date else None


def moment_of_date(date: Fields) -> int:
    """The same as a moment, in ms."""
    return 86_400_000 * (date["day"] - FIRST_DAY) + 1000 * date["second"]


def sh_quoted(name: str) -> str:
    return ("./" if name.startswith("-") else "") + shlex.quote(name).replace("'\"'\"'", r"'\''")


def unread_lines(faults: Counter[Refusal]) -> list[str]:
    """The frames that are no message that is read."""
    others = {it.number: n for it, n in faults.items() if it.fault == "M2"}
    refused = sorted((it.fault, it.number or 0, n) for it, n in faults.items() if it.fault != "M2")
    return [
        *(f"other {number} {n}" for number, n in sorted(others.items())),
        *(f"untaken GPS {number} {others[number]}" for number in UNTAKEN if number in others),
        *(f"refused {fault} {number or '-'} {n}" for fault, number, n in refused),
    ]


def station_lines(name: str, station: int, messages: list[Message], dated: list[Fields], told: list[Told]) -> list[str]:
    counts = Counter(it.header["number"] for it in messages)
    observations = [it for it in messages if letter_of(it) == GPS.letter]
    others = [it for it in messages if letter_of(it) not in (None, GPS.letter)]
    times = [it.header["tow"] for it in messages if (letter_of(it) or "-") in TIMING]
    shown = [entry for it in observations for entry in entries_of(it)]
    found = {satellite for it in messages for satellite, _ in shown_in(it)}
    names = {name for it in messages for name in names_in(it)}
    # A 1004 has the clock of GPS, also where it has SBAS alone.
    clocked = {letter_of(it) for it in messages if letter_of(it) in map(letter_of_name, names_in(it))}
    by_number = {number: [it for it in dated if it["number"] == number] for number in (1013, 1029)}
    first = (by_number[1013] + by_number[1029])[:1]
    lines = [
        *(f" message {number} {n}" for number, n in sorted(counts.items())),
        f" time-of-week {times[0]} {times[-1]}" if times else " time-of-week -",
        f" changes-of-time {sum(before != after for before, after in zip(times, times[1:]))}",
        *(f" date {civil_of(its[0])} {number} {len(its)}" for number, its in by_number.items() if its),
        *equipment_lines(told),
        f" satellites {' '.join(sorted(found, key=INDEX.__getitem__)) or '-'}",
        f" codes {','.join(it for it in NAMES if it in names) or '-'}",
        *epoch_lines(others),
        *channel_lines(others),
        *clock_lines(messages, [it for it in LETTERS if it in clocked], moment_of_date(first[0]) if first else None),
    ]
    near = moment_of_date(first[0]) if first else None
    words = command_words(messages, near, times)
    return lines + next_lines(name, civil_of(first[0]) if first else NO_DATE, station, shown, words) if words else lines


def epoch_lines(others: list[Message]) -> list[str]:
    """How many runs of messages of one time there are, of those of each number that have a value."""
    valued = [(it.header["number"], told_time(it)) for it in others if shown_in(it)]
    clocks = {number: [clock for its, clock in valued if its == number] for number in sorted({LEGACY_GLONASS, *BESIDE_GPS})}
    return [f" epochs {number} {len(list(groupby(its)))}" for number, its in clocks.items() if its]


def channel_lines(others: list[Message]) -> list[str]:
    """The channels that messages of GLONASS tell, of each slot from 1 to 27."""
    told = [f"{slot}:{channel}" for slot, its in sorted(told_by(others).items()) for channel in sorted(its) if channel <= LAST_CHANNEL]
    return [f" channels {','.join(told)}"] if told else []


Shown = tuple[int, int, int, str]  # number of a message, time, satellite and code


def entries_of(message: Message) -> list[Shown]:
    """The cells that have a value."""
    number, tow = message.header["number"], message.header["tow"]
    return [
        (number, tow, satellite, code)
        for satellite, code, cell in cells_of(message)
        if has_value(cell)
    ]


def codes_of(shown: list[Shown], numbers: tuple[int, ...]) -> list[str]:
    """The codes that messages of these numbers show."""
    found = {code for number, _, _, code in shown if number in numbers}
    return [code for code in CODES if code in found]


ALMOST_HALF_DAY_MS = 43_140_000


def is_near(moment: int, tow: int) -> bool:
    """Whether a time of week lies within half a day of a moment, but for a minute."""
    return (tow - moment + ALMOST_HALF_DAY_MS) % WEEK_MS < 2 * ALMOST_HALF_DAY_MS


# pins: is_time_near, slot_numbered, words_with_1012
def command_words(messages: list[Message], near: int | None, times: list[int]) -> str:
    """The codes, kinds and options of GLONASS of the command: of each system whose clock is right those of the MSM that has most epochs,
    of such the greatest; of 1012 too, if the first and the last time of GPS lie near the date. Nothing without a code."""
    offsets = offsets_of(messages, None if near is None else Date(near, own=False))
    letters = [it for it in LETTERS if it == GPS.letter or not is_wrong(offsets[it])]
    kinds = {it: kind_of([messages], it) or DEFAULT_KIND for it in letters}
    is_dated = near is not None and bool(times) and is_near(near, times[0]) and is_near(near, times[-1])
    with_1012 = is_dated and any(map(has_value_of_1012, messages))
    names = [it for it in names_shown(messages, numbers_of(kinds, with_1012)) if letter_of_name(it) in letters]
    kinds = {it: kind for it, kind in kinds.items() if it in map(letter_of_name, names)}
    if not names:
        return ""
    first = next(iter(kinds))
    text = ",".join([str(kinds[first]), *(f"{it}{kind}" for it, kind in kinds.items() if kind != kinds[first])])
    words = ",".join(names) + (f" --msm {text}" if text != str(DEFAULT_KIND) else "")
    if GLONASS.letter not in kinds:
        return words
    told = told_by(messages)
    slots = sorted({*slots_shown(messages, numbers_of(kinds, with_1012))})
    found = {slot: most_told(told[slot]) for slot in slots if slot in told}
    channels = ",".join(f"{slot}:{channel}" for slot, channel in found.items() if channel is not None) or "none"
    return f"{words} --channels {channels}{' --with-1012' * with_1012}"


def next_lines(name: str, near: str, station: int, shown: list[Shown], words: str) -> list[str]:
    """The command; before it the second frequency of the MSM of GPS that has most epochs, of such the greatest, and the other MSM."""
    times = {msm: [tow for number, tow, _, _ in shown if number == msm] for msm in MSMS}
    epochs = {msm: len(list(groupby(times[msm]))) for msm in MSMS}
    most = max(MSMS, key=lambda msm: (epochs[msm], msm)) if any(epochs.values()) else 1074
    codes = codes_of(shown, (1004, most))
    words = f"--station {station} --near {near} {MADE} --marker {station:04} --codes {words}"
    second = [" second-frequency 2P"] if "2P" in codes and "2W" not in codes else []
    others = [f" other-msm {msm} {n}" for msm, n in epochs.items() if n and msm != most]
    auto = f" auto rtcm2rinex auto --station {station} -o {station:04}.rnx {sh_quoted(name)}"
    # `auto` reads a capture twice, and standard input has its bytes once.
    found = [] if name == "stdin" else [auto]
    return [*second, *others, f" next rtcm2rinex convert {words} {sh_quoted(name)}", *found]
