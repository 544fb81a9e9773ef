"""The slow model of what `auto` says: the values that it found, the command, and how the conversion went; or why there is no file."""

from __future__ import annotations

import re
from collections import Counter
from dataclasses import replace
from itertools import groupby
from typing import Iterable, NamedTuple

import finding
from captures import LAST_MADE
from choosing import DATING, NOT_TOLD, Wanted
from clocks import leap_seconds_at
from finding import Found, Stopped
from lost import nameless_lines, position_lines, refused_lines
from messages import Refusal, frames_of, read_message
from mixed_cells import has_sbas
from mixed_model import Options, channels_text
from model import Conversion, civil, moment
from msm import LEGACY, LEGACY_GLONASS, letter_of, read_frame
from summaries import UNTAKEN, look_of, sh_quoted
from systems import BY_LETTER, GLONASS, GPS, LETTERS, SBAS, number_of
from wire import MSMS, WEEK_MS, Fields, Message

# By their bytes, as link1, link10, .., link2: another order than that of their numbers.
NAMES = sorted(f"link{at}" for at in range(1, 1000))


def name_of(at: int) -> str:
    """The name of the capture at this place."""
    return NAMES[at]


def shown_time(at: int) -> str:
    return f"{civil(at):%Y-%m-%dT%H:%M:%S}"


class Asked(NamedTuple):
    """The words of a run: the present, the marker and the window, and what is asked for."""

    now: int
    marker: str
    window: int
    wanted: Wanted

    def words(self) -> list[str]:
        it = self.wanted
        values = {
            "--made": shown_time(self.now), "--marker": self.marker, "--window": self.window, "--station": it.station,
            "--near": None if it.near is None else shown_time(it.near), "--systems": it.systems,
            "--codes": None if it.names is None else ",".join(it.names), "--msm": it.msm,
            "--channels": None if it.channels is None else channels_text(it.channels), "--leap-seconds": it.leap,
        }  # fmt: skip
        flags = ["--links-as-given"] * it.as_given + ["--skip-empty"] * it.skip_empty + ["--doppler"] * it.doppler
        return [f"{name}={value}" for name, value in values.items() if value is not None] + flags

    def captures(self, texts: list[bytes]) -> list[finding.Capture]:
        return [finding.Capture.of(text, self.wanted.dating) for text in texts]

    def options(self, found: Found) -> Options:
        """Those of the conversion."""
        chosen = found.chosen
        channels = None if chosen.slots is None else dict(sorted(chosen.slots.channels.items()))
        msm = None if chosen.msm == "4" else chosen.msm
        plain = Options(found.station, found.near, self.now, self.marker, tuple(chosen.names), self.window, msm, channels, chosen.leap)
        return replace(plain, with_1012=chosen.with_1012, doppler=self.wanted.doppler)


# ---------------------------------------------------------------- why there is no file

STOPPED = {
    "no frame": "the captures have no frame of RTCM 3",
    "no observation": "the captures have no observations that are read",
    "no such station": "station STATION has no observations that are read",
    "several stations": "several stations have observations; choose one by --station",
    "nothing of the station": r"captures have nothing of [^;]*; --skip-empty leaves them out",
    "dates differ": "the captures tell dates that differ; choose one by --near",
    "two dates": "a capture tells two dates; part it, or choose one by --near",
    "no date": "the captures tell no date; give one, as in --near GPS-TIME-WITHIN-HALF-A-WEEK",
    "give them in parts": "the captures are longer than half a week; convert them in parts",
    "outside the dates": "the first epoch is not dated from 1980-01-13 to 2099-12-31; choose a date by --near",
    "too many links": "more than 16 captures are of the same time, and 16 links are taken",
    "positions differ": "the station stands at positions that differ; --links-as-given takes them for one",
    "no rates": "--doppler needs MSM5 or MSM7 of SYSTEM",
    "no code": "no observation that is asked for can be converted; choose others by --msm or --systems",
}


def refusal_pattern(stopped: Stopped, asked: Asked, texts: list[bytes]) -> str:
    """How standard error begins if nothing can be converted."""
    station = asked.wanted.station
    captures = asked.captures(texts)
    listed = stations_text(stopped.about, captures) if "station" in STOPPED[stopped.cause] else ""
    if stopped.cause in ("two dates", "no date"):
        told = two_dates_text(asked.now, captures, station, *stopped.about) if stopped.about else to_come_text(asked.now, captures)
        listed = re.escape(told)
    if stopped.cause == "no code":
        listed = re.escape("".join(f"{clock}\n" for clock in stopped.about))
    line = STOPPED[stopped.cause].replace("STATION", str(station)).replace("SYSTEM", "".join(map(str, stopped.about[:1])))
    return f"rtcm2rinex: {line}\n{listed}"


def stations_text(stations: tuple[object, ...], captures: list[finding.Capture]) -> str:
    """A line for each of these stations and each capture with observations of it, with how many epochs its messages have."""
    times = {(it, at): [of.header["tow"] for of in capture.of_station(it) if (letter_of(of) or "-") in DATING]
             for it in stations for at, capture in enumerate(captures, 1) if it in capture.observing()}
    return "".join(f" station {it} in {name_of(at - 1)}: {len(list(groupby(of)))} epochs\n" for (it, at), of in times.items())


def date_text(fields: Fields, moment: int, name: str) -> str:
    """A date, the message that tells it, and its capture."""
    station = f" of station {fields['station']}" if "station" in fields else ""
    return f" {shown_time(moment)} by {fields['number']}{station} in {name}"


def two_dates_text(now: int, captures: list[finding.Capture], station: int | None, at: int, byte: int) -> str:
    """The dates of the captures that tell several, and the commands that part the one at this place at a byte."""
    number = finding.station_of(captures, station)
    told = [distinct(finding.counting(finding.tellings(now, it, number), number)) for it in captures]
    lines = [date_text(it.fields, it.first, name_of(place)) for place, of in enumerate(told) for it in of if len(of) > 1]
    kept = [place for place, it in enumerate(captures) if it.is_of_station(number)]
    name = name_of(kept[at])
    lines += [f" {name}: the second date begins at byte {byte}; these commands part it there:"]
    lines += [f"head -c {byte} {name} >{name}.1", f"tail -c +{byte + 1} {name} >{name}.2"]
    return "".join(f"{line}\n" for line in lines)


def to_come_text(now: int, captures: list[finding.Capture]) -> str:
    """The first date of each capture that is passed over since it is to come."""
    return "".join(f"{line}\n" for at in range(len(captures)) for line in to_come_lines(now, captures, at))


def to_come_lines(now: int, captures: list[finding.Capture], at: int) -> list[str]:
    """That of the capture at this place, or nothing."""
    it = finding.first_to_come(now, captures[at])
    return [] if it is None else [f"{date_text(*it, name_of(at))}: it is after the time of making"]


# pins: far_head, far_epoch, far_neighbour
def far_lines(now: int, captures: list[finding.Capture], at: int, station: int) -> list[str]:
    """The first date of the station in the capture at this place that is far from the epochs beside it, or if it has none from the
    messages of GLONASS and BeiDou; or nothing."""
    has_epochs = bool(captures[at].times(station))
    far = finding.far_date(now, captures[at], station) if has_epochs else finding.far_from_clocks(now, captures[at], station)
    if far is None:
        return []
    fields, moment = far
    date = date_text(fields, finding.utc_moment(fields), name_of(at))
    beside = "it dates the epoch beside it as" if has_epochs else "the message beside it is dated"
    return [f" other-date{date}: {beside} {shown_time(moment)}"]


def distinct(told: list[finding.Told]) -> list[finding.Told]:
    """The first message that tells each first epoch, of the first 16 that differ."""
    return list({it.first: it for it in told[::-1]}[first] for first in dict.fromkeys(it.first for it in told))[:16]


# ---------------------------------------------------------------- how it went


def auto_text(found: Found, asked: Asked, due: Conversion, texts: list[bytes]) -> str:
    """What `auto` says of a conversion that is done."""
    said, epochs = asked.options(found), epochs_of(due.file)
    lines = [" the same by hand:", *command_lines(found, said)]
    lines += due.report.splitlines()[-9:]
    if epochs:
        lines.append(f" from {shown_time(epochs[0])} until {shown_time(epochs[-1])} by {source_of(found, asked, epochs)}")
    if re.search(r"^ {8}0\.0000 {8}0\.0000 {8}0\.0000 +APPROX POSITION XYZ", due.file, re.M):
        lines.append(" no-position: the header has zeros, as no 1005 or 1006 came in time, or the first one has zeros")
    lines += gap_lines(epochs)
    conflicts = sum(" conflict " in line for line in due.report.splitlines()[:-9])
    lines += [f" conflict {conflicts}: later copies differ from the first, which the file has"] * (conflicts > 0)
    lines += date_lines(found, asked, texts)
    lines += found.chosen.clocks
    lines += [f" unchecked {letter}" for letter in found.chosen.unchecked]
    lines += leap_lines(found, asked, texts)
    lines += [f" few-phases {code}: its satellites have more than twice as many in another code" for code in found.few]
    lines += slot_lines(found)
    lines += late_lines(found, asked, due)
    lines += capture_lines(found, texts)
    lines += left_out_lines(found, texts, asked.wanted.doppler)
    lines += lost_lines(found, asked, texts)
    lines += ["rtcm2rinex: no record came; the file is a header alone"] * (due.epochs == 0)
    return "".join(f"{line}\n" for line in lines)


def source_of(found: Found, asked: Asked, epochs: list[int]) -> str:
    """What dated the earliest capture."""
    if asked.wanted.near is not None:
        return "--near"
    if "week" in found.by:
        first = min(epochs, default=found.near)
        others = [f"{civil(at):%Y-%m-%d}" for at in (first - 1024 * WEEK_MS, first + 1024 * WEEK_MS) if 0 <= at <= LAST_MADE + 999]
        return f"1019 (or {', '.join(others)})"
    station = found.by.get("station", found.station)
    return str(found.by["number"]) + (f" of station {station}" if station != found.station else "")


# pins: all_slots, said_channel, said_channels, leap_option, systems_in_order, kinds_or, kind_digit, first_and_exceptions, msm_option_text
def command_lines(found: Found, said: Options) -> list[str]:
    """The command, which first joins captures where several make a link."""
    marker = said.marker.lstrip("-")
    chosen = {
        "--codes": ",".join(said.names), "--msm": said.msm, "--window": said.window,
        "--channels": None if said.channels is None else channels_text(said.channels), "--leap-seconds": said.leap,
    }  # fmt: skip
    words = (f"rtcm2rinex convert --station {said.station} --near {shown_time(said.near)} --made {shown_time(said.made)}"
             f" --marker {'-' * (len(said.marker) - len(marker))}{sh_quoted(marker)} "
             + " ".join(f"{name} {value}" for name, value in chosen.items() if value is not None) + " --with-1012" * said.with_1012
             + " --doppler" * said.doppler)
    cats = ["cat " + " ".join(map(name_of, link)) for link in found.links]
    if len(cats) == 1 < len(found.links[0]):
        return [f"{cats[0]} | {words} stdin"]
    joins = [f"{cat} >joined/{at}.rtcm &&" for at, cat in enumerate(cats, 1) if len(found.links[at - 1]) > 1]
    files = [f"joined/{at}.rtcm" if len(link) > 1 else name_of(link[0]) for at, link in enumerate(found.links, 1)]
    return ["mkdir joined &&"] * bool(joins) + joins + [f"{words} {' '.join(files)}"]


def epochs_of(file: str) -> list[int]:
    """The moments of the records of a file."""
    lines = file.split("END OF HEADER")[1].splitlines()
    times = [(f"{line[2:6]}-{line[7:9]}-{line[10:12]}T{line[13:15]}:{line[16:18]}:{line[19:21].replace(' ', '0')}", line[22:25])
             for line in lines if line.startswith(">")]
    return [moment(time) + int(ms) for time, ms in times]


def gap_lines(epochs: list[int]) -> list[str]:
    """The ten longest steps that are longer than 60 s and than ten intervals, and how many more there are."""
    steps = [(after - before, before, after) for before, after in zip(epochs, epochs[1:])]
    counts = Counter(step for step, *_ in steps)
    interval = min(counts, key=lambda step: (-counts[step], step), default=0)
    gaps = sorted((it for it in steps if it[0] > max(60_000, 10 * interval)), key=lambda it: (-it[0], it[1]))
    lines = [f" gap {shown_time(before)} until {shown_time(after)}" for _, before, after in gaps[:10]]
    return lines + [f" more-gaps {len(gaps) - 10}"] * (len(gaps) > 10)


def kept_places(found: Found, texts: list[bytes]) -> list[int]:
    return [at for at in range(len(texts)) if at not in found.skipped]


def date_lines(found: Found, asked: Asked, texts: list[bytes]) -> list[str]:
    """The captures that tell no date, and the dates that a capture tells and does not have."""
    kept, station = kept_places(found, texts), found.station
    tellings = {at: finding.tellings(asked.now, capture, station) for at, capture in enumerate(asked.captures(texts)) if at in kept}
    for at, epochs in zip(kept, found.epochs):
        if not epochs:
            tellings[at] = finding.tellings_near(asked.now, asked.captures(texts)[at], found.near)
    told = {at: distinct(finding.counting(it, station)) for at, it in tellings.items()}
    passed = {at: [first for of in finding.passed_over(it, station) for first in distinct(of)] for at, it in tellings.items()}
    lines = []
    if asked.wanted.near is None:
        lines += [f" undated {name_of(at)}: dated near the others" for at, epochs in zip(kept, found.epochs) if epochs and not told[at]]
    for at in range(len(texts)):
        lines += [f" undated {name_of(at)}: dated near the others"] * (at in found.unnamed)
        lines += [f" time-falls {name_of(at)}"] * (at in found.falling)
        lines += [f" day-of-1012{date_text(it.fields, it.first, name_of(at))}" for of, it in found.days.items() if of == at]
    firsts = [epochs[0] if epochs else found.near for epochs in found.epochs]
    for at, first in zip(kept, firsts):
        lines += [f" other-date{date_text(it.fields, it.first, name_of(at))}" for it in told[at] + passed[at] if it.first != first]
        lists = [finding.counting(tellings[at], station), *finding.passed_over(tellings[at], station)]
        lines += [f" more-dates in {name_of(at)}"] * any(len(distinct(of)) == 16 for of in lists)
        lines += [f" other-date{line}" for line in to_come_lines(asked.now, asked.captures(texts), at)]
        lines += far_lines(asked.now, asked.captures(texts), at, station)
    return lines


# pins: to_text, greatest_text, leap_words_of, found_leap_words
def leap_lines(found: Found, asked: Asked, texts: list[bytes]) -> list[str]:
    """The captures in which a 1013 of the station tells other leap seconds than those that date GLONASS from the first to the last
    epoch; and those by which GLONASS is right, if they are not given."""
    chosen, lines = found.chosen, []
    epochs = [it for of in found.epochs for it in of]
    least, greatest = (leap_seconds_at(it) if chosen.leap is None else chosen.leap for it in (min(epochs), max(epochs)))
    for at, capture in enumerate(asked.captures(texts)):
        told = [it for it in capture.sent(found.station).leap_seconds if it != NOT_TOLD]
        if GLONASS.letter in chosen.kinds and at not in found.skipped and told and not least <= min(told) <= max(told) <= greatest:
            range_of = f"{min(told)}" if min(told) == max(told) else f"{min(told)} to {max(told)}"
            lines.append(f" other-leap-seconds {range_of} by 1013 in {name_of(at)}")
    is_found = GLONASS.letter in chosen.kinds and chosen.leap is not None and asked.wanted.leap is None
    return lines + [f" leap-seconds {chosen.leap}: by the clocks of GLONASS"] * is_found


def late_lines(found: Found, asked: Asked, due: Conversion) -> list[str]:
    """An epoch far from all others, and how many messages are late, also of those on its link."""
    moment, strays = found.stray or (0, [])
    lines = [f" stray {name_of(at)} {shown_time(moment)}" for at in strays]
    with_stray = {number for number, link in enumerate(found.links, 1) if set(link) & set(strays)}
    told = [line.split() for line in due.report.splitlines()]
    late = dict(line for line in told[-9:] if len(line) == 2)["late"]
    by_stray = sum(line[0] == "link" and line[2] == "late" and int(line[1]) in with_stray for line in told[:-9])
    of_them = f", {by_stray} of them on a link with the stray epoch" if by_stray else ""
    window = asked.window
    text = f" late {late}: observations after {window} newer epochs, and new positions after {window} epochs, are left out"
    return lines + [text + of_them] * (late != "0")


UNPACKED = {"unknown": "", "empty": " is empty", "gzip": " looks like gzip; unpack it: gzip -dc NAME >NAME.rtcm"}


def capture_lines(found: Found, texts: list[bytes]) -> list[str]:
    """The captures that are skipped, those without an epoch or with times that fall, and those with bytes in no frame."""
    looks = {at: look_of(texts[at]) for at in found.skipped if not frames_of(texts[at])}
    lines = [f" skipped {name_of(at)}{UNPACKED.get(looks.get(at), '').replace('NAME', name_of(at))}" for at in found.skipped]
    falls = [at for at, of in zip(kept_places(found, texts), found.epochs) if of != sorted(of)]
    for at in (it for link in found.links for it in link):
        outside = len(texts[at]) - sum(6 + len(it.payload) for it in frames_of(texts[at]))
        lines += [f" {'no-epoch' if at in found.without else 'time-falls'} {name_of(at)}"] * (at in found.without + falls)
        lines += [f" outside-frames {outside} in {name_of(at)}"] * (outside > 0)
    return lines


# ---------------------------------------------------------------- what is not in the file

SYSTEMS = {108: "GLONASS", 109: "Galileo", 110: "SBAS", 111: "QZSS", 112: "BeiDou", 113: "NavIC"}


def system_text(number: int) -> str:
    """The name of the system of a number of observations."""
    return SYSTEMS.get(number // 10, "GLONASS") if number > 1080 or 1009 <= number <= 1012 else "GPS"


# pins: msm_line_of, obs_1004_line, is_gps_system, ended_count_line, long_line, unread_legacy_glonass
def left_out_lines(found: Found, texts: list[bytes], has_doppler: bool) -> list[str]:
    """How many messages are not converted, or without a part: of GPS those of the station, of other systems those of all stations. With
    SBAS and without GPS, 1004 are converted if one has a satellite of SBAS."""
    chosen = found.chosen
    read = [read_message(it.payload, MSMS) for text in texts for it in frames_of(text)]
    own = [it for it in read if isinstance(it, Message) and it.header["station"] == found.station]
    others = Counter(it.number for it in read if isinstance(it, Refusal) and it.fault == "M2")
    gps = {LEGACY, *MSMS}
    others.update(it.header["number"] for it in own if it.header["number"] in gps)
    others.update(it.number for it in read if isinstance(it, Refusal) and it.number in MSMS)  # they tell no station
    told = {*gps, *UNTAKEN, *range(1009, 1013), *(it for it in range(1081, 1138) if 1 <= it % 10 <= 7)}
    is_legacy_taken = GPS.letter in chosen.kinds or any(map(has_sbas, own))
    taken = chosen.numbers if is_legacy_taken else chosen.numbers - {LEGACY}
    numbers = sorted((set(others) & told) - taken, key=lambda it: (system_text(it) != "GPS", it))
    of_gps = [it for it in numbers if it in gps]
    lines = [f" not in the file: GPS {it}, {others[it]} messages" for it in of_gps]
    lines += [] if has_doppler else doppler_lines(found, texts)
    sbas = 0 if SBAS.letter in chosen.kinds else sum(has_sbas(it) for it in own)
    lines += [f" not in the file: SBAS of 1004, {sbas} messages"] * (sbas > 0)
    return lines + [
        f" untaken GLONASS {it} {others[it]}: more than a day" if it == LEGACY_GLONASS and found.is_long
        else f" not in the file: {system_text(it)} {it}, {others[it]} messages"
        for it in numbers
        if it not in of_gps
    ]  # fmt: skip


# pins: doppler_of_system, doppler_line_of
def doppler_lines(found: Found, texts: list[bytes]) -> list[str]:
    """How many MSM5 or MSM7 of the station of each system are converted, which have Doppler."""
    kinds = found.chosen.kinds
    numbers = [number_of(BY_LETTER[it], kinds[it]) for it in LETTERS if kinds.get(it) in (5, 7)]
    counts = Counter(it.header["number"] for it in messages_of(found, texts))
    return [f" not in the file: Doppler of {it}, {counts[it]} messages" for it in numbers if counts[it]]


def messages_of(found: Found, texts: list[bytes]) -> list[Message]:
    """All messages of the station that can be read."""
    read = [read_frame(it.payload) for text in texts for it in frames_of(text)]
    return [it for it in read if isinstance(it, Message) and it.header["station"] == found.station]


def lost_lines(found: Found, asked: Asked, texts: list[bytes]) -> list[str]:
    """What captures have and no file can show."""
    names = NAMES[: len(texts)]
    lines = refused_lines(found, texts, names) + nameless_lines(found, messages_of(found, texts))
    return lines + position_lines(found, asked.captures(texts), names)


# pins: constellation_slots, are_too_many, satellite_of_slot, alike_name, alike_words, told_fields, told_channel, several_words
# pins: is_channel_of_field, own_channel, other_head, own_channels_words
def slot_lines(found: Found) -> list[str]:
    """What is told of slots of GLONASS."""
    slots, lines = found.chosen.slots, []
    if slots is None:
        return []
    lines += [f" channels-alike {channel} {slot_names(its)}" for channel, its in sorted(slots.alike.items())]
    lines += [f" several-channels R{slot:02} {' '.join(map(str, its))}" for slot, its in sorted(slots.several.items())]
    header = "as a header's GLONASS SLOT / FRQ # of the same days has them"
    lines += [f" no-channel {slot_names(slots.without)}: give --channels, {header}"] * bool(slots.without)
    return lines + [f" other-channel R{slot:02} {slots.channels[slot]}: messages tell {' '.join(map(str, its))}"
                    for slot, its in sorted(slots.others.items())]


def slot_names(slots: Iterable[int]) -> str:
    return " ".join(filter(None, map(GLONASS.name, slots)))
