"""Captures of one station, an hour each, as a network keeps them.

    captures.py FOLDER FROM HOURS INTERVAL KIND..

FROM is a GPS time, as 2024-05-17T11:00:00, INTERVAL in seconds. The captures go to FOLDER/link1 and so on, and are named
after the UTC hour in which their bytes came, so each begins 18 seconds and a part of a frame after its GPS hour. Its time is
that of its end. Kinds:

    pair      two links, each of which lacks some frames that the other one has
    gps       captures that begin a part of a frame after their GPS hour, and not 18 seconds later
    overlap   captures that begin 1,000 bytes before the end of the one before
    rolls     legacy phases that run through the roll of 1,500 cycles
    returns   a satellite that is away for three hours and comes back with a slip
    foreign   messages of the station 2004; else they are of 2003
    elsewhere another site with the same station number: a position 10 km away, and other strengths
    nearby    a position 0.5 m away
    jump      ranges of the 1074 of 12:05:00 that are 35 m longer
    steady    no slip at 12:03:30, at which G08 has one
    gap       no epoch from 12:16:30 to 12:29:00, longer than a 1074 tells of lock
    1077      a 1077 after each 1074, of the same cells, whose phases are greater by a quarter of a step of the 1074
    R10, E11  and other names of tests/model/worked_rows.py: an MSM of this satellite in each epoch, with the cell of its row, whose
              values were worked by hand. R10:15 tells 15 in place of the channel + 7, and R26 is another slot with the cell of R10.
              C41@14000 has a clock that is 14,000 ms ahead
    1012      a 1012 of the slot 10 in each epoch, with a cell of 1C that was worked by hand: its channel is -5, its range
              33 * 599,584.916 m + 14,649,591 * 0.02 m, its phase the same in waves of 1,599.1875 MHz, and its strength 150 / 4 dB-Hz
    unchained no message tells that another one of the epoch follows; else each but the last does, so that `summary` compares their clocks
    part=N    of the clocks that are ahead only those of every N-th epoch are
    until=H   no MSM of other systems from the hour H of the day on
    alone     no messages of GPS

The epochs of jump, steady and gap are those of captures from 11:00 on, every 30 s. A 1004 and a 1074 of an epoch have the same ranges,
phases and slips of the code 1C, in their own units.
"""

from __future__ import annotations

import calendar
import os
import re
import sys
import time
from collections.abc import Iterator
from pathlib import Path

sys.path.insert(0, str(Path(__file__).resolve().parents[2] / "model"))

from clocks import clock_of, glonass_parts  # noqa: E402
from msm import HEADER_1012, SATELLITE_1012, payload_of_msm, type_of  # noqa: E402
from streams import SATELLITES, STATION, legacy, msm, point  # noqa: E402
from systems import GLONASS  # noqa: E402
from tested import message_of_row, row_named  # noqa: E402
from wire import WEEK_MS, BitWriter, Message, frame_of, payload_of  # noqa: E402
from worked_rows import ROWS  # noqa: E402

GPS_BEGIN = calendar.timegm((1980, 1, 6, 0, 0, 0))
LEAP_SECONDS = 18
DELAY = 0.4  # seconds from an epoch to its arrival
LIGHT_MS = 299_792.458  # m that light goes in a millisecond
FRACTIONS, FINE = 1 << 10, 1 << 29  # steps of a millisecond, of the rough range of an MSM and of the fine phase of a 1074
RANGE, PHASE = 0.02, 0.0005  # m, of the units of DF011 and DF012
ROLL = 732_631  # 1,500 cycles of L2 in units of DF018
DRIFT = 31_000  # of a phase from epoch to epoch, in the same units
LONGEST_LOCK = 704  # DF407
STEADY, JUMP, GAP = 127, 130, range(153, 179)  # numbers of epochs
OTHER = r"([RECJSI]\d\d)(?::(\d+))?(?:@(-?\d+))?"  # a word of a satellite of another system


def fine_phase(at: int, rank: int) -> int:
    """The fine phase of a cell."""
    return 17 * at % 4001 + rank


def same_place(satellite: int, fine: int) -> tuple[int, int]:
    """The range and the offset of the phase of a 1004 that say what the rough range and the fine phase of a 1074 say."""
    rough = 12 * satellite * LIGHT_MS / FRACTIONS  # as `msm` has it
    code = round(rough / RANGE)
    return code, round((rough + fine * LIGHT_MS / FINE - code * RANGE) / PHASE)


def finer(newer: Message, finest: Message) -> Message:
    """A 1077 with nearly the values of a 1074, in its own units."""
    for old, new in zip(newer.cells, finest.cells):
        new.update(fine_range=32 * old["fine_range"], fine_phase=4 * old["fine_phase"] + 1, cnr=16 * old["cnr"])
        new["lock"] = LONGEST_LOCK if old["lock"] else 0
    return finest


def of_other_system(word: str, seconds: int, station: int) -> Message:
    """The MSM of a satellite of another system, by a word like R10, R10:15 or C41@14000."""
    match = re.fullmatch(OTHER, word)
    assert match
    name, told, ahead = match.groups()
    row = next((it for it in ROWS if it.name == name), row_named("R10"))
    message = message_of_row(row._replace(name=name), int(told) if told else None)
    time_ms = (seconds - GPS_BEGIN) * 1000 + int(ahead or 0)
    message.header.update(station=station, tow=clock_of(type_of(message)[0], time_ms))
    return message


def others_of(kinds: set[str], seconds: int, station: int, at: int) -> list[Message]:
    """The MSM of other systems in an epoch."""
    ends, parts = ([int(it.partition("=")[2]) for it in kinds if it.startswith(word)] for word in ("until=", "part="))
    words = [] if ends and seconds // 3600 % 24 >= ends[0] else sorted(it for it in kinds if re.fullmatch(OTHER, it))
    is_ahead = not parts or at % parts[0] == 0
    return [of_other_system(it if is_ahead else it.partition("@")[0], seconds, station) for it in words]


def payload_of_1012(seconds: int, station: int) -> bytes:
    """A 1012 of an epoch."""
    _, time_of_day = glonass_parts(clock_of(GLONASS, (seconds - GPS_BEGIN) * 1000))
    header = {"number": 1012, "station": station, "clock": time_of_day, "satellites": 1}
    satellite = {"slot": 10, "channel": 2, "l1_range": 14_649_591, "l1_lock": 127, "modulus_ambiguity": 33, "l1_cnr": 150}
    bits = BitWriter()
    for fields, values in ((HEADER_1012, header), (SATELLITE_1012, satellite)):
        bits.put_row(fields, {it.name: values.get(it.name, 0) for it in fields})
    return bits.to_bytes()


def chain(messages: list[Message], goes_on: bool) -> None:
    """Lets the messages of an epoch tell that another one of the epoch follows, but for the last, unless it goes on."""
    for it in messages if goes_on else messages[:-1]:
        it.header["synchronous" if "synchronous" in it.header else "multiple_message"] = 1


def frames(begin: int, count: int, interval: int, kinds: set[str]) -> Iterator[tuple[float, bytes]]:
    """When each frame came, as GPS time in seconds, and its bytes."""
    station = STATION + ("foreign" in kinds)
    reference = point()
    reference.header["station"] = station
    reference.header["x"] += 100_000_000 * ("elsewhere" in kinds) + 5_000 * ("nearby" in kinds)  # in units of 0.0001 m
    for at in range(count):
        if "gap" in kinds and at in GAP:
            continue
        seconds = begin + at * interval
        tow = (seconds - GPS_BEGIN) * 1000 % WEEK_MS
        hour = seconds // 3600
        seen = SATELLITES[1:] if "returns" in kinds and hour % 6 in (2, 3, 4) else SATELLITES
        older, newer = legacy(tow, seen, station), msm(tow, seen)
        newer.header["station"] = station
        if "elsewhere" in kinds:
            older, newer = legacy(tow, seen, station), msm(tow, seen, cnr=20)
        for rank, row in enumerate(older.satellites):
            row["l1_range"], row["l1_offset"] = same_place(row["satellite"], fine_phase(at, 2 * rank))
            drift = DRIFT * at if "rolls" in kinds else 13 * at % 1000
            row["l2_offset"] = (drift + 7_000 * rank) % ROLL - ROLL // 2
            # Slips on the first epoch of an hour, within an hour, and on the first epoch of a satellite that comes back.
            is_first = seconds % 3600 == 0 and hour % len(seen) == rank
            returns = seen == SATELLITES and rank == 0 and seconds % 3600 == 0 and hour % 6 == 5 and "returns" in kinds
            if (is_first or returns or at % 41 == 3 + rank) and not ("steady" in kinds and at == STEADY):
                row["l1_lock"] = 0
        for rank, cell in enumerate(newer.cells):
            cell["fine_phase"] = fine_phase(at, rank)
            cell["fine_range"] = 2_000 * ("jump" in kinds and at == JUMP)
            is_5x = rank % 2
            is_first = seconds % 3600 == 0 and hour % len(newer.cells) == rank
            if (is_first or at % 37 == rank) if is_5x else older.satellites[rank // 2]["l1_lock"] == 0:
                cell["lock"] = 0
        messages = [] if "alone" in kinds else [older, newer]
        messages += [finer(newer, msm(tow, seen, number=1077))] if "1077" in kinds else []
        others = others_of(kinds, seconds, station, at)
        if "unchained" not in kinds:
            chain([*messages, *others], "1012" in kinds)
        first = [reference] if at % 20 == 0 else []
        legacy_others = [payload_of_1012(seconds, station)] if "1012" in kinds else []
        for payload in [*map(payload_of, [*first, *messages]), *map(payload_of_msm, others), *legacy_others]:
            yield seconds + DELAY, frame_of(payload)


def is_lost(place: int, link: int) -> bool:
    """Each frame is lost on one of the two links at most."""
    return place % 2 == link and place * 7 % 5 < 2


def write_link(folder: Path, stream: list[tuple[float, bytes]], first_hour: int, hours: int, kinds: set[str]) -> None:
    folder.mkdir(parents=True, exist_ok=True)
    leap = 0 if "gps" in kinds else LEAP_SECONDS
    overlap = 1000 if "overlap" in kinds else 0
    text = b"".join(frame for _, frame in stream)
    cuts = [0]
    for hour in range(1, hours):
        end = first_hour + 3600 * hour + leap
        cuts.append(sum(len(frame) for came, frame in stream if came < end) + 20)
    cuts.append(len(text))
    for hour in range(hours):
        begin = first_hour + 3600 * hour
        path = folder / time.strftime("%Y%j%H00.rtcm", time.gmtime(begin))
        path.write_bytes(text[max(0, cuts[hour] - overlap):cuts[hour + 1]])
        os.utime(path, (begin + 3600, begin + 3600))


def main() -> None:
    folder, begin, hours, interval, *kinds = sys.argv[1:]
    first = calendar.timegm(time.strptime(begin, "%Y-%m-%dT%H:%M:%S"))
    count = int(hours) * 3600 // int(interval)
    stream = list(frames(first, count, int(interval), set(kinds)))
    for link in [1, 2] if "pair" in kinds else [1]:
        left = [it for place, it in enumerate(stream) if "pair" not in kinds or not is_lost(place, link % 2)]
        write_link(Path(folder) / f"link{link}", left, first, int(hours), set(kinds))


main()
