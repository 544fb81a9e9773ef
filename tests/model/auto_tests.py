"""Tests of the slow model of `auto` for several systems, against what was worked by hand.

Prints a line for each test, and last 'N passed, M failed'.
"""

from __future__ import annotations

import sys
from collections import Counter
from typing import Iterable

import worked_rows as rows
from auto_lines import Asked, auto_text
from chains import Date, chains_of, is_wrong, offset_lines, offsets_of, told_offset
from channels import orbit_of, slots_of
from choosing import DATING, Chosen, Wanted, kind_of
from clock_spans import placed
from clocks import DAY_MS, glonass_clock
from finding import Capture, Found, clocks_in, find, own_dates
from mixed_model import convert_mixed
from mixed_sender import with_more
from model import civil, moment
from station import date
from systems import BEIDOU, GALILEO, GLONASS, GPS, QZSS, SBAS, System
from tested import NOON, of_1012_at, one_cell, run_tests, same, test
from wire import WEEK_MS, Message, frame_of

MADE = moment("2024-05-17T13:00:00")
CLOCKS = "GEJSICR"


def epoch(time: int, *sent: tuple[System, int], lost: int = 0) -> bytes:
    """A chain of MSM7 of these systems, whose clocks are ahead by so many ms, of which so many at its end are lost. Channels are -5."""
    last = len(sent) - 1
    return b"".join(
        one_cell(system, 7, time + ahead, 10, next(iter(system.signals.values())) or 0, more=int(at < last), channel=2, cnr=160)
        for at, (system, ahead) in enumerate(sent[: len(sent) - lost])
    )


def found_in(*texts: bytes, **wanted: object) -> Found:
    return find(list(texts), MADE, Wanted(**{"near": NOON, **wanted}))


def chosen_in(*texts: bytes, **wanted: object) -> Chosen:
    return found_in(*texts, **wanted).chosen


@test
def seven_systems_in_one_command() -> None:
    payloads = [bytes.fromhex(row.payload) for row in rows.ROWS if row.kind == 7]
    text = b"".join(frame_of(with_more(it, at < len(payloads))) for at, it in enumerate(payloads, 1))
    for names in (None, tuple(rows.CODES.split(",")[::-1])):
        asked = Asked(MADE, "BASE", 64, Wanted(near=NOON, names=names))
        found = find([text], MADE, asked.wanted)
        options = asked.options(found)
        same("codes", ",".join(options.names), rows.CODES)
        same("kinds and channels", (options.msm, options.channels, options.leap), ("7", {10: -5}, None))
        due = convert_mixed(options, [text])
        same("the file", due.file, rows.FILE)
        lines = auto_text(found, asked, due, [text]).splitlines()
        command = "rtcm2rinex convert --station 1 --near 2024-05-17T12:00:00 --made 2024-05-17T13:00:00 --marker BASE --codes "
        same("the command", lines[1], f"{command}{rows.CODES} --msm 7 --window 64 --channels 10:-5 link1")
        same("lines", [it.split(":")[0] for it in lines[11:]], [" from 2024-05-17T12", " no-position", *[" not in the file"] * 7])


@test
def clocks_in_chains() -> None:
    sent = [(GPS, 0), (GLONASS, 0), (QZSS, 0), (BEIDOU, 14_000)]
    text = b"".join(epoch(NOON + 1000 * at, *sent) for at in range(257))
    chosen = chosen_in(text)
    same("BeiDou on GPS time", (chosen.clocks, chosen.wrong, chosen.letters), ([" clock C +14.000 257 of 257"], "C", "GRJ"))
    same("codes that are named", chosen_in(text, names=("1C", "C2I")).letters, "GC")
    same("systems that are named", chosen_in(text, systems="GJ").clocks, [])
    cases = (
        (GLONASS, 1, [" clock R +0.001 1 of 1"], ""), (GLONASS, -86_400_000, [" clock R -86400.000 1 of 1"], "R"),
        (GALILEO, 499, [" clock E +0.499 1 of 1"], ""), (GALILEO, 500, [" clock E +0.500 1 of 1"], "E"),
        (SBAS, -500, [" clock S -0.500 1 of 1"], "S"), (BEIDOU, WEEK_MS // 2, [" clock C +302400.000 1 of 1"], "C"), (QZSS, 0, [], ""),
    )  # fmt: skip
    for system, ahead, lines, wrong in cases:
        for sent in ([(GPS, 0), (system, ahead)], [(system, ahead), (GPS, 0)]):
            chosen = chosen_in(epoch(NOON, *sent))
            same(f"{system.letter} {ahead}", (chosen.clocks, chosen.wrong), (lines, wrong))


@test
def offsets_that_are_told() -> None:
    week, rows_due = WEEK_MS, (
        ({0: 5}, None, False), ({0: 5, 500: 5}, 500, False), ({0: 5, 500: 6}, 500, True), ({0: 0, 499: 6}, 499, False),
        ({1000: 3, WEEK_MS - 500: 3}, WEEK_MS - 500, True), ({700: 3, WEEK_MS - 700: 3}, WEEK_MS - 700, True),
        ({1: 2, 1000: 3, 0: 2}, 1000, True),
    )  # fmt: skip
    for counts, told, wrong in rows_due:
        got = (told_offset(Counter(counts)), is_wrong(Counter(counts)))
        same(f"{counts}", got, (told, wrong))
    same("a line", offset_lines("S", Counter({week - 700: 3, 700: 3, 0: 1})), [" clock S -0.700 3 of 7"])


@test
def the_clock_of_a_chain() -> None:
    """It is the first of G, E, J, S and I; R and C alone are no chain, and neither is one that has not ended."""

    def counted(*sent: tuple[System, int]) -> dict[str, dict[int, int]]:
        messages = Capture.of(epoch(NOON, *sent), "G").messages()
        return {letter: dict(its) for letter, its in offsets_of(messages, Date(NOON)).items() if its}

    same("of GPS", counted((GLONASS, 3), (GALILEO, 1), (GPS, 0)), {"R": {3: 1}, "E": {1: 1}})
    same("of Galileo", counted((GLONASS, 3), (SBAS, 2), (GALILEO, 1)), {"R": {2: 1}, "S": {1: 1}})
    same("of none", counted((GLONASS, 3), (BEIDOU, 2)), {})
    text = epoch(NOON, (GPS, 0), (GALILEO, 7), (BEIDOU, 5))
    whole = Capture.of(text, "G").messages()
    same("without its end", {it for it in offsets_of(whole[:2], None).values() if it}, set())


@test
def chains_that_are_cut_off() -> None:
    """A chain of which the end is lost is compared with nothing, once a system tells another time of day than before in it."""

    def lengths(*sent: tuple[int, int, int]) -> list[int]:
        """Of numbers, clocks, and whether more messages follow."""
        messages = [Message({"number": number, "tow": tow, "multiple_message": more}) for number, tow, more in sent]
        return [len(it) for it in chains_of(messages)]

    moscow, day = glonass_clock(1, 3_600_000), DAY_MS + 7_200_000
    second = (1077, day + 1000, 1), (1087, moscow + 1000, 0)
    same("its end is lost", lengths((1077, day, 1), *second), [2])
    same("two messages of one system", lengths((1077, day, 1), (1077, day, 1), (1087, moscow, 1), (1087, moscow, 0)), [4])
    same("kinds of one system", lengths((1074, day, 1), (1077, day + 1, 1), (1087, moscow, 0)), [2])
    same("the same time of another day", lengths((1077, day, 1), (1077, day + DAY_MS, 1), (1087, glonass_clock(7, 3_600_000), 1),
                                                 (1087, moscow, 0)), [4])
    same("a leap second", lengths((1087, glonass_clock(0, DAY_MS + 5), 1), (1087, glonass_clock(1, 5), 1), (1077, day, 0)), [3])
    same("other systems apart", lengths((1077, day, 1), (1097, day + 1000, 1), (1127, day, 0)), [3])
    same("behind the end", lengths((1077, day, 1), (1087, moscow, 0), *second), [2, 2])
    same("a system that is sent seldom", lengths(*((1077, day + at, 1) for at in range(5)), (1087, moscow + 4, 0)), [2])
    same("the last one alone", lengths((1097, day, 1), (1097, day + 1, 0)), [1])
    # a clock that is passed over, since 32 came before it, begins no epoch
    many = [(1077, day, 1)] * 32
    same("32 clocks", lengths(*many, (1097, day, 1), (1097, day + 1, 1), (1077, day, 0)), [32])
    same("31 clocks", lengths(*many[1:], (1097, day, 1), (1097, day + 1, 1), (1077, day, 0)), [2])
    of_legacy = ((1012, glonass_clock(7, 5), 1), (1004, day, 1), (1012, glonass_clock(7, 6), 0))
    messages = [Message({"number": number, "tow": tow, "synchronous": more}) for number, tow, more in of_legacy]
    same("a 1012", [len(it) for it in chains_of(messages)], [1])


@test
def no_clock_across_a_lost_end() -> None:
    """BeiDou ends each epoch of Galileo, and one is lost; or GLONASS those of GPS, and each second one is. All clocks are right."""
    sent = [(GALILEO, 0), (BEIDOU, 0)]
    chosen = chosen_in(b"".join(epoch(NOON + 1000 * at, *sent, lost=int(at == 30)) for at in range(60)))
    same("one lost", (chosen.clocks, chosen.wrong, chosen.letters), ([], "", "EC"))
    sent = [(GPS, 0), (GLONASS, 0)]
    chosen = chosen_in(b"".join(epoch(NOON + 1000 * at, *sent, lost=1 - at % 2) for at in range(20)))
    same("each second one", (chosen.clocks, chosen.leap, chosen.unchecked, chosen.letters), ([], None, "", "GR"))
    ended = [epoch(NOON, (GLONASS, 0), (GALILEO, 0), (BEIDOU, 0), lost=1), epoch(NOON + 1000, (GLONASS, 0), (GALILEO, 5), (BEIDOU, 0))]
    chosen = chosen_in(b"".join(ended))
    same("of three systems", chosen.clocks, [" clock R -0.005 1 of 1", " clock C -0.005 1 of 1"])


@test
def leap_seconds_by_clocks() -> None:
    ahead = [(GPS, 0), (GLONASS, 1000)]
    text = b"".join(epoch(NOON + 1000 * at, *ahead) for at in range(3))
    chosen = chosen_in(text, leap=17)
    same("given", (chosen.leap, chosen.clocks, chosen.letters), (17, [], "GR"))
    same("given and wrong", chosen_in(text, leap=18).wrong, "R")
    same("found", (chosen_in(text).leap, chosen_in(text).clocks), (17, []))
    same("behind", chosen_in(epoch(NOON, (GPS, 0), (GLONASS, -1000))).leap, 19)
    mixed = [epoch(NOON, *ahead), epoch(NOON + 5000, (GPS, 0), (GLONASS, 2000))]
    same("captures that differ", chosen_in(*mixed).leap, None)
    same("no whole second", chosen_in(epoch(NOON, (GPS, 0), (GLONASS, 1001))).wrong, "R")


@test
def clocks_over_a_leap_second() -> None:
    """That of 2016 is 00:00:17 of the first day of 2017 in GPS time. Clocks are compared with the leap seconds of their days."""
    start = moment("2017-01-01T00:00:00")

    def chosen(*epochs: tuple[int, int]) -> Chosen:
        text = b"".join(epoch(start + 1000 * second, (GPS, 0), (GLONASS, ahead)) for second, ahead in epochs)
        return chosen_in(text, near=start + 16_000)

    right = chosen((15, 0), (16, 0), (18, 0), (19, 0))
    same("right", (right.clocks, right.wrong, right.leap), ([], "", None))
    late = chosen((16, 0), (18, 1000), (19, 1000))
    same("it does not know of it", (late.clocks, late.wrong, late.leap), ([" clock R +1.000 2 of 3"], "R", None))
    early = chosen((14, -1000), (15, -1000), (18, 0))
    same("it knows of it too early", (early.clocks, early.wrong), ([" clock R -1.000 2 of 3"], "R"))


@test
def kinds_by_epochs() -> None:
    def link(*kinds: int, system: System = GALILEO) -> list:
        texts = (one_cell(system, kind, NOON + 1000 * at, 1, 2, cnr=40) for at, kind in enumerate(kinds))
        return Capture.of(b"".join(texts), "G").messages()

    cases: Iterable[tuple[list, int | None]] = (
        ([link(4, 4, 7)], 4), ([link(4, 7)], 7), ([link(4, 4, 7), link(7, 7, 7, 4)], 7), ([link(7, 7), link(7, 7), link(4, 4, 4)], 4),
        ([link(5)], 5), ([[]], None),
    )  # fmt: skip
    for links, due in cases:
        same("kind", kind_of(links, "E"), due)
    text = one_cell(GPS, 4, NOON, 1, 2, more=1, cnr=40) + one_cell(GALILEO, 7, NOON, 1, 2, more=1, cnr=160)
    text += one_cell(BEIDOU, 4, NOON, 1, 2, cnr=40)
    for wanted, due in (({}, "4,E7"), ({"systems": "EC"}, "7,C4"), ({"systems": "GC"}, "4"), ({"msm": 7}, "7"), ({"names": ("1C",)}, "4")):
        same(f"{wanted}", chosen_in(text, **wanted).msm, due)
    same("of one kind", chosen_in(text, msm=7).letters, "E")


@test
def channels_of_slots() -> None:
    told = {1: Counter({3: 2, -7: 2, 6: 1}), 2: Counter({1: 3}), 5: Counter({6: 1})}
    orbits = {2: Counter({2: 9}), 3: Counter({-1: 1, -4: 1}), 9: Counter({0: 1})}
    got = slots_of((4, 3, 2, 1, 1), told, orbits, None)
    same("channels", (got.channels, got.by_orbits, got.without), ({1: -7, 2: 1, 3: -4}, [3], [4]))
    same("several", got.several, {1: [-7, 3, 6], 3: [-4, -1]})
    got = slots_of((1, 4), told, orbits, {4: 6, 7: 1})
    same("given", (got.channels, got.without), ({4: 6, 7: 1, 1: -7}, []))
    alike = {slot: Counter({-7: 1}) for slot in (1, 2, 3, 25)}
    got = slots_of((1, 2, 3, 25), alike, orbits, None)
    same("alike", (got.alike, got.channels), ({-7: [1, 2, 3]}, {1: -7, 2: 2, 3: -4, 25: -7}))
    same("alike and of 1020", (got.several, got.others), ({2: [-7, 2], 3: [-7, -4, -1]}, {}))
    got = slots_of((1, 5, 9), told, orbits, {1: 0, 5: 0, 9: 4})
    same("given otherwise", (got.several, got.others), ({1: [-7, 3, 6]}, {1: [-7, 3, 6], 5: [6]}))
    above = {8: Counter({10: 2})}
    got = slots_of((8,), above, {8: Counter({3: 1})}, None)
    same("above +6", (got.channels, got.several, got.others), ({8: 3}, {8: [3, 10]}, {}))
    got = slots_of((8,), above, {}, None)
    same("above +6 alone", (got.without, got.several), ([8], {}))
    same("above +6 and given", slots_of((8,), above, {}, {8: 3}).others, {8: [10]})
    same("two alike", slots_of((1, 2, 25), alike, orbits, None).alike, {})
    same("a 1020", orbit_of(bytes.fromhex("3FC050") + bytes(42)), (1, 1))
    same("a 1020 of +13", orbit_of(bytes.fromhex("3FC068") + bytes(42)), (1, 13))
    same("a 1020 of none", orbit_of(bytes.fromhex("3FC06A") + bytes(42)), None)
    same("one that is short", orbit_of(bytes.fromhex("3FC050") + bytes(41)), None)


@test
def channels_in_the_command() -> None:
    text = epoch(NOON, (GPS, 0), (GLONASS, 0))
    same("told", chosen_in(text).slots.channels, {10: -5})
    same("given", chosen_in(text, channels={10: 1, 3: 2}).slots.channels, {10: 1, 3: 2})
    unknown = one_cell(GPS, 7, NOON, 1, 2, more=1, cnr=40) + one_cell(GLONASS, 4, NOON, 10, 2, cnr=40)
    orbit = frame_of(bytes.fromhex("3FC288") + bytes(42))  # slot 10
    slots = chosen_in(unknown).slots
    same("none", (slots.channels, slots.without), ({}, [10]))
    same("a code that is not listed", chosen_in(unknown, names=("1C", "R2P")).slots.without, [10])
    same("a 1020", chosen_in(unknown + orbit).slots.channels, {10: -3})
    same("no code of it", chosen_in(unknown, systems="G").slots, None)


@test
def a_1012_before_the_first_epoch() -> None:
    """At 02:16:00, behind a 1013 of 02:15:42 in UTC or none; an epoch follows. Saturday is day 58,873."""
    saturday, sunday = moment("2020-01-25T02:16:00"), moment("2020-01-26T02:16:00")
    rows_due = (
        # without a date it is the nearest 02:16:00
        (None, "12:00:00", saturday), (None, "15:00:00", sunday),
        (58_873, "12:00:00", saturday), (58_873, "15:00:00", saturday),
        # by this date it would come after the epoch, so that tells nothing
        (58_874, "12:00:00", saturday), (58_874, "15:00:00", sunday),
        # by this one it came a day before
        (58_872, "12:00:00", saturday - DAY_MS),
    )  # fmt: skip
    for day, time, due in rows_due:
        epoch_at = moment(f"2020-01-25T{time}")
        text = b"" if day is None else date(8_142, day, 1)
        entry = {"slot": 3, "channel": 7, "l1_cnr": 160}
        text += of_1012_at(saturday, entry) + one_cell(GPS, 7, epoch_at, 1, 2, cnr=160)
        for behind in ([], [epoch_at]):
            capture = Capture.of(text + b"".join(of_1012_at(it, entry) for it in behind), DATING)
            clocks = clocks_in(capture, 1, [epoch_at], own_dates(MADE, capture, 1, None))
            got = placed("day", clocks["day"], None, epoch_at, 18)
            same(f"{day} {time}", [*map(civil, got)], [*map(civil, [due, *behind])])


if __name__ == "__main__":
    sys.exit(run_tests())
