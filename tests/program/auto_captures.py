"""Writes the captures of auto.sh into the folder that it is run in, and the files that the slow model writes of some of them."""

import sys
from pathlib import Path

sys.path.insert(0, str(Path(__file__).resolve().parents[1] / "model"))

import model  # noqa: E402
from clocks import UNKNOWN_DAY, clock_of, glonass_clock  # noqa: E402
from finding import EPHEMERIS, OTHER_EPHEMERIDES, TEXT  # noqa: E402
from msm import message_of, payload_of_msm  # noqa: E402
from systems import BEIDOU, GLONASS  # noqa: E402
from station import STATION, capture, date, frame_of_row, legacy_of, msm_of, point  # noqa: E402
from wire import WEEK_MS, frame_of  # noqa: E402

DAY = 5 * 86_400  # 2024-05-17 in its week, in s
SATELLITE = {"l1_range": 5_000_000, "modulus_ambiguity": 70, "l1_cnr": 180, "l2_code": 3, "l2_cnr": 140, "l1_lock": 5, "l2_lock": 5}
MADE = model.moment("2024-06-01T13:00:00")
SUNDAY = model.moment("2024-05-12T00:00:00")


def epochs(*seconds, satellites=(5, 7), **fields):
    """A 1004 of each second of the week."""
    rows = [{**SATELLITE, "satellite": it} for it in satellites]
    return b"".join(capture(legacy_of(round(1000 * it) % WEEK_MS, rows, **fields)) for it in seconds)


def week(number, second):
    return frame_of_row(EPHEMERIS, number=1019, satellite=5, week=number, toe=second // 16)


def system_week(number, week, second):
    """A 1042, 1045 or 1046 of this week of its system."""
    fields, unit, _, _ = OTHER_EPHEMERIDES[number]
    return frame_of_row(fields, number=number, satellite=5, system_week=week, toe=1000 * second // unit)


def text_date(second, day, station=2003):
    """A 1029 without a text."""
    return frame_of_row(TEXT, number=1029, station=station, day=day, second=second)


def place(x=0, **fields):
    return capture(point(1005, x=11_141_045_999 + x, **fields))


def unread(number):
    """A frame with a message of this number that is not converted: a 1012 without a satellite, or else a number alone."""
    return frame_of((number << 52).to_bytes(8, "big") if number == 1012 else (number << 4).to_bytes(2, "big"))


def cell_of(second, number):
    return capture(msm_of(1000 * second, {5: (70, 0)}, {(5, 2): {"cnr": 40}}, number))


def other_cells(number, tow, *cells, **satellite):
    """An MSM of another system than GPS, of these cells by satellite and signal."""
    rows = {bit: {"rough_ms": 70, **satellite} for bit, _ in cells}
    return frame_of(payload_of_msm(message_of({"number": number, "station": STATION, "tow": tow}, rows, {it: {"cnr": 40} for it in cells})))


def without_epochs(system, number, *seconds):
    """An MSM of GLONASS or BeiDou of each second of the week, with a cell of satellite 3."""
    return b"".join(other_cells(number, clock_of(system, SUNDAY + 1000 * it), (3, 2)) for it in seconds)


def glonass(*seconds):
    return without_epochs(GLONASS, 1084, *seconds)


def equipment(number, *fields, station=2003):
    """A 1007, 1008 or 1033: a number is a byte, a text stands behind its count of bytes."""
    told = b"".join(bytes([it]) if isinstance(it, int) else bytes([len(it)]) + it for it in fields)
    return frame_of((number << 12 | station).to_bytes(3, "big") + told)


NOON = DAY + 43_200
ONE = date(43_200) + epochs(NOON, NOON + 1)
BASE = (Path(__file__).resolve().parents[2] / "examples/base.rtcm").read_bytes()
CAPTURES = {
    "one": ONE,
    "one.nmea": b"$GPGGA,120000,,,,,0*4A\r\n".join((b"", date(43_200), epochs(NOON), epochs(NOON + 1), b"")),
    "nmea": b"$GPGGA,120000,,,,,0*4A\r\n",
    # a frame of 46 bytes whose last byte is another one, and one of 25 bytes without its last five
    "bad_frame": ONE[:-1] + bytes([ONE[-1] ^ 1]),
    "cut_place": capture(point(1005)) + capture(point(1005))[:-5],
    "empty": b"",
    "zip": b"PK\3\4",
    "sbf": b"$@\x12\x34\xAB\x0F",
    "novatel": b"\xAA\x44\x12\x1C\x2B\0",
    "jps": b"JP055RLOGF JPS ALPHA",
    "text": b"D30013 3ED7",
    "position": place(),
    "positions": place(1_000_001, station=7) + place(),
    "far": place(1_000_001),
    # a station that moves within a capture, from a 1005 to a 1006; one that sends zeros first; and one that moves by 1 m after three epochs
    "moves": date(43_200) + place() + epochs(NOON) + capture(point(1006, x=11_142_046_000)) + epochs(NOON + 1),
    "zeros": date(43_200) + capture(point(1005, x=0, y=0, z=0)) + epochs(NOON) + place(),
    "moves_late": date(43_200) + place() + epochs(NOON, NOON + 1, NOON + 2) + place(10_000),
    # a capture of the station without an epoch or a position
    "equipment_alone": date(43_260) + equipment(1033, b"TRM55971.00     NONE", 0, b"144", b"TRIMBLE NETR9", b"4.48", b"5148"),
    "far_and_later": date(43_220) + place(1_000_001) + epochs(NOON + 20),
    "undated": epochs(NOON),
    "later": epochs(NOON + 2, NOON + 3),
    "stations": ONE + epochs(NOON, station=7),
    "foreign": ONE + place(station=7) + date(43_200, 60_000, 7),
    "unread": b"".join(
        unread(it)
        for it in (1001, *[1003] * 12, 1072, 1009, 1012, *range(1081, 1132, 10), *range(1087, 1138, 10))),
    # a 1004 and MSM of GPS that end behind their numbers
    "short_msm": ONE + unread(1077) + unread(1076) + unread(1077),
    "only_short": unread(1004) + unread(1077) + unread(1077),
    # numbers that no message has
    "reserved": b"".join(frame_of((it << 4).to_bytes(2, "big")) for it in range(1080, 1139) if it % 10 in (8, 9, 0)),
    "differ": ONE + date(43_202, 60_440) + week(10, NOON),
    # sessions of two weeks in one capture: the second one tells its date after two epochs, or before the first, or after a gap
    # that is longer than a step back in the first session
    "sessions": ONE + epochs(NOON, NOON + 1) + date(43_201, 60_454) + epochs(NOON + 2),
    "again": ONE + text_date(43_200, 60_454) + epochs(NOON, NOON + 1),
    "jumps": date(43_200) + epochs(NOON, NOON + 1, NOON, NOON + 3_600) + date(46_800, 60_454) + epochs(NOON + 3_601),
    # a step of 60 s, and one that is a ms longer; two steps back that are alike; and one before and one behind the second date
    "minute": date(43_200) + epochs(NOON, NOON + 60) + date(43_260, 60_454),
    "over_minute": date(43_200) + epochs(NOON, NOON + 60.001) + date(43_260, 60_454),
    "alike": date(43_200) + epochs(NOON + 2, NOON + 1, NOON + 2, NOON + 1) + date(43_201, 60_454),
    "as_great": date(43_200) + epochs(NOON + 2, NOON + 1) + date(43_201, 60_454) + epochs(NOON),
    # 24 bytes of NMEA and the head of a frame of 1,006 bytes that isn't there, before the second date
    "among_others": ONE + b"$GPGGA,120000,,,,,0*4A\r\n\xD3\x03\xE8" + date(43_202, 60_440),
    "two_before": date(43_200) + date(43_200, 60_454) + epochs(NOON),
    "other_week": ONE + week(2313 % 1024, NOON),
    "same_week": ONE + week(2314 % 1024, NOON),
    "weeks": week(2314 % 1024, NOON) + week(2313 % 1024, NOON) + epochs(NOON),
    "by_week": week(2314 % 1024, NOON) + epochs(NOON),
    # 2024-05-17 is of week 2314 of GPS, 1290 of Galileo and 958 of BeiDou; and week 1290 of GPS is 266 of Galileo
    "by_galileo": system_week(1045, 1290, NOON) + epochs(NOON),
    "by_galileo_later": epochs(NOON) + system_week(1046, 1290, NOON),
    "by_beidou": system_week(1042, 958, NOON) + system_week(1046, 1290, NOON) + epochs(NOON),
    "two_system_weeks": system_week(1042, 958, NOON) + system_week(1046, 1289, NOON) + epochs(NOON),
    "by_other_and_galileo": system_week(1045, 1289, NOON) + date(43_200, station=7) + epochs(NOON),
    "same_system_week": week(2314 % 1024, NOON) + system_week(1045, 1290, NOON) + epochs(NOON),
    "rolled_over": week(2314 % 1024, NOON) + system_week(1045, 266, NOON) + epochs(NOON),
    "own_and_rolled_over": week(2314 % 1024, NOON) + system_week(1045, 266, NOON) + ONE,
    "galileo_place": system_week(1045, 1290, NOON) + place(),
    "last_week": week(2313 % 1024, NOON) + epochs(NOON + 2),
    "half_week": week(2315 % 1024, 172_800) + epochs(172_800),
    "over_half_week": week(2315 % 1024, 172_800) + epochs(172_801),
    "early_week": week(2, 0) + epochs(60),
    "by_other": date(43_200, station=7) + epochs(NOON),
    "passed_over": date(43_200, 60_500) + date(43_200, 40_000) + date(86_401) + week(10, 604_784) + epochs(10),
    # dates of another station, each a week before the one that is told before it
    "fifteen_weeks": ONE + b"".join(date(43_200, 60_440 - 7 * it, 7) for it in range(15)),
    "sixteen_weeks": ONE + b"".join(date(43_200, 60_440 - 7 * it, 7) for it in range(16)),
    "to_come": date(43_200, 60_500) + epochs(NOON + 2),
    # the day of making is the last one of week 2316 of GPS, and the next week is 1293 of Galileo and 961 of BeiDou
    "galileo_to_come": ONE + system_week(1046, 1293, 3_600),
    "galileo_of_now": ONE + system_week(1046, 1292, 604_740),
    "beidou_to_come": system_week(1042, 961, 0) + epochs(NOON),
    "week_to_come": week(600, 16) + date(43_200, 60_500) + epochs(NOON),
    # a 1013 tells a Tuesday, or the Monday after two epochs of Friday, or 12 hours after one, or a second more; and one of another station
    "tuesday": date(43_200, 60_451) + epochs(NOON, NOON + 1),
    "monday": ONE + date(43_202, 60_450) + date(43_203, 60_449),
    "half_day": date(0, 60_448) + epochs(NOON, NOON + 1),
    "over_half_day": text_date(1, 60_448) + epochs(NOON, NOON + 1),
    "monday_of_another": ONE + date(43_202, 60_450, 7),
    # a date behind a gap of 13 hours, which the epoch behind it fits; and one of the next day, which no epoch beside it fits
    "behind_a_gap": date(43_200) + epochs(NOON) + date(3_600, 60_448) + epochs(NOON + 46_800),
    "next_day": date(43_200) + epochs(NOON) + date(43_201, 60_448) + epochs(NOON + 1),
    "with_sbas": date(43_200) + epochs(NOON, satellites=(5, 40)) + epochs(NOON + 1, satellites=(58, 5)) + epochs(NOON + 2),
    "sbas_alone": date(43_200) + epochs(NOON, satellites=(40,)),
    "without_sbas": date(43_200) + epochs(NOON, satellites=(39, 5, 59)),
    # an epoch two days after the others, and one that is a day and a ms after them, or a ms less
    "astray": date(43_200) + epochs(NOON, NOON + 172_800, NOON + 2),
    "day_and_ms": date(43_200) + epochs(NOON, NOON + 86_400.001),
    "one_day": date(43_200) + epochs(NOON, NOON + 86_400),
    # links of frames of 499 bytes; the second one is read last once its stray epoch came
    "steady": date(43_200) + epochs(*range(NOON, NOON + 10), satellites=range(1, 32)),
    "led_astray": date(43_200) + epochs(NOON, NOON + 172_800, *range(NOON + 1, NOON + 4), satellites=range(1, 32)),
    "dated_place": date(43_260) + place(),
    "old_place": date(43_200, 60_300) + place(),
    "week_place": week(2314 % 1024, NOON) + place(),
    # a date of another station a week before; and two dates of the station, of which the earlier one comes last
    "other_place": date(43_200, 60_440, 7) + place(),
    "two_places": date(43_200, 60_454) + date(43_200) + place(),
    "stray": date(43_200) + epochs(NOON) + cell_of(NOON, 1077) + cell_of(NOON, 1074) + cell_of(NOON + 1, 1074),
    "of_1077": date(43_200) + cell_of(NOON, 1077) + cell_of(NOON + 1, 1077),
    # three epochs of 1074 at the time of these two, and two of 1077 after them
    "of_1074": date(43_200) + cell_of(NOON, 1074) + cell_of(NOON + 1, 1074) + cell_of(NOON + 2, 1074),
    "of_1077_later": date(43_202) + cell_of(NOON + 2, 1077) + cell_of(NOON + 3, 1077),
    # messages of other systems, and one of GPS, that are not converted
    "with_others": ONE + b"".join(unread(it) for it in (1087, 1012, 1003, 1012)),
    # E36 in 1C, also beside the signal 1A, which no code names; and R09 of an unknown day, and of the Friday, 54,000 s in Moscow
    "nameless": date(43_200) + epochs(NOON) + other_cells(1094, 1000 * NOON, (36, 2), (36, 3))
    + epochs(NOON + 1) + other_cells(1094, 1000 * NOON + 1000, (36, 2)),
    "no_day": ONE + b"".join(
        other_cells(1087, glonass_clock(day, 53_982_000 + 1000 * second), (9, 2), extended=5)
        for second, day in ((0, UNKNOWN_DAY), (1, 5))),
    "falls": date(43_200) + epochs(NOON + 1, NOON, NOON + 2),
    "few": date(43_200) + epochs(NOON, satellites=(5, 7)) + b"".join(
        capture(legacy_of(1000 * (NOON + it), [{**SATELLITE, "satellite": 5, "l2_range": -(1 << 13), "l2_offset": -(1 << 19)}]))
        for it in range(1, 4)),
    "week_end": date(86_390, 60_448) + epochs(*range(604_790, 604_810)),
    "next_week": date(86_390, 60_456) + epochs(604_790 + 86_400),
    "equipped": ONE + equipment(1007, b"TRM41249.00     SCIS", 0) + equipment(1008, b"AOAD/M_T", 1, b"309", station=7)
    + equipment(1033, b"TRM55971.00     NONE", 0, b"1440911917", b"TRIMBLE NETR9", b"4.48", b"5148K72868"),
    "null_antenna": ONE + equipment(1033, b"ADVNULLANTENNA  NONE", 0, b"12", b"LEICA GRX1200+GNSS", b"9.20", b"496710"),
    "only_null": ONE + equipment(1007, b"GPPNULLANTENNA", 0),
    "unfit": ONE + equipment(1033, b"GPPNULLANTENNAS", 0, b"blank ", b"of 21 characters here", b"tab\t", b"--it's"),
    "padded": ONE + equipment(1033, b" TRM55971.00     NONE   ", 0, b"144  ", b"  TRIMBLE NETR9", b"   ", b"5148K72868 "),
    # an antenna A, then another one without a serial number, then A again
    "antenna_1": ONE + equipment(1008, b"A", 0, b"1"),
    "antenna_2": date(43_202) + epochs(NOON + 2, NOON + 3) + equipment(1007, b"B", 0),
    "antenna_3": date(43_204) + epochs(NOON + 4) + equipment(1007, b"A", 0),
    # the last of the long one tells another antenna and receiver, after the short one
    "long": date(43_200) + equipment(1033, b"OLD", 0, b"1", b"R1", b"", b"") + epochs(NOON, NOON + 9) + equipment(1033, b"NEW", 0, b"2", b"R2", b"", b""),
    "short": date(43_201) + epochs(NOON + 1, NOON + 2) + equipment(1033, b"OLD", 0, b"1", b"R1", b"", b""),
    # twelve gaps, of 70 to 81 s, between pairs of epochs, and a step of 60 s that is none
    "gaps": date(43_200) + epochs(*(NOON + sum(range(70, 70 + it)) + it + more for it in range(13) for more in (0, 1)), NOON + 906 + 13 + 60),
    # an interval of 30 s: a step of ten intervals is no gap, one of eleven is
    "slow": date(43_200) + epochs(*(NOON + it for it in (0, 30, 60, 360, 690))),
    # GLONASS and BeiDou without epochs: without a date, with one of two days and of four days later, and beside epochs
    "glonass": glonass(NOON, NOON + 1),
    "glonass_2_days": date(43_200, 60_449) + glonass(NOON + 172_800),
    "glonass_4_days": date(43_200, 60_451) + glonass(NOON + 345_600, NOON + 345_601),
    "glonass_next_day": date(43_200, 60_448) + glonass(NOON),
    "beidou_4_days": date(43_200, 60_451) + without_epochs(BEIDOU, 1124, NOON + 345_600),
    # a clock that goes on for more than a week
    "glonass_8_days": date(43_200) + glonass(NOON) + date(43_200, 60_455) + glonass(NOON + 691_200),
    "glonass_before": date(43_200) + glonass(NOON - 345_600, NOON - 172_800, NOON) + epochs(NOON),
    "glonass_on": ONE + glonass(*(NOON + it for it in (0, 172_800, 302_399))),
    "glonass_too_far": ONE + glonass(*(NOON + it for it in (0, 172_800, 302_400))),
    "glonass_over_a_gap": ONE + glonass(NOON, NOON + 345_600),
    "no_value": date(43_200) + capture(legacy_of(1000 * NOON, [])),
    **{f"here.{it}": date(43_200 + it) + place(x) + epochs(NOON + it, NOON + it + 9) for it, x in ((0, 0), (1, 1_000_000), (2, 1_000_001))},
    **{f"same.{it:02}": date(43_200) + epochs(NOON, NOON + 1, satellites=(it + 1,)) for it in range(17)},
}
for name, text in CAPTURES.items():
    Path(name).write_bytes(text)

# A day at 30 s by hours, and by hours that go on for a minute; what is written is that of the whole day.
HOURS = [range(DAY + 3_600 * it, DAY + 3_600 * it + 3_600, 30) for it in range(24)]
for folder, more in ("day", 0), ("overlapping", 60):
    Path(folder).mkdir()
    for hour, times in enumerate(HOURS):
        text = place() + date(3_600 * hour) + epochs(*times, *range(times.stop, times.stop + more, 30))
        Path(folder, f"{hour}").write_bytes(text)


def written(name, text, near, codes, marker="2003", **more):
    """The model's file of a capture."""
    setup = model.Setup(2003, model.moment(near), MADE, marker, tuple(codes.split(",")), 4096, **more)
    Path(f"{name}.rnx").write_text(model.convert(setup, [text])[0])


written("day", place() + epochs(*(it for times in HOURS for it in times)), "2024-05-17T00:00:00", "1C,2W")
written("overlapping", place() + epochs(*range(DAY, DAY + 86_460, 30)), "2024-05-17T00:00:00", "1C,2W")
for name, near, codes in (("one", "2024-05-17T12:00:00", "1C,2W"), ("week_end", "2024-05-18T23:59:50", "1C,2W")):
    written(name, CAPTURES[name], near, codes)
