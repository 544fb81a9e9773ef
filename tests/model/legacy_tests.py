"""Tests of the slow model of `convert` for messages before MSM: 1012 by `--with-1012`, and SBAS in a 1004. The values were worked by
hand.

Prints a line for each test, and last 'N passed, M failed'.
"""

from __future__ import annotations

import sys

import worked_rows as rows
from clocks import DAY_MS, UNKNOWN_DAY, clock_of, glonass_clock, glonass_parts
from mixed_model import Options, convert_mixed
from model import COUNTS, Conversion, moment
from station import legacy_of
from systems import GLONASS
from tested import NOON, of_1012, of_1012_at, one_cell, run_tests, same, test, without_cells
from wire import WEEK_MS, Fields, frame_of, payload_of

MADE = moment("2024-05-17T13:00:00")
TOLD = "2024-05-17 12:00:00.000"
HOUR_MS = 3_600_000
BNDM, TESTGLO = rows.BNDM[0], rows.TESTGLO[0]
# An entry whose L1 range is one modulus, so that its phase in cycles of channel 0 is 3,204,000 and L2 has none of its own.
ONE_MODULUS = {"slot": 3, "channel": 7, "modulus_ambiguity": 1, "l1_lock": 127, "l2_code": 3}


def options_of(codes: str, channels: dict[int, int] | None, near: int = NOON, window: int = 64, **values: object) -> Options:
    with_1012 = values.get("with_1012", True) is True
    return Options(1, near, MADE, "BASE", tuple(codes.split(",")), window, "7", channels, None, with_1012)


def legacy(time: int, *entries: Fields) -> bytes:
    return frame_of(payload_of(legacy_of(time % WEEK_MS, entries, station=1)))


def counts_of(got: Conversion) -> dict[str, int]:
    """The counts of a report that are not 0."""
    told = [line.split(" ") for line in got.report.splitlines()[-len(COUNTS) :]]
    return {name: int(count) for name, count in told if count != "0"}


def lines_of(got: Conversion) -> list[str]:
    return got.report.splitlines()[: -len(COUNTS)]


def records_of(got: Conversion) -> list[str]:
    """The lines behind the header."""
    return got.file.partition("END OF HEADER")[2].splitlines()[1:]


def values_in(line: str) -> list[str]:
    """The values of a line of a satellite, without their digits."""
    return [line[at : at + 14].strip() for at in range(3, len(line), 16)]


@test
def values_of_a_1012() -> None:
    due = ["19916942.748", "106392733.308", "50.500", "19916941.068", "82749896.446", "47.750"]
    near = moment("2020-01-25T02:16:00")
    got = convert_mixed(options_of("R1C,R2P", {12: -1}, near), [of_1012(18_942_000, BNDM)])
    same("its record", records_of(got)[0], "> 2020 01 25 02 16  0.0000000  0  1")
    same("its values", [(line[:3], values_in(line)) for line in records_of(got)[1:]], [("R12", due)])
    same("its report", (lines_of(got), counts_of(got)), (["other-channel -", "no-channel -"], {"frames": 1, "taken": 1, "epochs": 1}))
    same("its leap seconds", [line[:6] for line in got.file.splitlines() if "LEAP" in line], ["    18"])
    due = ["19271851.392", "102729811.697", "49.000", "19271859.552", "79900966.285", "43.000"]
    got = convert_mixed(options_of("R1C,R2C", {14: -7}), [of_1012_at(NOON, TESTGLO)])
    same("those of L2 C", [values_in(line) for line in records_of(got)[1:]], [due])
    got = convert_mixed(options_of("R1C,R2P", {12: -1}, near, with_1012=False), [of_1012(18_942_000, BNDM)])
    same("without the word", (lines_of(got)[2:], counts_of(got)), (["no-message R"], {"frames": 1, "other": 1}))


@test
def a_1012_is_dated_within_half_a_day() -> None:
    cases = (
        ("2020-01-25T02:16:00", 18_942_000, "2020 01 25 02 16  0.0"), ("2020-01-25T14:16:00", 18_942_000, "2020 01 25 02 16  0.0"),
        ("2020-01-25T14:16:01", 18_942_000, "2020 01 26 02 16  0.0"), ("2024-05-17T12:00:00", 86_399_999, "2024 05 17 21 00 17.999"),
        ("2024-05-17T12:00:00", 0, "2024 05 17 21 00 18.0"), ("2017-01-01T12:00:00", 10_799_999, "2017 01 01 00 00 16.999"),
        ("2017-01-01T12:00:00", 10_800_000, "2017 01 01 00 00 18.0"), ("2016-12-31T12:00:00", 10_799_999, "2016 12 31 00 00 16.999"),
    )  # fmt: skip
    for near, time_of_day, due in cases:
        got = convert_mixed(options_of("R1C", {12: -1}, moment(near)), [of_1012(time_of_day, BNDM)])
        same(f"{time_of_day} near {near}", records_of(got)[0][2 : 2 + len(due)], due)


@test
def a_1012_of_26_hours() -> None:
    """Hours that are half a day away or more are dated a day off, where the same was told before."""
    text = b"".join(of_1012_at(NOON + HOUR_MS * hour, BNDM) for hour in range(-13, 14))
    got = convert_mixed(options_of("R1C", {12: -1}), [text])
    same("counts", counts_of(got), {"frames": 27, "taken": 24, "repeat": 3, "epochs": 24})
    days = [line[2:12] for line in records_of(got) if line[0] == ">"]
    same("days", (days[0], days[-1], len(days)), ("2024 05 17", "2024 05 17", 24))
    text = b"".join(of_1012_at(NOON - DAY_MS // 2 + 1000 * second, BNDM) for second in (0, 1, 43_199, 43_200, 43_201, 86_398, 86_399))
    got = convert_mixed(options_of("R1C", {12: -1}), [text])
    same("from 00:00:00 to 23:59:59", [line[13:20] for line in records_of(got) if line[0] == ">"][::6], ["00 00  ", "23 59 5"])
    same("its epochs", counts_of(got)["epochs"], 7)


@test
def other_clocks_without_a_day() -> None:
    cells = {"cnr": 160}
    text = one_cell(GLONASS, 7, NOON, 3, 2, channel=15, **cells)
    clock = glonass_clock(UNKNOWN_DAY, glonass_parts(clock_of(GLONASS, NOON))[1])
    unknown = without_cells(GLONASS, 7, clock)
    got = convert_mixed(options_of("R1C", {3: 0}), [text + unknown])
    same("an MSM", counts_of(got), {"frames": 2, "taken": 1, "repeat": 1, "epochs": 1})
    got = convert_mixed(options_of("R1C", {3: 0}, with_1012=False), [text + unknown])
    same("an MSM without the word", counts_of(got), {"frames": 2, "taken": 1, "refused": 1, "epochs": 1})
    late = [of_1012(it, BNDM) for it in (86_400_999, 86_401_000)] + [frame_of(of_1012_at(NOON, BNDM)[3:-4])]
    got = convert_mixed(options_of("R1C", {12: -1}), [b"".join(late)])
    same("clocks of 1012", counts_of(got), {"frames": 3, "taken": 1, "refused": 2, "epochs": 1})
    same("why", lines_of(got)[:2], ["link 1 refused M4 1012", "link 1 refused M3 1012"])


@test
def an_msm_goes_before_a_1012() -> None:
    msm = one_cell(GLONASS, 7, NOON, 12, 2, channel=15, cnr=160)
    for texts in ([msm, of_1012_at(NOON, BNDM)], [of_1012_at(NOON, BNDM), msm], [of_1012_at(NOON, BNDM) + msm]):
        got = convert_mixed(options_of("R1C,R2P", {12: -1}), texts)
        shown = [values_in(line) for line in records_of(got)[1:]]
        same("values", [(it[0], it[2], it[3]) for it in shown], [("20985472.060", "10.000", "19916941.068")])
        same("counts", counts_of(got), {"frames": 2, "taken": 2, "epochs": 1})
    for entry, due in ((TESTGLO, {"taken": 1}), (BNDM, {"repeat": 1})):
        got = convert_mixed(options_of("R1C", {12: -1, 14: -7}), [of_1012_at(NOON, BNDM) + of_1012_at(NOON, entry)])
        same("two copies", counts_of(got), {"frames": 2, "taken": 1, "epochs": 1, **{it: n + (it == "taken") for it, n in due.items()}})
    got = convert_mixed(options_of("R1C", {12: -1}), [of_1012_at(NOON, BNDM) + of_1012_at(NOON, {**BNDM, "l1_cnr": 1})])
    same("a conflict", lines_of(got)[0], f"link 1 conflict 1012 {TOLD} R12 1C")


@test
def rolls_of_a_1012() -> None:
    for rise, due in ((280_704, "3204749.999"), (280_705, "3203250.001")):
        text = of_1012_at(NOON, ONE_MODULUS) + of_1012_at(NOON + 1000, {**ONE_MODULUS, "l1_offset": rise})
        got = convert_mixed(options_of("R1C", {3: 0}), [text])
        same(f"{rise}", [values_in(line)[1] for line in records_of(got) if line[0] == "R"], ["3204000.000", due])
    slip = of_1012_at(NOON + 1000, {**ONE_MODULUS, "l1_offset": 280_705, "l1_lock": 0})
    got = convert_mixed(options_of("R1C", {3: 0}), [of_1012_at(NOON, ONE_MODULUS) + slip])
    same("a slip", [line[19:34] for line in records_of(got) if line[0] == "R"][1], "   3204750.0011")


@test
def channels_of_a_1012() -> None:
    for given, sent, normal in rows.CHANNELS_1012:
        got = convert_mixed(options_of("R1C,R2P", given), [of_1012_at(NOON, {**BNDM, "channel": sent})])
        marks = [f"other-channel {'R12' if normal == 30 else '-'}", f"no-channel {'R12' if normal == 31 else '-'}"]
        same(f"{sent} with {given}", lines_of(got), marks)
        has_phase = [it != "" for it in values_in(records_of(got)[1])[1::3]]
        same(f"phases of {sent} with {given}", has_phase, [normal == 6] * 2)


@test
def slots_of_a_1012() -> None:
    """Slots 0 and 33 have no name, and the first entry of a slot counts."""
    nameless = [{**BNDM, "slot": slot} for slot in (0, 33)]
    got = convert_mixed(options_of("R1C", {12: -1}), [of_1012_at(NOON, *nameless)])
    same("no cell", (lines_of(got), counts_of(got)), (["other-channel -", "no-channel -"], {"frames": 1, "taken": 1}))
    got = convert_mixed(options_of("R1C", {12: -1}), [of_1012_at(NOON, *nameless, {**BNDM, "l1_cnr": 40}, BNDM)])
    same("twice", [values_in(line)[2] for line in records_of(got)[1:]], ["10.000"])
    got = convert_mixed(options_of("R2C,R2P", {12: -1, 13: 0}), [of_1012_at(NOON, {**BNDM, "l2_code": 2}, {**BNDM, "slot": 13, "l2_code": 3})])
    same("other codes of L2", counts_of(got), {"frames": 1, "taken": 1})
    text = of_1012_at(NOON - 1000, BNDM) + legacy(NOON, {"satellite": 5, "l1_range": 5_000_000}) + of_1012_at(NOON, BNDM)
    got = convert_mixed(options_of("1C,R1C", {12: -1}), [text])
    same("a lone 1012 first", [line[:3] for line in records_of(got)], ["> 2", "R12", "> 2", "G05", "R12"])


@test
def sbas_of_a_1004() -> None:
    entries = [{"satellite": 5, "l1_range": 5_000_000}, rows.OF_SBAS, {**rows.OF_SBAS, "l1_cnr": 4}]
    shown = [("S29", ["37175538.352", "195358771.586", "44.000"])]
    for codes, due in (("1C,S1C", shown), ("S1C", shown), ("1C", [])):
        got = convert_mixed(options_of(codes, None, with_1012=False), [legacy(NOON, *entries)])
        same(codes, [(line[:3], values_in(line)) for line in records_of(got) if line[0] == "S"], due)
        same(codes, (lines_of(got), counts_of(got)), ([], {"frames": 1, "taken": 1, "epochs": 1}))
    copies = legacy(NOON, *entries[:2]) + legacy(NOON, entries[0], {**rows.OF_SBAS, "l1_cnr": 4})
    got = convert_mixed(options_of("1C", None, with_1012=False), [copies])
    same("copies that differ in SBAS", (lines_of(got), counts_of(got)), ([], {"frames": 2, "taken": 1, "repeat": 1, "epochs": 1}))
    got = convert_mixed(options_of("1C,S1C", None, with_1012=False), [copies])
    due = ([f"link 1 conflict 1004 {TOLD} S29 1C"], {"frames": 2, "taken": 1, "conflict": 1, "epochs": 1})
    same("with a code of SBAS", (lines_of(got), counts_of(got)), due)
    others = [{**rows.OF_SBAS, "satellite": it} for it in (39, 40, 58, 59)]
    got = convert_mixed(options_of("S1C", None, with_1012=False), [legacy(NOON, *others)])
    same("the first and the last", [line[:3] for line in records_of(got)[1:]], ["S20", "S38"])


if __name__ == "__main__":
    sys.exit(run_tests())
