"""Writes captures of station 1 for systems.sh into the folder that it is run in. All clocks are right, and the first epoch is 2024-05-17
12:00:00. In some the message that ends an epoch is lost, comes seldom, or can't be read; others are sessions of two weeks."""

import sys
from pathlib import Path

sys.path.insert(0, str(Path(__file__).resolve().parents[1] / "model"))

from finding import EPHEMERIS  # noqa: E402
from station import capture, date, frame_of_row, legacy_of  # noqa: E402
from systems import BEIDOU, GALILEO, GLONASS, GPS  # noqa: E402
from tested import NOON, of_1012_at, one_cell  # noqa: E402
from wire import WEEK_MS, frame_of  # noqa: E402

OWN_DATE = date(station=1)
BY_1019 = frame_of_row(EPHEMERIS, number=1019, satellite=5, week=2314 % 1024, toe=NOON % WEEK_MS // 16_000)


def msm(system, second, more, signal=2):
    """An MSM7 of satellite 5 in channel 0."""
    return one_cell(system, 7, NOON + 1000 * second, 5, signal, more, 7, cnr=640)


# What 1004 and 1012 tell of a satellite: a strength, and nothing of a second frequency.
FIRST_ALONE = {"l1_cnr": 160, "l2_range": -(1 << 13), "l2_offset": -(1 << 19)}


def obs1004(second, more):
    return capture(legacy_of((NOON + 1000 * second) % WEEK_MS, [{"satellite": 5, **FIRST_ALONE}], station=1, synchronous=more))


def obs1012(second, more=0):
    """A 1012 of slot 5 in channel 0."""
    return of_1012_at(NOON + 1000 * second, {"slot": 5, "channel": 7, **FIRST_ALONE}, more=more)


def joined(count, *sent):
    """What these give of each second."""
    return b"".join(give(at) for at in range(count) for give in sent)


def session(glonass, gps, begin, day):
    """Three epochs in which GLONASS comes before GPS, and behind them a 1013 of this day."""
    epochs = [give(begin + at, more) for at in range(3) for give, more in ((glonass, 1), (gps, 0))]
    return b"".join(epochs) + date((43_200 + begin) % 86_400, day, 1)


OF_MSM = lambda second, more: msm(GLONASS, second, more), lambda second, more: msm(GPS, second, more)
WEEK_AND_HOUR = 608_400
GLONASS_SELDOM = joined(10, lambda at: msm(GPS, at, 1), lambda at: msm(GLONASS, at, 0) if at % 2 else b"")
CAPTURES = {
    "one_lost": OWN_DATE + joined(60, lambda at: msm(GALILEO, at, 1), lambda at: msm(BEIDOU, at, 0) if at != 30 else b""),
    "seldom": OWN_DATE + GLONASS_SELDOM,
    "seldom_by_1019": BY_1019 + GLONASS_SELDOM,
    "seldom_1012": BY_1019 + joined(20, lambda at: obs1004(at, 1), lambda at: obs1012(at) if at % 5 == 4 else b""),
    # 1010 are not read, and end each epoch but those with Galileo
    "not_read": OWN_DATE + joined(9, lambda at: obs1004(at, 1), lambda at: frame_of((1010 << 4).to_bytes(2, "big")),
                                  lambda at: msm(GALILEO, at, 0) if at % 3 == 2 else b""),
    **{f"{name}.{it}": session(*of, begin, day)
       for name, of in (("msm", OF_MSM), ("legacy", (obs1012, obs1004)))
       for it, begin, day in ((1, 0, 60_447), (2, WEEK_AND_HOUR, 60_454))},
}
for name, text in CAPTURES.items():
    Path(f"{name}.rtcm").write_bytes(text)
