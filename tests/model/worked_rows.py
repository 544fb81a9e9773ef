"""Values from outside for the slow model of several systems: rows of the formats that were worked by hand in exact fractions, by
two programs that share no code; and cells of real streams.
"""

from __future__ import annotations

from typing import NamedTuple

Values = tuple[int, int, int]  # mm, millicycles, thousandths of a dB-Hz


class Row(NamedTuple):
    """A message of 2024-05-17 12:00:00 with one cell: its satellite, code, signal, the kind of MSM, and the channel; the fields,
    the lock indicator with its least time in ms, the values, and all bytes. The rates of an MSM7 are -300 and 100."""

    name: str
    code: str
    signal: int
    kind: int
    channel: int | None
    rough: tuple[int, int]
    fine: tuple[int, int]
    lock: tuple[int, int]
    cnr: int
    due: Values
    payload: str
    extended: int = 0


ROWS = (
    Row("G05", "2W", 10, 4, None, (70, 512), (-300, 9_000), (10, 16_384), 44,
        (21_135_362_928, 86_545_820_579, 44_000), "432001714BE800000004000000000000000020000051A00FDA80119452C0"),
    Row("G05", "5X", 24, 7, None, (70, 512), (-4_800, 36_001), (480, 524_288), 713,
        (21_135_365_609, 82_939_744_722, 44_500), "435001714BE8000000040000000000000000000080518200FB53FB500023285E05920190"),
    Row("R09", "1C", 2, 4, -6, (68, 300), (1_200, -77_777), (9, 8_192), 47,
        (20_473_738_409, 109_174_615_574, 47_000), "43C001ACDECCC000000040000000000000200000005112C0961F6817CAF0"),
    Row("R10", "2P", 9, 7, -5, (66, 1001), (-120_001, 3_000_000), (511, 1_032_192), 600,
        (20_079_294_057, 83_309_237_891, 37_500), "43F001ACDECCC00000002000000000000000400000508BE9FB538ACFCB71B01FF4B00190",
        2),
    Row("E36", "7Q", 15, 4, None, (86, 0), (2_778, 109_299), (12, 65_536), 49,
        (25_782_201_028, 103_814_285_756, 49_000), "446001714BE80000000000000008000000000100005580015B40D579E310"),
    Row("E11", "8X", 20, 7, None, (83, 777), (45_001, -234_567), (300, 11_264), 722,
        (25_110_278_381, 99_823_175_832, 45_250), "449001714BE800000000100000000000000000080054C309FB502BF27F1AEE52C5A40190"),
    Row("C37", "2I", 2, 4, None, (85, 872), (1_255, 79_871), (11, 32_768), 47,
        (25_737_673_371, 134_022_934_762, 47_000), "464001714B0D4000000000000004000000200000005576809CE09BFFDAF0"),
    Row("C41", "1P", 31, 7, None, (77, 290), (98_765, 4_000_003), (640, 16_777_216), 701,
        (23_168_976_578, 121_756_438_318, 43_750), "467001714B0D400000000000000040000000000001534122FB5060734F4240E8057A0190"),
    Row("J02", "6L", 10, 4, None, (125, 900), (-16_383, 2_097_151), (15, 524_288), 40,
        (37_737_253_967, 160_972_646_482, 40_000), "45A001714BE80000002000000000000000002000005F7848002FFFFFFA80"),
    Row("J01", "1X", 32, 7, None, (122, 579), (122_646, 472_404), (650, 22_020_096), 749,
        (36_744_259_918, 193_092_375_800, 46_750), "45D001714BE8000000400000000000000000000000DE8243FB5077C581CD5528A5DA0190"),
    Row("S33", "1C", 2, 4, None, (125, 759), (-2_574, 157_063), (13, 131_072), 42,
        (37_696_220_704, 198_095_679_428, 42_000), "450001714BE80000000002000000000000200000005F6F7EBE4132C3EAA0"),
    Row("S58", "5I", 22, 7, None, (130, 1023), (-524_287, -8_388_607), (704, 67_108_864), 1,
        (39_272_226_466, 154_109_205_616, 250), "453001714BE80000000000000001000000000002006083FFFB5200006000006C00020190"),
    Row("I03", "5A", 22, 4, None, (118, 64), (1, -1), (8, 4_096), 38,
        (35_394_247_090, 138_894_628_123, 38_000), "46E001714BE80000001000000000000000000002005D8400003FFFFFC260"),
    Row("I14", "5A", 22, 7, None, (75, 300), (1_000, 2_000), (20, 20), 640,
        (22_572_264_730, 88_578_414_182, 40_000), "471001714BE800000000020000000000000000020052C12CFB5000FA0001F40145000190"),
)  # fmt: skip


# The Doppler shift of each row of an MSM7, in thousandths of a Hz, with the channel of the row.
DOPPLER = {
    "G05": 1_177_225, "R10": 1_244_632, "E11": 1_192_580, "C41": 1_576_458, "J01": 1_576_458, "S58": 1_177_225, "I14": 1_177_225,
}  # fmt: skip
# Rates of G05 1C: DF399 in m/s, DF404 in 0.0001 m/s, and the shift. The least values are invalid, and a shift of 0 is none.
RATES = (
    (-300, 100, 1_576_458), (300, -100, -1_576_458), (0, 1, -1), (0, -1, 1), (1, 0, -5255), (0, 16_383, -8609),
    (8191, 16_383, -43_052_605), (-8191, -16_383, 43_052_605), (0, 0, None), (-8192, 0, None), (-8192, 16_383, None),
    (0, -16_384, None), (8191, -16_384, None), (-8192, -16_384, None),
)  # fmt: skip


class RealCell(NamedTuple):
    """A cell of a real stream: the stream and the number of its message, and what a row has."""

    stream: str
    number: int
    name: str
    code: str
    signal: int
    channel: int | None
    rough: tuple[int, int]
    fine: tuple[int, int]
    cnr: int
    due: Values


REAL_CELLS = (
    RealCell("F9R", 1085, "R04", "1C", 2, 6, (71, 424), (-1_847, 7_308), 50, (21_409_364_329, 114_646_372_439, 50_000)),
    RealCell("F9R", 1085, "R22", "2P", 9, -3, (80, 10), (4_714, 150_678), 35, (23_986_408_535, 99_587_504_485, 35_000)),
    RealCell("F9R", 1095, "E36", "8Q", 19, None, (86, 0), (2_846, 112_428), 51, (25_782_202_243, 102_494_619_578, 51_000)),
    RealCell("F9R", 1125, "C05", "7I", 14, None, (132, 594), (3_369, 167_792), 43, (39_746_567_704, 160_043_092_784, 43_000)),
    RealCell("F9R", 1125, "C41", "6I", 8, None, (77, 290), (-2_982, -10_518), 50, (23_168_868_142, 98_035_263_976, 50_000)),
    RealCell("STFU7", 1107, "S33", "5I", 22, None, (125, 759), (-82_357, 1_256_508), 728, (37_696_220_710, 147_928_935_957, 45_500)),
    RealCell("GMSD7", 1117, "J01", "6L", 10, None, (122, 579), (122_646, 472_404), 749, (36_744_259_918, 156_730_824_513, 46_750)),
)  # fmt: skip

# G05 1C in an MSM7 whose rough range is 70 ms and 512: the fine range and the fine phase, and the values.
FINE = (
    ((0, 0), (21_135_368_289, 111_067_110_000)),
    ((1, 1), (21_135_368_290, 111_067_110_001)),
    ((-1, -1), (21_135_368_288, 111_067_109_999)),
    ((524_287, 8_388_607), (21_135_661_055, 111_073_263_984)),
    ((-524_288, 0), (None, 111_067_110_000)),
    ((0, -8_388_608), (21_135_368_289, None)),
)  # fmt: skip
TIE = ((70, 256), 21_060_420_175)  # the rough range alone, a tie of mm
STRENGTHS = ((0, None), (1, 250), (2, 250), (3, 250), (5, 250), (6, 500), (754, 47_250), (1021, 63_750), (1023, 63_750))
LOCK_TIMES = (
    (0, 0), (63, 63), (64, 64), (95, 126), (96, 128), (127, 252), (128, 256), (223, 2016), (224, 2048), (672, 33_554_432),
    (703, 66_060_288), (704, 67_108_864), (705, 0), (1023, 0),
)  # fmt: skip

# Entries of a 1012 of real streams: the channel, the fields of the entry, and the values of L1 and of L2.
BNDM = (
    {"slot": 12, "l1_code": 0, "channel": 6, "l1_range": 6_532_026, "l1_offset": 37, "modulus_ambiguity": 33, "l1_cnr": 202,
     "l2_code": 1, "l2_range": -84, "l2_offset": -3447, "l2_cnr": 191},
    ("1C", 19_916_942_748, 106_392_733_308, 50_500),
    ("2P", 19_916_941_068, 82_749_896_446, 47_750),
)  # fmt: skip
TESTGLO = (
    {"slot": 14, "l1_code": 0, "channel": 0, "l1_range": 4_256_704, "l1_offset": -321, "modulus_ambiguity": 32, "l1_cnr": 196,
     "l2_code": 0, "l2_range": 408, "l2_offset": 466, "l2_cnr": 172},
    ("1C", 19_271_851_392, 102_729_811_697, 49_000),
    ("2C", 19_271_859_552, 79_900_966_285, 43_000),
)  # fmt: skip
# An entry of a 1004 that is of SBAS.
OF_SBAS = {"satellite": 49, "l1_code": 0, "l1_range": 63_678, "l1_offset": -387, "modulus_ambiguity": 124, "l1_cnr": 176}
OF_SBAS_DUE = ("S29", "1C", 37_175_538_352, 195_358_771_586, 44_000)

# What a rise of the offset of a 1012 makes of the count of rolls, by bands.
ROLLS = (("1", 280_704, 0), ("1", 280_705, -1), ("2", 360_905, 0), ("2", 360_906, -1))

# Channels that are given, the entry of the row R10 or R09 (None: an MSM4 has none), what stands for it, and the phase.
CHANNELS = (
    ("R10", {10: -5}, 2, 2, 83_309_237_891),
    ("R10", {10: -5}, 15, 2, 83_309_237_891),
    ("R10", {10: -5}, 14, 14, None),
    ("R10", {10: -7}, 15, 0, 83_250_631_322),
    ("R10", {10: -7}, 2, 14, None),
    ("R10", {9: -5}, 2, 15, None),
    ("R10", {9: -5}, 14, 15, None),
    ("R09", {9: -6}, None, 1, 109_174_615_574),
    ("R09", {10: -6}, None, 15, None),
)
# The same of BNDM's entry in its 1012.
CHANNELS_1012 = (
    ({12: -1}, 6, 6), ({12: -1}, 25, 6), ({12: 0}, 6, 30), *(({12: 6}, sent, 30) for sent in (*range(14, 21), 30)),
    *(({12: -7}, sent, 30) for sent in (*range(14, 21), 30)), ({}, 6, 31), ({}, 30, 31),
)  # fmt: skip

# Clocks: the number, the clock (of GLONASS the day and the time of day), the reference, the moment (None: there is none), and
# the leap seconds that are given; with 1012 a clock without a day is dated too.
NOON = "2024-05-17T12:00:00"
SUNDAY = "2024-05-19T00:00:00"
CLOCKS = (
    *((number, 475_200_000, NOON, "2024-05-17T12:00:00.000") for number in (1077, 1097, 1107, 1117, 1137)),
    (1127, 475_186_000, NOON, "2024-05-17T12:00:00.000"),
    (1127, 604_785_999, SUNDAY, "2024-05-18T23:59:59.999"),
    (1127, 604_786_000, SUNDAY, "2024-05-19T00:00:00.000"),
    (1127, 604_800_000, NOON, None),
    (1097, 604_800_000, NOON, None),
    (1087, 725_070_640, NOON, "2024-05-17T12:00:00.000"),
    (1087, (5, 53_982_000), NOON, "2024-05-17T12:00:00.000"),
    (1087, 757_488_639, NOON, "2024-05-17T21:00:17.999"),
    (1087, (5, 86_399_999), NOON, "2024-05-17T21:00:17.999"),
    (1087, 805_306_368, NOON, "2024-05-17T21:00:18.000"),
    (1087, (6, 0), NOON, "2024-05-17T21:00:18.000"),
    (1087, 891_706_367, SUNDAY, "2024-05-18T21:00:17.999"),
    (1087, (6, 86_399_999), SUNDAY, "2024-05-18T21:00:17.999"),
    (1087, (0, 0), SUNDAY, "2024-05-18T21:00:18.000"),
    (1087, (0, 10_781_999), SUNDAY, "2024-05-18T23:59:59.999"),
    (1087, (0, 10_782_000), SUNDAY, "2024-05-19T00:00:00.000"),
    (1087, 10_782_000, "2024-05-22T12:00:00", "2024-05-19T00:00:00.000"),
    (1087, 10_782_000, "2024-05-22T12:00:01", "2024-05-26T00:00:00.000"),
    (1087, 891_707_367, SUNDAY, "2024-05-18T21:00:18.999"),
    (1087, (6, 86_400_999), SUNDAY, "2024-05-18T21:00:18.999"),
    (1087, 891_707_368, SUNDAY, None),
    (1087, (6, 86_401_000), SUNDAY, None),
    (1087, 993_506_096, NOON, None),
    (1087, (7, 53_982_000), NOON, None),
    (1087, (0, 10_799_999), "2017-01-01T12:00:00", "2017-01-01T00:00:16.999"),
    (1087, (0, 10_800_000), "2017-01-01T12:00:00", "2017-01-01T00:00:18.000"),
    (1087, (0, 10_800_000), "2017-01-01T00:00:17", "2017-01-01T00:00:18.000"),
    (1087, (0, 10_830_000), "2017-01-01T00:00:00", "2017-01-01T00:00:48.000"),
    # of real streams; the last of these has GPS time in the place of BeiDou's
    (1085, 813_354_368, "2025-04-11T23:14:26", "2025-04-11T23:14:26.000"),
    (1085, (6, 8_048_000), "2025-04-11T23:14:26", "2025-04-11T23:14:26.000"),
    (1125, 515_652_000, "2025-04-11T23:14:26", "2025-04-11T23:14:26.000"),
    (1095, 515_666_000, "2025-04-11T23:14:26", "2025-04-11T23:14:26.000"),
    (1087, 577_279_913, "2019-06-12T00:00:00", "2019-06-13T08:13:47.001"),
    (1087, (4, 40_409_001), "2019-06-12T00:00:00", "2019-06-13T08:13:47.001"),
    (1087, (0, 10_768_000), "2012-10-14T00:00:00", "2012-10-13T23:59:44.000"),
    (1077, 604_784_000, "2012-10-14T00:00:00", "2012-10-13T23:59:44.000"),
    (1127, 604_784_000, "2012-10-14T00:00:00", "2012-10-13T23:59:58.000"),
)
CLOCK_OF_GIVEN_LEAP = (725_070_640, NOON, 17, "2024-05-17T11:59:59.000")

# Times of day of GLONASS whose day is unknown, the reference, and the moment.
TIMES_OF_DAY = (
    (53_982_000, NOON, "2024-05-17T12:00:00.000"),
    (18_942_000, "2020-01-25T02:16:00", "2020-01-25T02:16:00.000"),
    (18_942_000, "2020-01-25T14:16:00", "2020-01-25T02:16:00.000"),
    (18_942_000, "2020-01-25T14:16:01", "2020-01-26T02:16:00.000"),
    (86_399_999, NOON, "2024-05-17T21:00:17.999"),
    (0, NOON, "2024-05-17T21:00:18.000"),
)
# The reference of a span without days: the first and the last epoch of 2024-05-17 and the next day.
SPANS = (
    ("2024-05-17T00:00:00.000", "2024-05-17T23:59:59.000", "2024-05-17T12:00:00"),
    ("2024-05-17T00:00:00.000", "2024-05-17T23:59:59.900", "2024-05-17T12:00:00"),
    ("2024-05-17T00:00:00.900", "2024-05-17T23:59:59.950", "2024-05-17T12:00:00"),
    ("2024-05-17T00:00:00.500", "2024-05-18T00:00:00.400", None),
)

# The columns of some lines.
TYPES_OF_BEIDOU = "2I 6I 7I 5P 1P"
TYPES_LINES = [
    "C   15 C2I L2I S2I C6I L6I S6I C7I L7I S7I C5P L5P S5P C1P",
    "       L1P S1P",
]
SLOTS = {1: 1, 2: -4, 3: 5, 4: 6, 7: 5, 8: 6, 9: -6, 10: -7, 17: 4, 22: -3}
SLOTS_LINES = [
    " 10 R01  1 R02 -4 R03  5 R04  6 R07  5 R08  6 R09 -6 R10 -7 ",
    "    R17  4 R22 -3 ",
]

# The file of the seven MSM7 of the rows, which are taken with these codes.
CODES = "5X,R2P,E8X,C1P,J1X,S5I,I5A"
FILE = """\
     3.05           OBSERVATION DATA    M                   RINEX VERSION / TYPE
rtcm2rinex                              20240517 130000 UTC PGM / RUN BY / DATE
BASE                                                        MARKER NAME
GEODETIC                                                    MARKER TYPE
                                                            OBSERVER / AGENCY
                                                            REC # / TYPE / VERS
                                                            ANT # / TYPE
        0.0000        0.0000        0.0000                  APPROX POSITION XYZ
        0.0000        0.0000        0.0000                  ANTENNA: DELTA H/E/N
G    3 C5X L5X S5X                                          SYS / # / OBS TYPES
R    3 C2P L2P S2P                                          SYS / # / OBS TYPES
E    3 C8X L8X S8X                                          SYS / # / OBS TYPES
C    3 C1P L1P S1P                                          SYS / # / OBS TYPES
J    3 C1X L1X S1X                                          SYS / # / OBS TYPES
S    3 C5I L5I S5I                                          SYS / # / OBS TYPES
I    3 C5A L5A S5A                                          SYS / # / OBS TYPES
DBHZ                                                        SIGNAL STRENGTH UNIT
  2024     5    17    12     0    0.0000000     GPS         TIME OF FIRST OBS
G                                                           SYS / PHASE SHIFT
R                                                           SYS / PHASE SHIFT
E                                                           SYS / PHASE SHIFT
C                                                           SYS / PHASE SHIFT
J                                                           SYS / PHASE SHIFT
S                                                           SYS / PHASE SHIFT
I                                                           SYS / PHASE SHIFT
  1 R10 -5                                                  GLONASS SLOT / FRQ #
                                                            GLONASS COD/PHS/BIS
    18                                                      LEAP SECONDS
                                                            END OF HEADER
> 2024 05 17 12 00  0.0000000  0  7
G05  21135365.609 7  82939744.722 7        44.500
R10  20079294.057 6  83309237.891 6        37.500
E11  25110278.381 7  99823175.832 7        45.250
C41  23168976.578 7 121756438.318 7        43.750
J01  36744259.918 7 193092375.800 7        46.750
S58  39272226.466 1 154109205.616 1         0.250
I14  22572264.730 6  88578414.182 6        40.000
"""


# Its lines have 80 columns in the header.
_header, _records = FILE.split("END OF HEADER\n")
FILE = "".join(f"{line:80}\n" for line in (_header + "END OF HEADER").splitlines()) + _records
