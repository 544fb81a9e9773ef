"""Writes captures into the folder that it is run in, and beside each the file and the report that its conversion owes.

    python3 cases.py EXAMPLES

The file `cases` has a line for each: its name, codes, options and links. Before anything else the model must write what
stands in the folder EXAMPLES, which another program made; and where a report stands here in words, it must write that."""

import sys
from pathlib import Path
from random import Random

import dated_links
import model
import parts
import qualities
import station
import summaries
import systems_links
from messages import CODES, SIGNALS, frames_of
from mixed_model import convert_mixed
from model import Setup, moment
from pictures import svg_picture
from station import NOON
from wire import MSM_CELL, MSMS, frame_of, payload_of

NEAR, MADE = moment("2024-05-17T12:00:00"), moment("2024-05-17T13:00:00")
TOLD = "2024-05-17 12:00:"
EXAMPLES = sys.argv[1]
SATELLITE = {
    "satellite": 5, "l1_range": 5_000_000, "l1_lock": 5, "modulus_ambiguity": 70, "l1_cnr": 180, "l2_code": 3, "l2_range": 100,
    "l2_lock": 5, "l2_cnr": 140,
}
NO_NUMBER = bytes.fromhex("D3000047EA4B")
# A frame of 1,029 bytes seems to begin here.
FALSE_PREAMBLE = bytes.fromhex("D303FF")


def legacy(tow, entries, **fields):
    """The payload of a 1004; the entry of a satellite is a dictionary of its fields."""
    return payload_of(station.legacy_of(tow, entries, **fields))


def msm(tow, rough, cells, number=1074):
    """The payload of an MSM, as `msm_of` makes it."""
    return payload_of(station.msm_of(tow, rough, cells, number))


def example(name):
    with open(f"{EXAMPLES}/{name}", "rb") as file:
        return file.read()


BASE, HIDDEN = example("base.rtcm"), example("hidden.rtcm")
ARP = BASE[:25]


def at(seconds, **fields):
    """The frame of a 1004 of satellite 5, so many seconds after noon."""
    return frame_of(legacy(NOON + 1000 * seconds, [{**SATELLITE, **fields}]))


def bare(seconds, **fields):
    """The frame of a 1004 without satellites."""
    return frame_of(legacy(NOON + 1000 * seconds, [], **fields))


def place(number, **fields):
    """The frame of a 1006, or of a 1005, which has no height."""
    return station.capture(station.point(number, **({"height": 15_000} if number == 1006 else {}) | fields))


def payload_in(frame):
    return frame[3:-3]


def block(first=b"", last=b"", size=512):
    """The bytes of one read: a first frame, zeros, and a last one that ends with them."""
    return first + bytes(size - len(first) - len(last)) + last


def report(*lines, **counts):
    names = "other", "refused", "foreign", "taken", "repeat", "conflict", "late"
    counts = {"frames": sum(counts.get(it, 0) for it in names), **{it: counts.get(it, 0) for it in names}, "epochs": counts["epochs"]}
    return "".join(f"{it}\n" for it in lines) + "".join(f"{it} {n}\n" for it, n in counts.items())


def convert(links, window=64, codes="1C,2W", kind=None):
    """The file and the report; the kind is that of the MSM, if one is named."""
    return model.convert(Setup(2003, NEAR, MADE, "BASE", tuple(codes.split(",")), window, kind), links)[:2]


def save(name, text):
    with open(name, "wb") as file:
        file.write(text if isinstance(text, bytes) else text.encode())


def case(cases, name, links, window=64, codes="1C,2W", kind=None, told=None, line=""):
    """`told` is the report and `line` a line of the file, or several, if they are known in words."""
    text, said = convert(links, window, codes, kind)
    if (told is not None and said != told) or line not in text:
        sys.exit(f"cases: {name}: the model writes\n{text}{said}and not\n{line}{told}")
    names = [f"{name}.{number}" for number in range(1, len(links) + 1)]
    for link, content in zip(names, links):
        save(link, content)
    save(f"{name}.rnx", text)
    save(f"{name}.report", said)
    options = [f"--window={window}"] + ([] if kind is None else [f"--msm={kind}"])
    print(name, codes, *options, *names, file=cases)


def hold_to_examples():
    """What another program wrote of the examples."""
    first, second = example("session_link1.rtcm"), example("session_link2.rtcm")
    dated = [example("dated_link1.rtcm"), example("dated_link2.rtcm")]
    for links, window, codes, text, said in (
        ([example("session.rtcm")], 64, "1C,2W,5X", "session.rnx", "session.report"),
        ([first, second], 64, "1C,2W,5X", "session.rnx", "session_links.report"),
        (dated, 64, "1C,2W,5X", "session.rnx", None),
        ([example("late.rtcm")], 2, "1C,2W", "late.rnx", "late.report"),
        ([BASE], 64, "1C,2W", "base.rnx", None),
    ):
        found = convert(links, window, codes)
        if found[0].encode() != example(text) or (said and found[1].encode() != example(said)):
            sys.exit(f"cases: the model does not write {text}")
    session = example("session.rtcm")
    third = frames_of(session)[2].end
    assert example("dated.rtcm") == session[:third] + station.date(43_201) + session[third:]
    assert dated == dated_links.links_of(example("dated.rtcm"))
    systems = [example("systems_link1.rtcm"), example("systems_link2.rtcm")]
    assert systems == systems_links.links()
    assert example("systems.rnx").decode() == convert_mixed(systems_links.options(), systems).file


# ---------------------------------------------------------------- small captures, each with its report in words


def links_of_sixteen(cases):
    """Each of the 16 links in the report."""
    # pins: lines, counted, refused_line, link_text, count_lines, count_line
    case(cases, "refused_on_each_link", [NO_NUMBER] * 16, told=report(
        *(f"link {it} refused M1 -" for it in range(1, 17)), refused=16, epochs=0))
    # pins: cell_conflict_line, signal_text, epoch_text, civil_text
    case(cases, "conflict_on_each_link", [at(0, l1_cnr=180 + it) for it in range(16)], told=report(
        *(f"link {it} conflict 1004 {TOLD}00.000 G05 1C" for it in range(2, 17)), taken=1, conflict=15, epochs=1))
    case(cases, "late_on_each_link", [at(10) + at(11), *[at(5)] * 15], window=2, told=report(
        *(f"link {it} late 1004 {TOLD}05.000" for it in range(2, 17)), taken=2, late=15, epochs=2))
    # pins: late_line, arrival_text
    case(cases, "late_1006_of_link_16", [b""] * 15 + [at(0) + at(1) + place(1006)], window=2, told=report(
        "link 16 late 1006 -", taken=2, late=1, epochs=2))
    # pins: conflict_line
    case(cases, "conflict_of_1006_on_link_16", [ARP + place(1006)] + [b""] * 14 + [place(1006, single_oscillator=1)], told=report(
        "link 16 conflict 1006 -", taken=2, conflict=1, epochs=0))
    # one that equals the kept one is never late, one that differs is late and no more in conflict
    case(cases, "kept_1006_is_never_late", [place(1006) + at(0) + at(1) + place(1006) + place(1006, z=1) + ARP], window=2, told=report(
        "link 1 late 1006 -", "link 1 late 1005 -", taken=3, repeat=1, late=2, epochs=2))


def refusals(cases):
    """The faults of each message, the first cause of each."""
    too_late = 604_800_000
    rows = (
        (b"\x3e", "M1 -"),
        (legacy(NOON, [])[:-1], "M3 1004"),
        (legacy(NOON, [SATELLITE])[:-1], "M3 1004"),
        (legacy(NOON, [], satellites=1), "M3 1004"),
        (legacy(too_late, [], satellites=1), "M4 1004"),
        (payload_in(ARP)[:-1], "M3 1005"),
        (payload_in(place(1006))[:-1], "M3 1006"),
        # a 1005 whose first 12 bits are 1006
        (b"\x3e\xe7" + payload_in(ARP)[2:], "M3 1006"),
        *refusals_of(1074),
    )
    text = b"".join(frame_of(payload) for payload, _ in rows)
    case(cases, "each_refusal", [text], told=report(*(f"link 1 refused {why}" for _, why in rows), refused=len(rows), epochs=0))
    save("each_refusal.lines", "".join(f"refused {why}\n" for _, why in rows))
    # the last good time of week, and 64 cells
    good = legacy(604_799_999, []), cells_64(1074)
    case(cases, "not_refused", [b"".join(map(frame_of, good))], told=report(taken=2, epochs=1))
    save("not_refused.lines", "1004 station 2003 tow 604799999 satellites 0\n1074 station 2003 tow 475200000 satellites 16 signals 4 cells 64\n")


def refusals_of(number):
    """The faults of an MSM."""
    too_late = 604_800_000
    five_by_thirteen = {(satellite, signal): {} for satellite in range(1, 14) for signal in range(1, 6)}
    rough, one = dict.fromkeys(range(1, 14), (70, 0)), ({5: (70, 0)}, {(5, 2): {}}, number)
    return (
        (msm(NOON, *one)[:21], f"M3 {number}"),
        (msm(NOON, *one)[:-1], f"M3 {number}"),
        (msm(too_late, rough, five_by_thirteen, number)[:22], f"M4 {number}"),
        (msm(NOON, rough, five_by_thirteen, number)[:22], f"M5 {number}"),
    )


def cells_64(number):
    """An MSM of 64 cells."""
    satellites = range(1, 17)
    return msm(NOON, dict.fromkeys(satellites, (70, 0)), {(it, signal): {} for it in satellites for signal in (2, 3, 4, 8)}, number)


def each_msm(cases):
    """Each MSM is taken if it is named, and then the other ones are not looked into."""
    texts = {it: [frame_of(payload) for payload, _ in refusals_of(it)] + [frame_of(cells_64(it))] for it in MSMS}
    text = b"".join(frame for frames in zip(*texts.values()) for frame in frames)
    for number in MSMS:
        case(cases, f"each_msm_of_which_{number}", [text], kind=number - 1070, told=report(
            *(f"link 1 refused {why}" for _, why in refusals_of(number)), other=15, refused=4, taken=1, epochs=1))


def fine_values(cases):
    """The values at the ends of the fields of a 1076 and a 1077, and strengths, of which satellites 8 and 10 have the least
    ones of 0.25 and 0.5, and 11 and 12 the greatest one."""
    ranges = {2: (1, 1), 3: (-1, -1), 4: (524_287, 8_388_607), 6: (-524_288, 0), 7: (0, -8_388_608)}
    strengths = {8: 1, 9: 5, 10: 6, 11: 1021, 12: 1023, 13: 754}
    fields = "fine_range", "fine_phase", "cnr"
    cells = {(it, 2): dict(zip(fields, (*ranges.get(it, (0, 0)), strengths.get(it, 0)))) for it in range(1, 14)}
    rough = {it: (255 if it in strengths else 70, 256 if it == 5 else 512) for it in range(1, 14)}
    lines = [f"G{it:02}{first:>14}  {second:>14}" for it, first, second in (
        (1, "21135368.289", "111067110.000"), (2, "21135368.290", "111067110.001"), (3, "21135368.288", "111067109.999"),
        (4, "21135661.055", "111073263.984"), (5, "21060420.175", "110673255.000"), (6, "", "111067110.000"), (7, "21135368.289", ""))]
    lines += [f"G{it:02}{strength:>46}" for it, strength in zip(range(8, 14), ("0.250", "0.250", "0.500", "63.750", "63.750", "47.250"))]
    for number in (1076, 1077):
        case(cases, f"values_of_{number}", [frame_of(msm(NOON, rough, cells, number))], kind=number - 1070, told=report(taken=1, epochs=1),
            line="".join(f"{it.rstrip()}\n" for it in lines))


def closes(cases):
    """Frames that only the end of a link finds, and which link ends first."""
    case(cases, "hidden", [HIDDEN], told=report(taken=1, repeat=1, epochs=0))
    case(cases, "found_at_the_end", [FALSE_PREAMBLE + BASE], told=report(taken=2, epochs=1))
    stronger = at(0, l1_cnr=181)
    case(cases, "lower_link_ends_first", [FALSE_PREAMBLE + at(0), FALSE_PREAMBLE + stronger], told=report(
        f"link 2 conflict 1004 {TOLD}00.000 G05 1C", taken=1, conflict=1, epochs=1))
    # pins: IsNextLink, newest_on
    case(cases, "older_link_ends_first", [at(10) + FALSE_PREAMBLE + at(20), at(5) + FALSE_PREAMBLE + at(20, l1_cnr=181)], told=report(
        f"link 1 conflict 1004 {TOLD}20.000 G05 1C", taken=3, conflict=1, epochs=3))
    # sixteen links hold a frame each, and end in their order
    case(cases, "sixteen_links_end_in_order", [FALSE_PREAMBLE + at(0, l1_cnr=it) for it in range(16, 0, -1)], told=report(
        *(f"link {it} conflict 1004 {TOLD}00.000 G05 1C" for it in range(2, 17)), taken=1, conflict=15, epochs=1))


def order_of_reading(cases):
    """Which of two copies that differ comes first tells which link was read first."""
    one, other = at(30), at(30, l1_cnr=181)
    first, second = (f"link {it} conflict 1004 {TOLD}30.000 G05 1C" for it in (1, 2))
    # pins: IsClassOfReading, newest_on
    case(cases, "foreign_message_is_no_newest_epoch", [block(bare(99, station=7)) + one, other], told=report(
        second, foreign=1, taken=1, conflict=1, epochs=1))
    # link 2 has come to second 5, though late, so link 3, which has no epoch, is read before the rest of it
    # pins: IsNextLink, newest_on
    case(cases, "late_message_is_newest_epoch", [at(10) + at(11), block(at(5)) + one, other], window=2, told=report(
        f"link 2 late 1004 {TOLD}05.000", second, taken=3, conflict=1, late=1, epochs=3))
    # the last frame of a block comes with it, and one that ends a byte after it does not
    # pins: read_at_once, IsNextRead
    case(cases, "a_read_of_512_bytes", [block(at(10)) + one, block(at(15), other)], told=report(
        first, taken=3, conflict=1, epochs=3))
    # pins: read_at_once, IsNextRead
    case(cases, "no_read_of_513_bytes", [block(at(10), one, 513), block(at(5)) + other], told=report(
        first, taken=3, conflict=1, epochs=3))
    # the same where the program reads ahead again, after 32,768 bytes
    ahead = block(at(15)) + bytes(63 * 512) + block(at(26), other)
    # pins: read_at_once, IsNextRead
    case(cases, "a_read_after_32768_bytes", [block(at(25)) + one, ahead], told=report(
        first, taken=4, conflict=1, epochs=4))


def windows(cases):
    """The greatest window: after 4,096 greater epochs an epoch is closed, and not after 4,095."""
    epochs = [bare(seconds) for seconds in range(4096)]
    case(cases, "window_of_4096", [b"".join(epochs) + at(0) + bare(4096) + at(0, l1_cnr=181)], window=4096, told=report(
        f"link 1 late 1004 {TOLD}00.000", taken=4098, late=1, epochs=1))
    # a report of so many lines is gathered whole, and one of more is not
    for name, count in (("gathered_report", 1590), ("longer_report", 1700)):
        case(cases, name, [bare(1) + bare(2) + count * bare(0)], window=2, told=report(
            *[f"link 1 late 1004 {TOLD}00.000"] * count, taken=2, late=count, epochs=0))


def ties(cases):
    """The exact range is 21060420.1745 m."""
    case(cases, "tie_away_from_zero", [frame_of(msm(NOON, {5: (70, 256)}, {(5, 2): {}}))], told=report(taken=1, epochs=1),
        line="G05  21060420.175   110673255.000\n")


def every_cell(cases, number=1074, kind=None, each=1):
    """All 672 cells of an epoch: of 32 satellites fifteen codes in an MSM, four signals of sixteen satellites in each, and six
    in 1004. Then an MSM whose cells are in conflict but for the last one, and one of which all are."""
    known, halves = sorted(SIGNALS), (range(1, 17), range(17, 33))
    groups = [(half, known[at : at + 4]) for half in halves for at in range(0, 16, 4)]

    def cells_of(half, signals, strength=40, last=40):
        cells = {(it, signal): {"cnr": each * strength} for it in half for signal in signals}
        cells[max(cells)] = {"cnr": each * last}
        return frame_of(msm(NOON, {it: (60 + it, it) for it in half}, cells, number))

    rows = [[{**SATELLITE, "satellite": it} for it in part] for part in (range(1, 32), [32])]
    legacies = [
        frame_of(legacy(NOON, [{**it, "l1_code": l1, "l2_code": l2} for it in part]))
        for part in rows for l1, l2 in ((0, 0), (1, 1), (0, 2), (1, 3))
    ]
    capture = b"".join(legacies + [cells_of(*it) for it in groups])
    lines = [
        f"link 1 conflict {number} {TOLD}00.000 G{it:02} {SIGNALS[signal]}" for it in groups[0][0] for signal in groups[0][1]
    ]
    codes = ",".join(CODES)
    same, of_msm = {"codes": codes, "kind": kind}, f"_of_{number}" if kind else ""
    records = convert([capture], **same)[0].splitlines()[-33:]
    assert records[0] == "> 2024 05 17 12 00  0.0000000  0 32" and {len(it) for it in records[1:]} == {769}
    case(cases, f"every_cell{of_msm}", [capture], **same, told=report(taken=16, epochs=1))
    # pins: cell_conflict_line
    for name, conflicts, last in (("conflicts_63", 63, 40), ("conflicts_64", 64, 41)):
        case(cases, name + of_msm, [capture + cells_of(*groups[0], 41, last)], **same, told=report(
            *lines[:conflicts], taken=16, conflict=1, epochs=1))
    # the longest lines, with a link of two digits
    # pins: cell_conflict_line
    case(cases, f"conflicts_64{of_msm}_of_link_16", [b""] * 15 + [capture + cells_of(*groups[0], 41, 41)], **same, told=report(
        *(it.replace("link 1 ", "link 16 ", 1) for it in lines), taken=16, conflict=1, epochs=1))
    # the same epoch, which greater ones close before the end
    case(cases, f"every_cell{of_msm}_closed", [capture + bare(1) + bare(2)], window=2, **same, told=report(taken=18, epochs=1))


def every_cell_of_1077(cases):
    every_cell(cases, 1077, kind=7, each=16)


def some(random, width):
    """A field: often at an end of its width, else any value."""
    low, high = (0, (1 << width) - 1) if width > 0 else (-1 << -width - 1, (1 << -width - 1) - 1)
    return random.choice((low, high)) if random.random() < 0.03 else random.randint(low, high)


def legacy_pair(random, tow, satellites):
    """A 1004, and one whose first satellite differs."""
    rows = [{
        "satellite": it, "l1_code": int(random.random() < 0.1), "l1_range": some(random, 24), "l1_offset": some(random, -20),
        "l1_lock": some(random, 7), "modulus_ambiguity": random.randint(60, 90), "l1_cnr": some(random, 8), "l2_code": 3,
        "l2_range": some(random, -14), "l2_offset": some(random, -20), "l2_lock": some(random, 7), "l2_cnr": some(random, 8),
    } for it in satellites]
    other = [{**rows[0], "l1_cnr": rows[0]["l1_cnr"] ^ 1}, *rows[1:]]
    return legacy(tow, rows), legacy(tow, other)


def msm_pair(random, tow, satellites, number):
    """An MSM, and one whose last cell differs."""
    rough = {it: (255 if random.random() < 0.03 else random.randint(60, 90), some(random, 10)) for it in satellites}
    cells = {(it, signal): {
        entry.name: some(random, -entry.width if entry.least else entry.width) for entry in MSM_CELL[number]
    } for it in satellites for signal in (2, 24)}
    last = max(cells)
    other = {**cells, last: {**cells[last], "cnr": cells[last]["cnr"] ^ 4}}
    return msm(tow, rough, cells, number), msm(tow, rough, other, number)


def session(random, epochs, number=1074):
    """The frames of so many epochs, each with one that is in conflict with it."""
    pairs = []
    for second in range(epochs):
        tow = NOON + 1000 * second
        if second % 25 == 0:
            pairs.append((payload_in(place(1006)), payload_in(place(1006, x=second))))
        satellites = sorted(random.sample(range(1, 36), 8))
        pairs.append(legacy_pair(random, tow, satellites))
        pairs += [msm_pair(random, tow, part, number) for part in (satellites[:4], satellites[4:])]
        if second % 10 == 0:
            pairs += [(it, it) for it in (b"\x3f\xb0", legacy(tow, [], station=second), legacy(tow, [], satellites=1), b"")]
    # bits after the last field, and the reserved ones of a frame, mean nothing
    extra = [random.randbytes(random.randrange(3)) if len(good) > 20 else b"" for good, _ in pairs]
    return [tuple(frame_of(it + more, random.randrange(64)) for it in pair) for pair, more in zip(pairs, extra)]


def damaged(random, pairs):
    """A link of the session: frames are lost, repeated, in conflict, exchanged, turned over, and hidden by what is none."""
    frames = []
    for good, other in pairs:
        chance = random.random()
        if chance < 0.2:
            continue
        flipped = bytearray(good)
        flipped[random.randrange(len(good))] ^= 1 << random.randrange(8)
        frames += [other] if chance < 0.25 else [bytes(flipped)] if chance < 0.3 else [good, good] if chance < 0.35 else [good]
        if random.random() < 0.05:
            frames.append(FALSE_PREAMBLE + random.randbytes(random.randrange(40)))
    for k in range(len(frames) - 30):
        if random.random() < 0.03:
            other = k + random.randrange(30)
            frames[k], frames[other] = frames[other], frames[k]
    return b"".join(frames)


def long_captures(cases):
    random = Random(20240517)
    pairs, codes = session(random, 250), "1C,2W,5X,1P"
    whole = b"".join(good for good, _ in pairs)
    assert len(whole) > 2 * 32_768 and len(convert([whole], 64, codes)[0]) > 2 * 65_536
    case(cases, "long_capture", [whole], codes=codes)
    case(cases, "long_capture_on_16_links", [b"".join(good for good, _ in pairs[it::16]) for it in range(16)], codes=codes)
    links = [damaged(random, pairs) for _ in range(3)]
    case(cases, "long_damaged_links", links, window=5, codes=codes)
    case(cases, "long_damaged_links_exchanged", links[::-1], window=5, codes=codes)
    case(cases, "long_damaged_links_of_a_wide_window", links, codes=codes)
    for number in MSMS[1:]:
        links = [damaged(random, session(random, 100, number))]
        case(cases, f"long_damaged_link_of_{number}", links, window=5, codes=codes, kind=number - 1070)


# ---------------------------------------------------------------- captures for `summary`


def contents():
    """Small captures, each with lines of its summary in words."""
    empty = {**SATELLITE, "l1_offset": -(1 << 19), "l1_cnr": 0, "l2_range": -(1 << 13), "l2_offset": -(1 << 19), "l2_cnr": 0}
    weak = {**empty, "satellite": 32, "l1_cnr": 1}
    # pins: has_value
    yield "no_value", frame_of(legacy(NOON, [empty])), (" satellites -\n codes -\nnothing taken\n",)
    # pins: has_value
    yield "strength_alone", frame_of(legacy(NOON, [empty, weak])), (" satellites G32\n codes 1C\n next ",)
    # L1 has neither range nor phase, and L2 a range, or a phase
    # pins: has_value
    yield "range_alone", frame_of(legacy(NOON, [{**empty, "l2_range": 0}])), (" satellites G05\n codes 2W\n next ",)
    # pins: has_value
    yield "phase_alone", frame_of(legacy(NOON, [{**empty, "l2_offset": 0}])), (" satellites G05\n codes 2W\n next ",)
    # DF016: 1 is 2P, 3 is 2W
    second = at(0, l2_code=1), at(1, l2_code=1), at(2)
    # pins: second_frequency_line
    yield "second_frequency_2p", b"".join(second[:2]), (" codes 1C,2P\n second-frequency 2P\n next ",)
    # pins: second_frequency_line
    yield "second_frequency_2p_and_2w", b"".join(second), (" codes 1C,2P,2W\n next ",)
    # pins: changes_in
    yield "week_ends", frame_of(legacy(604_799_000, [])) + frame_of(legacy(0, [])) + frame_of(legacy(0, [])), (
        " time-of-week 604799000 0\n changes-of-time 1\n",)
    untaken = b"".join(frame_of((number << 4).to_bytes(2, "big")) for number in (1004, 1077, 1001, 1073, 1003, 1084, 1077, 1001))
    # pins: untaken_numbers, messages_read
    yield "untaken_observations", untaken, (
        "frames 8\nother 1001 2\nother 1003 1\nother 1073 1\n"
        "untaken GPS 1001 2\nuntaken GPS 1003 1\nuntaken GPS 1073 1\nrefused M3 1004 1\nrefused M3 1077 2\nrefused M3 1084 1\nnothing taken\n",)
    yield from proposals(empty)
    # the first frame would reach past the end, and the other one stands in it
    yield "frame_in_a_candidate", FALSE_PREAMBLE + at(0), ("outside-frames 3\nframes 1\n",)
    numbers = b"".join(frame_of((number << 4).to_bytes(2, "big")) for number in range(4095, -1, -1))
    # pins: all_numbers
    yield "every_message_number", numbers, ("other 0 1\n", "other 4095 1\n", "refused M3 1074 1\n")
    # pins: station_lines
    yield "every_station", b"".join(bare(it % 60, station=it) for it in range(4095, -1, -1)), (
        "frames 4096\nstation 0\n", "station 4095\n message 1004 1\n time-of-week 475215000 475215000\n")


def proposals(empty):
    """Captures with several MSM, each with the one that is proposed."""
    def of(number, signal, *seconds, ms=70):
        return b"".join(frame_of(msm(NOON + 1000 * it, {5: (ms, 0)}, {(5, signal): {}}, number)) for it in seconds)

    def told(codes, *others):
        lines = [*(f" other-msm {it}" for it in others), f" next rtcm2rinex convert --station 2003 --near {summaries.NO_DATE} {summaries.MADE} --marker 2003 --codes {codes} "]
        return "\n".join(lines)

    four = of(1074, 2, 0, 1) + of(1075, 24, 0) + of(1076, 24, 1) + of(1077, 16, 2, 3)
    # pins: better_of, proposed, msm_option, other_msm_line, other_msm_lines, proposal_lines
    yield "msm_of_alike_the_greater", four, (
        " message 1074 2\n message 1075 1\n message 1076 1\n message 1077 2\n time-of-week 475200000 475203000\n",
        " codes 1C,2L,5X\n" + told("2L --msm 7", "1074 2", "1075 1", "1076 1"))
    # pins: better_of, proposed, msm_option
    yield "msm_of_most_epochs", four + of(1075, 24, 4, 5), (" codes 1C,2L,5X\n" + told("5X --msm 5", "1074 2", "1076 1", "1077 2"),)
    # pins: proposed, msm_option
    yield "msm_that_needs_no_option", four + of(1074, 2, 4), (told("1C", "1075 1", "1076 1", "1077 2"),)
    # an epoch in several messages is one, and one that comes again is another
    # pins: begins_epoch, Proposal.epochs_in
    yield "msm_whose_epochs_are_split", of(1074, 2, 0, 1, 0) + of(1077, 2, 0, 0, 1, 1), (
        " message 1077 4\n", told("1C", "1077 2"))
    # pins: gives_value
    yield "msm_without_values", of(1076, 2, 0) + of(1077, 2, 0, 1, ms=255), (" message 1077 2\n", " codes 1C\n" + told("1C --msm 6"))
    # signal 9 is 2P, and 10 is 2W
    # pins: proposal_lines
    yield "msm_without_2w", of(1074, 9, 0, 1) + of(1077, 10, 0), (" codes 2P,2W\n second-frequency 2P\n" + told("2P", "1077 1"),)
    # pins: proposed
    yield "msm_of_no_value", of(1077, 2, 0, ms=255) + at(0), (" codes 1C,2W\n" + told("1C,2W"),)
    yield "msm_beside_1004", of(1076, 24, 0) + at(0), (" codes 1C,2W,5X\n" + told("1C,2W,5X --msm 6"),)


def many_of_each():
    """More than 16 bits count of each message and each fault of a message, and of another message. The summary is that of the
    rules, in words."""
    too_late, one = 604_800_000, ({5: (70, 0)}, {(5, 2): {}})
    rows = (
        (" message 1005", payload_in(ARP)),
        (" message 1006", payload_in(place(1006))),
        *((f" message {it}", msm(NOON, *one, it)) for it in MSMS),
        ("other 1073", (1073 << 4).to_bytes(2, "big")),
        ("refused M3 1004", legacy(NOON, [])[:-1]),
        ("refused M3 1005", payload_in(ARP)[:-1]),
        ("refused M3 1006", payload_in(place(1006))[:-1]),
        *((f"refused M3 {it}", msm(NOON, *one, it)[:-1]) for it in MSMS),
        ("refused M4 1004", legacy(too_late, [])),
        *((f"refused {why}", payload) for fault in (2, 3) for payload, why in (refusals_of(it)[fault] for it in MSMS)),
    )
    counts = {line: 100_001 + at for at, (line, _) in enumerate(rows)}
    # pins: number_line
    save("many_of_each", b"".join(frame_of(payload) * counts[line] for line, payload in rows))
    size, lines = Path("many_of_each").stat().st_size, [f"{line} {n}\n" for line, n in counts.items()]
    save("many_of_each.summary", "".join((
        f"bytes {size}\noutside-frames 0\nframes {sum(counts.values())}\nstation 2003\n", *lines[:6],
        f" time-of-week {NOON} {NOON}\n changes-of-time 0\n satellites G05\n codes 1C\n",
        *(f" other-msm {it} 1\n" for it in MSMS[:3]), f" next rtcm2rinex convert --station 2003 --near {summaries.NO_DATE} {summaries.MADE} --marker 2003 --codes 1C --msm 7 many_of_each\n",
        " auto rtcm2rinex auto --station 2003 -o 2003.rnx many_of_each\n",
        lines[6], f"untaken GPS 1073 {counts['other 1073']}\n", *lines[7:],
    )))


def sent_by(station, payload):
    """The frame of the payload with this station, whose number stands in bits 12 to 23."""
    return frame_of((payload[0] << 16 | payload[1] >> 4 << 12 | station).to_bytes(3, "big") + payload[3:])


def greatest_summary():
    """Each line that a summary can have: some 2.5 MB. All 4,096 stations send each message, and of these all satellites and each
    code but 2W; the last one sends 2W too. Then come all other numbers, and each fault."""
    last, halves = 604_799_999, (range(1, 17), range(17, 33))
    payloads = [
        *(payload_in(place(number)) for number in (1005, 1006)),
        legacy(last, [{**SATELLITE, "l2_code": 2}]),
        *(msm(last, {it: (70, it) for it in half}, {(it, 2): {"cnr": 40} for it in half}) for half in halves),
        *(msm(last, {32: (70, 0)}, {(32, signal): {"cnr": 40} for signal, code in SIGNALS.items() if code != "2W"}, it) for it in MSMS),
    ]
    stations, told = [], []
    for station in range(4096):
        more = [legacy(last, [SATELLITE])] if station == 4095 else []
        stations.append([sent_by(station, it) for it in payloads + more])
        if station in (0, 4095):
            lines = summaries.summary_of(b"".join(stations[-1]), "greatest")
            block_of = lines[lines.index("station"):]
        told.append(block_of.replace("station 0", f"station {station}").replace("0000", f"{station:04}"))
    all_codes = ",".join(CODES)
    assert f" codes {all_codes}\n" in told[-1] and f" codes {all_codes.replace(',2W', '')}\n second-frequency 2P\n" in told[0]
    assert " satellites " + " ".join(f"G{it:02}" for it in range(1, 33)) + "\n" in told[0]
    rest = [(number << 4).to_bytes(2, "big") for number in range(4096)]
    rest += [b"", legacy(last + 1, []), *(payload for it in MSMS for payload, _ in refusals_of(it)[2:])]
    unread = summaries.summary_of(b"".join(map(frame_of, rest)))
    unread = unread[unread.index("other 0 1\n"):].removesuffix("nothing taken\n")
    frames = [*(frame for frames in stations[::-1] for frame in frames), *map(frame_of, rest)]
    # pins: summary_text
    save("greatest", b"".join(frames))
    size = sum(map(len, frames))
    save("greatest.summary", f"bytes {size}\noutside-frames 0\nframes {len(frames)}\n" + "".join(told) + unread)


def summary_cases():
    """The file `summaries` has the name of each capture."""
    with open("summaries", "w") as names:
        for name, capture, lines in contents():
            told = summaries.summary_of(capture, f"{name}.rtcm")
            if not all(it in told for it in lines):
                sys.exit(f"cases: {name}: the model writes\n{told}and not\n{lines}")
            save(f"{name}.rtcm", capture)
            save(f"{name}.summary", told)
            print(name, file=names)
    for name in ("each_refusal.1", "long_capture.1", "long_damaged_links.1"):
        with open(name, "rb") as file:
            save(f"{name}.summary", summaries.summary_of(file.read(), name))


# ---------------------------------------------------------------- a long file for `check`


def shown(random):
    """The columns of a code: each value blank, at an end of its limits, or any; and the digit of loss of lock."""
    values = [random.choice((None, -999_999_999_999, 9_999_999_999_999, 1, -1, random.randint(10**10, 10**11))) for _ in "CL"]
    strength = random.choice((None, 250, 5_750, 6_000, 63_750, 250 * random.randint(1, 255)))
    return model.columns_of(*values, strength, " 123"[random.randrange(4)])


def all_shown(random):
    """The same of the greatest values."""
    return model.columns_of(9_999_999_999_999, -999_999_999_999, 63_750, " 123"[random.randrange(4)])


def record_body(random, shown):
    """The lines of 32 satellites; each has a value of its first code."""
    first = (model.columns_of(1, 1, 250, " 123"[random.randrange(4)]) for _ in range(32))
    lines = (it + "".join(shown(random) for _ in CODES[1:]) for it in first)
    return "".join(f"G{number:02}{line}".rstrip() + "\n" for number, line in enumerate(lines, 1))


def long_file():
    """450 records of 32 satellites and 16 codes, some of them the longest that there are; the same with a zero in the last
    line; its part of each second record; and its numbers. Files of some satellites of them, and their pictures of so many columns."""
    random = Random(305)
    bodies = [record_body(random, shown) for _ in range(14)] + [record_body(random, all_shown)]
    head = "".join(f"{it}\n" for it in model.header(Setup(2003, NEAR, MADE, "BASE", tuple(CODES), 64), {}, NEAR))
    for columns in (121, 600):
        few = ["".join(it.splitlines(keepends=True)[at % 3 : 4]) for at, it in enumerate(bodies)]
        text = head + "".join(
            f"{model.epoch_line(NEAR + 1000 * it, 4 - it % 3)}\n{few[it % 15]}" for it in range(columns) if it % 9 != 4)
        save(f"columns_{columns}.rnx", text)
        save(f"columns_{columns}.svg", svg_picture(text))
    text = head + "".join(f"{model.epoch_line(NEAR + 1000 * it, 32)}\n{bodies[it % 15]}" for it in range(450))
    assert len(text) > 10_000_000
    save("long.rnx", text)
    save("long.table", qualities.table(text))
    save("long.numbers", qualities.lines(text))
    save("long.json", qualities.in_json(text))
    last = text.rindex("\nG32") + 4
    save("zero.rnx", text[:last] + f"{'0.000':>14}" + text[last + 14:])
    save("zero.line", f"line {text.count(chr(10))}: C3 Value\n")
    part = parts.part_of(text, parts.Part(None, None, 2))
    # so long, and with other slips than in the file
    assert any(len(it) == 32 * 770 + 34 and it not in text for it in part.split("> ")[1:])
    save("long_2s.rnx", part)


# All satellites have four of these codes, and two the fifth one, so they have 130 bars, and one code has a line `never`.
DAY_CODES = "1C", "2W", "2X", "1X", "5X"


def day_rows(random, minute):
    """The satellites in sight: each rises twice a day, some minutes after the one before it, and strengths follow its height, with noise."""
    for number in range(1, 33):
        since = (minute - 45 * number) % 720
        if since >= 330:
            continue
        height = since * (330 - since) / 165**2
        cells = []
        for place in range(5 if number in (8, 24) else 4):
            strength = 250 * round(4 * (30 + 20 * height - 2 * place + random.gauss(0, 0.7)))
            is_slip = since == 0 or height < 0.2 and random.random() < 0.02
            bits = is_slip + 2 * (since < 2)
            cells.append(model.columns_of(20_000_000_000, 110_000_000_000, strength, str(bits) if bits else " "))
        yield f"G{number:02}{''.join(cells)}".rstrip()


def ordinary_day():
    """A day of all satellites, and its picture, which has the height that the manual says. It fits a screen of 2,000 pixels, and has less than 1 MB."""
    random = Random(307)
    text = "".join(f"{it}\n" for it in model.header(Setup(2003, NEAR, MADE, "BASE", DAY_CODES, 64), {}, NEAR))
    for minute in range(1440):
        rows = list(day_rows(random, minute))
        text += "\n".join([model.epoch_line(NEAR + 60_000 * minute, len(rows)), *rows, ""])
    picture = svg_picture(text)
    assert "<svg xmlns='http://www.w3.org/2000/svg' viewBox='0 0 1620 1960'>" in picture
    assert len(picture) < 1_000_000
    save("day.rnx", text)
    save("day.svg", picture)


def main():
    hold_to_examples()
    with open("cases", "w") as cases:
        for write in (
            links_of_sixteen, refusals, each_msm, fine_values, closes, order_of_reading, windows, ties, every_cell,
            every_cell_of_1077, long_captures,
        ):
            write(cases)
    many_of_each()
    greatest_summary()
    summary_cases()
    long_file()
    ordinary_day()


main()
