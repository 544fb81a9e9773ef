"""A conversion of more than 200 MB in and out, of which each count is more than a million, and what the other commands tell of its
capture and of its file. The model converts the first epochs, and the others repeat them.

    python3 large.py PROGRAM"""

import subprocess
import sys
from itertools import chain

import model
import qualities
import streams
import summaries
from model import COUNTS, Setup, moment
from pictures import svg_picture, text_picture
from station import NOON
from wire import WEEK_MS, frame_of

PROGRAM = sys.argv[1]
NEAR, MADE = moment("2024-05-17T12:00:00"), moment("2024-05-17T13:00:00")
SETUP = Setup(2003, NEAR, MADE, "BASE", ("1C", "2W"), 64)
# Ten epochs a second, and a last one; the satellites of an epoch, again and again.
MINUTES, PER_MINUTE = 1834, 600
LAST, LAST_TOLD = 250_000_000, "2024-05-20 09:26:40.000"
PAIRS = (3, 8), (8, 17), (17, 29), (29, 3)
EPOCHS = MINUTES * PER_MINUTE + 1
MANY = {"other": 1_000_001, "foreign": 1_000_002, "repeat": 1_000_003, "refused": 1_000_004, "taken": EPOCHS,
    "conflict": 1_000_006, "late": 1_000_007}


def epoch(ms, at, **fields):
    """A 1004 so many ms after noon, whose L1 has no lock time, so that it slips each time."""
    message = streams.legacy((NOON + ms) % WEEK_MS, PAIRS[at % 4])
    for satellite in message.satellites:
        satellite |= {"l1_lock": 0} | fields
    return message


def frames():
    """The frames of all epochs but the last one. A bit of the time changes the same bits of each frame."""
    of_pairs = [streams.Template(epoch(-NOON, at), [], "") for at in range(4)]
    zeros = [int.from_bytes(it.frame(0, 0), "big") for it in of_pairs]
    low, high = [0], [0]
    for bit in range(30):
        change = int.from_bytes(of_pairs[0].frame(1 << bit, 0), "big") ^ zeros[0]
        table = low if bit < 15 else high
        table += [it ^ change for it in table]
    size = len(of_pairs[0].frame(0, 0))
    for at in range(EPOCHS - 1):
        tow = NOON + 100 * at
        yield (zeros[at % 4] ^ high[tow >> 15] ^ low[tow & 32767]).to_bytes(size, "big")


def text_of(few, every=1):
    """The file, of each so many epochs: the first records are those of a few epochs, and the others but the last one those of four
    of them."""
    head, *records = model.convert(SETUP, [few]).file.split("> ")
    bodies = [it.partition("\n")[2] for it in records]
    minutes = [
        "".join(f"@{tick // 10:3}.{tick % 10}000000  0  2\n{bodies[place(tick)]}" for tick in range(0, PER_MINUTE, every))
        for place in (lambda tick: tick if tick < 4 else 4 + tick % 4, lambda tick: 4 + tick % 4)]
    prefixes = [model.epoch_line(NEAR + 60_000 * minute, 2)[:18] for minute in range(MINUTES)]
    text = "".join(minutes[at > 0].replace("@", it) for at, it in enumerate(prefixes))
    return f"{head}{text}> {records[-1]}".encode()


def slipped(text, tick):
    """The text with a slip of the second code of G17 at this tick."""
    at = text.index(b"\nG17", text.index(model.epoch_line(NEAR + 100 * tick, 2).encode())) + 82
    return text[:at] + b"1" + text[at + 1:]


def first_records(text, count):
    """The header and so many records."""
    return b"\n> ".join(text.split(b"\n> ", count + 1)[:count + 1]) + b"\n"


def summary_of(few, size, last):
    """It tells of the satellites and codes of a few epochs."""
    told = summaries.summary_of(few, "/dev/stdin")
    messages = sum(MANY[it] for it in ("taken", "repeat", "conflict", "late"))
    return (
        f"bytes {size}\noutside-frames 0\nframes {sum(MANY.values())}\n"
        f"station 7\n message 1004 {MANY['foreign']}\n time-of-week {last} {last}\n changes-of-time 0\n satellites -\n codes -\n"
        f"station 2003\n message 1004 {messages}\n time-of-week {NOON} {NOON}\n changes-of-time {EPOCHS}\n"
        f"{told[told.index(' satellites'):]}other 1019 {MANY['other']}\nrefused M1 - {MANY['refused']}\n")


def longest(text):
    """Nearly the most bytes that `check` takes, in parts: the file, and its records again in later years; and how many records."""
    at = text.index(b"> ")
    times, room = divmod(2**30 - at, len(text) - at)
    end = text.rindex(b"\n> ", 0, at + room) + 1
    years = range(2024, 2025 + times)
    parts = (text[at:None if year < years[-1] else end].replace(b"> 2024", b"> %d" % year) for year in years)
    return chain([text[:at]], parts), times * text.count(b"> ") + text.count(b"> ", 0, end)


def main():
    passed = failed = 0

    def test(name, words, given, status, out, err=b"", begins=False):
        nonlocal passed, failed
        pipe = subprocess.PIPE
        ran = subprocess.Popen([PROGRAM, *words, "/dev/stdin"], stdin=pipe, stdout=pipe, stderr=pipe)
        if not isinstance(given, bytes):  # parts, of which all are read before a byte is written
            ran.stdin.writelines(given)
            given = b""
        said, told = ran.communicate(given)
        said = said[:len(out)] if begins else said
        if (ran.returncode, said, told) == (status, out, err):
            passed += 1
            print(f"ok {name}")
        else:
            failed += 1
            print(f"FAILED {name}: status {ran.returncode}, {said[-200:]}, {told[-200:]}")

    last = (NOON + LAST) % WEEK_MS
    few = streams.capture(*(epoch(100 * at, at) for at in range(8)), epoch(LAST, 0))
    capture = b"".join((
        *frames(), streams.capture(epoch(LAST, 0)),
        frame_of(b"\x3f\xb0" + bytes(50)) * MANY["other"],
        streams.capture(streams.legacy(last, (), 7)) * MANY["foreign"],
        streams.capture(streams.legacy(last, ())) * MANY["repeat"],
        frame_of(b"") * MANY["refused"],
        streams.capture(epoch(LAST, 0, l1_cnr=181)) * MANY["conflict"],
        streams.capture(streams.legacy(NOON, ())) * MANY["late"],
    ))
    text = text_of(few)
    assert min(len(capture), len(text)) > 200_000_000
    counts = {"frames": sum(MANY.values()), **MANY, "epochs": EPOCHS}
    report = "".join((
        "link 1 refused M1 -\n" * MANY["refused"],
        f"link 1 conflict 1004 {LAST_TOLD} G03 1C\nlink 1 conflict 1004 {LAST_TOLD} G08 1C\n" * MANY["conflict"],
        "link 1 late 1004 2024-05-17 12:00:00.000\n" * MANY["late"],
        *(f"{name} {counts[name]}\n" for name in COUNTS)))
    # pins: count_line
    # refuses: a sink that lets go of what is beyond 64 MiB, a reader that spoils a read after the 200,000th, a count that stays at 999,999
    test("convert_of_200_mb", ["convert", *SETUP.words()], capture, 0, text, report.encode())
    # pins: number_line
    test("summary_of_200_mb", ["summary"], capture, 0, summary_of(few, len(capture), last).encode())
    del capture, report
    given, records = longest(text)
    # refuses: a `check` that passes over the end of a long file
    test("check_of_the_longest_file", ["check"], given, 0, b"valid: %d epochs, %d satellite lines\n" % (records, 2 * records))
    wrong = text.rindex(b"\nG08") + 4
    test("check_of_a_fault_in_200_mb", ["check"], text[:wrong] + b"%14s" % b"0.000" + text[wrong + 14:], 3,
        b"line %d: C3 Value\n" % text.count(b"\n"))
    many, parted = text.count(b"\n> "), text_of(few, 10)
    test("part_of_200_mb", ["cut", "--from", "2024-05-17T12:00:00"], text, 0, text, b"records %d written %d\n" % (many, many))
    # pins: is_near_step, has_slipped_since
    test("seconds_of_200_mb", ["cut", "--every", "1"], slipped(text, 1_100_381), 0, slipped(parted, 1_100_390),
        b"records %d written %d\n" % (many, parted.count(b"\n> ")))
    # Each L1 but the first one of four satellites has bit 0, and so have L1 and L2 of the last epoch, which begins a pass.
    slips, rises, missing = 2 * (EPOCHS - 1) - 4, 4, (LAST - 100 * (EPOCHS - 2)) // 100 - 1
    # pins: number_lines, named_count_line
    test("chart_of_200_mb_in_characters", ["chart", "--text"], text, 0, (
        f"marker BASE\nfrom 2024-05-17 12:00:00.000 GPS time\nuntil {LAST_TOLD} GPS time\ninterval 0.100\ncolumn 3333.400\n"
        f"records {EPOCHS}\nsatellites 4\nslips {slips}\nreturns 0\nrises {rises}\nmissing {missing}\n").encode(), begins=True)
    shown = svg_picture(model.convert(SETUP, [few]).file).split("\n")[:5]
    shown.append(f"<text x='110' y='72'>2024-05-17 12:00:00.000 to {LAST_TOLD}, interval 0.100 s, column 173.700 s</text>")
    shown.append(f"<text x='110' y='98'>records {EPOCHS}, satellites 4, slips {slips}, returns 0, rises {rises}, missing epochs {missing}</text>\n")
    # pins: svg_span, svg_numbers
    test("chart_of_200_mb", ["chart"], text, 0, "\n".join(shown).encode(), begins=True)
    # More epochs of a pass than 16 bits hold, and a sum of strengths that 32 bits do not hold.
    some = first_records(text, 100_000)
    # refuses: epochs of passes in 16 bits, a sum of strengths in 32
    test("quality_of_100_000_epochs", ["quality"], some, 0, qualities.table(some.decode()).encode())
    test("quality_of_100_000_epochs_in_lines", ["quality", "--lines"], some, 0, qualities.lines(some.decode()).encode())
    test("quality_of_100_000_epochs_in_json", ["quality", "--json"], some, 0, qualities.in_json(some.decode()).encode())
    # refuses: slips in 16 bits
    test("chart_of_100_000_epochs", ["chart", "--text"], some, 0, text_picture(some.decode(), 80).encode())
    print(passed, failed)


main()
