"""What must hold of the program on each capture.

A property answers how it fails, an empty text if it holds, and `NOT_MET` if its premise does not
hold for this capture, so that nothing was checked. The premises are those of the laws that
rtk_convert proves over *found frames* (`set_decides_file`, `file_only_grows`): if bytes are taken
out of a capture or put elsewhere, another frame may come to light or be lost, as after a false
preamble. The laws say nothing of that, so each such property first looks, by the model's own scan,
whether the frames found are those that were meant.
"""

from __future__ import annotations

import re
from collections import Counter
from dataclasses import dataclass
from datetime import timedelta
from itertools import zip_longest
from random import Random
from typing import Callable, Iterable, NamedTuple, Optional

import qualities
from captures import Capture
from checker import fault
from clocks import leap_seconds_at
from damages import damaged_file
from finding import EPHEMERIS, FIRST_DAY, OTHER_EPHEMERIDES, SYSTEM_PARAMETERS, TEXT, Found
from messages import Placed, frames_of, show_line
from model import COUNTS, KINDS, Conversion, Judged, Setup, convert, report_of
from parts import Part, part_of, records_of
from passes import file_of_passes
from pictures import svg_picture, text_picture
from program import Ended, Program
from sender import pick_any
from summaries import summary_of
from wire import MSMS, WEEK_MS, BitWriter, frame_of

MOST_LINKS = 16
HOLDS = ""
NOT_MET = None
Answer = Optional[str]


@dataclass
class Case:
    """A capture, what the model says of it, and what the program made of it."""

    capture: Capture
    due: Conversion
    program: Program
    base: Ended
    rng: Random
    found: Found | None = None  # what `auto` found, if it made a file
    second: bytes | None = None  # a capture from the byte on at which it begins a second date, if `auto` made no file for that

    def convert(self, links: list[bytes], on_stdin: int | None = None) -> Ended:
        return self.program.convert(self.capture.setup, links, on_stdin)

    @property
    def links(self) -> list[bytes]:
        return list(self.capture.links)


def case_of(capture: Capture, program: Program, rng: Random) -> Case:
    due = convert(capture.setup, capture.links)
    return Case(capture, due, program, program.convert(capture.setup, capture.links), rng)


def difference(is_: bytes, due: bytes) -> str:
    """The first line in which two texts differ; nothing if they are equal."""
    pairs = zip_longest(is_.split(b"\n"), due.split(b"\n"))
    faults = (f"line {at} is {line!r} and not {other!r}" for at, (line, other) in enumerate(pairs, 1) if line != other)
    return HOLDS if is_ == due else next(faults)


def ends_with(run: Ended, status: int, out: bytes | None, err: bytes | None) -> str:
    """How a run differs from this status and these texts; a text that isn't given may be any."""
    if run.status != status:
        return f"status {run.status} and not {status}, {run.err[-100:].decode(errors='replace')!r}"
    out_differs = HOLDS if out is None else difference(run.out, out)
    err_differs = HOLDS if err is None else difference(run.err, err)
    return f"standard output: {out_differs}" if out_differs else err_differs


def counts_of(report: bytes) -> dict[str, int]:
    """The nine counts at the end of a report; fewer if they don't stand there."""
    lines = report.decode(errors="replace").split("\n")[-10:-1]
    words = [line.split(" ") for line in lines]
    return {pair[0]: int(pair[1]) for pair in words if len(pair) == 2 and pair[1].isdigit()}


def is_clean(run: Ended) -> bool:
    """Nothing is late and nothing in conflict."""
    return b" late " not in run.err and b" conflict " not in run.err


def as_modelled(case: Case) -> Answer:
    """File and report are, byte for byte, those of the slow model."""
    return ends_with(case.base, 0, case.due.file.encode(), case.due.report.encode())


REPORT_LINE = re.compile(
    r"link (?:[1-9]|1[0-6]) (?:"
    r"refused (?:M1 -|M3 100[456]|M4 1004|M[345] 107[4567])"
    r"|(?:late|conflict) 100[56] -"
    r"|late (?:1004|107[4567]) \d{4}-\d\d-\d\d \d\d:\d\d:\d\d\.\d{3}"
    r"|conflict (?:1004|107[4567]) \d{4}-\d\d-\d\d \d\d:\d\d:\d\d\.\d{3} G\d\d [125][A-Z]"
    r")"
)


def counts_add_up(case: Case) -> Answer:
    """The nine counts stand at the end, frames are the sum of the seven after it, and the lines
    above and the records are as many as is counted."""
    counts = counts_of(case.base.err)
    if tuple(counts) != COUNTS:
        return f"the counts are {tuple(counts)}"
    if counts["frames"] != sum(counts[kind] for kind in KINDS):
        return f"the counts don't add up: {counts}"
    lines = case.base.err.decode(errors="replace").split("\n")[:-10]
    bad = [line for line in lines if not REPORT_LINE.fullmatch(line)]
    if bad:
        return f"a line of the report is {bad[0]!r}"
    told = Counter(line.split(" ")[2] for line in lines)
    if (told["late"], told["refused"]) != (counts["late"], counts["refused"]):
        return f"{counts} and lines {told}"
    if told["conflict"] < counts["conflict"]:
        return f"{counts['conflict']} conflicts and {told['conflict']} lines"
    records = case.base.out.count(b"\n>")
    return HOLDS if records == counts["epochs"] else f"{records} records and {counts}"


def valid_line(text: bytes) -> bytes:
    """What `check` is due to print of a file: its counts."""
    records = text.partition(b"END OF HEADER")[2]
    epochs = records.count(b"\n>")
    return b"valid: %d epochs, %d satellite lines\n" % (epochs, records.count(b"\n") - 1 - epochs)


def file_is_valid(case: Case) -> Answer:
    """`check` says that the file is valid, with its counts."""
    return ends_with(case.program.on(case.base.out, "check"), 0, valid_line(case.base.out), b"")


def is_checked(case: Case, text: bytes) -> str:
    """`check` says of a text what the slow model does."""
    found = fault(text)
    status, line = (0, valid_line(text)) if found is None else (3, f"line {found[0]}: {found[1]}\n".encode())
    return ends_with(case.program.on(text, "check"), status, line, b"")


def faults_are_named(case: Case) -> Answer:
    """Of the file with some damages, three times, `check` names the first wrong line and the cause
    that the slow model finds, or says with the right counts that it is a file still. Few of the
    files without records are taken, of which there are many."""
    if b"\n>" not in case.base.out and case.rng.random() < 0.8:
        return NOT_MET
    texts = [damaged_file(case.rng, case.base.out) for _ in range(3)]
    return next(filter(None, (is_checked(case, text) for text in texts)), HOLDS)


def shown_lines(text: bytes, msm_number: int = 1074) -> bytes:
    """What `show` of this MSM is due to print, by the model."""
    return "".join(f"{show_line(frame.payload, msm_number)}\n" for frame in frames_of(text)).encode()


def shown_as_modelled(case: Case) -> Answer:
    """`show`, without an option or of any MSM, has a line for each frame, and of one link's frames as
    many of each kind as the report of `convert` counts, if that takes the same MSM."""
    text, taken = case.rng.choice(case.links), case.capture.setup.msm_number
    number = case.rng.choice((1074, taken, taken, *MSMS))
    options = [] if number == 1074 and case.rng.random() < 0.8 else [f"--msm={number - 1070}"]
    shown = case.program.on(text, "show", *options)
    differs = ends_with(shown, 0, shown_lines(text, number), b"")
    if differs or len(case.links) > 1 or number != taken:
        return differs
    counts = counts_of(case.base.err)
    starts = [line.split(b" ") for line in shown.out.splitlines()]
    station = str(case.capture.setup.station).encode()
    told = {
        "frames": len(starts),
        "other": sum(words[1] == b"other" for words in starts),
        "refused": sum(words[0] == b"refused" for words in starts),
        "foreign": sum(words[1] == b"station" and words[2] != station for words in starts),
    }
    return HOLDS if told.items() <= counts.items() else f"shown {told}, counted {counts}"


def summarized_as_modelled(case: Case) -> Answer:
    """`summary` tells of the bytes of all links, one after another and with dates among them, what the slow model counts."""
    text = with_dates(case.rng, case.capture.setup, b"".join(case.links))
    return ends_with(case.program.on(text, "summary"), 0, summary_of(text).encode(), b"")


def with_dates(rng: Random, setup: Setup, text: bytes) -> bytes:
    """Up to three frames with a date among those of a capture: most often of the station, and near the reference."""
    pieces = pieces_of(text)
    for _ in range(rng.choice((0, 1, 1, 1, 1, 2, 3))):
        at = max(0, setup.near + rng.choice((0, 0, 0, rng.randint(-WEEK_MS, WEEK_MS)))) // 1000
        dates = [(1013, SYSTEM_PARAMETERS), (1029, TEXT), (1019, EPHEMERIS)]
        if rng.random() < 0.3:
            dates = [(it, fields) for it, (fields, *_) in OTHER_EPHEMERIDES.items()]
        number, table = rng.choice(dates)
        values = {it.name: pick_any(rng, it) for it in table} | {
            "number": number, "station": rng.choice((setup.station, setup.station, 5)), "day": FIRST_DAY + at // 86_400,
            "second": rng.choice((*[at % 86_400] * 9, 86_400, 86_401)), "announced": rng.choice((0, 1, 31)),
            "week": at // 604_800 % 1024, "toe": at % 604_800 // 16,
            "leap_seconds": rng.choice((255, rng.randrange(256), *[leap_seconds_at(1000 * at) + it for it in (0, 0, 1)])),
        }
        if number in OTHER_EPHEMERIDES:
            _, unit, weeks_apart, first = OTHER_EPHEMERIDES[number]
            values |= {"system_week": (at // 604_800 - first) % weeks_apart, "toe": 1000 * (at % 604_800) // unit}
        bits = BitWriter()
        bits.put_row(table, values)
        pieces.insert(rng.randrange(len(pieces)), frame_of(bits.to_bytes() + rng.randbytes(rng.choice((0, 3, 4, 120, 260)))))
    return b"".join(pieces)


def any_file(case: Case) -> str:
    """The file of the capture, or one of a station whose clock is not steered and whose satellites go and return."""
    return case.base.out.decode() if case.rng.random() < 0.5 else file_of_passes(case.rng, case.capture.setup)


def charted_as_modelled(case: Case) -> Answer:
    """`chart --text` of a file, of any width, is the picture that the slow model makes, or so is `chart`; and so is the picture of
    some satellites, as of a file without the others."""
    text, width = any_file(case), case.rng.choice((40, 400, *[case.rng.randint(40, 400)] * 6))
    chosen, options = None, []
    if case.rng.random() < 0.4:
        chosen = {f"G{case.rng.randint(1, 32):02}" for _ in range(case.rng.randint(1, 12))}
        options = ["--satellites", ",".join([*chosen, *case.rng.choice(([], ["R09", "E36"]))])]
        if not any(line[:3] in chosen for line in text.splitlines()):
            return ends_with(case.program.on(text.encode(), "chart", *options), 3, b"", NONE_CHOSEN)
    words, due = ("chart", "--text", "--columns", str(width)), text_picture(text, width, chosen)
    if case.rng.random() < 0.5:
        words, due = ("chart",), svg_picture(text, chosen)
    return ends_with(case.program.on(text.encode(), *words, *options), 0, due.encode(), b"")


NONE_CHOSEN = b"rtcm2rinex: none of the chosen satellites is in the file\n"


def assessed_as_modelled(case: Case) -> Answer:
    """`quality` tells of a file what the slow model counts, in a table, in lines and in JSON."""
    text = any_file(case)
    forms = (((), qualities.table), (("--lines",), qualities.lines), (("--json",), qualities.in_json))
    answers = (ends_with(case.program.on(text.encode(), "quality", *words), 0, due(text).encode(), b"") for words, due in forms)
    return next((it for it in answers if it), HOLDS)


def cut_as_modelled(case: Case) -> Answer:
    """`cut` of a file writes the part that the slow model writes; the span begins and ends at
    records, or a second beside one."""
    text = any_file(case)
    times = [it.time for it in records_of(text)]
    if not times:
        return NOT_MET
    drawn = sorted(case.rng.choice(times).replace(microsecond=0) + timedelta(seconds=case.rng.randint(-1, 1)) for _ in "12")
    since, until = (case.rng.choice((it, None)) for it in drawn)
    between = Counter(round((b - a).total_seconds()) for a, b in zip(times, times[1:]))
    usual = [least * it for least, _ in between.most_common(1) for it in (1, 2, 3) if 1 <= least * it <= 86_400]
    steps = (1, 1, 2, 3, 5, 7, 11, 30, 60, *usual, *usual, *(case.rng.randint(1, 86_400) for _ in range(9)))
    part = Part(since, until, case.rng.choice((None, *steps) if since or until else steps))
    if any(it and not 1980 <= it.year <= 2100 for it in (since, until)):
        return NOT_MET
    run, want = case.program.on(text.encode(), "cut", *part.words()), part_of(text, part)
    return ends_with(run, 0, want.encode(), b"records %d written %d\n" % (len(times), want.count("\n> ")))


def hex_shown_as_bytes(case: Case) -> Answer:
    """`show --hex` of the digits, in parts of either case with blanks after them, is what `show`
    is due to print of the bytes."""
    text = case.rng.choice(case.links)
    digits = text.hex()
    cuts = sorted(case.rng.choices(range(len(digits) + 1), k=case.rng.randrange(20)))
    parts = [digits[at:end] for at, end in zip([0, *cuts], [*cuts, len(digits)])]
    blanks = case.rng.choices((" ", "\t", "\n", "\r\n", "  "), k=len(parts))
    cased = (case.rng.choice((part, part.upper())) for part in parts)
    hex_text = "".join(part + blank for part, blank in zip(cased, blanks))
    return ends_with(case.program.on(hex_text.encode(), "show", "--hex"), 0, shown_lines(text), b"")


def same_on_standard_input(case: Case) -> Answer:
    """A link may be given as standard input: file and report are the same."""
    link = case.rng.randrange(len(case.links))
    return ends_with(case.convert(case.links, link), 0, case.base.out, case.base.err)


def without(case: Case, kinds: tuple[str, ...]) -> tuple[list[bytes], list[Judged]] | None:
    """The links with some frames of these kinds taken out, one or all, and the frames that remain;
    nothing if there are none, or if other frames would be found than those that remain."""
    candidates = [judged for judged in case.due.frames if judged.kind in kinds]
    if not candidates:
        return None
    gone = candidates if case.rng.random() < 0.3 else [case.rng.choice(candidates)]
    links = []
    for number, text in enumerate(case.links):
        frames = [judged.found.frame for judged in gone if judged.found.link == number]
        for frame in reversed(frames):
            text = text[: frame.place] + text[frame.end :]
        payloads = [frame.payload for frame in frames_of(case.links[number]) if frame not in frames]
        if payloads != [frame.payload for frame in frames_of(text)]:
            return None
        links.append(text)
    left = [judged for judged in case.due.frames if judged not in gone]
    return links, left


def frames_left_out(case: Case) -> Answer:
    """A frame of another kind, of another station or refused that is taken out of a capture of one
    link leaves the file; of the report only its own line and counts go. The law on found frames is
    the clause `others` of `set_decides_file`."""
    return _left_out_of_one_link(case, ("other", "foreign", "refused"))


def untaken_left_out(case: Case) -> Answer:
    """A frame that is late, a repeat or in conflict leaves the file too: nothing of it is new. Of
    late ones the law is the clause `late` of `set_decides_file`."""
    return _left_out_of_one_link(case, ("late", "repeat", "conflict"))


def _left_out_of_one_link(case: Case, kinds: tuple[str, ...]) -> Answer:
    if len(case.links) > 1:
        return NOT_MET
    rest = without(case, kinds)
    if rest is None:
        return NOT_MET
    report = report_of(rest[1], case.due.epochs)
    return ends_with(case.convert(rest[0]), 0, case.base.out, report.encode())


def frames_left_out_of_links(case: Case) -> Answer:
    """The same of several links, if nothing is late and nothing in conflict before and after:
    the reads of 512 bytes are cut elsewhere, and so the order of messages is another."""
    if len(case.links) == 1 or not is_clean(case.base):
        return NOT_MET
    rest = without(case, ("other", "foreign", "refused"))
    return NOT_MET if rest is None else _same_set(case, rest[0])


def _same_set(case: Case, links: list[bytes]) -> Answer:
    """The file of other links that carry the same set of messages, if all come in time there. The
    law on found frames is the clause `same` of `set_decides_file`."""
    run = case.convert(links)
    is_met = run.status != 0 or is_clean(run)
    return ends_with(run, 0, case.base.out, None) if is_met else NOT_MET


def same_with_link_again(case: Case) -> Answer:
    """A link named again after its first place leaves the file, whatever is late or in conflict.

    A copy never reads ahead of the link, since of links alike the first is read, so all that it
    says came before: nothing is taken of it, and nothing comes later for it."""
    links, link = case.links, case.rng.randrange(len(case.links))
    most = MOST_LINKS - len(links)
    if most == 0:
        return NOT_MET
    for _ in range(case.rng.choice((1, 1, 1, 2, most))):
        if len(links) < MOST_LINKS:
            links.insert(case.rng.randint(link + 1, len(links)), case.links[link])
    run = case.convert(links)
    differs = ends_with(run, 0, case.base.out, None)
    copies = len(links) - len(case.links)
    before, after = counts_of(case.base.err), counts_of(run.err)
    own = Counter(judged.kind for judged in case.due.frames if judged.found.link == link)
    due = {name: before[name] + copies * own[name] for name in ("other", "refused", "foreign")}
    due["frames"] = before["frames"] + copies * sum(own.values())
    due |= {name: before[name] for name in ("taken", "epochs")}
    if differs or due.items() <= after.items():
        return differs
    return f"counts {after} with {copies} copies of link {link + 1}, before {before}"


def same_with_link_before(case: Case) -> Answer:
    """A link named also before other links is read in another order: the file is the same if
    nothing is late and nothing in conflict before and after."""
    link = case.rng.randrange(len(case.links))
    if link == 0 or len(case.links) == MOST_LINKS or not is_clean(case.base):
        return NOT_MET
    links = case.links
    links.insert(case.rng.randrange(link), links[link])
    return _same_set(case, links)


def pieces_of(text: bytes) -> list[bytes]:
    """The frames of a text, each with the bytes before it, and then what is left."""
    ends = [0, *(frame.end for frame in frames_of(text))]
    return [text[at:end] for at, end in zip(ends, [*ends[1:], len(text)])]


def payloads_of(links: Iterable[bytes]) -> Counter[bytes]:
    return Counter(frame.payload for text in links for frame in frames_of(text))


def same_dealt_to_two(case: Case) -> Answer:
    """The frames of one link dealt to two, with the bytes between them, give the same file if
    nothing is late and nothing in conflict before and after."""
    if len(case.links) > 1 or not is_clean(case.base):
        return NOT_MET
    links = [b"", b""]
    for piece in pieces_of(case.links[0]):
        links[case.rng.randrange(2)] += piece
    if payloads_of(links) != payloads_of(case.links):
        return NOT_MET
    return _same_set(case, links)


def same_in_any_order(case: Case) -> Answer:
    """The frames of all links in any order on 1 to 16 links, and some of them again: as above."""
    if not is_clean(case.base):
        return NOT_MET
    frames = [frame_of(judged.found.frame.payload) for judged in case.due.frames]
    frames += [case.rng.choice(frames) for _ in frames if case.rng.random() < 0.2]
    case.rng.shuffle(frames)
    links = [b""] * case.rng.choice((1, 2, 3, MOST_LINKS, case.rng.randint(1, MOST_LINKS)))
    for frame in frames:
        links[case.rng.randrange(len(links))] += frame
    return _same_set(case, links)


def file_only_grows(case: Case) -> Answer:
    """The records of the epochs that are closed at the end of a frame, with the header before them,
    begin the file of the whole capture (`file_only_grows`)."""
    text = case.links[0]
    frames: list[Placed] = frames_of(text)
    if len(case.links) > 1 or len(frames) < 3:
        return NOT_MET
    text = text[: case.rng.choice(frames[len(frames) // 2 : -1]).end]
    due = convert(case.capture.setup, [text])
    if due.closed == 0:
        return NOT_MET
    run = case.convert([text])
    records = run.out.split(b"\n>")
    begin = b"\n>".join(records[: due.closed + 1]).rstrip(b"\n") + b"\n"
    if run.status != 0 or len(records) <= due.closed:
        return f"status {run.status}, {len(records) - 1} records and {due.closed} closed"
    return HOLDS if case.base.out.startswith(begin) else difference(case.base.out, begin)


class Property(NamedTuple):
    """A property and in how many of a hundred captures it must at least have been checked."""

    holds: Callable[[Case], Answer]
    floor: int

    @property
    def name(self) -> str:
        return self.holds.__name__


# On every capture: what the run that all start from shows, and what one more run does.
FREE = (Property(as_modelled, 100), Property(counts_add_up, 100))
VALID = (Property(file_is_valid, 100),)

# Tried first, each in its turn, since few captures meet their premises.
SELDOM = (
    Property(frames_left_out_of_links, 10),
    Property(same_with_link_before, 8),
    Property(untaken_left_out, 15),
    Property(file_only_grows, 4),
)

# Tried then, each in its turn.
OFTEN = (
    Property(frames_left_out, 10),
    Property(same_dealt_to_two, 10),
    Property(same_in_any_order, 20),
    Property(same_with_link_again, 20),
    Property(same_on_standard_input, 20),
    Property(shown_as_modelled, 20),
    Property(hex_shown_as_bytes, 20),
    Property(summarized_as_modelled, 20),
    Property(charted_as_modelled, 20),
    Property(assessed_as_modelled, 20),
    Property(cut_as_modelled, 15),
    Property(faults_are_named, 10),
)
