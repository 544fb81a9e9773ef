"""The slow model of several systems, sixth part: the first line of a text with which it is no mixed file, and why.

A line of the header is wrong if no file begins with it and the lines before it. So a line that leaves no room for what is still
due is wrong itself, and not the line after it: the last system of all as the first of several, or a slot that is too great for
those that the count announces.
"""

from __future__ import annotations

import re
from typing import NamedTuple

from checker import (
    COLUMNS, FOUR, HEADER_LINE, ORDER, TWO, VALUE, Lines, Wrong, is_shown, moment_of, number_in, read_station, want, want_line, whole_in,
)
from mixed_files import SLOTS_IN_A_LINE, TYPES_IN_A_LINE, header_line, slots_lines, types_lines
from model import observation
from systems import BY_LETTER, GLONASS, INDEX, LETTERS, SATELLITES

OF_SEVERAL = "M"


class Heading(NamedTuple):
    """What the records depend on."""

    codes: dict[str, tuple[str, ...]]  # by the letters of the systems
    channels: dict[int, int]
    first: int
    leap: int | None
    doppler: bool


def mixed_fault(text: bytes) -> tuple[int, str] | None:
    """The number of the first wrong line and the cause; nothing if the text is a file."""
    lines = Lines(text)
    try:
        read_records(lines, read_header(lines))
    except Wrong as wrong:
        return lines.number, str(wrong)
    return None


def header_fault(text: bytes) -> tuple[int, str] | Heading:
    """The same of the header with which a text begins; what the header says if none of its lines is wrong."""
    lines = Lines(text)
    try:
        return read_header(lines)
    except Wrong as wrong:
        return lines.number, str(wrong)


def read_header(lines: Lines) -> Heading:
    columns = lines.header("RINEX VERSION / TYPE")
    begin = f"{'3.05':>9}{'':11}{'OBSERVATION DATA':20}"
    want(columns[:40] == begin and columns[41:] == " " * 19, HEADER_LINE)
    letter = columns[40]
    want(letter in LETTERS + OF_SEVERAL, HEADER_LINE)
    read_station(lines)
    codes, doppler = read_all_types(lines, letter)
    columns = lines.header("TIME OF FIRST OBS")
    date = [whole_in(columns[at : at + 6]) for at in range(0, 30, 6)]
    first = moment_of(date, number_in(columns[30:43], 7))
    want(first is not None and columns[43:] == f"{'     GPS':17}", HEADER_LINE)
    for letter in codes:
        want_line(lines, "SYS / PHASE SHIFT", letter)
    channels, leap = read_glonass(lines) if GLONASS.letter in codes else ({}, None)
    want_line(lines, "END OF HEADER", "")
    return Heading(codes, channels, first, leap, doppler)


def read_all_types(lines: Lines, letter: str) -> tuple[dict[str, tuple[str, ...]], bool]:
    """The codes of each system, and whether the file has Doppler, which the third type of the first system says. A letter says the
    only system; else there are two at least, in their order, and the line of the unit of strengths ends them."""
    codes: dict[str, tuple[str, ...]] = {}
    doppler = False
    due = LETTERS if letter == OF_SEVERAL else letter
    while True:
        line = lines.next()
        is_enough = len(codes) >= (2 if letter == OF_SEVERAL else 1)
        if is_enough and line == header_line("DBHZ", "SIGNAL STRENGTH UNIT"):
            return codes, doppler
        want(len(line) == 80 and line[60:] == f"{'SYS / # / OBS TYPES':20}", HEADER_LINE)
        want(line[0] in due, HEADER_LINE)
        due = due[due.index(line[0]) + 1 :]
        want(due or codes or letter != OF_SEVERAL, HEADER_LINE)
        doppler = doppler if codes else line[15] == "D"
        codes[line[0]] = read_types(lines, line[:60], doppler)


def read_types(lines: Lines, columns: str, doppler: bool) -> tuple[str, ...]:
    """The codes of a system, of whose types this is the first line. The first type of a code tells which code it is."""
    known = BY_LETTER[columns[0]].codes
    each = 4 if doppler else 3
    count = whole_in(columns[3:6])
    want(columns[1:3] == "  " and count is not None, HEADER_LINE)
    want(count in range(each, each * len(known) + 1, each), HEADER_LINE)
    codes: list[str] = []
    for begin in range(0, count, TYPES_IN_A_LINE):
        if begin > 0:
            columns = lines.header("SYS / # / OBS TYPES")
        shown = range(begin, min(begin + TYPES_IN_A_LINE, count))
        codes += [columns[8 + 4 * (at - begin) :][:2] for at in shown if at % each == 0]
        want(set(codes) <= set(known) and len(set(codes)) == len(codes), HEADER_LINE)
        # The line is what these codes make of it, and of the announced number.
        unknown = ("??",) * (count // each - len(codes))
        due = types_lines(columns[0], (*codes, *unknown), doppler)[begin // TYPES_IN_A_LINE]
        want(columns == f"{due:60}", HEADER_LINE)
    return tuple(codes)


def read_glonass(lines: Lines) -> tuple[dict[int, int], int]:
    """The slots with their channels, and the leap seconds."""
    channels = read_slots(lines)
    want_line(lines, "GLONASS COD/PHS/BIS", "")
    columns = lines.header("LEAP SECONDS")
    leap = whole_in(columns[:6])
    want(leap in range(100) and columns[6:] == " " * 54, HEADER_LINE)
    return channels, leap


def read_slots(lines: Lines) -> dict[int, int]:
    """The slots rise, and leave room for as many greater ones as are still due."""
    channels: dict[int, int] = {}
    count = last = 0
    for row in range(4):
        columns = lines.header("GLONASS SLOT / FRQ #")
        if row == 0:
            read = whole_in(columns[:3])
            want(read in range(GLONASS.satellites + 1), HEADER_LINE)
            count = read
        begin = SLOTS_IN_A_LINE * row
        for at in range(begin, min(begin + SLOTS_IN_A_LINE, count)):
            word = re.fullmatch("R([0-9]{2}) ([ -][0-9]) ", columns[4 + 7 * (at - begin) :][:7])
            want(word, HEADER_LINE)
            slot, channel = int(word[1]), int(word[2])
            want(last < slot <= GLONASS.satellites - (count - 1 - at) and -7 <= channel <= 6, HEADER_LINE)
            channels[slot] = channel
            last = slot
        # The line is what those slots make of it, and of the announced number.
        filled = {**channels, **{100 + more: 0 for more in range(count - len(channels))}}
        want(columns == f"{slots_lines(filled)[row]:60}", HEADER_LINE)
        if len(channels) == count:
            break
    return channels


def read_records(lines: Lines, heading: Heading) -> None:
    """The first record is at the time of the first observation, and each other is later than the one before."""
    most = sum(name[0] in heading.codes for name in SATELLITES)
    last = None
    while not lines.are_read():
        time, count = read_epoch_line(lines.next(), most)
        want(time == heading.first if last is None else time > last, ORDER)
        last, place = time, 0
        for _ in range(count):
            place = read_satellite_line(lines.next(), heading, place)


def read_epoch_line(line: str, most: int) -> tuple[int, int]:
    """The time, and the count of satellites, of which the systems have so many."""
    match = re.fullmatch(f"> {FOUR} {TWO} {TWO} {TWO} {TWO}(.{{11}})  0(.{{3}})", line)
    want(match, COLUMNS)
    time = moment_of(match.groups()[:5], number_in(match[6], 7))
    count = whole_in(match[7])
    want(time is not None and count in range(1, most + 1), COLUMNS)
    return time, count


def read_satellite_line(line: str, heading: Heading, last: int) -> int:
    """The satellite's place among all, which is greater than the last one of its record. The line has one observation at least,
    and neither a phase nor Doppler of GLONASS without a channel."""
    name = line[:3]
    codes = heading.codes.get(name[:1], ())
    want(codes and name in INDEX, COLUMNS)
    width = 64 if heading.doppler else 48
    want(not line.endswith(" ") and len(line) <= 3 + width * len(codes), COLUMNS)
    want(INDEX[name] > last, ORDER)
    columns = line[3:].ljust(width * len(codes))
    parts = [columns[at : at + width] for at in range(0, len(columns), width)]
    shifts = [part[32:48] if heading.doppler else "" for part in parts]
    plain = [part[:32] + part[-16:] for part in parts]
    want(all(is_shown(part) for part in plain) and columns.strip(" "), VALUE)
    want(all(it in ("", observation(number_in(it[:14], 3), "  ")) for it in shifts), VALUE)
    if name[0] == GLONASS.letter and int(name[1:]) not in heading.channels:
        want(not any(part[16:30].strip() or it.strip() for part, it in zip(plain, shifts)), VALUE)
    return INDEX[name]
