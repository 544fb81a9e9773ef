"""The slow model: what 1007, 1008 and 1033 tell of the antenna and the receiver of a station."""

from __future__ import annotations


from wire import BitReader, table

HEAD = table("number:u12 station:u12")
ANTENNA = ("antenna-type", "antenna-setup")
NUMBERED = (*ANTENNA, "antenna-serial")
FIELDS = {1007: ANTENNA, 1008: NUMBERED, 1033: (*NUMBERED, "receiver-type", "receiver-version", "receiver-serial")}
LINES = ("antenna-type", "antenna-serial", "antenna-setup", "receiver-type", "receiver-version", "receiver-serial")

Told = dict[str, str]  # by field what is shown of it


def take_field(bits: BitReader, name: str) -> str:
    """A setup is a number; all else is text behind its count of bytes."""
    if name == "antenna-setup":
        return str(bits.take(8))
    text = [bits.take(8) for _ in range(bits.take(8))]
    return "".join(chr(it) if 0x20 <= it <= 0x7E else f"\\x{it:02X}" for it in text)


def equipment_of(payload: bytes) -> tuple[int, Told] | None:
    """The station and what is told of it; None for another message, and for one that is cut short."""
    bits = BitReader(payload)
    try:
        head = bits.take_row(HEAD)
        told = {name: take_field(bits, name) for name in FIELDS.get(head["number"], ())}
    except EOFError:
        return None
    return (head["station"], told) if told else None


def numbered(told: list[Told]) -> list[Told]:
    """The messages, and an empty serial number in each one that has none and names another antenna than the message before it."""
    messages: list[Told] = []
    for it in told:
        was_told = any("antenna-serial" in before for before in messages)
        is_other = was_told and messages[-1]["antenna-type"] != it["antenna-type"]
        messages.append({"antenna-serial": "", **it} if is_other else it)
    return messages


def equipment_lines(told: list[Told]) -> list[str]:
    """The last value of each field, and how often it is another than before."""
    lines = []
    messages = numbered(told)
    for name in LINES:
        values = [it[name] for it in messages if name in it]
        changes = sum(before != after for before, after in zip(values, values[1:]))
        lines += [f" {name} {it}" for it in values[-1:] if it] + [f" changes-of-{name} {changes}"] * (changes > 0)
    return lines
