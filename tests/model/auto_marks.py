"""What `auto` must find in some of the captures of several systems. A mark answers whether it is met by what the model finds."""

from __future__ import annotations

from typing import Callable

from channels import LAST_CHANNEL
from clocks import leap_seconds_at
from finding import Found
from messages import frames_of
from msm import letter_of, read_frame
from properties import HOLDS, NOT_MET, Answer, Case, Property
from wire import Message


def has_three_systems(found: Found) -> bool:
    return len(found.chosen.letters) >= 3


def leaves_a_wrong_clock_out(found: Found) -> bool:
    return found.chosen.wrong != ""


def keeps_a_clock_that_is_off(found: Found) -> bool:
    told = {line.split()[1] for line in found.chosen.clocks}
    return bool(told & set(found.chosen.letters))


def tells_a_clock_of_glonass(found: Found) -> bool:
    return any(line.startswith(" clock R ") for line in found.chosen.clocks)


def takes_kinds_that_differ(found: Found) -> bool:
    return "," in found.chosen.msm


def takes_several_links_of_several_systems(found: Found) -> bool:
    return len(found.links) > 1 < len(found.chosen.letters)


def takes_channels(found: Found) -> bool:
    return found.chosen.slots is not None and found.chosen.slots.channels != {}


def takes_a_channel_of_1020(found: Found) -> bool:
    return found.chosen.slots is not None and found.chosen.slots.by_orbits != []


def lacks_some_channels(found: Found) -> bool:
    return takes_channels(found) and found.chosen.slots is not None and found.chosen.slots.without != []


def has_no_channel(found: Found) -> bool:
    return found.chosen.slots is not None and found.chosen.slots.channels == {}


def is_told_several_channels_of_a_slot(found: Found) -> bool:
    return found.chosen.slots is not None and found.chosen.slots.several != {}


def is_told_a_channel_that_no_file_has(found: Found) -> bool:
    slots = found.chosen.slots
    return slots is not None and any(its[-1] > LAST_CHANNEL for its in slots.several.values())


def is_told_channels_alike(found: Found) -> bool:
    return found.chosen.slots is not None and found.chosen.slots.alike != {}


def is_told_another_channel_than_is_given(found: Found) -> bool:
    return found.chosen.slots is not None and found.chosen.slots.others != {}


def is_given_leap_seconds(found: Found) -> bool:
    return found.chosen.leap is not None


def dates_glonass_over_a_leap_second(found: Found) -> bool:
    """With the leap seconds of the table, which change."""
    epochs = [it for of in found.epochs for it in of]
    return "R" in found.chosen.letters and found.chosen.leap is None and leap_seconds_at(min(epochs)) < leap_seconds_at(max(epochs))


def names_the_day_of_1012(found: Found) -> bool:
    return found.days != {}


def has_clocks_without_a_date(found: Found) -> bool:
    return found.unnamed != []


def puts_a_capture_without_epochs_behind_another(found: Found) -> bool:
    return any(at in found.without for link in found.links for at in link[1:])


def leaves_out_chains_that_were_cut_off(found: Found) -> bool:
    return found.cut_off > 0


def tells_no_clock_beside_chains_that_were_cut_off(found: Found) -> bool:
    return found.cut_off > 0 and found.chosen.clocks == [] and len(found.chosen.letters) > 1


# Of these marks each is of five of a hundred captures at least, and of the others of one.
OFTEN = (leaves_out_chains_that_were_cut_off, tells_no_clock_beside_chains_that_were_cut_off)
MARKS = (
    has_three_systems, leaves_a_wrong_clock_out, keeps_a_clock_that_is_off, tells_a_clock_of_glonass, takes_kinds_that_differ,
    takes_several_links_of_several_systems, takes_channels, takes_a_channel_of_1020, lacks_some_channels, has_no_channel,
    is_told_several_channels_of_a_slot, is_told_a_channel_that_no_file_has, is_told_channels_alike, is_told_another_channel_than_is_given,
    is_given_leap_seconds, names_the_day_of_1012, has_clocks_without_a_date,
    puts_a_capture_without_epochs_behind_another,
)  # fmt: skip


def parts_a_capture(case: Case) -> bool:
    return case.second is not None


def parts_a_capture_before_glonass_or_beidou(case: Case) -> bool:
    """These come before what gives an epoch."""
    first = None if case.second is None else read_frame(frames_of(case.second)[0].payload)
    return isinstance(first, Message) and letter_of(first) in ("R", "C")


# These few captures meet, and none need to.
OF_FEW = (dates_glonass_over_a_leap_second,)
# What `auto` finds where it makes no file.
OF_STOPPED = (parts_a_capture, parts_a_capture_before_glonass_or_beidou)


def named(mark: Callable[..., bool], holds: Callable[[Case], bool]) -> Callable[[Case], Answer]:
    """Whether a mark is met in a capture, under its name."""

    def answer(case: Case) -> Answer:
        return HOLDS if holds(case) else NOT_MET

    answer.__name__ = f"auto_{mark.__name__}"
    return answer


def answer_of(mark: Callable[[Found], bool]) -> Callable[[Case], Answer]:
    return named(mark, lambda case: case.found is not None and mark(case.found))


def auto_makes_a_file(case: Case) -> Answer:
    return HOLDS if case.found is not None else NOT_MET


def properties() -> list[Property]:
    """The marks as properties."""
    of_stopped = [Property(named(it, it), 1) for it in OF_STOPPED]
    often = [Property(answer_of(it), 5) for it in OFTEN]
    of_few = [Property(answer_of(it), 0) for it in OF_FEW]
    return [Property(auto_makes_a_file, 25), *often, *(Property(answer_of(it), 1) for it in MARKS), *of_few, *of_stopped]
