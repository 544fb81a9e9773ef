"""How the records of two files differ.

    differ.py rolls ONE OTHER     in phases alone, by whole multiples of 1,500 cycles
    differ.py digits ONE OTHER    the first lacks loss-of-lock digits that the second has, and else nothing differs

Status 1 where they differ otherwise, or not at all.
"""

import sys

WIDTH = 16  # of an observation with its digits
ROLL = 1_500_000  # thousandths of a cycle


def fields(line):
    return [line[at:at + WIDTH].ljust(WIDTH) for at in range(3, len(line), WIDTH)]


def is_roll(one, other):
    apart = int(one[:14].replace(".", "")) - int(other[:14].replace(".", ""))
    # The strength digit is the same; a digit of loss of lock too.
    return one[14:] == other[14:] and apart % ROLL == 0


def is_lost_digit(one, other):
    return one[:14] == other[:14] and one[15] == other[15] and one[14] == " " and other[14] == "1"


def main():
    kind, first, second = sys.argv[1:]
    with open(first) as one, open(second) as other:
        ones, others = one.read().split("\n"), other.read().split("\n")
    if len(ones) != len(others):
        sys.exit(f"{len(ones)} and {len(others)} lines")
    count = 0
    for one, other in zip(ones, others):
        if one == other:
            continue
        if one[:3] != other[:3] or one[0] != "G":
            sys.exit(f"{one!r} and {other!r}")
        ours, theirs = fields(one), fields(other)
        ours += [" " * WIDTH] * (len(theirs) - len(ours))
        if len(ours) != len(theirs):
            sys.exit(f"{one!r} and {other!r}")
        for place, (a, b) in enumerate(zip(ours, theirs)):
            if a != b and (place % 3 != 1 or not {"rolls": is_roll, "digits": is_lost_digit}[kind](a, b)):
                sys.exit(f"{a!r} and {b!r}")
            count += a != b
    sys.exit(count == 0)


main()
