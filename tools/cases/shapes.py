"""Blocks of 1,024 numbers for the writer, most of them made for the least widths that they have.

Let W0, W1 and W2 be the least widths of kinds 0, 1 and 2 for a block. The frame never needs more than the numbers
themselves, so W1 is at most W0. A difference that does not wrap is at most the largest number minus the smallest, and
one that wraps is at least 2^64 minus that, so W2 is at most W1, or it is 64. The bodies have 128·W0, 128·W1 and
128·(W2 + 1) bytes. So

    kind 0 is chosen exactly when W0 = W1 and W0 is at most W2 + 1. Every width 0 to 64 can be.
    kind 1 is chosen exactly when W1 is below W0 and at most W2 + 1. Every width 0 to 63 can be; 64 is not below any W0.
    kind 2 is chosen exactly when W2 + 1 is below W1. Every width 0 to 62 can be; 63 + 1 is not below any W1.

Kind 0 is never the only shortest, and where kinds 0 and 2 are equally short, kind 1 is as short or shorter.
"""
import struct

from models import layout
from models.files import LANES, WRAP, T
from models.layout import ORDER

TOP = WRAP - 1
MOST_WIDTH = (64, 63, 62)  # by kind, of those that can be chosen


def along_rows(number):
    """The block whose row r of lane l holds number(r, l), modulo 2^64."""
    block = [0] * 1024
    for lane, places in enumerate(layout.PLACES[T]):
        for row, place in enumerate(places):
            block[place] = number(row, lane) % WRAP
    return block


def by_place(number):
    """The block that holds number(p) at place p, modulo 2^64."""
    return [number(p) % WRAP for p in range(1024)]


def transposed(block):
    """The value transpose (R22): at place i the value that stood at the source of i."""
    return [block[i % 16 * 64 + ORDER[i // 16 % 8] * 8 + i // 128] for i in range(1024)]


def thrown(dice, low, high):
    """1,024 numbers from low to high, both included."""
    return [low + word % (high - low + 1) for word in struct.unpack("<1024Q", dice.bytes(8192))]


def other_places(dice, count, of):
    """That many different numbers below of."""
    found = []
    while len(found) < count:
        found += {dice.below(of)} - set(found)
    return found


def between(dice, low, high):
    """Numbers from low to high, both among them, with a fall from high to low somewhere along a lane."""
    block = thrown(dice, low, high)
    row, lane = dice.below(T - 1), dice.below(LANES)
    block[layout.place(row, lane)], block[layout.place(row + 1, lane)] = high, low
    return block


def steps_up_to(dice, largest, base):
    """From a base by rows, with steps of up to the largest, which occurs; each lane's row 0 holds its base."""
    steps = thrown(dice, 0, largest)
    for lane in range(LANES):
        steps[layout.place(0, lane)] = 0
    steps[layout.place(1 + dice.below(T - 1), dice.below(LANES))] = largest
    return layout.undelta(T, steps, base)


def far_base(dice):
    """Bases anywhere, the smallest and the largest number among them, so that W0 and W1 are 64."""
    base = [dice.number() for _ in range(LANES)]
    first, second = other_places(dice, 2, LANES)
    base[first], base[second] = 0, TOP
    return base


# A block for each kind and width that can be chosen. There are two of each, at the two edges of what the width holds.


def highest(width):
    return 2**width - 1


def lowest(width):
    """The least number that needs this width."""
    return 2**width // 2


def kind_0(dice, width):
    """Largest and smallest number as large as they may be, so that the frame saves just nothing; then both as small."""
    yield between(dice, max(lowest(width) - 1, 0), highest(width))
    yield between(dice, 0, lowest(width))


def kind_1(dice, width):
    """A reference that saves just one bit, and then a far one."""
    yield between(dice, 2**width, 2**width + highest(width))
    reference = 2**width + dice.below(WRAP - 2**width - lowest(width))
    yield between(dice, reference, reference + lowest(width))


def kind_2(dice, width):
    yield steps_up_to(dice, highest(width), far_base(dice))
    yield steps_up_to(dice, lowest(width), far_base(dice))


BY_KIND = (kind_0, kind_1, kind_2)


# A block for any three widths that there can be.


def can_be(w0, w1, w2):
    """Is there a block with these least widths?"""
    return w1 <= w0 <= T and (w2 <= w1 or (w2 == T and w1 > 0))


def with_widths(dice, w0, w1, w2):
    """A block with these least widths: lanes that stay the same, but for one that has one step."""
    low = 0 if w0 == w1 else lowest(w0)
    one, other, stepping = other_places(dice, 3, LANES)
    lanes = [low + dice.below(2**w1) for _ in range(LANES)]
    lanes[one], lanes[other] = low, low + highest(w1)
    before, after = (low, low + highest(w2)) if w2 <= w1 else (low + 1, low)
    at = 1 + dice.below(T - 1)
    return along_rows(lambda row, lane: (before if row < at else after) if lane == stepping else lanes[lane])
