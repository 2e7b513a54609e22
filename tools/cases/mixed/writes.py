"""Writes that nobody thought of: random blocks of shapes as a column has them, in outputs short, enough and long.

Each case has dice of its own, as in mixed.py.
"""
from cases import shapes
from cases.ask import ask_write
from cases.dice import Dice
from cases.shapes import TOP, along_rows, by_place
from cases.sweeps.writes import near_ties
from models import writer

TIES = tuple(near_ties(range(65)))


def some_width(dice):
    return dice.pick((0, 1, 2, 31, 32, 33, 62, 63, 64, dice.below(9), dice.below(65), dice.below(65)))


def some_step(dice):
    return dice.below(2 ** dice.pick((1, 2, 4, 8, 20, 60, 64)))


# The shapes. Each gives 1,024 numbers.


def narrow(dice):
    """A small range somewhere."""
    largest = dice.below(2 ** some_width(dice))
    low = dice.below(2**64 - largest)
    return shapes.thrown(dice, low, low + largest)


def of_a_width(dice):
    """Numbers from 0 on, or up to the largest of a width."""
    width = some_width(dice)
    return shapes.thrown(dice, dice.below(2**width) if dice.below(3) == 0 else 0, 2**width - 1)


def constant(dice):
    return [dice.pick((0, 1, TOP, 2**63, dice.number(), dice.below(1000)))] * 1024


def constant_lanes(dice):
    lanes = [dice.number() >> dice.below(65) for _ in range(16)]
    return along_rows(lambda row, lane: lanes[lane])


def stepping(dice):
    """By rows with steps up to some width, each lane from anywhere or from near the others; many of them pass 2^64."""
    near, spread = dice.number(), 2 ** dice.pick((0, 4, 12, 64))
    base = [(near + dice.below(spread)) % 2**64 for _ in range(16)]
    return shapes.steps_up_to(dice, dice.below(2 ** some_width(dice)), base)


def falling_lanes(dice):
    """By rows, each lane going down by the same step; some of them pass 0."""
    step, spread = some_step(dice), 2 ** dice.pick((0, 7, 14, 64))
    start = dice.pick((0, 31 * step, 63 * step, dice.number()))
    starts = [start + dice.below(spread) for _ in range(16)]
    return along_rows(lambda row, lane: starts[lane] - step * row)


def going_by_place(dice):
    """Up or down from place to place, as a sorted column; some of them transposed, so that neighbours meet."""
    start, step = dice.pick((0, 512, dice.number())), dice.pick((1, -1)) * some_step(dice)
    block = by_place(lambda p: start + step * p)
    return shapes.transposed(block) if dice.below(2) else block


def wrapping(dice):
    """By rows across 0, up or down."""
    step, zero = dice.pick((1, -1)) * (1 + some_step(dice)), dice.below(64)
    return along_rows(lambda row, lane: step * (row - zero) + lane)


def near_a_tie(dice):
    return shapes.with_widths(dice, *dice.pick(TIES))


SHAPES = (
    narrow,
    of_a_width,
    constant,
    constant_lanes,
    stepping,
    stepping,
    falling_lanes,
    going_by_place,
    wrapping,
    near_a_tie,
    near_a_tie,
)


def with_outliers(dice, block):
    """A few places of the block changed: to anything, or by a little."""
    for _ in range(dice.pick((1, 1, 1, 2, 5))):
        p = dice.below(1024)
        block[p] = dice.pick((0, TOP, dice.number(), (block[p] + 1) % 2**64, (block[p] - 1) % 2**64))
    return block


def some_numbers(dice):
    block = dice.pick(SHAPES)(dice)
    return with_outliers(dice, block) if dice.below(4) == 0 else block


def some_values(dice):
    """The numbers of a file, mostly of one block."""
    values = []
    for _ in range(dice.pick((0, 1, 1, 1, 1, 1, 1, 1, 1, 1, 2, 3))):
        values += some_numbers(dice)
    return values


def other_count(dice, values):
    """Numbers left out or added, so that the count is no multiple of 1,024."""
    if values and dice.below(2):
        return values[: -1 - dice.pick((0, 0, dice.below(1023)))]
    return values + [dice.number() for _ in range(1 + dice.pick((0, 0, dice.below(100))))]


def some_room(dice, size, bound):
    """The length of the output for a file of this size: enough, most of the time."""
    short = (0, max(size - 1, 0), max(size - 1, 0), dice.below(size))
    long = (size, size, size, size + 1, size + 1, size + dice.below(200), bound, bound + 1, max(size, bound - 1))
    return dice.pick(long if dice.below(5) else short)


def case(seed, i):
    dice = Dice("writes", seed, i)
    values, name = some_values(dice), f"writes {seed} case {i}"
    if dice.below(15) == 0:
        return ask_write(dice, name, other_count(dice, values), dice.pick((0, 4, 20, dice.below(9000))))
    return ask_write(dice, name, values, some_room(dice, len(writer.file_of(values)), writer.bound(values)))


def writes(seed, count):
    return (case(seed, i) for i in range(count))
