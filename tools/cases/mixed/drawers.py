"""Drawers that nobody thought of: random sizes, widths, counts of blocks and values, some with buffers that do not fit.

Each case has dice of its own, as in mixed.py.
"""
from cases.ask import ask_drawer
from cases.dice import Dice
from cases.stream import DRAWERS, FOR_PACK_BLOCKS, UNPACK_BLOCKS
from cases.sweeps.drawers import TOO_MANY, references_of
from models import drawers, layout


def some_width(dice, t):
    return dice.pick((0, 1, 2, t - 1, t, dice.below(9) % (t + 1), dice.below(t + 1), dice.below(t + 1)))


def some_count(dice):
    """Mostly few blocks."""
    return dice.pick((0, 1, 1, 1, 1, 2, 2, 2, 3, 3, 4, 1 + dice.below(12)))


def some_reference(dice, t):
    return dice.pick((*references_of(t), dice.below(2**t), dice.below(2**t), dice.below(2**t)))


def some_packed(dice, size):
    shape = dice.below(6)
    return dice.bytes(1) * size if shape == 0 else dice.bytes(size)


def some_values(dice, t, width, reference, count):
    """Values anywhere, values whose differences fit the width, and such with a few that do not."""
    shape = dice.below(4)
    if shape == 0:
        return dice.bytes(count * t // 8)
    numbers = drawers.numbers_of(t, dice.bytes(count * t // 8))
    values = [(reference + number % 2 ** min(width, t)) % 2**t for number in numbers]
    if shape == 1:
        return drawers.bytes_of(t, values)
    for _ in range(dice.pick((1, 1, 3, 20))):
        if count:
            i = dice.below(count)
            values[i] = dice.pick(((reference - 1) % 2**t, (reference + 2**width) % 2**t, dice.below(2**t)))
    return drawers.bytes_of(t, values)


def other_length(dice, length, block):
    """A length that is off by one, by a little, or by a block."""
    near = (length - 1, length - 1, length + 1, length + 1, length - block, length + block)
    return max(dice.pick((*near, dice.below(2 * length + 2))), 0)


def some_faults(dice, t, width, blocks):
    """Width, count of blocks and the two lengths, with one accident or more; sometimes nothing is wrong after them."""
    values, packed = drawers.lengths(t, width, blocks)
    for _ in range(dice.pick((1, 1, 1, 2, 3))):
        sort = dice.below(5)
        if sort == 0:
            width = dice.pick((t + 1, t + 1, 2 * t, 256 + width, dice.below(2**16)))
        elif sort == 1:
            counts = (blocks + 1, max(blocks - 1, 0), blocks + 256, blocks + 2**54, *TOO_MANY, dice.number())
            blocks = min(dice.pick(counts), 2**64 - 1)
        elif sort == 2:
            values = other_length(dice, values, 1024)
        else:
            packed = other_length(dice, packed, layout.lanes_of(t) * min(width, t))
    return width, blocks, values, packed


def case(seed, i):
    dice = Dice("drawers", seed, i)
    op, t = dice.pick(DRAWERS), dice.pick(layout.SIZES)
    width, blocks = some_width(dice, t), some_count(dice)
    values, packed = drawers.lengths(t, width, blocks)
    if dice.below(4) == 0:
        width, blocks, values, packed = some_faults(dice, t, width, blocks)
    name = f"drawers {seed} case {i}"
    if op == UNPACK_BLOCKS:
        return ask_drawer(dice, op, name, t, width, blocks, some_packed(dice, packed * t // 8), values)
    reference = some_reference(dice, t)
    given = some_values(dice, t, width, reference, values)
    return ask_drawer(dice, FOR_PACK_BLOCKS, name, t, width, blocks, given, packed, reference)


def drawers_of(seed, count):
    return (case(seed, i) for i in range(count))
