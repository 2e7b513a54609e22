"""Drawers for the sample. There the large elements have few blocks."""
from cases.ask import ask_drawer, ask_fitting, ask_thrown
from cases.stream import DRAWERS, FOR_PACK_BLOCKS, UNPACK_BLOCKS
from cases.sweeps.drawers import TOO_MANY, every_call, values_about
from models.drawers import lengths


def small_done(dice, op, t):
    """A width that splits words, with two blocks where they do not take too much room; the smaller elements also have
    widths 0 and T, and the smallest have widths 1 and T - 1."""
    wanted = {8: ((0, 2), (1, 3), (3, 2), (7, 1), (8, 1)), 16: ((0, 1), (3, 2), (16, 1)), 32: ((3, 2),)}
    for width, blocks in wanted.get(t, ((3, 1 if op == UNPACK_BLOCKS else 2),)):
        yield ask_fitting(dice, op, "a width", t, width, blocks)


def small_refused(dice, op, t):
    """Refusals with buffers of which most are empty or short."""
    for width in (0, 1, t):
        yield ask_fitting(dice, op, "a count", t, width, 0)
    for width in (t + 1, 255, 256, 256 + t, 2**16 - 1):
        yield ask_thrown(dice, op, "too wide", t, width, 0, 0, 0)
    for width, blocks, values, packed in (
        (t + 1, 1, 3, 2),  # 1, 2 and 3
        (t + 1, 257, 0, 0),
        (t + 1, 0, 0, 1),  # 1 and 3
        (0, 0, 1, 0),
        (t, 0, 1, 1),  # 2 and 3
        (0, 0, 0, 1),
        (t, 0, 0, 1),
        (1, 1, 0, 0),
        (1, 1, 0, 1024 // t),
        (0, 1, 1, 0),
        (0, 1, 0, 1),
        (1, 2, 3, 2 * 1024 // t),
    ):
        yield ask_thrown(dice, op, "lengths", t, width, blocks, values, packed)
    for blocks in TOO_MANY:
        yield ask_thrown(dice, op, "buffers of M 0", t, 1 if blocks % 2 else t, blocks, 0, 0)


def small_lengths(dice, op, t):
    """One element or one block too few and too many, and counts of blocks that come round to one block. This takes
    room, so it is for the smallest elements."""
    one, two = lengths(t, 1, 1), lengths(t, 1, 2)
    for more in (-1, 1):
        yield ask_thrown(dice, op, "values off", t, 1, 1, one[0] + more, one[1])
        yield ask_thrown(dice, op, "packed off", t, 1, 1, one[0], one[1] + more)
    yield ask_thrown(dice, op, "values a block off", t, 1, 2, one[0], two[1])
    yield ask_thrown(dice, op, "packed a block off", t, 1, 1, one[0], two[1])
    yield ask_thrown(dice, op, "buffers of M 1", t, 1, 257, *one)
    yield ask_thrown(dice, op, "buffers of M 1", t, t, 2**54 + 1, *lengths(t, t, 1))


def small_frames(dice):
    """Values about the reference at the smallest elements; and P8's, value 3 with reference 250 at widths 4 and 3."""
    for name, values in values_about(dice, 8, 3, 250):
        if name in ("that fit but for one", "one below the reference", "equal by blocks"):
            yield ask_drawer(dice, FOR_PACK_BLOCKS, f"values {name}", 8, 3, 2, values, 2 * 384, 250)
    for width in (4, 3):
        yield ask_drawer(dice, FOR_PACK_BLOCKS, "P8", 8, width, 1, b"\x03" * 1024, 128 * width, 250)


def small_drawers(dice):
    for op, t in every_call():
        yield from small_done(dice, op, t)
        yield from small_refused(dice, op, t)
    for op in DRAWERS:
        yield from small_lengths(dice, op, 8)
    yield from small_frames(dice)
