"""Writes for the sample. A block of numbers has 8,192 bytes, so there are few."""
from cases import shapes
from cases.ask import ask_check, ask_row, ask_to_fit, ask_write
from cases.shapes import along_rows
from models import writer


def small_writes(dice):
    for room in (0, 3, 4, 9):
        yield ask_write(dice, "no blocks", [], room)
    for count, room in ((1, 0), (1, 64), (3, 20), (16, 4)):
        yield ask_write(dice, "counts", [7] * count, room)
    yield ask_write(dice, "counts", [7] * 1023, 30)
    yield from small_blocks(dice)


def small_shapes(dice):
    """A block of each kind, a tie of all three kinds and one of kinds 1 and 2, and sums that wrap; all of short
    bodies."""
    yield "kind 0, from 1 to 3", shapes.between(dice, 1, 3)
    yield "all 7", [7] * 1024
    yield "kind 1, from 2^63 - 1 to 2^63 + 1", shapes.between(dice, 2**63 - 1, 2**63 + 1)
    yield "three ways of one length", shapes.with_widths(dice, 2, 2, 1)
    yield "kinds 1 and 2 of one length", shapes.with_widths(dice, 9, 2, 1)
    yield "rising by rows across 0", along_rows(lambda row, lane: 3 * row - 60 - lane)


def small_blocks(dice):
    """These blocks, some with marks behind the file. The last file comes once more, with an output that is one byte
    short."""
    for (name, values), more in zip(list(small_shapes(dice)), (3, 0, 1, 0, 0, 2)):
        yield ask_to_fit(dice, name, values, more)
        data = writer.file_of(values)
        yield ask_check(f"what is written for {name}", data)
        yield from (ask_row(f"what is written for {name}", data, row) for row in (dice.below(1024), 1023))
    yield ask_to_fit(dice, name, values, -1)
