"""Canonical checks that nobody thought of: files of random rows, of which some blocks are held in another way than the
writer's, and random files with accidents.

Each case has dice of its own, as in mixed.py.
"""
from cases.ask import ask_canonical
from cases.dice import Dice
from models import writer
from models.build import column_file
from . import reads, rewrites, writes
from .reads import TO_BYTES


def held_file(dice):
    """A file of rows as a column has them. In half of the files a block or more is held in some way; a few are of
    edition 1."""
    edition = 1 if dice.below(10) == 0 else 2
    blocks, others = [], dice.below(2)
    for values in writer.blocks_of(writes.some_values(dice)):
        other = others and dice.below(3)
        blocks.append(rewrites.some_way(dice, values, edition) if other else writer.block_of(values))
    data = bytearray(column_file(blocks, edition))
    if dice.below(6) == 0:
        dice.pick(TO_BYTES)(dice, data)
    return bytes(data)


def case(seed, i):
    dice = Dice("canonical", seed, i)
    data = held_file(dice) if dice.below(4) else reads.some_file(dice)[0]
    return ask_canonical(f"canonical {seed} case {i}", data)


def canonicals(seed, count):
    return (case(seed, i) for i in range(count))
