"""Rewrites that nobody thought of: random files of both editions, and random rows held in random ways.

Each case has dice of its own, as in mixed.py.
"""
from cases import encodings
from cases.ask import ask_rewrite
from cases.dice import Dice
from cases.sweeps.reads import has_runs
from models import rewrite, writer
from models.build import column_file
from . import reads, writes


def some_way(dice, values, edition):
    """A block of these numbers in one of the ways to hold them."""
    ways = encodings.ways_of(values, has_runs(edition))
    return ways[dice.pick(sorted(ways))]()


def held_file(dice):
    """A file of rows as a column has them, each block held in some way or as the writer would."""
    edition = dice.pick((1, 2))
    blocks = []
    for values in writer.blocks_of(writes.some_values(dice)):
        blocks.append(some_way(dice, values, edition) if dice.below(3) else writer.block_of(values))
    return column_file(blocks, edition)


def some_file(dice):
    return held_file(dice) if dice.below(2) else reads.some_file(dice)[0]


def case(seed, i):
    dice = Dice("rewrites", seed, i)
    data = some_file(dice)
    _, new = rewrite.rewrite(data, 2**23)
    size = len(data if new is None else new)
    room = dice.pick((size, size, size, size + 1, size + dice.below(100), size - 1, dice.below(size + 1), len(data)))
    return ask_rewrite(dice, f"rewrites {seed} case {i}", data, max(room, 0))


def rewrites(seed, count):
    return (case(seed, i) for i in range(count))
