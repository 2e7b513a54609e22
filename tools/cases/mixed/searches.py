"""Searches that nobody thought of: random files of both editions, some with ranges that lie, and bounds about the
values and the ranges that there are.

Each case has dice of its own, as in mixed.py.
"""
from cases import encodings
from cases.ask import ask_search
from cases.dice import Dice
from cases.sweeps.searches import kinds_of, spread
from models import files, search
from models.build import column_file, ranged
from models.files import TOP
from . import reads


def some_spread(dice):
    """A block of a small range, among a few dozen that meet each other."""
    smallest = dice.pick((0, 100, 2**63, TOP - 400)) + dice.below(100)
    return spread(dice, smallest, smallest + 6 + dice.below(200))


def lie_about(dice, block):
    """The block with a range that is not quite the body's, or the body's all the same."""
    smallest, largest = ranged(block).entry[-2:]
    smallest += dice.pick((0, 0, 1, -1, 50, -50, 300))
    largest += dice.pick((0, 0, 1, -1, 50, -50, 300))
    return block.but(smallest=min(max(smallest, 0), TOP), largest=min(max(largest, 0), TOP))


def near_file(dice):
    """A file of blocks whose ranges are near each other; in edition 2 some of them lie."""
    edition = dice.pick((1, 2, 2, 2))
    count = dice.pick((1, 2, 2, 3, 3, 4))
    blocks = [encodings.as_kind(dice.pick(kinds_of(edition)), some_spread(dice)) for _ in range(count)]
    if edition == 2 and dice.below(2):
        i = dice.below(count)
        blocks[i] = lie_about(dice, blocks[i])
    return column_file(blocks, edition)


def any_file(dice):
    return reads.some_file(dice)[0]


def some_number(dice, data):
    """A number for a bound: an end of a range, a value of a block, one next to these, or any."""
    if files.contents_answer(data) or not files.count_of(data) or dice.below(6) == 0:
        return dice.pick((0, 1, 2**63, TOP, dice.number(), dice.below(300)))
    block = dice.below(files.count_of(data))
    entry = files.entry_at(data, block)
    if entry.smallest is not None and dice.below(2):
        number = dice.pick((entry.smallest, entry.largest))
    elif files.bodies_answer(data, [block]):
        number = dice.number()
    else:
        values = files.values_of(data, block)
        number = dice.pick((values[dice.below(1024)], min(values), max(values)))
    return min(max(number + dice.pick((0, 0, 0, 1, -1)), 0), TOP)


def some_bounds(dice, data):
    """Mostly the lower number first; in some cases twice the same."""
    low = some_number(dice, data)
    high = low if dice.below(4) == 0 else some_number(dice, data)
    return (high, low) if (low > high) != (dice.below(8) == 0) else (low, high)


def case(seed, i):
    dice = Dice("searches", seed, i)
    data = near_file(dice) if dice.below(3) else any_file(dice)
    low, high = some_bounds(dice, data)
    _, rows = search.search(data, low, high, 2**18)
    found = 3 if rows is None else len(rows)
    room = max(found + dice.pick((0, 0, 0, 1, 1, -1, 5, dice.below(9), -dice.below(found + 1))), 0)
    return ask_search(dice, f"searches {seed} case {i}", data, low, high, room)


def searches(seed, count):
    return (case(seed, i) for i in range(count))
