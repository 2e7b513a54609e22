"""Trickles that nobody thought of: random widths, cuts and states, and outputs of which a few have another length.

Each case has dice of its own, as in mixed.py.
"""
from cases.ask import ask_trickle, ask_trickle_from, ask_trickle_started
from cases.dice import Dice
from cases.sweeps.trickles import FAR_TOO_MANY, TOO_WIDE
from models.trickle import ROOM, body_size


def some_width(dice):
    """Mostly one that is taken."""
    if dice.below(12) == 0:
        return dice.pick((*TOO_WIDE, 65 + dice.below(2**16 - 65)))
    return dice.pick((0, 1, 2, 17, 63, 64, dice.below(9), dice.below(65), dice.below(65)))


def some_cuts(dice, size):
    """Chunks that make up so many bytes: few or many, short or long, with empty ones among them."""
    most = dice.pick((1, 8, 9, 100, 1000, 10000))
    if size // most > 600:
        most = 100
    found = []
    while size > 0:
        length = min(dice.pick((0, 1, most, dice.below(most + 1), dice.below(most + 1))), size)
        found.append(length)
        size -= length
    return found + [0] * dice.pick((0, 0, 0, 1, 2))


def some_size(dice, lacks):
    """How many bytes are fed where so many are lacking: just these, or more, or fewer."""
    more = (lacks, lacks, lacks + 1, lacks + 8, lacks + dice.below(300), 2 * lacks)
    fewer = (0, 1, max(lacks - 1, 0), dice.below(lacks + 1))
    return dice.pick(more) if dice.below(3) else min(dice.pick(fewer), lacks)


def some_room(dice):
    return dice.pick((0, 1, 1023, 1025, dice.below(2000))) if dice.below(8) == 0 else 1024


def some_held(dice, width):
    """Bytes held: some, all, or too many."""
    size = min(body_size(width), ROOM)
    if dice.below(5) == 0:
        return dice.pick((size + 1, size + 8, ROOM, ROOM + 1, 2 * ROOM, dice.number(), *FAR_TOO_MANY))
    return dice.pick((0, size, max(size - 1, 0), dice.below(size + 1), dice.below(size + 1)))


def case(seed, i):
    dice = Dice("trickles", seed, i)
    width, name = some_width(dice), f"trickles {seed} case {i}"
    size = min(body_size(width), ROOM)
    sort = dice.below(5)
    if sort < 3:
        return ask_trickle(dice, name, width, some_cuts(dice, some_size(dice, size)), some_room(dice))
    if sort == 3:
        return ask_trickle_started(dice, name, width, some_cuts(dice, some_size(dice, size)), some_room(dice))
    held = some_held(dice, width)
    fed = some_size(dice, max(size - held, 0))
    return ask_trickle_from(dice, name, width, held, some_cuts(dice, fed), some_room(dice))


def trickles(seed, count):
    return (case(seed, i) for i in range(count))
