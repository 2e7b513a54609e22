"""Trickles for the sample. An output of a block takes 16,384 bytes there, and the room of a state made by hand 8,192.
So most outputs are empty: the call is then refused with 2, and the bytes taken still tell."""
from cases.ask import ask_trickle, ask_trickle_from, ask_trickle_started
from cases.sweeps.trickles import TOO_WIDE, cut_in_turn
from models.trickle import body_size


def small_given(dice):
    """A block from each sort of state: started, made by hand, too full, and of a refused start; and one asked for too
    early."""
    yield ask_trickle(dice, "cuts in turn and more", 17, cut_in_turn(body_size(17) + 40, (7, 0, 8, 9, 600)))
    yield ask_trickle_from(dice, "a state that lacks some", 3, 300, [50, 0, 40])
    yield ask_trickle_from(dice, "a state that is too full", 1, 129, [5, 0, 2])
    yield ask_trickle_started(dice, "started too wide", 65, [9, 0, 300])
    yield ask_trickle(dice, "too early", 1, [100, 0, 27])


def small_refused(dice):
    """Widths that are too wide, and outputs that are empty or short, with the bytes taken at the edges."""
    for width in TOO_WIDE:
        yield ask_trickle(dice, "too wide", width, [9, 0, 3], 0)
    for width, lengths in (
        (0, []),
        (0, [0, 3, 1]),
        (1, []),
        (1, [1] * 130),
        (1, [129]),
        (1, [127, 0, 5, 9]),
        (2, [256, 0, 256]),
        (17, [2175]),
        (17, [9, 8, 7, 1, 0, 2160]),
        (64, []),
    ):
        yield ask_trickle(dice, "an output that is too short", width, lengths, 2)
    for width in (1, 65, 256, 257, 2**16 - 1):
        yield ask_trickle_started(dice, "started", width, [9, 0, 300], 0)
    for width, held in ((257, 0), (2, 2**63)):
        yield ask_trickle_from(dice, "a state", width, held, [5, 0, 2], 0)


def small_trickles(dice):
    yield from small_given(dice)
    yield from small_refused(dice)
