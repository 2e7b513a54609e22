"""The model of a packed body that trickles in (R70 to R75), from the text of its request alone.

A body of 64-bit elements comes in chunks of any length, for a width W that is fixed at the start. It has 128·W bytes.

    start       takes the width. Above 64 it is refused with 1, and the state is then that of width 0.
    feed        takes the chunk, or what the body still lacks if that is shorter, and says how many bytes it took.
    ask         gives the 1,024 values once the whole body is there. The refusals stand in the order of R75: 2, an output
                that is not 1,024 long, then 16, asked too early, with the bytes held so far as the place.
    handed_in   the state that one made by hand counts as: with a width above 64, or with more bytes held than its body
                has, it is that of width 0.

A state here is the width and the bytes held, and no byte behind them. A call gives a new state and leaves the old one,
so a call that is refused cannot change it, and neither can asking.
"""
import functools
from typing import NamedTuple

from . import layout
from .files import Answer, T, words_of

ROOM = 128 * T  # the bytes of the longest body, and those that a state made by hand has room for
TAKEN = Answer(0, 0, "the width is taken")
GIVEN = Answer(0, 0, "the values are given")


class State(NamedTuple):
    width: int
    held: bytes


OF_WIDTH_0 = State(0, b"")


def body_size(width):
    return 128 * width


def lacking(state):
    """How many bytes of the body are still to come."""
    return body_size(state.width) - len(state.held)


def start(width):
    """The answer and the state."""
    if width > T:
        return Answer(1, 0, f"the width is {width}, and an element has {T} bits"), OF_WIDTH_0
    return TAKEN, State(width, b"")


def handed_in(width, held, room):
    """The state that counts, of one with so many bytes held at the front of its room."""
    if width > T or held > body_size(width):
        return OF_WIDTH_0
    return State(width, room[:held])


def feed(state, chunk):
    """How many bytes are taken, and the state after them."""
    taken = min(len(chunk), lacking(state))
    return taken, State(state.width, state.held + chunk[:taken])


@functools.lru_cache(maxsize=500)
def values_of(width, body):
    return layout.unpack(T, width, words_of(body))


def ask(state, room):
    """The answer for an output of so many places, and the values, None where it is refused."""
    if room != 1024:
        return Answer(2, 0, f"the output has {room} places, and a block has 1,024"), None
    held, size = len(state.held), body_size(state.width)
    if held < size:
        return Answer(16, held, f"{held} bytes are held, and the body has {size} at width {state.width}"), None
    return GIVEN, values_of(state.width, state.held)


def chunks_of(fed, lengths):
    """The bytes that are fed, cut into chunks of these lengths."""
    at = 0
    for length in lengths:
        yield fed[at : at + length]
        at += length


def fed_and_asked(state, fed, lengths, room):
    """Every chunk in turn and then the question: the answer, the values, and the bytes taken in all."""
    total = 0
    for chunk in chunks_of(fed, lengths):
        taken, state = feed(state, chunk)
        total += taken
    return *ask(state, room), total


# The two calls of the stream. Each gives the answer, the values or None, and the bytes taken in all.


def started_and_asked(width, fed, lengths, room):
    """Call 26. Where the start is refused, nothing more is done."""
    answer, state = start(width)
    if answer.number:
        return answer, None, 0
    return fed_and_asked(state, fed, lengths, room)


def from_a_state(width, held, started, given, lengths, room):
    """Call 30. The state is the one that the start gave, refused or not, and all that is given is fed; or it is made by
    hand, its room stands in front of what is fed, and so many bytes of it are held."""
    if started:
        return fed_and_asked(start(width)[1], given, lengths, room)
    return fed_and_asked(handed_in(width, held, given[:ROOM]), given[ROOM:], lengths, room)
