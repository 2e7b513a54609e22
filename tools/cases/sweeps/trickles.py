"""The deliberate cases of trickles (R70 to R75): every width, cuts of every sort, chunks past the end of the body,
questions that come too early, states that are handed in, and every set of reasons at once.

Each section is a function that gives questions, as in reads.py. The bytes are thrown, and so is the whole room of a
state made by hand.
"""
from cases.ask import ask_trickle, ask_trickle_from, ask_trickle_started
from cases.dice import Dice
from cases.stream import TRICKLE, TRICKLE_FROM
from models.trickle import ROOM, body_size

FEW_WIDTHS = (0, 1, 17, 63, 64)
# Widths that are too wide. The far ones come round to 0, 1, 17 and 64 in 8 bits.
TOO_WIDE = (65, 66, 127, 128, 255, 256, 257, 273, 320, 2**15, 2**16 - 1)
# Counts of bytes held that no body has. They come round to a short one in 16 or 32 bits, or go below 0 with a sign.
FAR_TOO_MANY = (2**16, 2**16 + 5, 2**32, 2**32 + 5, 2**63, 2**63 + 5, 2**64 - 1)
OUTPUTS_OFF = (0, 1, 1023, 1025, 2048)


def cut_by(size, length):
    """Chunks of that length that make up so many bytes, the last one perhaps shorter."""
    whole, rest = divmod(size, length)
    return [length] * whole + [rest] * (rest > 0)


def cut_in_turn(size, lengths):
    """Chunks of these lengths, again and again, until they make up so many bytes."""
    found, at = [], 0
    while size > 0:
        found.append(min(lengths[at % len(lengths)], size))
        size -= found[-1]
        at += 1
    return found


def cut_at(size, place):
    """Two chunks with a cut there, where there is such a place."""
    return [min(place, size), size - min(place, size)]


# What is done.


def trickle_widths(dice):
    """Every width, in chunks of a few lengths with empty ones among them."""
    for width in range(65):
        yield ask_trickle(dice, "a width", width, cut_in_turn(body_size(width), (300, 0, 7, 1, 0, 500)))


def trickle_cuts(dice):
    """Chunks of each length near a word's, and one cut at each place near a border. An empty body has empty chunks."""
    for width in FEW_WIDTHS:
        size = body_size(width)
        for length in (1, 7, 8, 9, 15, 16, 127, 128, 129):
            if length > 1 or width <= 17:
                yield ask_trickle(dice, f"by {length}", width, cut_by(size, length))
        for place in (0, 1, 7, 8, 9, 127, 128, size // 2, max(size - 1, 0), size):
            yield ask_trickle(dice, f"cut at {place}", width, cut_at(size, place))
        for name, lengths in (
            ("whole", [size]),
            ("empty first", [0, 0, size]),
            ("empty last", [size, 0, 0]),
            ("empty between", [size // 3, 0, 0, size - size // 3]),
            ("empty in turn", cut_in_turn(size, (0, 100, 0, 9))),
            ("7, 8, 9 and 1 in turn", cut_in_turn(size, (7, 8, 9, 1))),
        ):
            yield ask_trickle(dice, name, width, lengths)
    yield ask_trickle(dice, "one byte at a time", 64, [1] * ROOM)


def trickle_past_the_end(dice):
    """One chunk that is too long, and chunks that come when the body is full. What they hold is no part of it."""
    for width in FEW_WIDTHS:
        size = body_size(width)
        for more in (1, 7, 8, 128, 9000):
            yield ask_trickle(dice, f"too long by {more}", width, [size + more])
            yield ask_trickle(dice, f"the last too long by {more}", width, [size // 2, size - size // 2 + more])
        for name, lengths in (
            ("one after full", [size, 1]),
            ("many after full", [size, 5, 0, 8, 200, 1, 0]),
            ("a whole body after full", [size, size]),
            ("full in the middle of a chunk, then more", [size // 2, size, 8, 1, 0, size]),
            ("one byte at a time past the end", [max(size - 3, 0)] + [1] * 9),
        ):
            yield ask_trickle(dice, name, width, lengths)


# What is refused.


def early(width):
    """Counts of bytes that are fewer than a body has."""
    size = body_size(width)
    return sorted({n for n in (0, 1, 7, 8, 9, 127, 128, size // 2, size - 8, size - 1) if 0 <= n < size})


def trickle_too_early(dice):
    for width in (1, 2, 17, 63, 64):
        for held in early(width):
            yield ask_trickle(dice, "too early", width, cut_in_turn(held, (5, 0, 80)))
        yield ask_trickle(dice, "too early", width, [0])
        yield ask_trickle(dice, "too early", width, [0, 0, 0])


def trickle_outputs(dice):
    """Outputs of other lengths, with the body whole, too long, and not there yet. The bytes taken are given all the
    same."""
    for width in FEW_WIDTHS:
        size = body_size(width)
        for room in OUTPUTS_OFF:
            yield ask_trickle(dice, "whole", width, [size], room)
            yield ask_trickle(dice, "too long", width, [size + 3], room)
            if size:
                yield ask_trickle(dice, "not whole", width, [size - 1], room)
                yield ask_trickle(dice, "nothing fed", width, [], room)


def trickle_too_wide(dice):
    """Widths above 64, with bytes that are fed for nothing. Here an output of another length is not looked at."""
    for width in TOO_WIDE:
        for lengths in ([], [0], [7], [128 * (width % 256)]):
            yield ask_trickle(dice, "too wide", width, lengths)
        yield from (ask_trickle(dice, "too wide", width, [5], room) for room in (0, 1023, 1025))


# States that are handed in.


def held_counts(width):
    """Counts of bytes held at the edges: none, some, all, and too many."""
    size = body_size(width)
    near = {0, 1, 8, size // 2, size - 1, size, size + 1, size + 8, ROOM, ROOM + 1}
    return sorted(n for n in near if n >= 0) + list(FAR_TOO_MANY)


def fed_counts(width, held):
    """Counts of bytes to feed: none, a few, what lacks, one less and some more."""
    lacks = max(body_size(width) - held, 0)
    return sorted({0, 5, lacks, lacks + 3} | ({lacks - 1} if lacks else set()))


def states_by_hand(dice):
    """States of each width with bytes held at the edges, and then the bytes that they lack, or some more or less."""
    for width in FEW_WIDTHS:
        for held in held_counts(width):
            for fed in fed_counts(width, held):
                lengths = cut_in_turn(fed, (9, 0, 700))
                yield ask_trickle_from(dice, "a state", width, held, lengths)


def states_too_wide(dice):
    """States of a width above 64. Each is that of width 0, whatever it holds, and so it is ready and takes nothing. The
    last two counts are those of a whole body of that width, and one more."""
    for width in TOO_WIDE:
        for held in (0, 5, 128 * (width % 256), ROOM, body_size(width), body_size(width) + 1, 2**63):
            yield ask_trickle_from(dice, "a state too wide", width, held, [])
        yield ask_trickle_from(dice, "a state too wide", width, 0, [8, 0, 9000])
        yield ask_trickle_from(dice, "a state too wide", width, 3, [5], 1023)


def state_outputs(dice):
    """Outputs of other lengths, for states that are whole, not whole, too full and too wide."""
    for width, held in ((0, 0), (1, 128), (1, 100), (1, 129), (64, ROOM), (64, ROOM - 1), (65, 0), (2**16 - 1, 9)):
        for room in OUTPUTS_OFF:
            yield ask_trickle_from(dice, "a state", width, held, [20], room)


def states_of_a_start(dice):
    """The state that a start gives, fed and asked. Where the start was refused, it is that of width 0."""
    for width in (*FEW_WIDTHS, *TOO_WIDE):
        size = body_size(width) if width <= 64 else 128 * (width % 256)
        for lengths in ([], [0], [1], [size], cut_in_turn(size + 9, (64, 0, 5, 1000))):
            yield ask_trickle_started(dice, "started", width, lengths)
        for room in (0, 1023, 1025):
            yield ask_trickle_started(dice, "started", width, [11], room)


# Several reasons at once. A start can be refused in call 26 alone.

REASONS = {TRICKLE: (1, 2, 16), TRICKLE_FROM: (2, 16)}


def sets_of_reasons(op):
    """No reason, each, every two and all, by number."""
    reasons = REASONS[op]
    return [tuple(n for i, n in enumerate(reasons) if chosen >> i & 1) for chosen in range(2 ** len(reasons))]


def faulty_trickle(op, reasons, room):
    """A trickle that has exactly these reasons to be refused; room is its output's length where that is to be wrong.
    By hand it has 100 bytes held at first."""
    width = 65 if 1 in reasons else 2
    lacks = 256 if op == TRICKLE else 156
    lengths = [60, 0, (30 if 16 in reasons else lacks - 60)]
    name = f"refused by {' and '.join(map(str, reasons)) or 'nothing'}"
    room, dice = room if 2 in reasons else 1024, Dice(name, op, room)
    if op == TRICKLE:
        return ask_trickle(dice, name, width, lengths, room)
    return ask_trickle_from(dice, name, width, 100, lengths, room)


def trickle_reasons(dice):
    for op in REASONS:
        for reasons in sets_of_reasons(op):
            for room in (0, 1023, 1025) if 2 in reasons else (1024,):
                yield faulty_trickle(op, reasons, room)


SECTIONS = (
    trickle_widths,
    trickle_cuts,
    trickle_past_the_end,
    trickle_too_early,
    trickle_outputs,
    trickle_too_wide,
    states_by_hand,
    states_too_wide,
    state_outputs,
    states_of_a_start,
    trickle_reasons,
)
