"""Searches for the sample. Few rows are found there, since each takes sixteen bytes, and the blocks are narrow: of two
numbers one stands in few places."""
from cases import encodings
from cases.ask import ask_found, ask_search
from cases.shapes import other_places
from cases.sweeps.searches import EDITIONS, NO_ROOM, SEARCH_WAYS, faulty_search, lying, search_steps
from models.build import any_runs, column_file, frame, with_index
from models.files import TOP


def mostly(dice, number, other, places):
    """A block of one number, but for so many places that have another."""
    values = [number] * 1024
    for place in other_places(dice, places, 1024):
        values[place] = other
    return values


SMALL_BOUNDS = (
    *((0, 0), (99, 99), (100, 100), (0, 99), (0, 100), (99, 100), (202, 202), (201, 201), (201, 202), (201, TOP)),
    *((202, TOP), (102, 149), (151, 199), (100, 99), (201, 100), (202, 201), (TOP, 0)),
)


def small_found(dice, edition):
    """Bounds at and about the ends of what there is, 100 and 201, and then room that is one short, exact, and more."""
    first, last = mostly(dice, 101, 100, 2), mostly(dice, 200, 201, 3)
    data = column_file([encodings.as_frame(first), frame(0, b"", 150), encodings.as_frame(last)], edition)
    for low, high in SMALL_BOUNDS:
        yield ask_found(dice, f"edition {edition}", data, low, high, dice.below(2))
    for more in (-1, 0, 2):
        yield ask_found(dice, f"edition {edition}", data, 201, 201, more)
    signed = column_file([encodings.as_frame(mostly(dice, 2**63 - 1, 2**63, 2)), frame(0, b"", 5)], edition)
    yield ask_found(dice, f"edition {edition}", signed, 2**63, TOP)


def small_lies(dice):
    """Two blocks whose ranges lie, with bounds that open none of them, the one, the other and both; and one with the
    widest range, which bounds the wrong way round do not open."""
    good = encodings.as_frame(mostly(dice, 6, 7, 2))
    data = column_file([good, lying(good, 40, 50), frame(0, b"", 60), lying(good, 20, 30)], 2)
    for low, high in ((7, 7), (19, 19), (20, 20), (30, 30), (31, 39), (40, 40), (50, 50), (30, 40), (51, 59), (45, 25)):
        for room in (3, 0) if low in (7, 30) else (4,):
            yield ask_search(dice, "the ranges of blocks 1 and 3 lie", data, low, high, room)
    wide = column_file([lying(frame(0, b"", 9), 0, TOP), frame(0, b"", 7)], 2)
    for low, high in ((3, 3), (TOP, TOP), (8, 6), (TOP, 0)):
        yield ask_search(dice, "the range of block 0 is too wide", wide, low, high, 1)
    inside = column_file([encodings.as_differences([5 + place % 16 for place in range(1024)])], 2)
    yield ask_found(dice, "bounds inside the range", inside, 9, 9)


def small_indices(dice):
    """A bad index in edition 1, which opens everything."""
    bad = with_index(any_runs(dice, 1), 5, 1)
    yield ask_search(dice, "edition 1, a bad index in block 1", column_file([frame(0, b"", 9), bad], 1), 4, 3, 0)


def small_faults(dice):
    """Each fault of a file alone, and each beside a room that is too short."""
    for way in SEARCH_WAYS[1:]:
        for steps in search_steps(way):
            alone = len(steps) == 1 and way == SEARCH_WAYS[1]
            if alone or (len(steps) == 2 and steps[1] == NO_ROOM and way != SEARCH_WAYS[1]):
                yield faulty_search(steps, way, lean=True)


def small_searches(dice):
    for edition in EDITIONS:
        yield from small_found(dice, edition)
    yield from small_lies(dice)
    yield from small_indices(dice)
    yield from small_faults(dice)
