"""The deliberate cases of the search (R107 to R110): bounds at the edges of a block's range and one past them, ranges
that lie about their body in blocks that are opened and in blocks that are not, run blocks in both editions, and room
that is one short, exact and one long.

Each section is a function that gives questions, as in reads.py. They have files of both editions.
"""
from cases import encodings
from cases.ask import ask_found, ask_search
from cases.dice import Dice
from cases.shapes import other_places
from models import files
from models.build import any_block, column_file, frame, packed, ranged, with_index
from models.files import DIFFERENCES, FRAME, PACKED, RUNS, TOP
from . import reads
from .reads import STEPS, has_runs

EDITIONS = (1, 2)


def spread(dice, smallest, largest):
    """A block from smallest to largest, of which these two and their neighbours stand in few places."""
    middle = (smallest + largest) // 2
    values = [middle + byte % 2 for byte in dice.bytes(1024)]
    marks = (smallest, smallest, smallest + 1, largest, largest, largest, largest - 1, largest - 1)
    for place, mark in zip(other_places(dice, len(marks), 1024), marks):
        values[place] = mark
    return values


def kinds_of(edition):
    return (PACKED, FRAME, DIFFERENCES, RUNS) if has_runs(edition) else (PACKED, FRAME, DIFFERENCES)


# Ranges of blocks that leave gaps between them, touch, overlap, and stand at the ends of what there is.
RANGES = ((100, 200), (300, 400), (200, 310), (0, 9), (2**63 - 6, 2**63 + 6), (TOP - 9, TOP))


def ranged_blocks(dice, edition, turn=0):
    """A block for each of these ranges, the kinds by turns; turn says which one is first."""
    kinds = kinds_of(edition)
    blocks = enumerate(RANGES)
    return [encodings.as_kind(kinds[(i + turn) % len(kinds)], spread(dice, *ends)) for i, ends in blocks]


# What is listed.


def bounds_about(smallest, largest):
    """Bounds at both ends of a range, next to them on both sides, in it, around it, and the wrong way round."""
    ends = [value for end in (smallest, largest) for value in (end - 1, end, end + 1) if 0 <= value <= TOP]
    pairs = [(value, value) for value in ends]
    pairs += [(a, b) for a, b in zip(ends, ends[1:])]
    pairs += [(smallest, largest), (0, smallest), (largest, TOP)]
    pairs += [(0, max(smallest - 1, 0)), (min(largest + 1, TOP), TOP)]
    pairs += [(b, a) for a, b in zip(ends, ends[1:]) if a < b] + [(largest, smallest), (TOP, 0)]
    middle = (smallest + largest) // 2
    return sorted({*pairs, (middle - 2, middle - 1), (middle + 2, middle + 3)})


def search_bounds(dice):
    """Bounds about each range of a file with several, in both editions."""
    for edition in EDITIONS:
        data = column_file(ranged_blocks(dice, edition), edition)
        for ends in RANGES:
            for low, high in bounds_about(*ends):
                yield ask_found(dice, f"edition {edition}, about {ends[0]} to {ends[1]}", data, low, high)


def search_alone(dice):
    """One block of each kind and of each range, with bounds about it; here a program that opens it does no more."""
    for edition in EDITIONS:
        for kind in kinds_of(edition):
            for ends in ((100, 200), (0, 9), (TOP - 9, TOP)):
                data = column_file([encodings.as_kind(kind, spread(dice, *ends))], edition)
                for low, high in bounds_about(*ends):
                    if low > high or high - low < 2:
                        yield ask_found(dice, f"edition {edition}, kind {kind} alone", data, low, high)


def search_all(dice):
    """Everything and nothing: 0 to 2^64 - 1 and the other way round, files of no blocks, and blocks of one number."""
    for edition in EDITIONS:
        sorts = {
            "no blocks": [],
            "zeros": [packed(0, b"")],
            "2^64 - 1": [frame(0, b"", TOP)],
            "three numbers": [frame(0, b"", 5), frame(0, b"", 7), frame(0, b"", 6)],
            "three kinds": [any_block(dice, kind, 2) for kind in (PACKED, FRAME, DIFFERENCES)],
        }
        for name, blocks in sorts.items():
            data = column_file(blocks, edition)
            for low, high in ((0, TOP), (0, 0), (TOP, TOP), (TOP, 0), (1, 0), (6, 6), (6, 7), (7, 5), (5, 6), (8, TOP)):
                yield ask_found(dice, f"edition {edition}, {name}", data, low, high, 0)


def some_bounds(dice, values, about):
    """Bounds that so many of the values lie between, or a few more where some are equal."""
    in_order = sorted(values)
    at = dice.below(1024 - about)
    return in_order[at], in_order[at + about - 1]


def search_kinds(dice):
    """Every kind at widths at the edges and between, with bounds that a few rows lie between."""
    for edition in EDITIONS:
        for kind in (PACKED, FRAME, DIFFERENCES):
            for width in (0, 1, 2, 3, 17, 33, 63, 64):
                block = any_block(dice, kind, width)
                low, high = some_bounds(dice, files.block_values(*block), 9)
                data = column_file([frame(0, b"", 3), block], edition)
                yield ask_found(dice, f"edition {edition}, kind {kind} width {width}", data, low, high)


# Room.


def search_rooms(dice):
    """Room that is one short, exact and one long, none, and much; for some rows, for one, for none and for all."""
    for edition in EDITIONS:
        blocks = [encodings.as_kind(kind, spread(dice, 100, 200)) for kind in (PACKED, FRAME, DIFFERENCES)]
        blocks[1] = encodings.as_frame(spread(dice, 300, 400))
        data = column_file(blocks, edition)
        for name, low, high in (
            ("a few", 199, 200),
            ("a few of one block", 399, TOP),
            ("the first block's and the last's", 0, 100),
            ("one", 301, 301),
            ("none", 202, 298),
            ("none between the bounds", 201, 200),
            ("all", 0, TOP),
        ):
            for more in (-3, -2, -1, 0, 1, 2, 50):
                yield ask_found(dice, f"edition {edition}, {name}", data, low, high, more)
            yield ask_search(dice, f"edition {edition}, {name}", data, low, high, 0)


# Ranges that lie. Edition 1 has none.


def lying(block, smallest, largest):
    return block.but(smallest=smallest, largest=largest)


def search_lies(dice):
    """A block whose entry has another range than its body. Where the bounds miss the range in the entry, the block is
    not opened: it gives no rows, though its body has some, and no refusal. Its neighbours are read in any case."""
    good = encodings.as_packed(spread(dice, 50, 90)), encodings.as_frame(spread(dice, 500, 600))
    body = spread(dice, 100, 200)
    for kind in (PACKED, FRAME, DIFFERENCES):
        block = encodings.as_kind(kind, body)
        for smallest, largest in ((99, 200), (101, 200), (100, 199), (100, 201), (300, 400), (0, TOP), (150, 150)):
            data = column_file([good[0], lying(block, smallest, largest), good[1]], 2)
            ends = sorted({*bounds_about(smallest, largest), *bounds_about(100, 200)})
            for low, high in ends if kind == PACKED else ends[::5]:
                yield ask_found(dice, f"kind {kind} of 100 to 200 with range {smallest} to {largest}", data, low, high)


def search_several_lies(dice):
    """Several blocks whose ranges lie, some opened and some not: of those that are opened the lowest is named."""
    good = encodings.as_frame(spread(dice, 100, 200))
    lies = [lying(encodings.as_packed(spread(dice, 10, 40)), *ends) for ends in ((100, 200), (300, 400), (100, 201))]
    for name, blocks in (
        ("1 and 2", [good, lies[0], lies[1], good]),
        ("2 and 3", [good, good, lies[1], lies[0]]),
        ("0 and 3", [lies[1], good, good, lies[2]]),
        ("all", [lies[1], lies[0], lies[2], lies[1]]),
        ("none", [good, good, good, good]),
    ):
        data = column_file(blocks, 2)
        bounds = ((200, 300), (201, 299), (201, 300), (199, 199), (100, 100), (10, 40), (0, TOP), (300, 200), (40, 10))
        for low, high in bounds:
            yield ask_found(dice, f"the ranges of blocks {name} lie", data, low, high)


# Run blocks.


def run_block(dice, smallest, largest, bad=False):
    """A run block in that range, with values in its list that stand nowhere; a bad one has an index out of range."""
    block = encodings.as_runs(spread(dice, smallest, largest), before=[0, TOP], after=[smallest // 2])
    block = ranged(block)
    return with_index(block, dice.below(1024), 60000) if bad else block


def search_runs(dice):
    """Run blocks in both editions, with values in their list that stand nowhere. Edition 1 opens every block; so an
    index out of range is found there whatever the bounds are, also where there is no number between them."""
    bounds = ((100, 100), (200, 201), (199, 300), (201, 299), (0, 0), (0, 99), (500, 500), (400, 499), (601, TOP))
    bounds += ((0, TOP), (200, 100), (TOP, 0))
    for edition in EDITIONS:
        good, other = run_block(dice, 100, 200), encodings.as_frame(spread(dice, 300, 400))
        bad, far = run_block(dice, 100, 200, True), run_block(dice, 500, 600, True)
        for name, blocks in (
            ("none", [good, other]),
            ("block 1", [good, bad, other]),
            ("block 2", [other, good, far]),
            ("blocks 1 and 2", [other, far, bad]),
            ("blocks 0 and 3", [bad, other, good, far]),
            ("blocks 0 and 2", [far, other, bad]),
        ):
            data = column_file(blocks, edition)
            for low, high in bounds if has_runs(edition) else bounds[::6]:
                yield ask_found(dice, f"edition {edition}, {name} with a bad index", data, low, high)


# What is refused. The steps of the reader, without the output and the number, and then 14.

NO_ROOM = "14 room for rows"
SEARCH_STEPS = (*STEPS[1:9], NO_ROOM)
SEARCH_WAYS = (1, 2, 3)  # of reads.py; in the first of all the head has an edition that is read here


def faulty_search(steps, way, lean=False):
    """A search that fails exactly these steps: of everything, so that every block is opened."""
    data = reads.faulty_file(steps, way, lean)
    name = f"{' and '.join(steps) or 'nothing wrong'}, way {way}"
    if NO_ROOM in steps:
        return ask_search(Dice(name), name, data, 0, TOP, 2)
    return ask_found(Dice(name), name, data, 0, TOP)


def search_steps(way):
    """The sets of steps of a way."""
    return reads.sets_of_steps(SEARCH_STEPS, way)


def search_faults(dice):
    for way in SEARCH_WAYS:
        yield from (faulty_search(steps, way) for steps in search_steps(way))


def search_damaged(dice):
    """Files that are damaged, with bounds that miss every range, and with bounds the wrong way round: what the reader
    gives from 8 to 11 comes all the same, and 13 and 15 only where a block is opened."""
    for way in SEARCH_WAYS:
        for step in SEARCH_STEPS[:-1]:
            if step not in reads.cannot_fail(way):
                data = reads.faulty_file((step,), way)
                for low, high in ((2**62, 2**62), (9, 3), (TOP, 0)):
                    yield ask_search(dice, f"{step} way {way}", data, low, high, 3)


def search_heads(dice):
    """Editions and numbers of blocks that are not taken."""
    for edition in EDITIONS:
        blocks = [frame(0, b"", 5), frame(0, b"", 7)]
        for other in (0, 3, 256, 257, 258, 65535):
            data = column_file(blocks, other, entries=edition)
            yield ask_search(dice, f"edition {other}", data, 5, 5, 3)
        for count in (0, 1, 3, 256, 257, 65535):
            yield ask_search(dice, f"edition {edition}, N {count}", column_file(blocks, edition, count), 6, 6, 3)
        other = column_file(blocks, 3 - edition, entries=edition)
        yield ask_search(dice, "the other edition's entries", other, 6, 6, 3)


# The limit.


def search_limits(dice):
    """256 blocks: one row in each, all rows, and one block alone of which the range meets the bounds."""
    for edition in EDITIONS:
        few = [encodings.as_packed(spread(dice, 100, 200)) for _ in range(3)]
        blocks = [few[i % 3] for i in range(255)] + [encodings.as_frame(spread(dice, 2**40, 2**41))]
        data = column_file(blocks, edition)
        yield ask_found(dice, f"edition {edition}, 256 blocks", data, 101, 101)
        yield ask_found(dice, f"edition {edition}, 256 blocks", data, 101, 101, -1)
        yield ask_found(dice, f"edition {edition}, 256 blocks", data, 2**41, 2**41)
        small = column_file([frame(0, b"", i) for i in range(256)], edition)
        yield ask_found(dice, f"edition {edition}, 256 short blocks", small, 128, 129, 0)
        yield ask_found(dice, f"edition {edition}, 256 short blocks", small, 255, TOP)
        yield ask_found(dice, f"edition {edition}, 256 short blocks", small, 256, TOP, 0)
    yield ask_found(dice, "all of 256 blocks", small, 0, TOP, 0)
    yield ask_search(dice, "all of 256 blocks", small, 0, TOP, 262143)


SECTIONS = (
    search_bounds,
    search_alone,
    search_all,
    search_kinds,
    search_rooms,
    search_lies,
    search_several_lies,
    search_runs,
    search_faults,
    search_damaged,
    search_heads,
    search_limits,
)
