"""The deliberate cases of the rewrite (R112 to R114): every kind and both editions, every way to hold the same rows,
files of mixed blocks, of none and of 256, outputs that are one short and exact, and damaged files of each number.

Each section is a function that gives questions, as in reads.py. They have files of both editions.
"""
from cases import encodings, shapes
from cases.ask import ask_rewrite, ask_rewritten
from cases.dice import Dice
from models import files, rewrite, writer
from models.build import any_block, any_runs, column_file, frame, packed, ranged, with_index
from models.files import DIFFERENCES, FRAME, PACKED, TOP
from . import reads, writes
from .reads import STEPS, has_runs, mixed_blocks

EDITIONS = (1, 2)


def rewrite_kinds(dice):
    """Blocks of each kind with anything in them; most of them come out as another kind, or at another width."""
    for edition in EDITIONS:
        for kind in (PACKED, FRAME, DIFFERENCES):
            for width in (0, 1, 2, 3, 17, 33, 63, 64):
                data = column_file([any_block(dice, kind, width)], edition)
                yield ask_rewritten(dice, f"edition {edition}, kind {kind} width {width}", data, dice.below(3))
        for n in (1, 2, 3, 257, 1024):
            yield ask_rewritten(dice, f"edition {edition}, {n} runs", column_file([any_runs(dice, n)], edition), 1)


def chosen_shapes(dice):
    """Numbers for which the writer chooses each kind, at the least width that it can have and wider; and ties."""
    for kind in (PACKED, FRAME, DIFFERENCES):
        for width in (0, 1, 4, 31, shapes.MOST_WIDTH[kind]):
            yield f"numbers for kind {kind} width {width}", next(shapes.BY_KIND[kind](dice, width))
    for widths in ((2, 2, 1), (9, 2, 1), (4, 3, 2), (64, 64, 63), (3, 2, 64)):
        yield "numbers for least widths {} {} {}".format(*widths), shapes.with_widths(dice, *widths)
    yield "all 0", [0] * 1024
    yield "all 2^64 - 1", [2**64 - 1] * 1024


def rewrite_ways(dice):
    """The same rows held in every way. The new file is the same each time."""
    for name, values in chosen_shapes(dice):
        for edition in EDITIONS:
            for way, block in encodings.blocks_of_ways(values, has_runs(edition)).items():
                data = column_file([block], edition)
                yield ask_rewritten(dice, f"edition {edition}, {name} as {way}", data, dice.below(2))


def rewrite_written(dice):
    """Files as the writer lays them down. Those of edition 2 come out as they are, and of edition 1 with other
    entries."""
    for edition in EDITIONS:
        for name, values in writes.column_shapes(dice):
            yield ask_rewritten(dice, f"edition {edition}, {name}", writer.file_of(values, edition), dice.below(2))
        kinds = writes.one_of_each(dice)
        for order in ((0, 1, 2), (2, 1, 0), (1, 1, 2, 0)):
            data = writer.file_of([number for kind in order for number in kinds[kind]], edition)
            yield ask_rewritten(dice, f"edition {edition}, written kinds {order}", data, 1)


def rewrite_mixed(dice):
    """Files of several blocks of mixed kinds, and the same blocks in other orders."""
    for edition in EDITIONS:
        blocks = mixed_blocks(dice, edition)
        for turn in range(len(blocks)):
            data = column_file(blocks[turn:] + blocks[:turn], edition)
            yield ask_rewritten(dice, f"edition {edition}, mixed kinds from {turn}", data, dice.below(2))


def rewrite_counts(dice):
    """No blocks, 256 short ones of mixed kinds, and 256 of the longest."""
    for edition in EDITIONS:
        for room in (0, 3, 4, 5, 40):
            yield ask_rewrite(dice, f"edition {edition}, no blocks", column_file([], edition), room)
        few = mixed_blocks(dice, edition)
        blocks = [few[i % len(few)] for i in range(256)]
        data = column_file(blocks, edition)
        for more in (-1, 0, 1):
            yield ask_rewritten(dice, f"edition {edition}, 256 blocks", data, more)
        small = column_file([frame(0, b"", i) for i in range(256)], edition)
        yield ask_rewritten(dice, f"edition {edition}, 256 short blocks", small)
    few = [any_block(dice, kind, 64) for kind in (PACKED, FRAME)]
    yield ask_rewritten(dice, "256 wide blocks", column_file([few[i % 2] for i in range(256)], 1))


def rooms(data):
    """Lengths of the output: too short by one and by much, exact, and longer; and the old file's."""
    size = len(rewrite.rewritten(data))
    bound = writer.bound([0] * 1024 * files.count_of(data), 2)
    near = {size + d for d in (-128, -32, -17, -16, -8, -1, 0, 1, 8, 16, 128)}
    return sorted(n for n in near | {0, 3, 4, 5, 35, 36, 37, len(data), bound - 1, bound, bound + 1} if n >= 0)


def rewrite_rooms(dice):
    """Every file of a few with every length of the output; whatever stands behind the new file is a mark. The new file
    of the first ones is longer than the old one, and that of the last ones shorter."""
    for name, data in (
        ("sevens of edition 1", reads.SEVENS),
        ("sevens of edition 2", reads.SEVENS_2),
        ("zeros as kind 0", column_file([packed(0, b"")], 1)),
        ("three kinds of edition 1", column_file([any_block(dice, kind, 2) for kind in (0, 1, 2)], 1)),
        ("zeros at width 64", column_file([encodings.as_packed([0] * 1024, more=64)], 2)),
        ("a run", column_file([encodings.as_runs([9] * 1024)], 1)),
    ):
        yield from (ask_rewrite(dice, name, data, room) for room in rooms(data))


# What is refused. The steps of the reader, without the output and the number, and then 14.

NO_ROOM = "14 output length"
REWRITE_STEPS = (*STEPS[1:9], NO_ROOM)
REWRITE_WAYS = (1, 2, 3)  # of reads.py; in the first of all the head has an edition that is read here


def faulty_rewrite(steps, way, lean=False):
    """A rewrite that fails exactly these steps. The output is long enough for any file, but where it is to be short."""
    data = reads.faulty_file(steps, way, lean)
    name = f"{' and '.join(steps) or 'nothing wrong'}, way {way}"
    if NO_ROOM in steps:
        return ask_rewrite(Dice(name), name, data, 3)
    return ask_rewritten(Dice(name), name, data, 5)


def rewrite_steps(way):
    """The sets of steps of a way."""
    return reads.sets_of_steps(REWRITE_STEPS, way)


def rewrite_faults(dice):
    for way in REWRITE_WAYS:
        yield from (faulty_rewrite(steps, way) for steps in rewrite_steps(way))


def rewrite_damaged(dice):
    """Other damage: entries of every sort of fault, cut files, bytes left over, and heads."""
    for edition in EDITIONS:
        blocks = [frame(0, b"", 9), any_block(dice, FRAME, 1), any_block(dice, DIFFERENCES, 0)]
        data = column_file(blocks, edition)
        for cut in (0, 1, 3, 4, 5, 19, 35, 36, len(data) - 129, len(data) - 1):
            yield ask_rewrite(dice, f"edition {edition}, cut at {cut}", data[:cut], 600)
        yield ask_rewrite(dice, f"edition {edition} and a byte more", data + b"\0", 600)
        for other in (0, 3, 256, 258, 65535):
            head = column_file(blocks, other, entries=edition)
            yield ask_rewrite(dice, f"edition {other}", head, 600)
        faults = {**reads.FAULTS, "range": {"smallest": 9, "largest": 8}} if edition == 2 else reads.FAULTS
        for name, fault in faults.items():
            bad = column_file([blocks[0], blocks[1].but(**fault), blocks[2]], edition)
            yield ask_rewrite(dice, f"edition {edition}, an entry with a bad {name}", bad, 600)
        for count in (257, 65535):
            yield ask_rewrite(dice, f"edition {edition}, N {count}", column_file(blocks, edition, count), 600)


def rewrite_bodies(dice):
    """Run indices out of range in edition 1, and ranges that lie in edition 2: in one block or in two, of which the
    lowest is named, and beside an output that is long enough, too short, and none."""
    good, runs, lie = any_block(dice, FRAME, 1), any_runs(dice, 5), any_block(dice, DIFFERENCES, 2)
    smallest, largest = ranged(lie).entry[-2:]
    faults = [(1, with_index(runs, place, 5)) for place in (0, 511, 1023)]
    lies = {"smallest": smallest - 1}, {"largest": largest - 1}, {"smallest": 0, "largest": TOP}
    faults += [(2, lie.but(**other)) for other in lies]
    for edition, bad in faults:
        for name, blocks in (
            ("block 0", [bad, good]),
            ("block 2", [good, good, bad]),
            ("blocks 1 and 2", [good, bad, bad]),
            ("blocks 0 and 3", [bad, good, good, bad]),
        ):
            data = column_file(blocks, edition)
            for room in (0, 40, 40000):
                yield ask_rewrite(dice, f"edition {edition}, a bad body in {name}", data, room)


def rewrite_runs_in_2(dice):
    """Run blocks of edition 2, alone and behind others. They are refused (R82)."""
    for n in (1, 5, 1024):
        runs = any_runs(dice, n)
        yield ask_rewritten(dice, f"{n} runs in edition 2", column_file([runs], 2), 700)
        behind = column_file([frame(0, b"", 9), runs, runs], 2)
        yield ask_rewritten(dice, f"{n} runs in edition 2, block 1", behind, 700)


SECTIONS = (
    rewrite_kinds,
    rewrite_ways,
    rewrite_written,
    rewrite_mixed,
    rewrite_counts,
    rewrite_rooms,
    rewrite_faults,
    rewrite_damaged,
    rewrite_bodies,
    rewrite_runs_in_2,
)
