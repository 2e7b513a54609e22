"""The deliberate cases of edition 2 for the calls of the reader: its ranges, true ones and others (R82, R87), and the
order of 13, 15 and 12 (R90).

Each section is a function that gives questions, as in reads.py, and some are those of reads.py once more,
with files of edition 2.
"""
import functools

from cases.ask import ask_all, ask_block, ask_check, ask_row
from models import build, files
from models.build import any_block, any_runs, column_file, frame, packed, ranged, runs
from models.files import DIFFERENCES, FRAME, PACKED, TOP
from . import reads


def edition_2_worked(dice):
    """The two worked files of R88, in edition 2."""
    yield from ask_all(dice, "no blocks in edition 2", reads.NO_BLOCKS_2)
    yield from ask_all(dice, "sevens in edition 2", reads.SEVENS_2, row=1023)
    yield ask_row("sevens in edition 2", reads.SEVENS_2, 1024)
    yield ask_block(dice, "sevens in edition 2", reads.SEVENS_2, 1)


def edition_2_widths(dice):
    for kind in (PACKED, FRAME, DIFFERENCES):
        for width in (0, 1, 2, 3, 17, 31, 32, 33, 62, 63, 64):
            data = column_file([any_block(dice, kind, width)], 2)
            yield from ask_all(dice, f"edition 2, kind {kind} width {width}", data, row=dice.below(1024))


def narrow_runs(dice):
    """Run blocks whose range is not that of their list: values stand in it that no index names, at either end."""
    return {
        "the largest unused": runs([i % 3 for i in range(1024)], [20, 30, 40, 50]),
        "the smallest unused": runs([1 + i % 3 for i in range(1024)], [20, 30, 40, 50]),
        "both ends unused": runs([1 + i % 2 for i in range(1024)], [0, 30, 40, TOP]),
        "one value used, in one place the other": runs([700 // (i or 1) // 700 for i in range(1024)], [30, 40, 50]),
        "all used": any_runs(dice, 9),
    }


def edition_2_runs(dice):
    """Run blocks in edition 2, with the range of the values, and with that of the list. All are refused (R82), so a few
    are enough."""
    for name, block in narrow_runs(dice).items():
        yield from ask_all(dice, f"edition 2, runs with {name}", column_file([frame(0, b"", 7), block], 2), 1, 1500)
        listed = files.words_of(block.body[2048:])
        other = block.but(smallest=min(listed), largest=max(listed))
        yield from ask_all(dice, f"edition 2, runs with {name}, the range of the list", column_file([other], 2))


# Ranges that are not the body's.


def some_ranged(dice):
    """Blocks of each kind with room on both sides of their range, and blocks at the ends of what there is."""
    yield "kind 0", packed(3, build.packed_bytes(3, [1 + i % 6 for i in range(1024)]))
    yield "kind 1", frame(2, dice.bytes(256), 2**63 - 2)
    yield "kind 2", build.differences(1, build.words(range(5, 21)), dice.bytes(128))
    yield "kind 0 of zeros", packed(0, b"")
    yield "kind 1 of 2^64 - 1", frame(0, b"", TOP)
    yield "kind 1 across 2^64", frame(4, build.packed_bytes(4, [i % 16 for i in range(1024)]), TOP - 8)
    yield "kind 2 with one value apart", build.differences(0, build.words([9] * 15 + [8]), b"")


def other_ranges(smallest, largest):
    """Ranges near this one, too wide or too narrow, and far from it; some are refused with 10 and not with 15."""
    near = [(smallest + a, largest + b) for a in (-1, 0, 1) for b in (-1, 0, 1)]
    far = [(0, TOP), (0, largest), (smallest, TOP), (smallest, smallest), (largest, largest), (largest, smallest)]
    far += [(0, 0), (TOP, TOP), (smallest, largest - smallest), (0, largest - smallest), (TOP, 0)]
    good = {pair for pair in near + far if min(pair) >= 0 and max(pair) <= TOP}
    return sorted(good - {(smallest, largest)})


def edition_2_ranges(dice):
    """Ranges that are not the body's, alone and between good blocks."""
    for name, block in some_ranged(dice):
        for smallest, largest in other_ranges(*ranged(block).entry[-2:]):
            other = block.but(smallest=smallest, largest=largest)
            said = f"edition 2, {name}, range {smallest} to {largest}"
            yield ask_check(said, column_file([other], 2))
            data = column_file([frame(0, b"", 5), other, frame(0, b"", 6)], 2)
            yield ask_block(dice, said, data, 0)
            yield ask_row(said, data, 1024 + dice.below(1024))


def edition_2_bad_blocks(dice):
    """Several blocks with a range or an index that is wrong: 13 of any block comes before 15, then the lowest is named,
    whatever block is asked for."""
    good = any_block(dice, FRAME, 1)
    lies = reads.off_by_one(good), reads.off_by_one(any_block(dice, DIFFERENCES, 1))
    sets = {
        "ranges of blocks 1 and 3": [good, lies[0], good, lies[1]],
        "ranges of blocks 2 and 3": [good, good, lies[1], lies[0]],
        "the range of block 3": [good, good, good, lies[0]],
        "the range of block 0": [lies[1], good, good, good],
        "every range": [lies[0], lies[1], lies[0], lies[1]],
    }
    for name, blocks in sets.items():
        data = column_file(blocks, 2)
        yield from ask_all(dice, f"edition 2, {name}", data)
        yield ask_block(dice, f"edition 2, {name}", data, 3)
        yield from ask_all(dice, f"edition 2, {name}", data, 4, 4096)


def edition_2_large(dice):
    """256 wide blocks, of a few sorts, since the model unpacks them all; and the last with another range."""
    few = [any_block(dice, kind, 64) for kind in (PACKED, FRAME, DIFFERENCES)]
    blocks = [few[i % 3] for i in range(256)]
    data = column_file(blocks, 2)
    yield from ask_all(dice, "256 wide blocks of edition 2", data, 254, 262143)
    yield ask_row("256 wide blocks of edition 2", data, 262144)
    blocks[-1] = reads.off_by_one(few[0])
    yield ask_row("256 wide blocks of edition 2, the last with another range", column_file(blocks, 2), 5)


def once_more(section):
    """A section of reads.py with files of edition 2."""
    again = functools.partial(section, edition=2)
    again.__name__ = f"{section.__name__} of edition 2"
    return again


SECTIONS = (
    edition_2_worked,
    edition_2_widths,
    edition_2_runs,
    edition_2_ranges,
    edition_2_bad_blocks,
    edition_2_large,
    once_more(reads.crossing_rows),
    once_more(reads.limits),
    once_more(reads.heads),
    once_more(reads.entry_fields),
    once_more(reads.two_bad_entries),
    once_more(reads.cuts),
    once_more(reads.trailing),
)
