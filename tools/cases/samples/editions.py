"""Readings of edition 2 for the sample."""
from cases.ask import ask_block, ask_check, ask_row
from cases.sweeps import reads
from cases.sweeps.editions import narrow_runs, some_ranged
from models.build import any_block, any_runs, column_file, frame, ranged
from models.files import DIFFERENCES, FRAME, PACKED, TOP


def small_editions(dice):
    """Edition 2 with its ranges, in files of short blocks, and with faults in row lookups."""
    yield from small_rows(dice)
    yield from small_ranges(dice)
    yield from small_runs(dice)
    yield from small_faults(dice)


def small_rows(dice):
    """Files that are read. Row lookups of wide blocks stand here for outputs that are left out of small_reads."""
    yield ask_check("no blocks in edition 2", reads.NO_BLOCKS_2)
    yield from (ask_row("sevens in edition 2", reads.SEVENS_2, row) for row in (1023, 1024))
    yield ask_row("edition 2, kind 1 width 64", column_file([any_block(dice, FRAME, 64)], 2), 1023)
    data = column_file([any_block(dice, kind, width) for kind, width in ((FRAME, 1), (PACKED, 3), (DIFFERENCES, 1))], 2)
    yield from (ask_row("edition 2, three kinds", data, row) for row in (0, 1023, 1024, 2047, 2048, 3071, 3072))
    yield ask_block(dice, "edition 2, three kinds", data, 2)
    yield ask_row("1024 runs", column_file([any_runs(dice, 1024)]), 1023)


def small_ranges(dice):
    """Ranges that are off by one at either end, as wide as can be, and the wrong way round; one of them in a block
    out."""
    for name, block in some_ranged(dice):
        smallest, largest = ranged(block).entry[-2:]
        near = [(smallest - 1, largest), (smallest + 1, largest), (smallest, largest - 1), (smallest, largest + 1)]
        for pair in (*near, (0, TOP), (largest, smallest)):
            if min(pair) >= 0 and max(pair) <= TOP and pair != (smallest, largest):
                other = block.but(smallest=pair[0], largest=pair[1])
                said = f"edition 2, {name}, range {pair[0]} to {pair[1]}"
                yield ask_check(said, column_file([frame(0, b"", 5), other], 2))
    yield ask_block(dice, said, column_file([frame(0, b"", 5), reads.off_by_one(block)], 2))


def small_runs(dice):
    """A run block with the range of its values, and with that of its list."""
    block = narrow_runs(dice)["both ends unused"]
    yield ask_row("edition 2, runs with both ends unused", column_file([block], 2), 700)
    other = block.but(smallest=0, largest=TOP)
    yield ask_check("edition 2, runs with both ends unused, the range of the list", column_file([other], 2))


def small_faults(dice):
    """Each fault alone, and each two of which the range is one; then the range and an output of a wrong length."""
    for way in reads.ways():
        if reads.WAYS[way]["edition"] == 2:
            for steps in reads.sets_of_steps(reads.steps_of(reads.ROW_LOOKUP), way):
                if len(steps) < 2 or (reads.RANGE_WRONG in steps and len(steps) == 2):
                    yield reads.faulty_question(reads.ROW_LOOKUP, steps, way, lean=True)
            steps = reads.ROOM, reads.RANGE_WRONG
            yield reads.faulty_question(reads.BLOCK_OUT, steps, way, room=3, lean=True)
