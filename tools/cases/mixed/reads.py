"""Readings that nobody thought of: files of random blocks in the editions that are read, some of them changed by
accident, and random calls of the reader. Some of the files are written by the model.

Each case has dice of its own, made from the seed and the case's number.
"""
from cases.dice import Dice
from cases.stream import BLOCK_OUT, CHECK, ROW_LOOKUP, Question
from cases.sweeps.reads import has_runs
from models import build, files, writer
from models.build import any_block, any_runs, column_file, with_index
from . import writes

EDGES = (0, 1, 2, 3, 63, 64, 65, 255, 256, 257, 1024, 2048, 65535, 2**31, 2**32 - 1, 2**63, 2**64 - 1)
FIELDS = {"kind": 2**8, "width": 2**8, "zero": 2**16, "length": 2**32, "reference": 2**64}
FIELDS_2 = {**FIELDS, "smallest": 2**64, "largest": 2**64}


def some_width(dice):
    return dice.pick((0, 0, 1, 2, 63, 64, dice.below(9), dice.below(9), dice.below(65), dice.below(65)))


def some_values(dice):
    """Values as a catalogue might have them: rising by small steps, small, or a few far ones among equal ones."""
    start, steps = dice.number(), dice.bytes(1024)
    shape = dice.below(3)
    if shape == 0:
        rising = [start]
        for step in steps[1:]:
            rising.append((rising[-1] + step) % 2**64)
        return rising
    if shape == 1:
        return list(steps)
    return [dice.number() if step < 4 else start for step in steps]


def some_body(dice, width):
    shape = dice.below(4)
    if shape == 0:
        return build.packed_bytes(width, some_values(dice))
    if shape == 1:
        return dice.bytes(1) * (128 * width)
    return dice.bytes(128 * width)


def some_block(dice, edition=1):
    """A block of any kind; where kind 3 is not read, few have it."""
    kind = dice.below(4)
    if kind == files.RUNS and not has_runs(edition) and dice.below(20):
        kind = files.FRAME
    if kind == files.RUNS:
        return any_runs(dice, dice.pick((1, 2, 3, 7, 1 + dice.below(40), 1 + dice.below(1024), 1024)))
    width = some_width(dice)
    return any_block(dice, kind, width, some_body(dice, width))


def some_blocks(dice, edition=1):
    """A few blocks. In edition 2 they have their range before anything happens to them."""
    blocks = [some_block(dice, edition) for _ in range(dice.pick((0, 1, 1, 1, 1, 2, 2, 3, 4)))]
    return blocks if edition == 1 else [build.ranged(block) for block in blocks]


# Accidents. Each takes the blocks or the bytes of a good file, and may leave it good.


def other_field(dice, blocks):
    i = dice.below(len(blocks))
    fields = FIELDS if blocks[i].entry.smallest is None else FIELDS_2
    field = dice.pick(sorted(fields))
    value = dice.pick((*EDGES, dice.number(), getattr(blocks[i].entry, field) + 1)) % fields[field]
    blocks[i] = blocks[i].but(**{field: value})


def other_range(dice, blocks):
    """In edition 2 a smallest or a largest that is off: by one, or as far as can be, or to the other of the two."""
    i = dice.below(len(blocks))
    smallest, largest = blocks[i].entry[-2:]
    if smallest is not None:
        near = {"smallest": (smallest - 1, smallest + 1, 0, largest)}
        near["largest"] = (largest + 1, largest - 1, -1, smallest)
        field = dice.pick(sorted(near))
        blocks[i] = blocks[i].but(**{field: dice.pick(near[field]) % 2**64})


def other_index(dice, blocks):
    """In a run block an index that is too high by one, by a little or by much, or just not too high."""
    of_runs = [i for i, block in enumerate(blocks) if block.entry.kind == files.RUNS and len(block.body) > 2048]
    if of_runs:
        i = dice.pick(of_runs)
        n = (len(blocks[i].body) - 2048) // 8  # not by the entry, which may have had an accident before
        index = dice.pick((n - 1, n, n + dice.below(64), 65535, dice.below(65536)))
        blocks[i] = with_index(blocks[i], dice.below(1024), index)


def swapped_entries(dice, blocks):
    """Two entries change places, and the bodies do not."""
    i, j = dice.below(len(blocks)), dice.below(len(blocks))
    first, second = blocks[i].entry, blocks[j].entry
    blocks[i], blocks[j] = build.Block(second, blocks[i].body), build.Block(first, blocks[j].body)


def other_byte(dice, data):
    near = min(len(data), dice.pick((4, 20, 100, len(data))))
    if near:
        data[dice.below(near)] ^= 1 + dice.below(255)


def cut_off(dice, data):
    anywhere, early = dice.below(len(data) + 1), dice.below(min(len(data), 70) + 1)
    late = max(len(data) - 1 - dice.below(20), 0)
    del data[dice.pick((anywhere, early, late)) :]


def added(dice, data):
    data += dice.bytes(dice.pick((1, 1, 2, 8, 16, 128)))


def other_head(dice, data):
    if len(data) >= files.HEAD.size:
        edition, count = files.HEAD.unpack_from(data)
        if dice.below(2):
            edition = dice.pick((0, 2, 257, dice.below(65536)) if edition == 1 else (1, 3, 258, dice.below(65536)))
        else:
            count = dice.pick((count + 1, 257, dice.below(600)))
        files.HEAD.pack_into(data, 0, edition, count % 65536)


TO_BLOCKS = {1: (other_field, other_field, other_index, other_index, swapped_entries)}
TO_BLOCKS[2] = (*TO_BLOCKS[1], other_range, other_range, other_range)
TO_BYTES = (other_byte, other_byte, cut_off, added, other_head)


def some_file(dice):
    """A file and the number of its blocks; not quite half of the files have an accident, and some of these two."""
    edition = dice.pick(files.EDITIONS)
    blocks = some_blocks(dice, edition)
    accidents = dice.pick((0, 0, 0, 0, 0, 1, 1, 1, 2))
    kinds = [dice.below(2) for _ in range(accidents)]
    for _ in range(sum(kinds)):
        if blocks:
            dice.pick(TO_BLOCKS[edition])(dice, blocks)
    data = bytearray(column_file(blocks, edition))
    for _ in range(accidents - sum(kinds)):
        dice.pick(TO_BYTES)(dice, data)
    return bytes(data), len(blocks)


def some_index(dice, size):
    """A number that is mostly below the size, and sometimes at the limit or far beyond it."""
    far = (size, size + 1, size + dice.below(2000), dice.number(), 2**64 - 1)
    return dice.below(size) if size and dice.below(6) else dice.pick((max(size, 1) - 1, *far))


def written_file(dice):
    """A file as the writer lays it down, and the number of its blocks."""
    values = writes.some_values(dice)
    return writer.file_of(values), len(values) // 1024


def reading(seed, i, file_from):
    """One of the reader's calls, on a file that file_from makes from the dice."""
    dice = Dice("mixed", seed, i)
    data, blocks = file_from(dice)
    op = dice.pick((CHECK, BLOCK_OUT, BLOCK_OUT, ROW_LOOKUP, ROW_LOOKUP))
    name = f"mixed {seed} case {i}"
    if op == CHECK:
        return Question(op, name, data)
    if op == ROW_LOOKUP:
        return Question(op, name, data, index=some_index(dice, 1024 * blocks))
    room = dice.pick((0, 1023, 1025, 1 + dice.below(2000))) if dice.below(15) == 0 else 1024
    return Question(op, name, data, c=dice.bytes(8 * room), index=some_index(dice, blocks))
