"""Pairs of files for the program changes (R118): a few that are deliberate, and then random ones.

A pair is a name and the bytes of left.col and of right.col; None is a file that is not there. Each random pair has dice
of its own, made from the seed and the pair's number. So pair 77 of a seed is the same however many are written.
"""
from typing import NamedTuple

from cases.sweeps.reads import has_runs
from models import writer
from models.build import any_block, column_file, frame, ranged, with_index
from models.files import TOP
from . import encodings, mixed, shapes, sweeps
from .dice import Dice


class Pair(NamedTuple):
    name: str
    left: bytes | None
    right: bytes | None


# Deliberate ones.


def changed(values, changes):
    """The numbers with others in some rows."""
    return [changes.get(row, value) for row, value in enumerate(values)]


def worked_pairs():
    """The example of R123: 7 in each row against the same but for a 9 in row 3; and the other way round."""
    sevens = [7] * 1024
    nine = writer.file_of(changed(sevens, {3: 9}), 2)
    yield Pair("the pair of R123", sweeps.reads.SEVENS, nine)
    yield Pair("the pair of R123, exchanged", nine, sweeps.reads.SEVENS)


def pairs_of_one_row():
    """One row that differs, at the ends of blocks, and by the least and by the most."""
    values = [5] * 3072
    for row in (0, 1, 1023, 1024, 2047, 2048, 3071):
        yield Pair(f"row {row}", writer.file_of(values, 2), writer.file_of(changed(values, {row: 6}), 2))
    for old, new in ((0, TOP), (TOP, 0), (2**63 - 1, 2**63), (2**32, 0), (10, 1), (0, 1)):
        left, right = changed(values[:1024], {77: old}), changed(values[:1024], {77: new})
        yield Pair(f"{old} against {new}", writer.file_of(left, 1), writer.file_of(right, 2))


def pairs_of_ways(dice):
    """The same rows in every way and in both editions, against the writer's file: nothing differs."""
    values = next(shapes.kind_1(dice, 3))
    written = writer.file_of(values, 2)
    for edition in (1, 2):
        for name, block in encodings.blocks_of_ways(values, has_runs(edition)).items():
            yield Pair(f"the same rows as {name} of edition {edition}", column_file([block], edition), written)


def pairs_of_lengths():
    """Row counts that differ, with rows in both that differ and without; files of no blocks."""
    values = [number // 1024 for number in range(4096)]
    for left, right in ((0, 0), (0, 1), (1, 0), (1, 2), (2, 1), (1, 4), (4, 3)):
        for changes in ({}, {9: 8}, {4095: 8}):
            name = f"{left} and {right} blocks, changes {changes}"
            data = writer.file_of(values[: 1024 * left], 1)
            yield Pair(name, data, writer.file_of(changed(values, changes)[: 1024 * right], 2))


def pairs_refused():
    """Files that are refused, with every number, on either side and on both; and files that are not there or are
    empty."""
    good, other = sweeps.reads.SEVENS_2, writer.file_of([8] * 2048, 2)
    bad = {"not there": None, "empty": b""}
    for way in (1, 2, 3):
        for step in sweeps.reads.STEPS[1:9]:
            if step not in sweeps.reads.cannot_fail(way):
                bad[f"{step}, way {way}"] = sweeps.reads.faulty_file((step,), way)
    for name, data in bad.items():
        yield Pair(f"left: {name}", data, good)
        yield Pair(f"right: {name}", other, data)
    of_entry, of_index = "10 entry wrong, way 2", "13 run index, way 1"
    both = ("not there", "not there"), (of_index, "not there"), ("not there", of_entry), (of_index, of_entry)
    for left, right in both:
        yield Pair(f"left: {left}; right: {right}", bad[left], bad[right])
    yield Pair("left: 15 below 13", column_file(mixed_refusals(), 2), good)
    yield Pair("right: 15 below 13", good, column_file(mixed_refusals(), 2))
    yield Pair("a run block of edition 2", good, column_file([frame(0, b"", 7), encodings.as_runs([7] * 1024)], 2))


def pairs_both_refused():
    """Both files are refused, each for every reason with every other, in either edition: only the left one is named."""
    for left_way, right_way in ((1, 3), (3, 1)):
        for left in sweeps.reads.STEPS[1:9]:
            for right in sweeps.reads.STEPS[1:9]:
                if left not in sweeps.reads.cannot_fail(left_way) and right not in sweeps.reads.cannot_fail(right_way):
                    files = sweeps.reads.faulty_file((left,), left_way), sweeps.reads.faulty_file((right,), right_way)
                    yield Pair(f"left: {left}, way {left_way}; right: {right}, way {right_way}", *files)


def pairs_of_kinds(dice):
    """A block of every kind that the edition has in each file, of which each kind meets each other one; a row of every
    block differs, or none does."""
    blocks = [next(shapes.kind_1(dice, width)) for width in (3, 5, 9, 11)]
    for editions in ((1, 1), (1, 2), (2, 1), (2, 2)):
        for turn in range(4):
            for change in (0, 1):
                right = [changed(block, {97 * i: block[97 * i] + change}) for i, block in enumerate(blocks)]
                sides = (kinds_in_turn(blocks, editions[0], 0), kinds_in_turn(right, editions[1], turn))
                yield Pair(f"kinds {turn} on, editions {editions}, {change} in each block", *sides)


def kinds_in_turn(blocks, edition, turn):
    """A file of these blocks, each held in the kind behind that of the one before."""
    kinds = (0, 1, 2, 3) if has_runs(edition) else (0, 1, 2)
    held = [encodings.as_kind(kinds[(i + turn) % len(kinds)], block) for i, block in enumerate(blocks)]
    return column_file(held, edition)


def mixed_refusals():
    """Blocks of which the first says a range that is not the true one, and the last has a run index out of range."""
    bad = with_index(encodings.as_runs([7] * 1024), 5, 9)
    return [frame(0, b"", 7).but(largest=8), frame(0, b"", 7), bad]


def large_pairs(dice):
    """256 blocks on either side: every row differs, one row of each block does, and none; and wide blocks."""
    blocks = [frame(0, b"", n) for n in range(256)]
    left = column_file(blocks, 1)
    yield Pair("256 blocks, every row", left, column_file([frame(0, b"", n + 1) for n in range(256)], 2))
    one = encodings.as_frame([3] * 500 + [4] + [3] * 523)
    three = frame(0, b"", 3)
    yield Pair("256 blocks, row 500 of each", column_file([three] * 256, 2), column_file([one] * 256, 1))
    yield Pair("256 and 255 blocks", left, column_file(blocks[:255], 2))
    few = [any_block(dice, kind, 64) for kind in (0, 1, 2)]
    wide = [few[n % 3] for n in range(256)]
    yield Pair("256 wide blocks", column_file(wide, 1), column_file(wide, 2))


def deliberate():
    dice = Dice("pairs")
    yield from worked_pairs()
    yield from pairs_of_one_row()
    yield from pairs_of_ways(dice)
    yield from pairs_of_lengths()
    yield from pairs_refused()
    yield from pairs_both_refused()
    yield from pairs_of_kinds(dice)
    yield from large_pairs(dice)


# Random ones.


def some_changes(dice, values):
    """The numbers with a few others, or with many, or as they are; sometimes fewer or more of them."""
    values = list(values)
    shape = dice.below(6)
    for _ in range(min(len(values), (0, 1, 2, 9, 300, 0)[shape])):
        row = dice.below(len(values))
        values[row] = dice.pick(((values[row] + 1) % 2**64, (values[row] - 1) % 2**64, 0, TOP, dice.number()))
    if shape == 5 and dice.below(2):
        return values[1024:]
    return values + mixed.writes.some_numbers(dice) if dice.below(8) == 0 else values


def held(dice, values):
    """A file of these numbers: written in either edition, or with blocks held in some way."""
    edition = dice.pick((1, 2))
    if dice.below(2):
        return writer.file_of(values, edition)
    blocks = writer.blocks_of(values)
    return column_file([mixed.rewrites.some_way(dice, block, edition) for block in blocks], edition)


def some_accident(dice, data):
    """The file, or in one of eight pairs a file that is not there, damaged, or has a run block with a bad index."""
    if dice.below(8):
        return data
    sort = dice.below(5)
    if sort == 0:
        return None
    if sort == 1:
        return mixed.reads.some_file(dice)[0]
    if sort == 2:
        bad = with_index(encodings.as_runs([dice.below(9)] * 1024), dice.below(1024), 1 + dice.below(9))
        return column_file([frame(0, b"", dice.number()), bad], 1)
    if sort == 3:
        lie = sweeps.reads.off_by_one(ranged(frame(0, b"", 1 + dice.below(9))))
        return column_file([frame(0, b"", 3)] * dice.below(3) + [lie], 2)
    damaged = bytearray(data)
    dice.pick(mixed.reads.TO_BYTES)(dice, damaged)
    return bytes(damaged)


def some_pair(seed, i):
    dice = Dice("pair", seed, i)
    values = mixed.writes.some_values(dice)
    left, right = held(dice, values), held(dice, some_changes(dice, values))
    return Pair(f"pair {i} of seed {seed}", some_accident(dice, left), some_accident(dice, right))


def pairs(seed, count):
    """So many pairs: first the deliberate ones, and then those of the seed."""
    first = list(deliberate())[:count]
    yield from first
    yield from (some_pair(seed, i) for i in range(len(first), count))
