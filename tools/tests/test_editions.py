"""Holds the reader's model, and its cases, to what the rules say of edition 2 (R80, R82, R87).

First come files that are worked out by hand. Then the sample has to find out the readers of wrong/editions.py.
"""
from cases import wrong
from cases.stream import answered
from cases.sweeps.reads import NO_BLOCKS_2, SEVENS, SEVENS_2
from models import build, files
from models.build import column_file
from models.files import TOP
from .common import Checked, questions_of, sample, unless


def worked_files():
    """The file of no blocks and that of sevens, byte for byte; each field of the entry where R80 puts it."""
    sevens = build.frame(0, b"", 7)
    yield from unless(column_file([], 2) == NO_BLOCKS_2, "no blocks are not built as R88 has it")
    yield from unless(column_file([sevens], 2) == SEVENS_2, "sevens are not built as R88 has it")
    block = build.frame(0, b"", 7).but(smallest=2**64 - 2, largest=3)
    data = bytes.fromhex("02 00 01 00  01 00 00 00  00 00 00 00  07 00 00 00 00 00 00 00")
    data += bytes.fromhex("fe ff ff ff ff ff ff ff  03 00 00 00 00 00 00 00")
    yield from unless(column_file([block], 2) == data, "smallest and largest do not stand behind the old sixteen bytes")


def first_with(number):
    """1,024 fives, but for one number in front."""
    return [number] + [5] * 1023


def worked_answers():
    """Files of edition 2, with the number and the place that the check gives."""
    sevens, fives = build.frame(0, b"", 7), build.packed(3, build.packed_bytes(3, first_with(2)))
    steps = build.differences(0, build.words([9] * 15 + [TOP]), b"")
    runs = build.runs([1] * 1023 + [2], [0, 6, 4, TOP])
    for name, blocks, expected in (
        ("no blocks", [], (0, 0)),
        ("sevens", [sevens], (0, 0)),
        ("2 and fives", [fives.but(smallest=2, largest=5)], (0, 0)),
        ("2 and fives, smallest 1", [fives.but(smallest=1, largest=5)], (15, 0)),
        ("2 and fives, smallest 3", [fives.but(smallest=3, largest=5)], (15, 0)),
        ("2 and fives, largest 4", [fives.but(smallest=2, largest=4)], (15, 0)),
        ("2 and fives, largest 6", [fives.but(smallest=2, largest=6)], (15, 0)),
        ("2 and fives, smallest 6", [sevens, fives.but(smallest=6, largest=5)], (10, 1)),
        ("nines and 2^64 - 1", [steps.but(smallest=9, largest=TOP)], (0, 0)),
        ("nines and 2^64 - 1, largest 9", [sevens, steps.but(smallest=9, largest=9)], (15, 1)),
        ("sixes and a 4", [runs.but(smallest=4, largest=6)], (10, 0)),
        ("sixes and a 4, with the range of the list", [runs.but(smallest=0, largest=TOP)], (10, 0)),
        ("two ranges that lie", [sevens, sevens.but(largest=8), sevens.but(smallest=6)], (15, 1)),
    ):
        got = files.check(column_file(blocks, 2))[:2]
        yield from unless(got == expected, f"edition 2, {name}: the check gives {got}")
    bad = build.with_index(runs, 9, 4).but(smallest=4, largest=6)
    got = files.check(column_file([runs, bad], 1))[:2]
    yield from unless(got == (13, 1), f"edition 1, an index: the check gives {got}")


def worked_lengths():
    """The contents of edition 2 have 32 bytes for each entry."""
    for data, expected in (
        (SEVENS_2[:35], (8, 0)),
        (SEVENS_2[:20], (8, 0)),
        (SEVENS_2 + b"x", (11, 0)),
        (b"\x01" + SEVENS_2[1:], (11, 0)),
        (b"\x02" + SEVENS[1:], (8, 0)),
        (b"\x03" + SEVENS_2[1:], (9, 0)),
        (b"\x02\x01" + SEVENS_2[2:], (9, 0)),
        (SEVENS_2[:2] + b"\x01\x01" + SEVENS_2[4:], (9, 0)),
    ):
        got = files.check(data)[:2]
        yield from unless(got == expected, f"the file {data[:8].hex(' ')} ...: the check gives {got}")
    got = files.check(SEVENS_2)[:2]
    yield from unless(got == (0, 0), f"the sevens of edition 2: the reader's check gives {got}")


def wrong_ones_told(sample):
    """The sample finds out every wrong reader, and not the right one."""
    for name in wrong.editions.not_told(sample, wrong.editions.WRONG_PARTS, wrong.editions.WRONG_CALLS):
        yield f"the sample does not find out a wrong reader: {name}"
    right = list(wrong.editions.not_told(sample, {"no part": {}}, {"no call": answered}))
    yield from unless(right == ["no part", "no call"], "the sample finds out the right reader")


class Editions(Checked):
    def test_worked_files(self):
        self.nothing(worked_files())

    def test_worked_answers(self):
        self.nothing(worked_answers())

    def test_worked_lengths(self):
        self.nothing(worked_lengths())

    def test_wrong_ones(self):
        self.nothing(wrong_ones_told(questions_of(sample())))
