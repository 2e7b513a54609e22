"""Holds the model of the canonical check, and its cases, to what R115 to R117 say.

First come files that are worked out by hand. Then every file of the cases is compared, byte for byte, with what the
writer gives for its rows. Then the cases are looked at, and last come the checks of wrong/canonicals.py.
"""
from cases import encodings, sweeps, wrong
from cases.shapes import along_rows
from cases.stream import CANONICAL, answered
from cases.sweeps.canonicals import DIFFERS
from cases.sweeps.reads import NO_BLOCKS, NO_BLOCKS_2, SEVENS, SEVENS_2, WAYS
from models import build, canonical, files, rewrite, writer
from models.build import column_file, frame
from models.files import DIFFERENCES, FRAME, PACKED
from .common import Checked, all_three, expected_of, of_calls, questions_of, sample, swept, unless

NUMBERS = {0, 8, 9, 10, 11, 13, 15, 17}  # that the call can give


# By hand.


def worked_checks():
    """A file, and then number and place."""
    sevens, zeros, eights = frame(0, b"", 7), build.packed(0, b""), frame(0, b"", 8)
    rising = along_rows(lambda row, lane: 1000 * lane + row)  # kind 2 at width 1, by test_writes.py
    lower = [number - 1 for number in writer.base_of(rising)[1:]]
    tie = along_rows(lambda row, lane: lane % 2)  # three bodies of 128 bytes, of which kind 0 is chosen
    ones = build.words([0, 2**64 - 1] * 8)
    runs = build.runs([0] * 1024, [7])
    for name, data, expected in (
        ("no blocks", NO_BLOCKS_2, (0, 0)),
        ("no blocks of edition 1", NO_BLOCKS, (9, 0)),
        ("sevens", SEVENS_2, (0, 0)),
        ("sevens of edition 1", SEVENS, (9, 0)),
        ("sevens of edition 1, cut", SEVENS[:19], (8, 0)),
        ("sevens of edition 1 and a byte", SEVENS + b"x", (11, 0)),
        ("sevens of edition 3", b"\3" + SEVENS[1:], (9, 0)),
        ("zeros", column_file([zeros], 2), (0, 0)),
        ("zeros as kind 1", column_file([frame(0, b"", 0)], 2), (17, 0)),
        ("zeros at width 1", column_file([sevens, build.packed(1, bytes(128))], 2), (17, 1)),
        ("sevens as kind 0", column_file([sevens, encodings.as_packed([7] * 1024)], 2), (17, 1)),
        ("sevens as kind 2", column_file([encodings.as_differences([7] * 1024)], 2), (17, 0)),
        ("sevens from 6", column_file([frame(1, b"\xff" * 128, 6)], 2), (17, 0)),
        ("sevens as kind 3", column_file([sevens, runs], 2), (10, 1)),
        ("sevens as kind 3 in edition 1", column_file([sevens, runs], 1), (9, 0)),
        ("rising lanes", column_file([encodings.as_differences(rising)], 2), (0, 0)),
        ("rising lanes from others", column_file([encodings.as_differences(rising, [0, *lower])], 2), (17, 0)),
        ("rising lanes at width 2", column_file([encodings.as_differences(rising, more=1)], 2), (17, 0)),
        ("a tie as kind 0", column_file([build.packed(1, ones)], 2), (0, 0)),
        ("a tie as kind 1", column_file([eights, frame(1, ones, 0)], 2), (17, 1)),
        ("a tie as kind 2", column_file([eights, encodings.as_differences(tie)], 2), (17, 1)),
        ("two that differ", column_file([sevens, frame(0, b"", 0), sevens, frame(0, b"", 0)], 2), (17, 1)),
        ("a range", column_file([frame(0, b"", 0), sevens.but(largest=8)], 2), (15, 1)),
        ("a bad index", column_file([sevens, build.with_index(runs, 9, 1)], 1), (13, 1)),
        ("an entry", column_file([frame(0, b"", 0), sevens.but(zero=1)], 2), (10, 1)),
    ):
        answer = canonical.check(data)
        yield from unless(answer[:2] == expected, f"{name}: the check gives {answer}")


# Byte for byte.


def as_the_writer_gives(name, asked):
    """Yes exactly where the file is accepted and is what the writer gives for its rows; 17 names the first block that
    differs where the blocks are laid side by side."""
    for question, outcome in asked:
        data = question.a
        answer = files.check(data)
        said = f"{name}, {question.name}: number {outcome.number}, place {outcome.place}"
        if answer.number:
            yield from unless(outcome[:2] == answer[:2], f"{said}, and the reader gives {answer}")
            continue
        right = writer.file_of(rewrite.all_values(data), 2)
        yield from unless((outcome.number == 0) == (data == right), f"{said}, against the writer's file")
        if files.edition_of(data) == 2 and data != right:
            pairs = zip(blocks_of(data), blocks_of(right))
            place = next(i for i, (block, other) in enumerate(pairs) if block != other)
            yield from unless(outcome[:2] == (17, place), f"{said}, and block {place} is the first that differs")
        if files.edition_of(data) == 1:
            yield from unless(outcome[:2] == (9, 0), f"{said}, and the file is of edition 1")


def blocks_of(data):
    return list(zip(files.entries_of(data), files.bodies_of(data)))


# The cases.


def numbers_reached(name, asked):
    numbers = {outcome.number for _, outcome in asked}
    yield from unless(numbers == NUMBERS, f"{name}: the numbers given are {sorted(numbers)}")


def order_of_refusals(questions):
    """Where several steps fail, the first in the order of R116 answers. A good file of edition 1 is 9 where it is 17."""
    asked = set(questions)
    for way in sweeps.canonicals.CANONICAL_WAYS:
        for steps in sweeps.canonicals.canonical_steps(way):
            question = sweeps.canonicals.faulty_canonical(steps, way)
            expected = expected_of(steps, way)
            if WAYS[way]["edition"] == 1 and steps in ((), (DIFFERS,)):
                expected = (9, 0)
            got = answered(question)[:2]
            yield from unless(got == expected, f"{question.name}: the model gives {got}")
            yield from unless(question in asked, f"{question.name}: the sweep does not ask this")


def how_they_differ(question, place):
    """What of a block is another than the writer's: kind, width, reference, base, packed body."""
    entry, body = blocks_of(question.a)[place]
    right, right_body = writer.block_of(files.block_values(entry, body))
    found = {field for field in ("kind", "width", "reference") if getattr(entry, field) != getattr(right, field)}
    if entry.kind == right.kind == DIFFERENCES:
        found |= {"base"} if body[:128] != right_body[:128] else set()
        found |= {"packed"} if body[128:] != right_body[128:] else set()
        return frozenset(found)
    return frozenset(found | ({"packed"} if body != right_body else set()))


DIFFERENCES_FOUND = {
    frozenset({"kind"}),  # a tie with a reference of 0
    frozenset({"kind", "packed"}),
    frozenset({"kind", "width", "packed"}),
    frozenset({"kind", "width", "reference", "packed"}),
    frozenset({"width", "packed"}),
    frozenset({"reference", "packed"}),
    frozenset({"base", "packed"}),
    frozenset({"width", "base", "packed"}),
}


def what_is_asked(asked):
    """Each kind in the place of each other, and every way in which a block can differ."""
    turns, found = set(), set()
    for question, outcome in asked:
        if outcome.number == 17:
            entry, body = blocks_of(question.a)[outcome.place]
            turns.add((entry.kind, writer.block_of(files.block_values(entry, body)).entry.kind))
            found.add(how_they_differ(question, outcome.place))
    kinds = PACKED, FRAME, DIFFERENCES
    wanted = {(kind, other) for kind in kinds for other in kinds}
    yield from unless(wanted <= turns, f"no block has kind and writer's kind {sorted(wanted - turns)}")
    missing = [sorted(one) for one in DIFFERENCES_FOUND - found]
    yield from unless(not missing, f"no block differs in just {missing}")
    places = {outcome.place for _, outcome in asked if outcome.number == 17}
    yield from unless({0, 1, 2, 4, 255} <= places, f"blocks differ only at {sorted(places)}")


def wrong_ones_told(sample):
    """The sample finds out every wrong check, and not the right one."""
    sorts = wrong.canonicals.WRONG_BLOCKS, wrong.canonicals.WRONG_CALLS, wrong.canonicals.WRONG_WRITERS
    for name in wrong.canonicals.not_told(sample, *sorts):
        yield f"the sample does not find out a wrong canonical check: {name}"
    right = list(wrong.canonicals.not_told(sample, {}, {"no call": answered}, {"no part": {}}))
    yield from unless(len(right) == 2, "the sample finds out the right canonical check")


class Canonicals(Checked):
    def test_worked_checks(self):
        self.nothing(worked_checks())

    def test_order_of_refusals(self):
        self.nothing(order_of_refusals(questions_of(of_calls(swept(), [CANONICAL]))))

    def test_cases(self):
        for name, asked in all_three([CANONICAL]):
            with self.subTest(name):
                self.nothing(as_the_writer_gives(name, asked))
                self.nothing(numbers_reached(name, asked))

    def test_what_is_asked(self):
        self.nothing(what_is_asked(of_calls(swept(), [CANONICAL])))

    def test_wrong_ones(self):
        self.nothing(wrong_ones_told(of_calls(sample(), [CANONICAL])))
