"""Holds the model of the rewrite, and its cases, to what R112 to R114 say.

First come rewrites that are worked out by hand. Then everything that the sweep rewrites is read back, written once more
and rewritten once more. Then the cases are looked at, and last come the rewrites of wrong/rewrites.py.
"""
from cases import encodings, sweeps, wrong
from cases.dice import Dice
from cases.stream import REWRITE, Question, answered
from cases.sweeps.reads import NO_BLOCKS, NO_BLOCKS_2, SEVENS, SEVENS_2, has_runs
from models import build, files, rewrite, writer
from models.build import column_file, frame
from models.files import DIFFERENCES, FRAME, PACKED, RUNS
from .common import Checked, all_three, expected_of, of_calls, questions_of, sample, swept, unless

NUMBERS = {0, 8, 9, 10, 11, 13, 14, 15}  # that the call can give


def called(data, room):
    """What the call gives, with an output that holds marks."""
    return answered(Question(REWRITE, "", data, c=b"\xa5" * room))


# By hand.


def worked_rewrites():
    """A file, the length of the output, and then number, place and the new file."""
    sevens = [7] * 1024
    runs = build.runs([0] * 1023 + [1], [7, 7, 9])
    bad = build.with_index(runs, 5, 3)
    for name, data, room, expected in (
        ("no blocks", NO_BLOCKS, 4, (0, 0, NO_BLOCKS_2)),
        ("no blocks", NO_BLOCKS, 9, (0, 0, NO_BLOCKS_2)),
        ("no blocks", NO_BLOCKS, 3, (14, 0, None)),
        ("no blocks of edition 2", NO_BLOCKS_2, 4, (0, 0, NO_BLOCKS_2)),
        ("sevens", SEVENS, 36, (0, 0, SEVENS_2)),
        ("sevens", SEVENS, 35, (14, 0, None)),
        ("sevens", SEVENS, 20, (14, 0, None)),
        ("sevens", SEVENS, 40, (0, 0, SEVENS_2)),
        ("sevens of edition 2", SEVENS_2, 36, (0, 0, SEVENS_2)),
        ("sevens as kind 0", column_file([encodings.as_packed(sevens)], 1), 36, (0, 0, SEVENS_2)),
        ("sevens as kind 0 of edition 2", column_file([encodings.as_packed(sevens)], 2), 36, (0, 0, SEVENS_2)),
        ("sevens as kind 2", column_file([encodings.as_differences(sevens)], 1), 37, (0, 0, SEVENS_2)),
        ("sevens as kind 3", column_file([runs], 1), 36, (0, 0, SEVENS_2)),
        ("sevens as kind 3", column_file([runs], 1), 35, (14, 0, None)),
        ("sevens as kind 3 of edition 2", column_file([runs], 2), 36, (10, 0, None)),
        ("a bad index", column_file([runs, bad], 1), 0, (13, 1, None)),
        ("another range", column_file([frame(0, b"", 7), frame(0, b"", 7).but(largest=8)], 2), 0, (15, 1, None)),
        ("cut", SEVENS[:19], 40, (8, 0, None)),
        ("cut", SEVENS[:3], 40, (8, 0, None)),
        ("a byte more", SEVENS + b"x", 0, (11, 0, None)),
        ("edition 3", b"\3" + SEVENS[1:], 40, (9, 0, None)),
        ("an entry", column_file([frame(0, b"", 7), frame(0, b"", 7).but(zero=1)], 1), 0, (10, 1, None)),
    ):
        number, place, new = expected
        outcome = called(data, room)
        right = number, place, b"\xa5" * room if new is None else new.ljust(room, b"\xa5"), len(new or b""), 0
        got = outcome.number, outcome.place, outcome.c, outcome.value, outcome.reference
        said = f"{name} into {room} bytes: number {outcome.number}, place {outcome.place}, value {outcome.value}"
        yield from unless(got == right, said)


# What the cases rewrite.


def all_rewritten(asked):
    """Each file that is rewritten, once, with the new file."""
    return {question.a: outcome.c[: outcome.value] for question, outcome in asked if not outcome.number}


def reads_back(name, asked):
    """The new file is accepted, has edition 2 and no run block, and holds the same rows. It is what the writer gives
    for them, and comes out of a rewrite as it is."""
    for old, new in all_rewritten(asked).items():
        said = f"{name}: the file {old[:20].hex(' ')} ... of {len(old)} bytes"
        answer = files.check(new)
        if answer.number or files.edition_of(new) != 2:
            yield f"{said}: the new file is not accepted: {answer.why}"
            continue
        blocks = range(files.count_of(old))
        same = list(map(lambda block: files.values_of(old, block), blocks))
        found = [files.values_of(new, block) for block in range(files.count_of(new))]
        yield from unless(found == same, f"{said}: the rows are not the same")
        kinds = {entry.kind for entry in files.entries_of(new)}
        yield from unless(RUNS not in kinds, f"{said}: the new file has run blocks")
        written = writer.file_of([number for block in same for number in block], 2)
        yield from unless(new == written, f"{said}: the new file is not what the writer gives")
        again = called(new, len(new))
        yield from unless((again.number, again.c) == (0, new), f"{said}: the new file does not come out as it is")


def one_file_for_all_ways():
    """The same rows give the same file in whatever way they are held, and the ways are different ones."""
    dice = Dice("ways")
    for name, values in sweeps.rewrites.chosen_shapes(dice):
        for edition in (1, 2):
            ways = encodings.blocks_of_ways(values, has_runs(edition))
            old = [column_file([block], edition) for block in ways.values()]
            new = {rewrite.rewrite(data, 2**23)[1] for data in old}
            yield from unless(len(new) == 1, f"edition {edition}, {name}: there are {len(new)} new files")
            few = len(set(old)) < 6
            yield from unless(not few, f"edition {edition}, {name}: there are only {len(set(old))} ways")


# The cases.


def as_a_stream_has_it(name, asked):
    """What is past the new file stays; a refused rewrite changes nothing."""
    for question, outcome in asked:
        stays = outcome.c[outcome.value :] == question.c[outcome.value :]
        yield from unless(stays, f"{name}, {question.name}: the output past the file is changed")
        yield from unless(not outcome.number or not outcome.value, f"{name}, {question.name}: a refusal gives a length")


def numbers_reached(name, asked):
    numbers = {outcome.number for _, outcome in asked}
    yield from unless(numbers == NUMBERS, f"{name}: the numbers given are {sorted(numbers)}")


def order_of_refusals(swept):
    """Where several steps fail, the first in the order of R114 answers, and the sweep asks for every two."""
    asked = set(swept)
    for way in sweeps.rewrites.REWRITE_WAYS:
        for steps in sweeps.rewrites.rewrite_steps(way):
            question = sweeps.rewrites.faulty_rewrite(steps, way)
            got = answered(question)[:2]
            yield from unless(got == expected_of(steps, way), f"{question.name}: the model gives {got}")
            yield from unless(question in asked, f"{question.name}: the sweep does not ask this")


def what_is_asked(asked):
    """Every kind that is read becomes every kind that is written, in both editions; outputs one short, exact and one
    long; files that become longer and shorter; no blocks and 256."""
    turns, rooms, counts, sizes = set(), set(), set(), set()
    new_files = all_rewritten(asked)
    for question, outcome in asked:
        new = new_files.get(question.a)
        if new is not None:
            edition = files.edition_of(question.a)
            pairs = zip(files.entries_of(question.a), files.entries_of(new))
            turns |= {(edition, old.kind, now.kind) for old, now in pairs}
            rooms.add((edition, len(question.c) - len(new)))
            counts.add((edition, files.count_of(new)))
            sizes.add((len(new) > len(question.a)) - (len(new) < len(question.a)))
    new_kinds = PACKED, FRAME, DIFFERENCES
    old = [(1, kind) for kind in (*new_kinds, RUNS)] + [(2, kind) for kind in new_kinds]
    wanted = {(*kind, new) for kind in old for new in new_kinds}
    yield from unless(wanted <= turns, f"no rewrite has edition, old and new kind {sorted(wanted - turns)}")
    wanted = {(edition, more) for edition in (1, 2) for more in (-1, 0, 1)}
    yield from unless(wanted <= rooms, f"no output is longer than the new file by {sorted(wanted - rooms)}")
    wanted = {(edition, count) for edition in (1, 2) for count in (0, 1, 256)}
    yield from unless(wanted <= counts, f"no rewrite has edition and blocks {sorted(wanted - counts)}")
    yield from unless(sizes == {-1, 0, 1}, "not every new file can be longer, shorter and as long")


def wrong_ones_told(sample):
    """The sample finds out every wrong rewrite, and not the right one."""
    for name in wrong.rewrites.not_told(sample, wrong.rewrites.WRONG_FILES, wrong.rewrites.WRONG_CALLS):
        yield f"the sample does not find out a wrong rewrite: {name}"
    right = list(wrong.rewrites.not_told(sample, {"no file": rewrite.rewritten}, {"no call": answered}))
    yield from unless(right == ["no file", "no call"], "the sample finds out the right rewrite")


class Rewrites(Checked):
    def test_worked_rewrites(self):
        self.nothing(worked_rewrites())

    def test_one_file_for_all_ways(self):
        self.nothing(one_file_for_all_ways())

    def test_order_of_refusals(self):
        self.nothing(order_of_refusals(questions_of(of_calls(swept(), [REWRITE]))))

    def test_cases(self):
        for name, asked in all_three([REWRITE]):
            with self.subTest(name):
                self.nothing(as_a_stream_has_it(name, asked))
                self.nothing(numbers_reached(name, asked))
                self.nothing(reads_back(name, asked))

    def test_what_is_asked(self):
        self.nothing(what_is_asked(of_calls(swept(), [REWRITE])))

    def test_wrong_ones(self):
        self.nothing(wrong_ones_told(of_calls(sample(), [REWRITE])))
