"""Holds the model of the renumbering, and its cases, to what its text says.

First come renumberings that are worked out by hand. Then everything that the cases renumber is looked at row by row, and
taken back with the lists turned round. Then the cases are looked at, and last come those of wrong/renumbers.py.
"""
from cases import sweeps, wrong
from cases.stream import RENUMBER, Question, answered, lists_in
from cases.sweeps.reads import NO_BLOCKS, NO_BLOCKS_2, SEVENS, SEVENS_2
from cases.sweeps.renumbers import PLACES
from models import build, changes, files, renumber, rewrite, writer
from models.build import column_file, frame
from models.files import TOP
from models.renumber import Lists, lists_of, turned_round
from .common import Checked, all_three, expected_of, of_calls, questions_of, sample, swept, unless

NUMBERS = {0, 8, 9, 10, 11, 13, 14, 15, 18, 19, 20, 21, 22}  # that the call can give
ROOM = 2**23  # as much as any file needs


def question_of(data, lists, room):
    numbers = build.words([*lists[0], *lists[1], *lists[2]])
    return Question(RENUMBER, "", data, numbers, b"\xa5" * room, index=len(lists[1]), reference=len(lists[0]))


# By hand.


def worked_renumbers():
    """A file, the three lists and the length of the output, and then number, place, the new file and K."""
    eights, nines = column_file([frame(0, b"", 8)], 2), column_file([frame(0, b"", 9)], 2)
    two, other = column_file([frame(0, b"", 1), frame(0, b"", 2)], 1), column_file([frame(0, b"", 2), frame(0, b"", 3)], 2)
    back = column_file([frame(0, b"", 2), frame(0, b"", 1)], 2)
    two_2 = column_file([frame(0, b"", 1), frame(0, b"", 2)], 2)
    few = writer.file_of([7] * 1000 + [5] * 24, 1)
    lie = column_file([frame(0, b"", 7).but(largest=8)], 2)
    for name, data, lists, room, expected in (
        ("sevens to eights", SEVENS, ((7,), (8,), (0,)), 36, (0, 0, eights, 1024)),
        ("sevens to eights", SEVENS, ((7,), (8,), (0,)), 35, (14, 0, None, 0)),
        ("sevens to eights", SEVENS_2, ((7,), (8,), (0,)), 40, (0, 0, eights, 1024)),
        ("no pairs", SEVENS, ((), (), ()), 36, (0, 0, SEVENS_2, 0)),
        ("no pairs", SEVENS, ((), (), ()), 20, (14, 0, None, 0)),
        ("sevens stay", SEVENS, ((7,), (7,), (0,)), 36, (0, 0, SEVENS_2, 0)),
        ("7 to 8 and 8 to 9", SEVENS, ((7, 8), (8, 9), (0, 1)), 36, (0, 0, eights, 1024)),
        ("8 to 9", eights, ((7, 8), (8, 9), (0, 1)), 36, (0, 0, nines, 1024)),
        ("1 to 2 and 2 to 3", two, ((1, 2), (2, 3), (0, 1)), 68, (0, 0, other, 2048)),
        ("1 to 2 and 2 to 1", two, ((1, 2), (2, 1), (1, 0)), 68, (0, 0, back, 2048)),
        ("1 to 2", two, ((1,), (2,), (0,)), 68, (22, 1024, None, 0)),
        ("2 to 1", two, ((2,), (1,), (0,)), 0, (22, 0, None, 0)),
        ("1 to 2 and 2 to 2", two, ((1, 2), (2, 2), (0, 1)), 68, (21, 0, None, 0)),
        ("1 to 1 and 2 to 2", two, ((1, 2), (1, 2), (0, 1)), 68, (0, 0, two_2, 0)),
        ("a pair that no row has", two, ((9,), (2,), (0,)), 68, (22, 1024, None, 0)),
        ("a pair that no row has", two, ((9,), (10,), (0,)), 68, (0, 0, two_2, 0)),
        ("the row of a number", few, ((7,), (5,), (0,)), 0, (22, 1000, None, 0)),
        ("no blocks", NO_BLOCKS, ((1, 2), (2, 1), (1, 0)), 4, (0, 0, NO_BLOCKS_2, 0)),
        ("no blocks", NO_BLOCKS, ((1, 2), (2, 1), (1, 0)), 3, (14, 0, None, 0)),
        ("18", SEVENS, ((7,), (8,), ()), 36, (18, 0, None, 0)),
        ("18", SEVENS, ((7,), (), (0,)), 36, (18, 0, None, 0)),
        ("18", SEVENS, ((), (8,), (0,)), 36, (18, 0, None, 0)),
        ("18 before 19", SEVENS, ((7, 7), (8,), (0,)), 36, (18, 0, None, 0)),
        ("19", SEVENS, ((7, 7), (8, 9), (0, 1)), 36, (19, 1, None, 0)),
        ("19", SEVENS, ((6, 7, 9, 8), (1, 2, 3, 4), (0, 1, 2, 3)), 36, (19, 3, None, 0)),
        ("19 before 20", SEVENS, ((7, 7), (8, 9), (1, 0)), 36, (19, 1, None, 0)),
        ("20", SEVENS, ((7, 8), (8, 9), (1, 0)), 36, (20, 1, None, 0)),
        ("20", SEVENS, ((7,), (8,), (1,)), 36, (20, 0, None, 0)),
        ("20", SEVENS, ((7,), (8,), (TOP,)), 36, (20, 0, None, 0)),
        ("20, a place twice", SEVENS, ((7, 8), (8, 9), (0, 0)), 36, (20, 1, None, 0)),
        ("20 before 21", SEVENS, ((7, 8), (9, 9), (1, 0)), 36, (20, 1, None, 0)),
        ("21", SEVENS, ((7, 8), (9, 9), (0, 1)), 36, (21, 0, None, 0)),
        ("21, the larger ones in front", SEVENS, ((1, 2, 3, 4), (9, 8, 8, 9), (1, 2, 0, 3)), 36, (21, 0, None, 0)),
        ("21 before 22", SEVENS, ((1, 2), (7, 7), (0, 1)), 0, (21, 0, None, 0)),
        ("22 before 14", SEVENS, ((1,), (7,), (0,)), 0, (22, 0, None, 0)),
        ("15 before 18", lie, ((1,), (), ()), 0, (15, 0, None, 0)),
        ("11 before 18", SEVENS + b"x", ((1,), (), ()), 0, (11, 0, None, 0)),
        ("8 before 19", SEVENS[:19], ((1, 1), (2, 3), (0, 1)), 40, (8, 0, None, 0)),
    ):
        number, place, new, changed = expected
        outcome = answered(question_of(data, lists, room))
        value = 0 if new is None else len(new) * 2**32 + changed
        right = number, place, b"\xa5" * room if new is None else new.ljust(room, b"\xa5"), value, 0
        got = outcome.number, outcome.place, outcome.c, outcome.value, outcome.reference
        yield from unless(got == right, f"{name}: number {outcome.number}, place {outcome.place}, value {outcome.value}")


# What the cases renumber.


def all_renumbered(asked):
    """Each renumbering that is done: the file, the lists, the new file and K."""
    for question, outcome in asked:
        if not outcome.number:
            size, changed = divmod(outcome.value, 2**32)
            yield question.name, question.a, lists_in(question), outcome.c[:size], changed


def every_row_once(name, asked):
    """Row by row, with the pair looked for from the front of the list: the new file has what the text says, and K counts
    the rows that differ. The new file is the writer's, in edition 2."""
    for case, data, lists, new, changed in all_renumbered(asked):
        if len(lists.old) > 50:
            continue  # A long list is left to the way back.
        said = f"{name}, {case}"
        yield from unless(not files.check(new).number, f"{said}: the new file is not accepted")
        differ = 0
        rows, others = rewrite.all_values(data), rewrite.all_values(new)
        yield from unless(len(rows) == len(others), f"{said}: the count of rows is another")
        for number, other in zip(rows, others):
            wanted = lists.new[lists.old.index(number)] if number in lists.old else number
            differ += other != number
            if other != wanted:
                yield f"{said}: {number} became {other}, and not {wanted}"
                break
        yield from unless(differ == changed, f"{said}: K is {changed}, and {differ} rows differ")
        yield from unless(new == writer.file_of(others, 2), f"{said}: the new file is not what the writer gives")


def way_back(name, asked):
    """The lists turned round are not refused, have the same K, and give the old file rewritten. Different numbers stay
    different, and what `changes` would print has K lines."""
    for case, data, lists, new, changed in all_renumbered(asked):
        said = f"{name}, {case}"
        answer, given = renumber.renumber(new, turned_round(lists), 4 + 8224 * files.count_of(new))
        if answer.number:
            yield f"{said}: the way back is refused: {answer.why}"
            continue
        yield from unless(given.changed == changed, f"{said}: K of the way back is {given.changed}, and not {changed}")
        yield from unless(given.file == rewrite.rewritten(data), f"{said}: the way back gives another file")
        rows, others = rewrite.all_values(data), rewrite.all_values(new)
        yield from unless(len(set(rows)) == len(set(others)), f"{said}: two numbers became one")
        lines = len(changes.differing(rows, others))
        yield from unless(lines == changed, f"{said}: changes has {lines} lines, and K is {changed}")
        if not lists.old:
            yield from unless(new == rewrite.rewritten(data), f"{said}: no pairs give another file than the rewrite")


# The cases.


def as_a_stream_has_it(name, asked):
    """What is past the new file stays; a refused renumbering changes nothing and gives no value."""
    for question, outcome in asked:
        size = outcome.value >> 32
        yield from unless(outcome.c[size:] == question.c[size:], f"{name}, {question.name}: the output past it is changed")
        yield from unless(not outcome.number or not outcome.value, f"{name}, {question.name}: a refusal gives a value")


def numbers_reached(name, asked):
    numbers = {outcome.number for _, outcome in asked}
    yield from unless(numbers == NUMBERS, f"{name}: the numbers given are {sorted(numbers)}")


def expected_with(steps, way):
    """The number and the place that the first of these steps gives."""
    if steps and steps[0] in PLACES:
        return int(steps[0].split()[0]), PLACES[steps[0]]
    return expected_of(steps, way)


def order_of_refusals(swept):
    """Where several steps fail, the first in the text's order answers, and the sweep asks for every two."""
    asked = set(swept)
    for way in sweeps.renumbers.RENUMBER_WAYS:
        for steps in sweeps.renumbers.renumber_steps(way):
            question = sweeps.renumbers.faulty_renumber(steps, way)
            got = answered(question)[:2]
            yield from unless(got == expected_with(steps, way), f"{question.name}: the model gives {got}")
            yield from unless(question in asked, f"{question.name}: the sweep does not ask this")


def where_in(count, place):
    """A place of a list as it is named: the first, the last, or one between."""
    return "first" if place == 0 else "last" if place == count - 1 else "middle"


def sorts_of(question, outcome):
    """What a case is there for, in words."""
    lists, number, place = lists_in(question), outcome.number, outcome.place
    if number in (19, 20, 21):
        count = {19: len(lists.old), 20: len(lists.order), 21: len(lists.new) - 1}[number]
        yield number, where_in(count, place - 1 if number == 19 and place == 1 else place)
    if number == 22:
        rows = 1024 * files.count_of(question.a)
        yield number, where_in(rows, place)
        there = rewrite.all_values(question.a)[place]
        yield "new number", where_in(len(lists.new), lists.new.index(there))
        yield "edition", number, files.edition_of(question.a)
    if number == 0:
        yield from done_sorts(question, outcome)
    if number == 14:
        yield "edition", number, files.edition_of(question.a)


def done_sorts(question, outcome):
    lists, edition = lists_in(question), files.edition_of(question.a)
    rows = set(rewrite.all_values(question.a))
    pairs = dict(zip(lists.old, lists.new))
    yield "room", edition, min(len(question.c) - (outcome.value >> 32), 1)
    yield "blocks", min(files.count_of(question.a), 2)
    if not pairs:
        yield "no pairs", edition
    if len(pairs) > 1024 * files.count_of(question.a):
        yield "more pairs than rows"
    if any(old in rows and pairs.get(new, new) != new for old, new in pairs.items()):
        yield "a chain", edition
    if any(old in rows and old != new and pairs.get(new) == old for old, new in pairs.items()):
        yield "an exchange", edition
    if any(old in rows and old == new for old, new in pairs.items()):
        yield "an equal pair", edition
    for block in range(min(files.count_of(question.a), 3)):
        values = files.values_of(question.a, block)
        meets = [any(min(values) <= number <= max(values) for number in part) for part in lists[:2]]
        yield "a block met by old and new", edition, *meets


WANTED = {
    *((number, where) for number in (19, 20, 21, 22) for where in ("first", "middle", "last")),
    *(("new number", where) for where in ("first", "middle", "last")),
    *(("edition", number, edition) for number in (14, 22) for edition in (1, 2)),
    *(("room", edition, more) for edition in (1, 2) for more in (0, 1)),
    *((sort, edition) for sort in ("no pairs", "a chain", "an exchange", "an equal pair") for edition in (1, 2)),
    *(("a block met by old and new", edition, o, n) for edition in (1, 2) for o in (True, False) for n in (True, False)),
    *(("blocks", count) for count in (0, 1, 2)),
    ("more pairs than rows",),
}


def what_is_asked(asked):
    """Every refusal at the first place that can have it, in the middle and at the last; chains, exchanges and equal pairs;
    blocks that old and new numbers meet or do not; all in both editions."""
    found = set()
    for question, outcome in asked:
        found |= {sort if isinstance(sort, tuple) else (sort,) for sort in sorts_of(question, outcome)}
    yield from unless(WANTED <= found, f"no renumbering has {sorted(map(str, WANTED - found))}")


def lists_made():
    """Pairs in any order give lists that are good, and turned round twice they are the same."""
    for pairs in ([], [(3, 1)], [(9, 4), (1, 7), (4, 9)], [(5, 2), (2, 5)], [(TOP, 0), (0, TOP)]):
        lists = lists_of(pairs)
        yield from unless(renumber.lists_answer(lists) is None, f"the lists of {pairs} are refused")
        yield from unless(set(zip(*lists[:2])) == set(pairs), f"the lists of {pairs} have other pairs")
        yield from unless(turned_round(turned_round(lists)) == lists, f"turned round twice, {pairs} are other lists")
    wanted = Lists((1, 4, 9), (7, 9, 4), (2, 0, 1))
    yield from unless(lists_of([(9, 4), (1, 7), (4, 9)]) == wanted, "the lists of three pairs are others")


def wrong_ones_told(sample):
    """The sample finds out every wrong renumbering, and not the right one."""
    for name in wrong.renumbers.not_told(sample, wrong.renumbers.WRONG, wrong.renumbers.WRONG_CALLS):
        yield f"the sample does not find out a wrong renumbering: {name}"
    parts = {part: {part: getattr(renumber, part)} for part in wrong.renumbers.WRONG}
    right = list(wrong.renumbers.not_told(sample, parts, {"no call": answered}))
    yield from unless(right == [*parts, "no call"], "the sample finds out the right renumbering")


class Renumbers(Checked):
    def test_worked_renumbers(self):
        self.nothing(worked_renumbers())

    def test_lists_made(self):
        self.nothing(lists_made())

    def test_order_of_refusals(self):
        self.nothing(order_of_refusals(questions_of(of_calls(swept(), [RENUMBER]))))

    def test_cases(self):
        for name, asked in all_three([RENUMBER]):
            with self.subTest(name):
                self.nothing(as_a_stream_has_it(name, asked))
                self.nothing(numbers_reached(name, asked))
                self.nothing(every_row_once(name, asked))
                self.nothing(way_back(name, asked))

    def test_what_is_asked(self):
        self.nothing(what_is_asked(of_calls(swept(), [RENUMBER])))

    def test_wrong_ones(self):
        self.nothing(wrong_ones_told(of_calls(sample(), [RENUMBER])))
