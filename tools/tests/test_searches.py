"""Holds the model of the search, and its cases, to what R107 to R110 say.

First come searches that are worked out by hand. Then every search of the sweep is made once more without skipping, row
by row through the reader, which has to list the same rows where the full check accepts the file. Then the cases are
looked at, and last come the searches of wrong/searches.py.
"""
from cases import encodings, sweeps, wrong
from cases.stream import SEARCH, Question, answered
from models import build, files, search
from models.build import column_file, frame, packed
from models.files import TOP, words_of
from .common import Checked, all_three, expected_of, of_calls, questions_of, sample, swept, unless

NUMBERS = {0, 8, 9, 10, 11, 13, 14, 15}  # that the call can give


def called(data, low, high, room):
    """What the call gives, with a room that holds marks."""
    return answered(Question(SEARCH, "", data, build.words((low, high)), b"\xa5" * (8 * room)))


# By hand.


def worked_blocks():
    """Block 0 is 5, with 3 at places 0 and 900. Block 1 is 7 everywhere. Block 2 is 9, with 2^64 - 1 at place 1023."""
    first = [3 if place in (0, 900) else 5 for place in range(1024)]
    last = [TOP if place == 1023 else 9 for place in range(1024)]
    return [encodings.as_packed(first), frame(0, b"", 7), encodings.as_frame(last)]


def worked_searches():
    """Low, high, room, and then number, place and rows. Both editions list the same."""
    sevens = list(range(1024, 2048))
    for low, high, room, expected in (
        (3, 3, 2, (0, 0, [0, 900])),
        (3, 3, 3, (0, 0, [0, 900])),
        (3, 3, 1, (14, 0, [])),
        (3, 3, 0, (14, 0, [])),
        (0, 3, 5, (0, 0, [0, 900])),
        (0, 2, 5, (0, 0, [])),
        (0, 2, 0, (0, 0, [])),
        (4, 4, 1, (0, 0, [])),
        (6, 8, 1024, (0, 0, sevens)),
        (6, 8, 1023, (14, 0, [])),
        (7, 7, 1025, (0, 0, sevens)),
        (8, 8, 0, (0, 0, [])),
        (10, TOP, 1, (0, 0, [3071])),
        (TOP, TOP, 1, (0, 0, [3071])),
        (TOP - 1, TOP, 0, (14, 0, [])),
        (10, TOP - 1, 0, (0, 0, [])),
        (3, 2, 4, (0, 0, [])),
        (7, 5, 0, (0, 0, [])),
        (TOP, 0, 4, (0, 0, [])),
        (0, TOP, 3072, (0, 0, list(range(3072)))),
        (0, TOP, 3071, (14, 0, [])),
    ):
        for edition in (1, 2):
            yield from as_worked(f"edition {edition}", column_file(worked_blocks(), edition), low, high, room, expected)


def as_worked(name, data, low, high, room, expected):
    number, place, rows = expected
    outcome = called(data, low, high, room)
    right = number, place, build.words(rows) + b"\xa5" * (8 * (room - len(rows))), len(rows), 0
    got = outcome.number, outcome.place, outcome.c, outcome.value, outcome.reference
    said = f"{name}, {low} to {high} with room for {room}: number {outcome.number}, place {outcome.place}"
    yield from unless(got == right, f"{said}, {outcome.value} rows")


def worked_lies():
    """Sevens whose entry says 20 to 30, behind sevens whose entry is right; and a run block with an index out of range,
    which is no block of edition 2, and which edition 1 finds whatever the bounds are."""
    lie, bad = frame(0, b"", 7).but(smallest=20, largest=30), build.runs([0] * 1023 + [1], [45])
    true, runs = frame(0, b"", 7), bad.but(smallest=40, largest=50)
    rows = list(range(1024))
    for blocks, low, high, room, expected in (
        ([true, lie], 7, 7, 1024, (0, 0, rows)),
        ([true, lie], 19, 19, 0, (0, 0, [])),
        ([true, lie], 20, 20, 0, (15, 1, [])),
        ([true, lie], 30, TOP, 0, (15, 1, [])),
        ([true, lie], 31, TOP, 0, (0, 0, [])),
        ([true, lie], 25, 24, 0, (0, 0, [])),
        ([true, lie], 0, 20, 0, (15, 1, [])),
        ([true, lie], 0, 19, 1023, (14, 0, [])),
        ([true, true.but(smallest=6), true.but(largest=8)], 8, 8, 0, (15, 2, [])),
        ([true, true.but(smallest=6), true.but(largest=8)], 7, 7, 0, (15, 1, [])),
    ):
        yield from as_worked("ranges that lie", column_file(blocks, 2), low, high, room, expected)
    yield from as_worked("runs in edition 2", column_file([true, runs], 2), 9, 3, 0, (10, 1, []))
    for low, high in ((0, 0), (45, 45), (9, 3)):
        yield from as_worked("edition 1", column_file([true, bad], 1), low, high, 0, (13, 1, []))


def worked_files():
    """Files that are refused before any block is opened, with bounds that meet nothing."""
    good = column_file([frame(0, b"", 7), packed(0, b"")], 2)
    for data, expected in (
        (good, (0, 0, [])),
        (good[:3], (8, 0, [])),
        (b"\x03" + good[1:], (9, 0, [])),
        (b"\x00" + good[1:], (9, 0, [])),
        (good[:2] + b"\x01\x01" + good[4:], (9, 0, [])),
        (good[:67], (8, 0, [])),
        (good + b"x", (11, 0, [])),
        (column_file([frame(0, b"", 7), packed(0, b"").but(smallest=1, largest=0)], 2), (10, 1, [])),
        (column_file([frame(0, b"", 7), packed(0, b"").but(zero=1)], 2), (10, 1, [])),
        (column_file([], 2), (0, 0, [])),
        (column_file([], 1), (0, 0, [])),
    ):
        yield from as_worked(f"the file {data[:8].hex(' ')} ...", data, 100, 200, 0, expected)
        yield from as_worked(f"the file {data[:8].hex(' ')} ...", data, 200, 100, 1, expected)


# The cases.


def without_skipping(asked):
    """On a file that the full check accepts, the rows are those that a look at every row finds."""
    found = {}
    for question, outcome in asked:
        if outcome.number or files.check(question.a).number:
            continue
        if question.a not in found:
            blocks = range(files.count_of(question.a))
            found[question.a] = [value for block in blocks for value in files.values_of(question.a, block)]
        low, high = words_of(question.b)
        rows = [row for row, value in enumerate(found[question.a]) if not (value < low or value > high)]
        same = outcome.value == len(rows) and outcome.c[: 8 * len(rows)] == build.words(rows)
        yield from unless(same, f"{question.name}: other rows are listed than without skipping")


def as_a_stream_has_it(name, asked):
    """Rows rise; what is past them stays; a refused search changes nothing."""
    for question, outcome in asked:
        rows = words_of(outcome.c)[: outcome.value]
        rising = all(before < after for before, after in zip(rows, rows[1:]))
        yield from unless(rising, f"{name}, {question.name}: the rows do not rise")
        stays = outcome.c[8 * outcome.value :] == question.c[8 * outcome.value :]
        yield from unless(stays, f"{name}, {question.name}: the room past the rows is changed")
        yield from unless(not outcome.number or not outcome.value, f"{name}, {question.name}: a refusal gives a count")


def numbers_reached(name, asked):
    """Every number, in edition 2 and, but for 15, in edition 1."""
    numbers = {outcome.number for _, outcome in asked}
    yield from unless(numbers == NUMBERS, f"{name}: the numbers given are {sorted(numbers)}")
    if name == "sweep":
        for edition in (1, 2):
            found = {o.number for q, o in asked if len(q.a) > 3 and files.edition_of(q.a) == edition} | {8, 9}
            wanted = NUMBERS - ({15} if edition == 1 else {13})
            yield from unless(found == wanted, f"{name}: edition {edition} gives the numbers {sorted(found)}")


def order_of_refusals(swept):
    """Where several steps fail, the first in the order of R110 answers, and the sweep asks for every two."""
    asked, pairs = set(swept), set()
    for way in sweeps.searches.SEARCH_WAYS:
        for steps in sweeps.searches.search_steps(way):
            question = sweeps.searches.faulty_search(steps, way)
            got = answered(question)[:2]
            yield from unless(got == expected_of(steps, way), f"{question.name}: the model gives {got}")
            yield from unless(question in asked, f"{question.name}: the sweep does not ask this")
            if len(steps) == 2:
                pairs.add(tuple(int(step.split()[0]) for step in steps))
    wanted = {(8, 9), (9, 8), (8, 10), (10, 8), (8, 13), (8, 15), (8, 14), (9, 10), (9, 11), (9, 13), (9, 15), (9, 14)}
    wanted |= {(10, 11), (10, 13), (10, 15), (10, 14), (11, 13), (11, 15), (11, 14), (13, 14), (15, 14)}
    yield from unless(pairs == wanted, f"the pairs of a search's refusals are {sorted(pairs ^ wanted)} off")


def how_bounds_stand(question):
    """In words how the bounds stand to the ranges in the entries of an edition 2 file, and to their bodies."""
    low, high = words_of(question.b)
    found = {"low above high"} if low > high else {"0 to 2^64 - 1"} if (low, high) == (0, TOP) else set()
    for entry, body in zip(files.entries_of(question.a), files.bodies_of(question.a)):
        words = {
            "low at the smallest": low == entry.smallest,
            "low at the largest": low == entry.largest,
            "low one past the largest": low == entry.largest + 1,
            "high at the smallest": high == entry.smallest,
            "high at the largest": high == entry.largest,
            "high one before the smallest": high == entry.smallest - 1,
            "both in the range": entry.smallest < low <= high < entry.largest,
            "the range between": low < entry.smallest and entry.largest < high,
        }
        found |= {word for word, so in words.items() if so}
        if not files.index_fault(entry, body) and files.range_fault(entry, body):
            meets = max(low, entry.smallest) <= min(high, entry.largest)
            true = files.true_range(entry, body)
            within = max(low, true[0]) <= min(high, true[1])
            found.add(f"a lie {'' if meets else 'not '}opened, {'' if within else 'not '}in the body")
    return found


STANDS = {"low above high", "0 to 2^64 - 1", "low at the smallest", "low at the largest", "low one past the largest"}
STANDS |= {"high at the smallest", "high at the largest", "high one before the smallest", "both in the range"}
STANDS |= {"the range between"}
STANDS |= {f"a lie {first}opened, {second}in the body" for first in ("", "not ") for second in ("", "not ")}


def what_is_asked(asked):
    """Bounds as they can stand to ranges, and room one short, exact and one long, in both editions."""
    stands = set()
    for question, outcome in asked:
        if outcome.number not in (8, 9, 10, 11) and files.edition_of(question.a) == 2:
            stands |= how_bounds_stand(question)
    yield from unless(stands == STANDS, f"no search has bounds that are {sorted(STANDS - stands)}")
    for edition in (1, 2):
        rooms = set()
        for question, outcome in asked:
            if outcome.number in (0, 14) and files.edition_of(question.a) == edition:
                rows = search.search(question.a, *words_of(question.b), 2**18)[1]
                rooms.add((len(question.c) // 8 - len(rows), min(len(rows), 2)))
        wanted = {(-1, 2), (0, 2), (1, 2), (-1, 1), (0, 1), (1, 1), (0, 0), (1, 0)}
        yield from unless(wanted <= rooms, f"edition {edition}: no room is {sorted(wanted - rooms)} off")


def kinds_opened(name, asked):
    """Every kind gives rows in each edition that has it."""
    found = set()
    for question, outcome in asked:
        if not outcome.number:
            for row in words_of(outcome.c)[: outcome.value : 200]:
                found.add((files.edition_of(question.a), files.entry_at(question.a, row // 1024).kind))
    wanted = {(edition, kind) for edition in (1, 2) for kind in sweeps.searches.kinds_of(edition)}
    yield from unless(found == wanted, f"{name}: no rows come from edition and kind {sorted(wanted - found)}")


def wrong_ones_told(sample):
    """The sample finds out every wrong search, and not the right one."""
    for name in wrong.searches.not_told(sample, wrong.searches.SORTS, wrong.searches.WRONG_CALLS):
        yield f"the sample does not find out a wrong search: {name}"
    right = list(wrong.searches.not_told(sample, ((search, {"no part": {}}),), {"no call": answered}))
    yield from unless(right == ["no part", "no call"], "the sample finds out the right search")


class Searches(Checked):
    def test_worked_searches(self):
        self.nothing(worked_searches())

    def test_worked_lies(self):
        self.nothing(worked_lies())

    def test_worked_files(self):
        self.nothing(worked_files())

    def test_order_of_refusals(self):
        self.nothing(order_of_refusals(questions_of(of_calls(swept(), [SEARCH]))))

    def test_cases(self):
        for name, asked in all_three([SEARCH]):
            with self.subTest(name):
                self.nothing(as_a_stream_has_it(name, asked))
                self.nothing(numbers_reached(name, asked))
                self.nothing(without_skipping(asked))

    def test_what_is_asked(self):
        self.nothing(what_is_asked(of_calls(swept(), [SEARCH])))

    def test_kinds_opened(self):
        self.nothing(kinds_opened("sweep", of_calls(swept(), [SEARCH])))

    def test_wrong_ones(self):
        self.nothing(wrong_ones_told(of_calls(sample(), [SEARCH])))
