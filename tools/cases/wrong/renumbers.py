"""Renumberings that are wrong on purpose, each in one thing.

The sample has to tell each of them from the right one, so that it finds out a program that is wrong in the same way.
"""
import bisect

from cases.stream import Outcome, answered, lists_in
from models import files, renumber, rewrite, writer
from models.files import WRAP, Answer
from models.renumber import LIST_TESTS, Lists
from .instead import instead

# First those that have another function in the place of one of the model's: the rows, the file, K, and the tests.


def followed(rows, lists):
    """A chain is followed to its end, or through as many pairs as there are."""
    for _ in lists.old:
        rows = right_rows(rows, lists)
    return rows


def followed_twice(rows, lists):
    return right_rows(right_rows(rows, lists), lists)


def one_pair_after_the_other(rows, lists):
    """Each pair goes through all rows before the next one does."""
    for old, new in zip(lists.old, lists.new):
        rows = [new if number == old else number for number in rows]
    return rows


def along_order(rows, lists):
    """Pair i has the new number that stands at place i of the order."""
    return right_rows(rows, Lists(lists.old, tuple(lists.new[i] for i in lists.order), lists.order))


def by_halving(found):
    """The rows by halving, where found(lists, i, number) says whether the pair that halving ends at is taken."""

    def rows_by(rows, lists):
        out = []
        for number in rows:
            i = min(bisect.bisect_left(lists.old, number), len(lists.old) - 1)
            out.append(lists.new[i] if lists.old and found(lists, i, number) else number)
        return out

    return rows_by


def neighbours(rows, lists):
    """A row gets the new number of the pair before its own."""
    pairs = {old: lists.new[i - 1] for i, old in enumerate(lists.old)}
    return [pairs.get(number, number) for number in rows]


def without_pair(place):
    """The pair at a place, of the front or of the end, is not found."""

    def rows_without(rows, lists):
        skipped = lists.old[place : place + 1] if place >= 0 else lists.old[place:]
        return [number if number in skipped else other for number, other in zip(rows, right_rows(rows, lists))]

    return rows_without




right_rows = renumber.new_rows
WRONG_ROWS = {
    "a chain is followed to its end": followed,
    "a chain is followed twice": followed_twice,
    "one pair after the other": one_pair_after_the_other,
    "the new number at the place of the order": along_order,
    "the neighbour's new number": neighbours,
    "the next pair where none is found": by_halving(lambda lists, i, number: lists.old[i] >= number),
    "the last pair for a number behind the list": by_halving(lambda lists, i, number: lists.old[i] <= number),
    "the first pair is not found": without_pair(0),
    "the last pair is not found": without_pair(-1),
    "no row is renumbered": lambda rows, lists: rows,
}


def block_of_old(rows, block):
    return rows[1024 * block : 1024 * (block + 1)]


WRONG_FILES = {
    "edition 1 is written": lambda rows: writer.file_of(rows, 1),
    "the first block alone": lambda rows: writer.file_of(rows[:1024], 2),
}
WRONG_COUNTS = {
    "K is 0": lambda rows, others: 0,
    "K is how many numbers changed": lambda rows, others: len({old for old, new in zip(rows, others) if old != new}),
    "K is the count of rows": lambda rows, others: len(rows),
    "K is of the first block": lambda rows, others: right_count(rows[:1024], others[:1024]),
    "K is of the last block": lambda rows, others: right_count(rows[-1024:], others[-1024:]),
}
right_count = renumber.changed_in


# 22.


def looked_at(skipped):
    """22 is not looked for in some blocks."""

    def becomes(rows, lists):
        for block in range(len(rows) // 1024):
            values = block_of_old(rows, block)
            answer = None if skipped(values, lists) else right_one(values, lists)
            if answer:
                return answer._replace(place=answer.place + 1024 * block)
        return None

    return becomes


def apart(values, numbers):
    """Are all of these numbers below a block's range, or all above it, or none?"""
    return not numbers or max(numbers) < min(values) or min(numbers) > max(values)


def listed_too(rows, lists):
    """22 for a number that is listed, too, so that no chain is done."""
    return right_one(rows, Lists((), lists.new, ()))


def listed_with_another(rows, lists):
    """22 for a number whose own pair is of equal numbers, too."""
    moved = [old for old, new in zip(lists.old, lists.new) if old != new]
    return right_one(rows, Lists(tuple(moved), lists.new, ()))


def among_moved(rows, lists):
    """22 only where the pair of the new number has a row."""
    there = set(rows)
    return right_one(rows, Lists(lists.old, tuple(n for o, n in zip(lists.old, lists.new) if o in there), ()))


def at_place(place):
    def becomes(rows, lists):
        answer = right_one(rows, lists)
        return answer and answer._replace(place=place(answer.place, rows, lists))

    return becomes


def last_row(rows, lists):
    answer = right_one(rows[::-1], lists)
    return answer and answer._replace(place=len(rows) - 1 - answer.place)


def without_new(place):
    """One of the new numbers, along the order, is not looked for."""

    def becomes(rows, lists):
        along = [lists.new[i] for i in lists.order]
        return right_one(rows, Lists(lists.old, tuple(along[1:] if place == 0 else along[:-1]), ()))

    return becomes


right_one = renumber.becomes_one
WRONG_ONES = {
    "no 22": lambda rows, lists: None,
    "22 is looked for by the old numbers' range": looked_at(lambda values, lists: apart(values, lists.old)),
    "22 is looked for in the first block": lambda rows, lists: right_one(rows[:1024], lists),
    "22 is not looked for in the last row of a block": looked_at(lambda values, lists: len(set(values)) == 1),
    "22 for listed numbers": listed_too,
    "22 for a pair of equal numbers": listed_with_another,
    "22 only for pairs that have a row": among_moved,
    "22 at the row of the block": at_place(lambda row, rows, lists: row % 1024),
    "22 at the block": at_place(lambda row, rows, lists: row // 1024),
    "22 at place 0": at_place(lambda row, rows, lists: 0),
    "22 at the place of the pair": at_place(lambda row, rows, lists: lists.new.index(rows[row])),
    "22 at the last such row": last_row,
    "22 without the smallest new number": without_new(0),
    "22 without the largest new number": without_new(-1),
}


# The tests of the lists, and their order.


def old_and_new_alone(lists):
    return renumber.lengths_differ(lists) if len(lists.old) != len(lists.new) else None


def old_and_order_alone(lists):
    return renumber.lengths_differ(lists) if len(lists.old) != len(lists.order) else None


def new_and_order_alone(lists):
    return renumber.lengths_differ(lists) if len(lists.new) != len(lists.order) else None


def equal_old(lists):
    """Equal old numbers are let through."""
    for i in range(1, len(lists.old)):
        if lists.old[i] < lists.old[i - 1]:
            return Answer(19, i, "")


def last_old(lists):
    """The last place that does not rise."""
    bad = [i for i in range(1, len(lists.old)) if lists.old[i] <= lists.old[i - 1]]
    return Answer(19, bad[-1], "") if bad else None


def moved(test, by):
    """The same answer at another place."""

    def found(lists):
        answer = test(lists)
        return answer and answer._replace(place=answer.place + by)

    return found


def signed_old(lists):
    half = WRAP // 2
    return renumber.old_not_rising(lists._replace(old=tuple((number + half) % WRAP for number in lists.old)))


def order_by(fault):
    """20 by another fault of a place."""

    def found(lists):
        for i in range(len(lists.order)):
            if fault(lists, i):
                return Answer(20, i, "")
        return None

    return found


def new_at(lists, i):
    """The new number at a place of the order; one that is too high wraps."""
    return lists.new[lists.order[i] % len(lists.new)]


def too_high(lists, i):
    return lists.order[i] >= len(lists.new)


def falls(lists, i):
    return i > 0 and new_at(lists, i) < new_at(lists, i - 1)


def stands(lists, i):
    """Is the new number that of the place before, and the place not above it?"""
    return i > 0 and new_at(lists, i) == new_at(lists, i - 1) and lists.order[i] <= lists.order[i - 1]


def all_high_first(lists):
    """Places that are too high are looked for before all others."""
    return order_by(too_high)(lists) or renumber.order_wrong(lists)


def cut_to_32_bits(lists):
    return renumber.order_wrong(lists._replace(order=tuple(at % 2**32 for at in lists.order)))


def twice_at(place):
    """21 at another place, of those that have an equal number, and of the order."""

    def found(lists):
        answer = renumber.new_twice(lists)
        return answer and answer._replace(place=place(lists, answer.place))

    return found


def second_of(lists, at):
    return lists.new.index(lists.new[at], at + 1)


def first_along(lists, at):
    """The place that is met first along the order."""
    return next(i for i in lists.order if lists.new.count(lists.new[i]) > 1)


def next_to_each_other(lists):
    """Equal numbers are looked for at neighbouring places alone."""
    for i in range(1, len(lists.new)):
        if lists.new[i] == lists.new[i - 1]:
            return Answer(21, i - 1, "")


LENGTHS, RISING, ORDER, TWICE = LIST_TESTS
FALLS_ALONE = order_by(lambda lists, i: too_high(lists, i) or falls(lists, i))
EQUAL_TOO = order_by(lambda lists, i: too_high(lists, i) or (i > 0 and new_at(lists, i) <= new_at(lists, i - 1)))
PLACES_ALONE = order_by(lambda lists, i: too_high(lists, i) or lists.order[i] in lists.order[:i])
WRONG_TESTS = {
    "18 by old and new alone": (old_and_new_alone, RISING, ORDER, TWICE),
    "18 by old and order alone": (old_and_order_alone, RISING, ORDER, TWICE),
    "18 by new and order alone": (new_and_order_alone, RISING, ORDER, TWICE),
    "no 19": (LENGTHS, ORDER, TWICE),
    "equal old numbers are let through": (LENGTHS, equal_old, ORDER, TWICE),
    "the last old number that does not rise": (LENGTHS, last_old, ORDER, TWICE),
    "19 at the place before": (LENGTHS, moved(RISING, -1), ORDER, TWICE),
    "signed old numbers": (LENGTHS, signed_old, ORDER, TWICE),
    "the order is believed": (LENGTHS, RISING, TWICE),
    "places that are too high are let through": (LENGTHS, RISING, order_by(lambda *at: falls(*at) or stands(*at)), TWICE),
    "the order's new numbers are not looked at": (LENGTHS, RISING, PLACES_ALONE, TWICE),
    "equal new numbers in any order": (LENGTHS, RISING, FALLS_ALONE, TWICE),
    "equal new numbers are the order's fault": (LENGTHS, RISING, EQUAL_TOO, TWICE),
    "places that are too high first": (LENGTHS, RISING, all_high_first, TWICE),
    "places of 32 bits": (LENGTHS, RISING, cut_to_32_bits, TWICE),
    "20 at the place before": (LENGTHS, RISING, moved(ORDER, -1), TWICE),
    "no 21": (LENGTHS, RISING, ORDER),
    "21 at the second place": (LENGTHS, RISING, ORDER, twice_at(second_of)),
    "21 at the place of the order": (LENGTHS, RISING, ORDER, twice_at(lambda lists, at: lists.order.index(at))),
    "21 at the first place along the order": (LENGTHS, RISING, ORDER, twice_at(first_along)),
    "21 at place 0": (LENGTHS, RISING, ORDER, twice_at(lambda lists, at: 0)),
    "equal new numbers next to each other alone": (LENGTHS, RISING, ORDER, next_to_each_other),
    "19 before 18": (RISING, LENGTHS, ORDER, TWICE),
    "20 before 19": (LENGTHS, ORDER, RISING, TWICE),
    "21 before 20": (LENGTHS, RISING, TWICE, ORDER),
    "21 before 19": (LENGTHS, TWICE, RISING, ORDER),
}


# Then those that are wrong about the call.


def lists_first(q):
    """18 to 21 before the reader's numbers."""
    answer = renumber.lists_answer(lists_in(q))
    return Outcome(answer.number, answer.place, q.c) if answer else answered(q)


def contents_lists_bodies(q):
    """18 to 21 behind 8 to 11 and before 13 and 15."""
    return lists_first(q) if answered(q).number in (13, 15) else answered(q)


def one_before_lists(q):
    """22 before 18 to 21, where it can be asked."""
    if files.check(q.a).number or not 18 <= answered(q).number <= 21:
        return answered(q)
    answer = renumber.becomes_one(rewrite.all_values(q.a), lists_in(q))
    return Outcome(22, answer.place, q.c) if answer else answered(q)


def room_before(*numbers):
    """14 before these numbers, where the output is too short for the rewritten file."""

    def call(q):
        outcome = answered(q)
        if outcome.number not in numbers or files.check(q.a).number:
            return outcome
        return Outcome(14, 0, q.c) if len(q.c) < len(rewrite.rewritten(q.a)) else outcome

    return call


def room_by(size):
    """14 where the output is shorter than something else."""

    def call(q):
        outcome = answered(q)
        return Outcome(14, 0, q.c) if not outcome.number and len(q.c) < size(q, outcome.value >> 32) else outcome

    return call


def begun_then_refused(*numbers):
    """The rewritten file's front stands in the output though the call is refused with one of these."""

    def call(q):
        outcome = answered(q)
        if outcome.number not in numbers or len(q.c) == 0:
            return outcome
        return outcome._replace(c=(rewrite.rewritten(q.a)[: len(q.c)]).ljust(len(q.c), b"\0"))

    return call


def lists_exchanged(q):
    """The new numbers are taken for the old ones."""
    old, new, order = lists_in(q)
    answer, given = renumber.renumber(q.a, Lists(new, old, order), len(q.c))
    if answer.number:
        return Outcome(answer.number, answer.place, q.c)
    size = len(given.file)
    return Outcome(0, 0, given.file + q.c[size:], (size << 32) + given.changed)


def kept_where_apart(q):
    """The old file as it is, where no row is listed."""
    outcome = answered(q)
    listed = set(lists_in(q).old)
    if outcome.number or listed & set(rewrite.all_values(q.a)) or len(q.a) > len(q.c):
        return outcome
    return outcome._replace(c=q.a + q.c[len(q.a) :], value=len(q.a) << 32)


def with_value(value):
    """Another value, where the call is not refused."""

    def call(q):
        outcome = answered(q)
        return outcome if outcome.number else outcome._replace(value=value(q, outcome.value >> 32, outcome.value % 2**32))

    return call


def rows_listed(q):
    listed = set(lists_in(q).old)
    return sum(number in listed for number in rewrite.all_values(q.a))


def cleared_behind(q):
    outcome = answered(q)
    size = outcome.value >> 32
    return outcome if outcome.number else outcome._replace(c=outcome.c[:size].ljust(len(q.c), b"\0"))


WRONG_CALLS = {
    "18 to 21 before the reader": lists_first,
    "18 to 21 before 13 and 15": contents_lists_bodies,
    "22 before 18 to 21": one_before_lists,
    "14 before 18 to 21": room_before(18, 19, 20, 21),
    "14 before 22": room_before(22),
    "14 by the old file's length": room_by(lambda q, size: len(q.a)),
    "14 by the bound": room_by(lambda q, size: 4 + 8224 * files.count_of(q.a)),
    "14 for an output that just fits": room_by(lambda q, size: size + 1),
    "14 by the rewritten file": room_by(lambda q, size: len(rewrite.rewritten(q.a))),
    "the file is begun before 14": begun_then_refused(14),
    "the file is begun before 22": begun_then_refused(22),
    "old and new exchanged": lists_exchanged,
    "the file is kept where no row is listed": kept_where_apart,
    "K is the rows that are listed": with_value(lambda q, size, k: (size << 32) + rows_listed(q)),
    "K is the count of pairs": with_value(lambda q, size, k: (size << 32) + q.index),
    "the length alone": with_value(lambda q, size, k: size << 32),
    "the length in the low half": with_value(lambda q, size, k: (k << 32) + size),
    "the old file's length": with_value(lambda q, size, k: (len(q.a) << 32) + k),
    "the bytes past the file are cleared": cleared_behind,
    "every place is 0": lambda q: answered(q)._replace(place=0),
}

# The function of the model that those of each group take the place of.
WRONG = {
    "new_rows": WRONG_ROWS,
    "file_of": WRONG_FILES,
    "changed_in": WRONG_COUNTS,
    "becomes_one": WRONG_ONES,
    "LIST_TESTS": WRONG_TESTS,
}


def differs(question, outcome):
    """Does the model, as it is now, give something else? One that falls over does."""
    try:
        return answered(question) != outcome
    except IndexError:
        return True


def not_told(asked, groups, calls):
    """Those of these renumberings that give what the right one gives in every case."""
    for part, others in groups.items():
        for name, other in others.items():
            with instead(renumber, {part: other}):
                told = any(differs(question, outcome) for question, outcome in asked)
            if not told:
                yield name
    for name, call in calls.items():
        if all(call(question) == outcome for question, outcome in asked):
            yield name
