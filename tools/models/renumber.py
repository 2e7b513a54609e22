"""The model of the renumbering (R132 to R135), from the text of its request alone.

A renumbering takes a file that is readable and three lists of u64. Pair i is old[i] and new[i], and order has the places
of the pairs by rising new number. A number is listed when it stands among the old numbers. A row of the new file has the
new number of its pair where the old file's number is listed, and else that number. Every row is taken from the old file
once, so no pair acts on what another one gave. The new file is what the writer gives for these rows, in edition 2. The
call says its length, and K, how many rows have another number than before.

The refusals stand in the request's order. First come those of the reader, as the rewrite gives them; then 18 to 21, which
look at the lists alone, each at all of its places before the next one begins; then 22, which looks at every row; then 14,
an output that is shorter than the new file. The output is then unchanged; bytes past the new file stay.
"""
from typing import NamedTuple

from . import changes, files, rewrite, writer
from .files import Answer

RENUMBERED = Answer(0, 0, "the file is renumbered")
EDITION = 2


class Lists(NamedTuple):
    old: tuple
    new: tuple
    order: tuple


class Renumbered(NamedTuple):
    file: bytes
    changed: int  # K


def order_of(new):
    """The places of the pairs by rising new number, and of equal numbers by rising place."""
    return tuple(sorted(range(len(new)), key=lambda i: (new[i], i)))


def lists_of(pairs):
    """The three lists of pairs that come in any order, by rising old number."""
    old, new = zip(*sorted(pairs)) if pairs else ((), ())
    return Lists(old, new, order_of(new))


def turned_round(lists):
    """The new numbers and the old ones, read along the order, as old and new, and the order of that."""
    old = tuple(lists.new[i] for i in lists.order)
    new = tuple(lists.old[i] for i in lists.order)
    return Lists(old, new, order_of(new))


# The tests of the lists. Each may rely on those before it, and gives None where the lists pass.


def lengths_differ(lists):
    lengths = [len(part) for part in lists]
    if len(set(lengths)) > 1:
        return Answer(18, 0, "there are {} old numbers, {} new ones and {} places".format(*lengths))


def old_not_rising(lists):
    for i in range(1, len(lists.old)):
        if lists.old[i] <= lists.old[i - 1]:
            return Answer(19, i, f"old number {i} is {lists.old[i]}, and the one before it is {lists.old[i - 1]}")


def order_fault(lists, i):
    """What is wrong at a place of the order, in words, where the places before it are good; None where nothing is."""
    new, at = lists.new, lists.order[i]
    if at >= len(new):
        return f"it names pair {at}, and there are {len(new)} pairs"
    if i == 0:
        return None
    before = lists.order[i - 1]
    if new[at] < new[before]:
        return f"it names pair {at} with {new[at]}, behind one with {new[before]}"
    if new[at] == new[before] and at <= before:
        return f"it names pair {at} behind pair {before}, and both have {new[at]}"
    return None


def order_wrong(lists):
    for i in range(len(lists.order)):
        fault = order_fault(lists, i)
        if fault:
            return Answer(20, i, f"place {i} of the order: {fault}")


def new_twice(lists):
    """The lowest place whose number stands at another place too; so that other place is behind it."""
    last = {number: place for place, number in enumerate(lists.new)}
    for i, number in enumerate(lists.new):
        if last[number] != i:
            return Answer(21, i, f"the new numbers {i} and {last[number]} are both {number}")


LIST_TESTS = (lengths_differ, old_not_rising, order_wrong, new_twice)


def lists_answer(lists):
    """18 to 21, or None."""
    return next(filter(None, (test(lists) for test in LIST_TESTS)), None)


# The rows.


def becomes_one(rows, lists):
    """22: the lowest row whose number is not listed and stands among the new ones."""
    listed, taken = set(lists.old), set(lists.new)
    for row, number in enumerate(rows):
        if number not in listed and number in taken:
            return Answer(22, row, f"row {row} has {number}, which is not listed, and is a new number too")


def new_rows(rows, lists):
    """The rows of the new file."""
    pairs = dict(zip(lists.old, lists.new))
    return [pairs.get(number, number) for number in rows]


def file_of(rows):
    return writer.file_of(rows, EDITION)


def changed_in(rows, others):
    """How many rows have another number than before."""
    return len(changes.differing(rows, others))


def renumber(data, lists, room):
    """The call, for an output of that many bytes: the answer, and what it gives, None where it is refused."""
    answer = files.check(data)
    if answer.number:
        return answer, None
    answer = lists_answer(lists)
    if answer:
        return answer, None
    rows = rewrite.all_values(data)
    answer = becomes_one(rows, lists)
    if answer:
        return answer, None
    others = new_rows(rows, lists)
    new = file_of(others)
    if room < len(new):
        return Answer(14, 0, f"the output has {room} bytes, and the new file has {len(new)}"), None
    return RENUMBERED, Renumbered(new, changed_in(rows, others))
