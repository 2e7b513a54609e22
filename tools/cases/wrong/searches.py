"""Searches that are wrong on purpose, each in one thing.

The sample has to tell each of them from the right one, so that it finds out a program that is wrong in the same way.
"""
from cases.stream import Outcome, answered
from models import files, layout, search
from models.build import words
from models.files import words_of
from .instead import instead
from .writers import signed

right_opened, right_rows, right_bodies = search.opened, search.rows_in, files.bodies_answer
right_meets, right_range = search.meets, files.true_range

# First those with another function in the place of one of the model's search.


def rows_where(lies_between):
    """Rows whose value lies between the bounds in another way."""

    def rows_in(values, block, low, high):
        return [1024 * block + place for place, value in enumerate(values) if lies_between(low, value, high)]

    return rows_in


def by_lanes(values, block, low, high):
    """The rows in the order in which a lane has them."""
    rows = set(right_rows(values, block, low, high))
    return [1024 * block + p for lane in layout.PLACES[64] for p in lane if 1024 * block + p in rows]


def only_edition_2(data, low, high):
    """Edition 1 is opened only where there is a number between the bounds."""
    return [] if low > high else right_opened(data, low, high)


def by_the_body(data, low, high):
    """Edition 1 is opened by the smallest and the largest of its bodies, as far as they can be read."""
    if files.edition_of(data) == 2:
        return right_opened(data, low, high)
    found = []
    for i, (entry, body) in enumerate(zip(files.entries_of(data), files.bodies_of(data))):
        if not files.index_fault(entry, body):
            smallest, largest = right_range(entry, body)
            found += [i] if max(smallest, low) <= min(largest, high) else []
    return found


def range_inside(entry, low, high):
    return low <= entry.smallest and entry.largest <= high


def end_of_range_inside(entry, low, high):
    return low <= entry.smallest <= high or low <= entry.largest <= high


def bound_in_range(entry, low, high):
    return low <= high and (entry.smallest <= low <= entry.largest or entry.smallest <= high <= entry.largest)


def meets_with_sign(entry, low, high):
    smallest, largest, low, high = map(signed, (entry.smallest, entry.largest, low, high))
    return max(smallest, low) <= min(largest, high)


WRONG_PARTS = {
    "rows at the low bound are left out": {"rows_in": rows_where(lambda low, value, high: low < value <= high)},
    "rows at the high bound are left out": {"rows_in": rows_where(lambda low, value, high: low <= value < high)},
    "rows at or above the low bound": {"rows_in": rows_where(lambda low, value, high: low <= value)},
    "rows outside the bounds": {"rows_in": rows_where(lambda low, value, high: not low <= value <= high)},
    "bounds with a sign": {
        "rows_in": rows_where(lambda low, value, high: signed(low) <= signed(value) <= signed(high))
    },
    "rows counted in their block": {"rows_in": lambda values, _, low, high: right_rows(values, 0, low, high)},
    "rows counted from 1": {"rows_in": lambda *given: [row + 1 for row in right_rows(*given)]},
    "rows by lanes": {"rows_in": by_lanes},
    "rows falling": {"rows_in": lambda *given: right_rows(*given)[::-1]},
    "the values and not the rows": {
        "rows_in": lambda values, block, low, high: [value for value in values if low <= value <= high]
    },
    "a range that ends at the low bound is not opened": {
        "meets": lambda entry, low, high: entry.largest != low and right_meets(entry, low, high)
    },
    "a range that begins at the high bound is not opened": {
        "meets": lambda entry, low, high: entry.smallest != high and right_meets(entry, low, high)
    },
    "a range one past the high bound is opened": {
        "meets": lambda entry, low, high: low <= high and max(entry.smallest, low) <= min(entry.largest, high + 1)
    },
    "a range one before the low bound is opened": {
        "meets": lambda entry, low, high: low <= high and max(entry.smallest, low - 1) <= min(entry.largest, high)
    },
    "opened where all of the range is inside": {"meets": range_inside},
    "opened where an end of the range is inside": {"meets": end_of_range_inside},
    "opened where a bound is in the range": {"meets": bound_in_range},
    "opened by the two ends, whatever the bounds are": {
        "meets": lambda entry, low, high: entry.smallest <= high and low <= entry.largest
    },
    "ranges with a sign": {"meets": meets_with_sign},
    "every block is opened": {"meets": lambda *_: True},
    "every block is opened where there is a number between the bounds": {"meets": lambda entry, low, high: low <= high},
    "edition 1 is not opened where there is no number between the bounds": {"opened": only_edition_2},
    "edition 1 is opened by its bodies": {"opened": by_the_body},
}


# Then those that are wrong about 13 and 15.


def all_blocks(data):
    return range(files.count_of(data))


def among_opened(data, blocks):
    """The place counts the blocks that are opened."""
    answer = right_bodies(data, blocks)
    return answer and answer._replace(place=blocks.index(answer.place))


def highest_of(data, blocks):
    answer = right_bodies(data, blocks)
    if not answer:
        return None
    same = [right_bodies(data, [i]) for i in blocks]
    return [other for other in same if other and other.number == answer.number][-1]


WRONG_BODIES = {
    "15 for every block": {
        "bodies_answer": lambda d, b: files.runs_wrong(d, b) or files.ranges_wrong(d, good(d, all_blocks(d)))
    },
    "13 and 15 for every block": {"bodies_answer": lambda d, b: right_bodies(d, all_blocks(d))},
    "no 13 and no 15": {"bodies_answer": lambda d, b: None},
    "no 15": {"bodies_answer": lambda d, b: files.runs_wrong(d, b)},
    "13 and 15 at place 0": {"bodies_answer": lambda d, b: at_place(right_bodies(d, b), 0)},
    "the place among the opened blocks": {"bodies_answer": among_opened},
    "the highest bad block": {"bodies_answer": highest_of},
}


def good(data, blocks):
    """Those of the blocks that can be read."""
    entries, bodies = files.entries_of(data), files.bodies_of(data)
    return [i for i in blocks if not files.index_fault(entries[i], bodies[i])]


def at_place(answer, place):
    return answer and answer._replace(place=place)


# Then those that are right about the rows and wrong about the call.


def all_rows(q):
    """The rows that there would be if there were room for every one."""
    return search.search(q.a, *words_of(q.b), 2**18)[1]


def written_then_refused(q):
    outcome = answered(q)
    if outcome.number != 14:
        return outcome
    return outcome._replace(c=words(all_rows(q))[: len(q.c)])


def as_many_as_fit(q):
    outcome = answered(q)
    if outcome.number != 14:
        return outcome
    return Outcome(0, 0, words(all_rows(q))[: len(q.c)], len(q.c) // 8)


def one_less(q):
    """14 where there is room for just the rows."""
    outcome = answered(q)
    full = outcome.number == 0 and outcome.value == len(q.c) // 8
    return Outcome(14, 0, q.c) if full else outcome


def room_for_each_row(q):
    """14 where not every row of the blocks that are opened would have room."""
    outcome = answered(q)
    if outcome.number:
        return outcome
    return Outcome(14, 0, q.c) if len(q.c) // 8 < 1024 * len(right_opened(q.a, *words_of(q.b))) else outcome


def room_first(q):
    """14 before 13 and 15, by the rows of the blocks that can be read."""
    outcome = answered(q)
    if outcome.number not in (13, 15):
        return outcome
    low, high = words_of(q.b)
    rows = search.rows_of(q.a, good(q.a, right_opened(q.a, low, high)), low, high)
    return Outcome(14, 0, q.c) if len(q.c) // 8 < len(rows) else outcome


def checked_first(q):
    """The whole file is checked, as by the reader."""
    answer = files.check(q.a)
    return Outcome(answer.number, answer.place, q.c) if answer.number else answered(q)


def not_skipped(q):
    """Every block that can be read gives its rows, whatever its range says; the refusals are the right ones."""
    outcome = answered(q)
    if outcome.number:
        return outcome
    low, high = words_of(q.b)
    rows = search.rows_of(q.a, good(q.a, all_blocks(q.a)), low, high)[: len(q.c) // 8]
    return Outcome(0, 0, words(rows) + q.c[8 * len(rows) :], len(rows))


def turned_round(q):
    low, high = words_of(q.b)
    return answered(q._replace(b=words(sorted((low, high)))))


def refused_where_crossed(number):
    def call(q):
        low, high = words_of(q.b)
        return Outcome(number, 0, q.c) if low > high and not answered(q).number else answered(q)

    return call


def crossed_first(q):
    """No rows where low is above high, before the file is looked at."""
    low, high = words_of(q.b)
    return Outcome(0, 0, q.c) if low > high else answered(q)


def cleared_behind(q):
    outcome = answered(q)
    return outcome if outcome.number else outcome._replace(c=outcome.c[: 8 * outcome.value].ljust(len(q.c), b"\0"))


def cleared(q):
    return answered(q)._replace(c=bytes(len(q.c))) if answered(q).number else answered(q)


def count_though_refused(q):
    outcome = answered(q)
    return outcome._replace(value=len(all_rows(q))) if outcome.number == 14 else outcome


def with_value(value):
    return lambda q: answered(q) if answered(q).number else answered(q)._replace(value=value(q))


def place_of_14(q):
    outcome = answered(q)
    return outcome._replace(place=len(all_rows(q))) if outcome.number == 14 else outcome


def nothing_found(q):
    outcome = answered(q)
    return Outcome(12, 0, q.c) if outcome.number == 0 and outcome.value == 0 else outcome


WRONG_CALLS = {
    "rows are written before it is refused": written_then_refused,
    "as many rows as there is room for": as_many_as_fit,
    "14 where the room is exact": one_less,
    "14 where not every row would have room": room_for_each_row,
    "14 before 13 and 15": room_first,
    "the whole file is checked": checked_first,
    "blocks that are not opened give their rows": not_skipped,
    "bounds are turned round": turned_round,
    "low above high is refused": refused_where_crossed(12),
    "low above high is looked at first": crossed_first,
    "the room past the rows is cleared": cleared_behind,
    "the room is cleared where it is refused": cleared,
    "the count though it is refused": count_though_refused,
    "the room as the count": with_value(lambda q: len(q.c) // 8),
    "the count of opened blocks": with_value(lambda q: len(right_opened(q.a, *words_of(q.b)))),
    "14 with the count as its place": place_of_14,
    "12 where nothing is found": nothing_found,
}
SORTS = ((search, WRONG_PARTS), (files, WRONG_BODIES))


def not_told(asked, sorts, calls):
    """Those of these searches that give what the right one gives in every case."""
    for module, parts in sorts:
        for name, functions in parts.items():
            with instead(module, functions):
                told = any(answered(question) != outcome for question, outcome in asked)
            if not told:
                yield name
    for name, call in calls.items():
        if all(call(question) == outcome for question, outcome in asked):
            yield name
