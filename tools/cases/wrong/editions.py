"""Readers that are wrong on purpose about edition 2, each in one thing.

The sample has to tell each of them from the right one.
"""
from cases.stream import BLOCK_OUT, CHECK, ROW_LOOKUP, Outcome, answered
from models import files
from models.files import TOP
from .instead import instead
from .searches import WRONG_BODIES, right_range
from .writers import signed

READS = (CHECK, BLOCK_OUT, ROW_LOOKUP)
right_fault, right_head, right_entries = files.entry_fault, files.head_wrong, files.entries_of


def range_where(good):
    """A range that is taken where this holds of it and of the true one."""

    def range_fault(entry, body):
        if entry.smallest is None or good(entry, *right_range(entry, body)):
            return None
        return "another range"

    return range_fault


def ends_with_sign(entry, body):
    """The smallest and the largest as numbers with a sign."""
    values = files.block_values(entry, body)
    return min(values, key=signed), max(values, key=signed)


def turned_taken(entry, edition=1):
    """A smallest above the largest is no fault of the entry."""
    return right_fault(entry._replace(smallest=0, largest=TOP), edition)


def equal_refused(entry, edition=1):
    same = edition == 2 and entry.smallest == entry.largest
    return right_fault(entry, edition) or ("smallest and largest are the same" if same else None)


def with_head(head_wrong):
    """The tests of the contents, with another one of the head."""
    return {"CONTENTS_TESTS": tuple(head_wrong if test is right_head else test for test in files.CONTENTS_TESTS)}


def editions_read(*editions):
    return {"EDITIONS": editions}


def no_limit_of_2(data):
    """The number of blocks is looked at in edition 1 alone."""
    return right_head(data) if files.edition_of(data) != 2 else None


def ends_changed_places(data):
    entries = right_entries(data)
    return tuple(entry._replace(smallest=entry.largest, largest=entry.smallest) for entry in entries)


WRONG_PARTS = {
    **{name: parts for name, parts in WRONG_BODIES.items() if "every block" not in name and "opened" not in name},
    "the smallest alone is looked at": {"range_fault": range_where(lambda e, low, high: e.smallest == low)},
    "the largest alone is looked at": {"range_fault": range_where(lambda e, low, high: e.largest == high)},
    "a wider range is taken": {
        "range_fault": range_where(lambda e, low, high: e.smallest <= low and high <= e.largest)
    },
    "a narrower range is taken": {
        "range_fault": range_where(lambda e, low, high: low <= e.smallest and e.largest <= high)
    },
    "either of the two is enough": {
        "range_fault": range_where(lambda e, low, high: e.smallest == low or e.largest == high)
    },
    "smallest and largest with a sign": {"true_range": ends_with_sign},
    "the largest stands first": {"entries_of": ends_changed_places},
    "a smallest above the largest is 15": {"entry_fault": turned_taken},
    "a smallest that is the largest is 10": {"entry_fault": equal_refused},
    "the other rule for kind 3": {"WITHOUT_RUNS": ()},
    "edition 1 alone is read": editions_read(1),
    "edition 2 alone is read": editions_read(2),
    "edition 3 is read too": editions_read(1, 2, 3),
    "any edition is read": editions_read(*range(65536)),
    "N above 256 is taken in edition 2": with_head(no_limit_of_2),
}


# Then those that are wrong about the call.


def far_first(q):
    """12 before 15."""
    outcome = answered(q)
    blocks = q.index if q.op == BLOCK_OUT else q.index // 1024
    if outcome.number != 15 or q.op == CHECK or blocks < files.count_of(q.a):
        return outcome
    return outcome._replace(number=12, place=0)


def only_where_asked(q):
    """A block out and a row lookup look at the range of their own block alone, and only where there is one."""
    outcome = answered(q)
    block = q.index if q.op == BLOCK_OUT else q.index // 1024
    if outcome.number != 15 or q.op == CHECK:
        return outcome
    if block >= files.count_of(q.a):
        return outcome._replace(number=12, place=0)
    if files.ranges_wrong(q.a, [block]):
        return outcome._replace(place=block)
    with instead(files, {"range_fault": lambda *_: None}):
        return answered(q)


def range_before_room(q):
    """15 before 2."""
    outcome = answered(q)
    if outcome.number != 2:
        return outcome
    answer = files.check(q.a)
    return Outcome(15, answer.place, q.c) if answer.number == 15 else outcome


WRONG_CALLS = {
    "12 before 15": far_first,
    "15 for the block that is asked for alone": only_where_asked,
    "15 before 2": range_before_room,
}


def not_told(questions, parts, calls):
    """Those of these readers that give what the right one gives in every question about a file that is not long."""
    short = (q for q in questions if q.op in READS and len(q.a) < 20000)
    questions = sorted(short, key=lambda question: len(question.a))
    outcomes = [answered(question) for question in questions]
    for name, functions in parts.items():
        with instead(files, functions):
            told = any(answered(question) != outcome for question, outcome in zip(questions, outcomes))
        if not told:
            yield name
    for name, call in calls.items():
        if all(call(question) == outcome for question, outcome in zip(questions, outcomes)):
            yield name
