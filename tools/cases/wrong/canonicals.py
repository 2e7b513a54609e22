"""Canonical checks that are wrong on purpose, each in one thing.

The sample has to tell each of them from the right one, so that it finds out a program that is wrong in the same way. A
check that has one of the wrong writers of writers.py in it is wrong too.
"""
from cases.stream import Outcome, answered
from models import canonical, files, writer
from models.files import DIFFERENCES
from . import writers
from .instead import instead

# First those that look at other things of a block. There is none that leaves out the reference alone: with kind and
# width and body as the writer's, the reference is the smallest value, and so the writer's.


def written_for(entry, body):
    return writer.block_of(files.block_values(entry, body))


def where(differs):
    """A block is named where this holds of it and of the writer's."""
    return lambda entry, body: "it differs" if differs(entry, body, *written_for(entry, body)) else None


def other_kind(entry, body, right, right_body):
    return entry.kind != right.kind


def other_shape(entry, body, right, right_body):
    return (entry.kind, entry.width) != (right.kind, right.width)


def other_entry(entry, body, right, right_body):
    return entry[:5] != right[:5]


def other_length(entry, body, right, right_body):
    return len(body) != len(right_body)


def longer(entry, body, right, right_body):
    return len(body) > len(right_body)


def other_width_or_body(entry, body, right, right_body):
    return entry.width != right.width or body != right_body


def other_but_base(entry, body, right, right_body):
    if entry.kind != DIFFERENCES:
        return (entry[:5], body) != (right[:5], right_body)
    return entry[:5] != right[:5]


def other_body(entry, body, right, right_body):
    return body != right_body


WRONG_BLOCKS = {
    "nothing is compared": where(lambda *_: False),
    "the kind alone is compared": where(other_kind),
    "kind and width alone are compared": where(other_shape),
    "the entry alone is compared": where(other_entry),
    "the length alone is compared": where(other_length),
    "only a longer body differs": where(longer),
    "the body alone is compared": where(other_body),
    "the kind is not compared": where(other_width_or_body),
    "the base is not compared": where(other_but_base),
}


# Then those that are wrong about the call.


def highest(q):
    outcome = answered(q)
    if outcome.number != 17:
        return outcome
    blocks = enumerate(zip(files.entries_of(q.a), files.bodies_of(q.a)))
    return outcome._replace(place=max(i for i, block in blocks if canonical.block_fault(*block)))


def with_place(place):
    return lambda q: answered(q)._replace(place=place(answered(q).place)) if answered(q).number == 17 else answered(q)


def edition_1_compared(q):
    """A file of edition 1 is compared too, with what the writer would give in edition 1."""
    outcome = answered(q)
    if outcome.number != 9 or files.check(q.a).number:
        return outcome
    answer = canonical.blocks_wrong(q.a)
    return Outcome(17, answer.place, q.c) if answer else Outcome(0, 0, q.c)


def edition_1_first(q):
    """9 for edition 1, before the file is looked at."""
    return Outcome(9, 0, q.c) if q.a[:2] == b"\1\0" and len(q.a) > 3 else answered(q)


def edition_1_before_bodies(q):
    """9 for edition 1, once the contents are good."""
    good = not files.contents_answer(q.a)
    return Outcome(9, 0, q.c) if good and files.edition_of(q.a) == 1 else answered(q)


def edition_1_is_17(q):
    outcome = answered(q)
    readable = outcome.number == 9 and not files.check(q.a).number
    return Outcome(17, 0, q.c) if readable else outcome


def differs_before_range(q):
    """17 before 15."""
    outcome = answered(q)
    if outcome.number != 15:
        return outcome
    answer = canonical.blocks_wrong(q.a)
    return Outcome(17, answer.place, q.c) if answer else outcome


def range_is_17(q):
    """A range that is not the body's is a difference as any other."""
    outcome = answered(q)
    return outcome._replace(number=17) if outcome.number == 15 else outcome


def lowest_of_both(q):
    """The lowest block that has another range or differs."""
    outcome = answered(q)
    if outcome.number != 15:
        return outcome
    answer = canonical.blocks_wrong(q.a)
    return Outcome(17, answer.place, q.c) if answer and answer.place < outcome.place else outcome


def no_blocks_refused(q):
    outcome = answered(q)
    return Outcome(17, 0, q.c) if outcome.number == 0 and files.count_of(q.a) == 0 else outcome


def only_the_first(q):
    """Block 0 alone is compared."""
    outcome = answered(q)
    return Outcome(0, 0, q.c) if outcome.number == 17 and outcome.place else outcome


def without_ranges(q):
    """15 is not looked for."""
    with instead(files, {"range_fault": lambda *_: None}):
        return answered(q)


WRONG_CALLS = {
    "the highest block": highest,
    "17 at place 0": with_place(lambda place: 0),
    "17 with blocks counted from 1": with_place(lambda place: place + 1),
    "edition 1 is compared too": edition_1_compared,
    "9 for edition 1 at once": edition_1_first,
    "9 for edition 1 before its bodies": edition_1_before_bodies,
    "17 for edition 1": edition_1_is_17,
    "17 before 15": differs_before_range,
    "17 in the place of 15": range_is_17,
    "15 and 17 block by block": lowest_of_both,
    "no 15": without_ranges,
    "17 for no blocks": no_blocks_refused,
    "block 0 alone is compared": only_the_first,
}

# With these the writer's blocks are others. Ranges and lengths are not compared: of an accepted file they are right.
NOT_COMPARED = {*writers.WRONG_RANGES, "a length without the base"}
WRONG_WRITERS = {name: parts for name, parts in writers.WRONG_PARTS.items() if name not in NOT_COMPARED}


def not_told(asked, blocks, calls, wrong_writers):
    """Those of these checks that give what the right one gives in every case."""

    def same(call):
        return all(call(question) == outcome for question, outcome in asked)

    for name, function in blocks.items():
        with instead(canonical, {"block_fault": function}):
            if same(answered):
                yield name
    for name, call in calls.items():
        if same(call):
            yield name
    for name, functions in wrong_writers.items():
        with writers.instead(functions):
            if same(answered):
                yield f"{name} in the writer"
