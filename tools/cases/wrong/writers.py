"""Writers that are wrong on purpose, each in one thing.

The sample has to tell each of them from the right one, so that it finds out a program that is wrong in the same way.
"""
import contextlib

from cases.stream import WRITE, Outcome, answered
from models import build, files, layout, writer
from models.files import DIFFERENCES, FRAME, PACKED

# First those with another function in the place of one of the model's.

right_width, right_block = writer.least_width, writer.laid_down


def signed(value):
    return value - 2**64 if value >= 2**63 else value


def row_1(values):
    return tuple(values[128:144])


def by_places(values, base):
    return [(value - before) % 2**64 for value, before in zip(values, list(base) + list(values))]


def never(kind):
    return lambda three: min((one for one in three if one.kind != kind), key=lambda one: (one.length, one.kind))


def keeps_reference(one):
    entry, body = right_block(one)
    return build.Block(entry._replace(reference=one.reference or min(one.digits)), body)


def counts_values_only(one):
    entry, body = right_block(one)
    return build.Block(entry._replace(length=128 * one.width), body)


def base_behind(one):
    entry, body = right_block(one)
    return build.Block(entry, body[8 * len(one.base) :] + body[: 8 * len(one.base)])


WRONG_PARTS = {
    "a width that is one bit too small": {"least_width": lambda numbers: max(right_width(numbers) - 1, 0)},
    "a width that is one bit too large": {"least_width": lambda numbers: min(right_width(numbers) + 1, 64)},
    "a width at which 2^W is held": {"least_width": lambda numbers: right_width([max(max(numbers) - 1, 0)])},
    "a width of the last number alone": {"least_width": lambda numbers: right_width(numbers[-1:])},
    "equal lengths to the higher kind": {"chosen": lambda three: min(three, key=lambda one: (one.length, -one.kind))},
    "the least width, whatever the length": {"chosen": lambda three: min(three, key=lambda one: (one.width, one.kind))},
    "the longest body": {"chosen": lambda three: max(three, key=lambda one: (one.length, one.kind))},
    "never kind 0": {"chosen": never(PACKED)},
    "never kind 1": {"chosen": never(FRAME)},
    "never kind 2": {"chosen": never(DIFFERENCES)},
    "the largest as reference": {"reference_of": max},
    "the first as reference": {"reference_of": lambda values: values[0]},
    "the smallest with a sign as reference": {"reference_of": lambda values: min(values, key=signed)},
    "the base from row 1": {"base_of": row_1},
    "a base of zeros": {"base_of": lambda values: (0,) * 16},
    "one base for all lanes": {"base_of": lambda values: (values[0],) * 16},
    "differences from place to place": {"differences_of": by_places},
    "row 0 stored as it is": {"differences_of": lambda values, _: layout.delta(64, values, [0] * 16)},
    "a reference in every entry": {"laid_down": keeps_reference},
    "a length without the base": {"laid_down": counts_values_only},
    "the base behind the differences": {"laid_down": base_behind},
}

WRONG_RANGES = {
    "the largest first": {"range_of": lambda values: (max(values), min(values))},
    "the first and the last": {"range_of": lambda values: (values[0], values[-1])},
    "the smallest and largest with a sign": {
        "range_of": lambda values: (min(values, key=signed), max(values, key=signed))
    },
    "the smallest and largest above the smallest": {"range_of": lambda values: (0, max(values) - min(values))},
    "the smallest and what is above it": {"range_of": lambda values: (min(values), max(values) - min(values))},
    "all that there can be": {"range_of": lambda values: (0, files.TOP)},
    "the smallest and one past the largest": {"range_of": lambda values: (min(values), (max(values) + 1) % 2**64)},
}
WRONG_PARTS.update(WRONG_RANGES)


@contextlib.contextmanager
def instead(functions):
    """The model of the writer with other functions in it, for a while."""
    kept = {name: getattr(writer, name) for name in functions}
    try:
        for name, function in functions.items():
            setattr(writer, name, function)
        writer.block_for.cache_clear()
        yield
    finally:
        for name, function in kept.items():
            setattr(writer, name, function)
        writer.block_for.cache_clear()


# Then those that are right about the file and wrong about the call.


def count_of(q):
    return len(q.a) // 8


def with_room(q, room):
    """What would come of it if the output had this room."""
    answer, data = writer.write(files.words_of(q.a), room)
    return Outcome(answer.number, 0, q.c) if answer.number else Outcome(0, 0, data + q.c[len(data) :], len(data))


def bound_of(q):
    return 4 + 8224 * (count_of(q) // 1024)


def bound_decides(q):
    return Outcome(14, 0, q.c) if len(q.c) < bound_of(q) else answered(q)


def one_byte_more(q):
    return with_room(q, len(q.c) - 1)


def one_byte_less(q):
    outcome = with_room(q, len(q.c) + 1)
    return outcome._replace(c=outcome.c[: len(q.c)])


def written_then_refused(q):
    outcome = answered(q)
    whole = with_room(q, 10**7).c
    return outcome._replace(c=(whole + q.c[len(whole) :])[: len(q.c)]) if outcome.number == 14 else outcome


def cleared(q):
    return answered(q)._replace(c=bytes(len(q.c))) if answered(q).number else answered(q)


def cleared_behind(q):
    outcome = answered(q)
    return outcome if outcome.number else outcome._replace(c=outcome.c[: outcome.value].ljust(len(q.c), b"\0"))


def rest_left_out(q):
    return answered(q._replace(a=q.a[: count_of(q) // 1024 * 8192]))


def rest_filled_up(q):
    return answered(q._replace(a=q.a + bytes(-len(q.a) % 8192)))


def room_before_count(q):
    contents = files.contents_length(writer.EDITION, count_of(q) // 1024)
    return Outcome(14, 0, q.c) if len(q.c) < contents else answered(q)


def no_numbers_refused(q):
    return answered(q) if q.a else Outcome(2, 0, q.c)


def value_of(words):
    return lambda q: answered(q)._replace(value=0 if answered(q).number else words(q))


def length_though_refused(q):
    return answered(q)._replace(value=with_room(q, 10**7).value)


WRONG_CALLS = {
    "14 by the bound": bound_decides,
    "14 for an output that just fits": one_byte_more,
    "an output that is one byte short is taken": one_byte_less,
    "the file is begun before it is refused": written_then_refused,
    "the output is cleared where it is refused": cleared,
    "the bytes past the file are cleared": cleared_behind,
    "numbers past the last block are left out": rest_left_out,
    "the last block is filled up": rest_filled_up,
    "14 before 2": room_before_count,
    "2 for no numbers": no_numbers_refused,
    "the output's length is given back": value_of(lambda q: len(q.c)),
    "the bound is given back": value_of(bound_of),
    "the number of blocks is given back": value_of(lambda q: count_of(q) // 1024),
    "the length is given back though it is refused": length_though_refused,
}


def not_told(sample, parts, calls):
    """Those of these writers that give what the right one gives in every case of the sample."""
    questions = [question for question in sample if question.op == WRITE]
    outcomes = [answered(question) for question in questions]
    for name, functions in parts.items():
        with instead(functions):
            found = [answered(question) for question in questions]
        if found == outcomes:
            yield name
    for name, call in calls.items():
        if [call(question) for question in questions] == outcomes:
            yield name
