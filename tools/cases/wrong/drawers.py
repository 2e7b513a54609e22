"""Calls on drawers that are wrong on purpose, each in one thing.

The sample has to tell each of them from the right one, for either call, so that it finds out a program that is wrong in
the same way. It does so at every size, but where that takes many values: then it does so at the smallest elements, and
the sweep at all of them.
"""
from cases.stream import FOR_PACK_BLOCKS, UNPACK_BLOCKS, Outcome, answered
from models.drawers import bytes_of, lengths, numbers_of, parts_of
from models.layout import PLACES, SIZES, lanes_of

BOTH = (UNPACK_BLOCKS, FOR_PACK_BLOCKS)


def counts(q):
    """How many values and how many packed words the call has."""
    taken, room = len(q.a) * 8 // q.t, len(q.c) * 8 // q.t
    return (room, taken) if q.op == UNPACK_BLOCKS else (taken, room)


# First those that are wrong about the blocks of a drawer that is done.


def on_blocks(change):
    """What is given is the change of the right blocks and of those at entry, both lists of bytes."""

    def call(q):
        outcome = answered(q)
        if outcome.number or not q.index:
            return outcome
        return outcome._replace(c=b"".join(change(parts_of(outcome.c, q.index), parts_of(q.c, q.index))))

    return call


def from_other(q, given, reference):
    """What is given where the call takes other bytes, or another reference, than it should."""
    return answered(q._replace(a=given, reference=reference))


def words_in_turn(q):
    """Word i of every block stands beside word i of the next, and not the blocks one after another."""
    outcome = answered(q)
    if outcome.number or not q.index:
        return outcome
    if q.op == UNPACK_BLOCKS:
        words = numbers_of(q.t, q.a)
        given = [word for block in range(q.index) for word in words[block :: q.index]]
        return from_other(q, bytes_of(q.t, given), 0)
    blocks = [numbers_of(q.t, block) for block in parts_of(outcome.c, q.index)]
    return outcome._replace(c=bytes_of(q.t, [word for words in zip(*blocks) for word in words]))


def nothing_at_width_0(q):
    return answered(q) if q.width else Outcome(answered(q).number, 0, q.c)


def by_differences(difference):
    """for_pack with another difference of value and reference; it is given the number of the block too."""

    def call(q):
        outcome = answered(q)
        if outcome.number:
            return outcome
        given = []
        for block, values in enumerate(parts_of(q.a, q.index)):
            numbers = numbers_of(q.t, values)
            given += [difference(q, value, block) % 2**q.t for value in numbers]
        return from_other(q, bytes_of(q.t, given), 0)

    return call


def spilling(q):
    """The high bits of a difference run into the next row."""
    outcome = answered(q)
    if outcome.number or not q.width:
        return outcome
    t, lanes, given = q.t, lanes_of(q.t), []
    for values in parts_of(q.a, q.index):
        numbers, words = numbers_of(t, values), [0] * (lanes * q.width)
        for lane in range(lanes):
            rows = enumerate(PLACES[t][lane])
            number = sum((numbers[p] - q.reference) % 2**t * 2 ** (q.width * row) for row, p in rows)
            for k in range(q.width):
                number, words[lanes * k + lane] = divmod(number, 2**t)
        given += words
    return outcome._replace(c=bytes_of(t, given))


def value_at_width_t(q, value, block):
    return value if q.width == q.t else value - q.reference


WRONG_BLOCKS = {
    "only the first block": (BOTH, on_blocks(lambda right, entry: right[:1] + entry[1:])),
    "all but the last block": (BOTH, on_blocks(lambda right, entry: right[:-1] + entry[-1:])),
    "the first block each time": (BOTH, on_blocks(lambda right, entry: right[:1] * len(right))),
    "the last block first": (BOTH, on_blocks(lambda right, entry: right[::-1])),
    "nothing is written": (BOTH, on_blocks(lambda right, entry: entry)),
    "words in turn": (BOTH, words_in_turn),
    "nothing at width 0": ((UNPACK_BLOCKS,), nothing_at_width_0),
    "no reference": ((FOR_PACK_BLOCKS,), by_differences(lambda q, value, block: value)),
    "the reference added": ((FOR_PACK_BLOCKS,), by_differences(lambda q, value, block: value + q.reference)),
    "the reference for the first block alone": (
        (FOR_PACK_BLOCKS,),
        by_differences(lambda q, value, block: value - (0 if block else q.reference)),
    ),
    "the reference once more for each block": (
        (FOR_PACK_BLOCKS,),
        by_differences(lambda q, value, block: value - (block + 1) * q.reference),
    ),
    "differences held at 0": (
        (FOR_PACK_BLOCKS,),
        by_differences(lambda q, value, block: max(value - q.reference, 0)),
    ),
    "differences held at the width's largest": (
        (FOR_PACK_BLOCKS,),
        by_differences(lambda q, value, block: min((value - q.reference) % 2**q.t, 2**q.width - 1)),
    ),
    "no reference at width T": ((FOR_PACK_BLOCKS,), by_differences(value_at_width_t)),
    "high bits in the next row": ((FOR_PACK_BLOCKS,), spilling),
}


# Then those that are wrong about what is refused. A call that is done though it should not be is done as far as its
# buffers go, with zeros where there is nothing.


def given_as(number, q):
    """The call with this number."""
    return Outcome(number, 0, q.c if number else bytes(len(q.c)))


def with_tests(*tests):
    """The first of these tests that holds gives its number. Where none does though the call should be refused, it is
    done; where it should be done the answer is the right one."""

    def call(q):
        number = next((number for number, test in tests if test(q)), 0)
        return answered(q) if number == answered(q).number else given_as(number, q)

    return call


def too_wide(q):
    return q.width > q.t


def too_many(q):
    return q.index > 256


def values_off(q):
    return counts(q)[0] != lengths(q.t, q.width, q.index)[0]


def packed_off(q):
    return counts(q)[1] != lengths(q.t, q.width, q.index)[1]


def values_or_many(q):
    return too_many(q) or values_off(q)


def values_short(q):
    return too_many(q) or counts(q)[0] < lengths(q.t, q.width, q.index)[0]


def values_long(q):
    return too_many(q) or counts(q)[0] > lengths(q.t, q.width, q.index)[0]


def packed_short(q):
    return counts(q)[1] < lengths(q.t, q.width, q.index)[1]


def packed_long(q):
    return counts(q)[1] > lengths(q.t, q.width, q.index)[1]


def values_off_round(q):
    return counts(q)[0] != lengths(q.t, q.width, q.index)[0] % 2**64


def packed_off_round(q):
    return counts(q)[1] != lengths(q.t, q.width, q.index)[1] % 2**64


def in_bits(bits):
    """M held in so many bits."""
    return lambda q: answered(q._replace(index=q.index % 2**bits))


def width_in_8_bits(q):
    return answered(q._replace(width=q.width % 2**8))


def no_blocks_refused(q):
    return answered(q) if q.index else given_as(1 if too_wide(q) else 2, q)


def no_blocks_done(q):
    return answered(q) if q.index else given_as(0, q)


def cleared(q):
    return answered(q)._replace(c=bytes(len(q.c))) if answered(q).number else answered(q)


def begun_then_refused(q):
    """The blocks that both buffers hold are done, and then the call is refused."""
    outcome = answered(q)
    if outcome.number < 2 or not q.width:
        return outcome
    values, packed = counts(q)
    blocks = min(values // 1024, packed // lengths(q.t, q.width, 1)[1])
    taken, given = lengths(q.t, q.width, blocks)[:: -1 if q.op == UNPACK_BLOCKS else 1]
    part = answered(q._replace(index=blocks, a=q.a[: taken * q.t // 8], c=q.c[: given * q.t // 8]))
    return outcome._replace(c=part.c + q.c[len(part.c) :])


def number_of_blocks_given(field):
    return lambda q: answered(q)._replace(**{field: 0 if answered(q).number else q.index})


def place_of_refusal(q):
    return answered(q)._replace(place=q.index) if answered(q).number else answered(q)


WIDE, COUNT, PACKED = (1, too_wide), (2, values_or_many), (3, packed_off)

WRONG_ANSWERS = {
    "no 1": with_tests(COUNT, PACKED),
    "no 2": with_tests(WIDE, PACKED),
    "no 3": with_tests(WIDE, COUNT),
    "2 before 1": with_tests(COUNT, WIDE, PACKED),
    "3 before 2": with_tests(WIDE, PACKED, COUNT),
    "3 before 1": with_tests(PACKED, WIDE, COUNT),
    "width T is too wide": with_tests((1, lambda q: q.width >= q.t), COUNT, PACKED),
    "width T + 1 is taken": with_tests((1, lambda q: q.width > q.t + 1), COUNT, PACKED),
    "more values are taken": with_tests(WIDE, (2, values_short), PACKED),
    "fewer values are taken": with_tests(WIDE, (2, values_long), PACKED),
    "more packed words are taken": with_tests(WIDE, COUNT, (3, packed_short)),
    "lengths in 64 bits, and no limit": with_tests(WIDE, (2, values_off_round), (3, packed_off_round)),
    "M in 8 bits": in_bits(8),
    "M in 16 bits": in_bits(16),
    "M in 32 bits": in_bits(32),
    "the width in 8 bits": width_in_8_bits,
    "the output is cleared where it is refused": cleared,
    "no blocks are refused": no_blocks_refused,
    "no blocks are always done": no_blocks_done,
    "M is given back as the place": number_of_blocks_given("place"),
    "M is given back as the value": number_of_blocks_given("value"),
    "M is the place of a refusal": place_of_refusal,
}

# These are told from the right one by buffers of whole blocks.
WRONG_AT_LENGTH = {
    "fewer packed words are taken": with_tests(WIDE, COUNT, (3, packed_long)),
    "blocks are done before it is refused": begun_then_refused,
}

# And these by drawers of 256 and 257 blocks.
WRONG_AT_LIMIT = {
    "no limit": with_tests(WIDE, (2, values_off), PACKED),
    "256 blocks are too many": with_tests(WIDE, (2, lambda q: q.index > 255 or values_off(q)), PACKED),
    "257 blocks are taken": with_tests(WIDE, (2, lambda q: q.index > 257 or values_off(q)), PACKED),
}


def for_both(calls):
    return {name: (BOTH, call) for name, call in calls.items()}


def not_told(questions, wrong, sizes=SIZES):
    """Those of these calls, with op and size, that give what the right one gives in every question of that size."""
    for name, (ops, call) in wrong.items():
        for op in ops:
            for t in sizes:
                asked = (q for q in questions if (q.op, q.t) == (op, t))
                if all(call(q) == answered(q) for q in asked):
                    yield f"{name}, call {op} at T {t}"
