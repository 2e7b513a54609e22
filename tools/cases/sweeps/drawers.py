"""The deliberate cases of drawers (R66 to R68): both calls at every size and width, counts of blocks at their edges,
values that fit the width and that do not, every length that is off, and every set of reasons at once.

Each section is a function that gives questions, as in reads.py.
"""
from cases.ask import ask_drawer, ask_fitting, ask_thrown
from cases.dice import Dice
from cases.stream import DRAWERS, FOR_PACK_BLOCKS, UNPACK_BLOCKS
from models.drawers import bytes_of, lengths, numbers_of
from models.layout import SIZES

# Counts of blocks that are too many. With 2^54 the number of values, taken modulo 2^64, is that of no block, and with
# 2^54 + 1 that of one; at width T so is the number of packed words. The others come round in 8, 16 or 32 bits.
TOO_MANY = (257, 512, 2**16, 2**16 + 1, 2**32, 2**32 + 1, 2**53, 2**54, 2**54 + 1, 2**61, 2**63, 2**64 - 1)


def every_call():
    return ((op, t) for op in DRAWERS for t in SIZES)


def few_widths(t):
    return 0, 1, 3, t - 1, t


# What is done.


def drawer_widths(dice):
    """Every width, for one, two and three blocks in turn."""
    for op, t in every_call():
        for width in range(t + 1):
            yield ask_fitting(dice, op, "a width", t, width, 1 + width % 3)


def drawer_counts(dice):
    """Counts of blocks. At 0 the buffers are empty, and that is done at every width up to T."""
    for op, t in every_call():
        for width in few_widths(t):
            for blocks in (0, 1, 2, 3, 16):
                yield ask_fitting(dice, op, "a count", t, width, blocks)
        yield ask_fitting(dice, op, "a count", t, 2, 5 + dice.below(11))


def bodies(dice, size, blocks):
    """What the packed words of a drawer may hold, by name; size is the bytes of one block."""
    yield "zeros", bytes(size * blocks)
    yield "ones", b"\xff" * (size * blocks)
    yield "equal blocks", dice.bytes(size) * blocks
    for block in range(blocks):
        yield f"ones in block {block}", bytes(size * block) + b"\xff" * size + bytes(size * (blocks - 1 - block))
    yield "ones in the first word of each lane", (b"\xff" * 128 + bytes(size - 128)) * blocks
    yield "ones in the last word of each lane", (bytes(size - 128) + b"\xff" * 128) * blocks


def drawer_bodies(dice):
    """Packed words that show when a block is taken for another one, or a word for one of the next block."""
    for t in SIZES:
        for width in few_widths(t)[1:]:
            for name, packed in bodies(dice, 128 * width, 3):
                yield ask_drawer(dice, UNPACK_BLOCKS, name, t, width, 3, packed, 3 * 1024)


def values_about(dice, t, width, reference):
    """The values of two blocks as they may stand to the reference, by name; their differences wrap modulo 2^T."""

    def above(differences):
        return bytes_of(t, [(reference + difference) % 2**t for difference in differences])

    digits = numbers_of(t, dice.bytes(2048 * t // 8))
    fitting, most = [digit % 2**width for digit in digits], 2**width - 1
    outlier = dice.below(2048)
    yield "at the reference", above([0] * 2048)
    yield "that just fit", above([most] * 2048)
    yield "that fit", above(fitting)
    yield "that fit but for one", above([most + 1 if i == outlier else digit for i, digit in enumerate(fitting)])
    yield "just past the width", above([most + 1] * 2048)
    yield "one below the reference", above([-1] * 2048)
    yield "equal by blocks", above([most] * 1024 + [0] * 1024)


def references_of(t):
    return 0, 1, 2 ** (t - 1), 2**t - 1


def drawer_values(dice):
    """Values that fit the width and values that do not, for references at the edges and one that is thrown."""
    for t in SIZES:
        for width in few_widths(t):
            for reference in (*references_of(t), dice.below(2**t)):
                for name, values in values_about(dice, t, width, reference):
                    room = lengths(t, width, 2)[1]
                    name = f"values {name}"
                    yield ask_drawer(dice, FOR_PACK_BLOCKS, name, t, width, 2, values, room, reference)


# What is refused.


def off(length, block):
    """Lengths that are not this one: by one, by a whole block, and none or one where there are many."""
    return sorted({n for n in (0, 1, length - block, length - 1, length + 1, length + block) if n >= 0} - {length})


def drawer_lengths(dice):
    """Either buffer, and then both, with a length that is off; at M 0 also by a block that should not be there."""
    for op, t in every_call():
        for blocks in (0, 1, 3):
            for width in (0, 2, t):
                values, packed = lengths(t, width, blocks)
                block = lengths(t, width, 1)[1] or lengths(t, 1, 1)[1]
                for other in off(values, 1024):
                    yield ask_thrown(dice, op, "values off", t, width, blocks, other, packed)
                for other in off(packed, block):
                    yield ask_thrown(dice, op, "packed off", t, width, blocks, values, other)
                for more in (-1, 1):
                    if 0 <= values + more and 0 <= packed + more:
                        yield ask_thrown(dice, op, "both off", t, width, blocks, values + more, packed + more)


def drawer_others(dice):
    """Buffers that fit, only not this call: of one block more or less, of another width, and exchanged."""
    for op, t in every_call():
        for width in (1, t - 1):
            for blocks, other in ((0, 1), (1, 0), (1, 2), (2, 1), (2, 3)):
                yield ask_thrown(dice, op, f"buffers of M {other}", t, width, blocks, *lengths(t, width, other))
            for blocks in (1, 2):
                for other in (width - 1, width + 1):
                    buffers = lengths(t, other, blocks)
                    yield ask_thrown(dice, op, f"buffers of width {other}", t, width, blocks, *buffers)
        values, packed = lengths(t, 1, 1)
        yield ask_thrown(dice, op, "values and packed exchanged", t, 1, 1, packed, values)


def drawer_too_many(dice):
    """M above 256, with buffers of no block, of one block, and of those that a short number would leave of M."""
    for op, t in every_call():
        for blocks in TOO_MANY:
            for width in (0, 1, t):
                for held in (0, 1):
                    buffers = lengths(t, width, held)
                    yield ask_thrown(dice, op, f"buffers of M {held}", t, width, blocks, *buffers)


def drawer_too_wide(dice):
    """Widths above T, with the buffers that they ask for where the stream has room, else with those of a width that is
    taken. The far ones come round to such a width in 8 bits."""
    for op, t in every_call():
        for blocks in (0, 1, 2):
            for width in sorted({t + 1, t + 2, 2 * t, 65, 128, 255} - set(range(t + 1))):
                buffers = lengths(t, width, blocks)
                yield ask_thrown(dice, op, "buffers as asked for", t, width, blocks, *buffers)
            for width in (t + 1, 256, 257, 256 + t, 2**15, 2**15 + 1, 2**16 - 1):
                held = min(width % 2**8, t)
                buffers = lengths(t, held, blocks)
                yield ask_thrown(dice, op, f"buffers of width {held}", t, width, blocks, *buffers)


# Several reasons at once. WAYS has the ways in which the second can hold.

WAYS = ("one value short", "one value long", "M 257")
REASONS = (1, 2, 3)


def sets_of_reasons():
    """No reason, each, every two and all three, by number."""
    return [tuple(n for n in REASONS if chosen >> n & 1) for chosen in range(0, 16, 2)]


def faulty_drawer(op, t, reasons, way):
    """A call that has exactly these reasons to be refused. At M 257 the values are those of one block."""
    width = t + 1 if 1 in reasons else 2
    far = 2 in reasons and WAYS[way] == "M 257"
    blocks = 257 if far else 1
    values, packed = lengths(t, width, blocks)
    if 2 in reasons:
        values = 1024 if far else values + (1, -1)[way == 0]
    if 3 in reasons:
        packed = 7
    name = f"refused by {' and '.join(map(str, reasons)) or 'nothing'}, {WAYS[way]}"
    return ask_thrown(Dice(name, op, t), op, name, t, width, blocks, values, packed)


def ways_of(reasons):
    """The ways for these reasons. Where only the packed length is right, 257 blocks of a width above T are too much."""
    if 2 not in reasons:
        return (0,)
    return (0, 1) if reasons == (1, 2) else (0, 1, 2)


def drawer_reasons(dice):
    for op, t in every_call():
        for reasons in sets_of_reasons():
            yield from (faulty_drawer(op, t, reasons, way) for way in ways_of(reasons))


# The limit. A drawer of 256 blocks has 2 MB of values at T 64, so there are few of these.


def some_blocks(dice, op, t, width, blocks):
    """What a drawer takes, made of five blocks that are thrown, so that the model is quick; neighbours differ."""
    size = 128 * width if op == UNPACK_BLOCKS else 128 * t
    few = [dice.bytes(size) for _ in range(5)]
    return b"".join(few[i % 5] for i in range(blocks))


def ask_many(dice, op, t, width, blocks, more=0):
    """A drawer of many blocks; more is by how much its output is too long, or too short where it is below 0."""
    room = lengths(t, width, blocks)[op != UNPACK_BLOCKS] + more
    reference = dice.below(2**t) if op == FOR_PACK_BLOCKS else 0
    given = some_blocks(dice, op, t, width, blocks)
    return ask_drawer(dice, op, "many", t, width, blocks, given, room, reference)


def drawer_limits(dice):
    """255 and 256 blocks are done. 257 blocks are refused, with every buffer of the length that they would ask for."""
    for op in DRAWERS:
        yield ask_many(dice, op, 64, 61, 256)
        yield ask_many(dice, op, 64, 64, 257)
        for t in (16, 32):
            yield ask_many(dice, op, t, 1, 256)
            yield ask_many(dice, op, t, 1, 257)
        yield ask_many(dice, op, 8, 5, 256)
        yield ask_many(dice, op, 8, 1, 257)
        yield ask_many(dice, op, 8, 8, 255)
        yield ask_many(dice, op, 8, 0, 256)
        yield ask_many(dice, op, 8, 0, 257)
        yield ask_many(dice, op, 8, 3, 256, -1)
        yield ask_many(dice, op, 8, 3, 256, 1)


SECTIONS = (
    drawer_widths,
    drawer_counts,
    drawer_bodies,
    drawer_values,
    drawer_lengths,
    drawer_others,
    drawer_too_many,
    drawer_too_wide,
    drawer_reasons,
    drawer_limits,
)
