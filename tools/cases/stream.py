"""Questions, what the model answers to them, and the case stream of docs/CASES.md that holds both.

A question is what goes into a call. An outcome is all that a call gives and leaves. CALLS has the model's function for
each op, and ELEMENTS the bytes of an element of a, b and c, so a later call needs a line in each. The calls on drawers
have elements of T bits; the others have no size, and T is 64 there.

docs/CASES.md does not say what a search with other than two bounds is, and neither a trickle whose chunk lengths do not
add up to the bytes that are fed, or whose state made by hand lacks a part of its room, or whose reference is neither 0
nor 1, and neither a renumbering with more old and new numbers than b has elements. No such case is written here, and one
that is read makes a bad stream.
"""
import struct
from typing import NamedTuple

from models import canonical, drawers, files, renumber, rewrite, search, trickle, writer
from models.layout import SIZES

HEAD = struct.Struct("<BBHB3xQQQQ4I")
CHECK, BLOCK_OUT, ROW_LOOKUP, WRITE, SEARCH, REWRITE, CANONICAL = 16, 17, 18, 19, 20, 21, 22
UNPACK_BLOCKS, FOR_PACK_BLOCKS = DRAWERS = 24, 25
TRICKLE, TRICKLE_FROM = TRICKLES = 26, 30
RENUMBER = 31
ELEMENTS = {
    CHECK: (1, 1, 8),
    BLOCK_OUT: (1, 1, 8),
    ROW_LOOKUP: (1, 1, 8),
    WRITE: (8, 1, 1),
    SEARCH: (1, 8, 8),
    REWRITE: (1, 1, 1),
    CANONICAL: (1, 1, 8),
    TRICKLE: (1, 8, 8),
    TRICKLE_FROM: (1, 8, 8),
    RENUMBER: (1, 8, 1),
}
# The calls on blocks, which the model does not know, and the bytes of an element of b where they are other than T / 8.
BLOCKS = (*range(9), *range(10, 15), 23, 27, 28, 29)
BLOCKS_B = {3: 8, 10: 2, 23: 8}
BIT_BLOCKS = 13, 14
MOST_BYTES = 2_200_000  # of one buffer in a stream
NO_COUNT = 2**64 - 1  # in the reference of a row lookup that says no count of words
BY_HAND, STARTED = 0, 1  # in the reference of call 30: where its state comes from


class BadStream(Exception):
    """The stream is cut short, or has a record that there cannot be."""


class Question(NamedTuple):
    op: int
    name: str  # what the case is there for; it does not stand in the stream
    a: bytes = b""
    b: bytes = b""
    c: bytes = b""  # the lent buffer at entry
    index: int = 0
    t: int = 64
    width: int = 0
    reference: int = 0  # that the call takes; what a call gives there is in its outcome


class Outcome(NamedTuple):
    """What the call gives and leaves. The value of a renumbering is the new file's length, times 2^32, and K. The
    reference is a row lookup's count of words, and 0 in the other calls."""

    number: int
    place: int
    c: bytes = b""  # the lent buffer at exit
    value: int = 0
    reference: int = 0


def refused(answer, question):
    return Outcome(answer.number, answer.place, question.c)


def to_check(q):
    answer = files.check(q.a)
    return refused(answer, q) if answer.number else Outcome(0, 0, q.c)


def to_block_out(q):
    answer, values = files.block_out(q.a, q.index, len(q.c) // 8)
    return refused(answer, q) if answer.number else Outcome(0, 0, struct.pack("<1024Q", *values))


def to_row_lookup(q):
    answer, value, count = files.row_lookup(q.a, q.index)
    said = NO_COUNT if count is None else count
    return Outcome(answer.number, answer.place, q.c, 0 if answer.number else value, said)


def to_write(q):
    answer, data = writer.write(files.words_of(q.a), len(q.c))
    return refused(answer, q) if answer.number else Outcome(0, 0, data + q.c[len(data) :], len(data))


def to_search(q):
    answer, rows = search.search(q.a, *files.words_of(q.b), len(q.c) // 8)
    if answer.number:
        return refused(answer, q)
    return Outcome(0, 0, struct.pack(f"<{len(rows)}Q", *rows) + q.c[8 * len(rows) :], len(rows))


def to_rewrite(q):
    answer, data = rewrite.rewrite(q.a, len(q.c))
    return refused(answer, q) if answer.number else Outcome(0, 0, data + q.c[len(data) :], len(data))


def to_canonical(q):
    answer = canonical.check(q.a)
    return refused(answer, q) if answer.number else Outcome(0, 0, q.c)


def to_unpack_blocks(q):
    answer, values = drawers.unpack_blocks(q.t, q.width, q.index, q.a, len(q.c) * 8 // q.t)
    return refused(answer, q) if answer.number else Outcome(0, 0, values)


def to_for_pack_blocks(q):
    answer, packed = drawers.for_pack_blocks(q.t, q.width, q.index, q.reference, q.a, len(q.c) * 8 // q.t)
    return refused(answer, q) if answer.number else Outcome(0, 0, packed)


def of_trickle(q, answer, values, taken):
    """The outcome of a trickle. A refused question still says how many bytes were taken."""
    return Outcome(answer.number, answer.place, q.c if answer.number else struct.pack("<1024Q", *values), taken)


def to_trickle(q):
    return of_trickle(q, *trickle.started_and_asked(q.width, q.a, files.words_of(q.b), len(q.c) // 8))


def to_trickle_from(q):
    state = q.width, q.index, q.reference == STARTED
    return of_trickle(q, *trickle.from_a_state(*state, q.a, files.words_of(q.b), len(q.c) // 8))


def lists_in(q):
    """The three lists of a renumbering: so many old numbers, so many new ones, and the rest is the order."""
    numbers, middle = files.words_of(q.b), q.reference + q.index
    return renumber.Lists(numbers[: q.reference], numbers[q.reference : middle], numbers[middle:])


def to_renumber(q):
    answer, given = renumber.renumber(q.a, lists_in(q), len(q.c))
    if answer.number:
        return refused(answer, q)
    size = len(given.file)
    return Outcome(0, 0, given.file + q.c[size:], (size << 32) + given.changed)


CALLS = {
    CHECK: to_check,
    BLOCK_OUT: to_block_out,
    ROW_LOOKUP: to_row_lookup,
    WRITE: to_write,
    SEARCH: to_search,
    REWRITE: to_rewrite,
    CANONICAL: to_canonical,
    UNPACK_BLOCKS: to_unpack_blocks,
    FOR_PACK_BLOCKS: to_for_pack_blocks,
    TRICKLE: to_trickle,
    TRICKLE_FROM: to_trickle_from,
    RENUMBER: to_renumber,
}


def sizes_of(op):
    """The sizes of an element in bits that a call has."""
    return SIZES if op in DRAWERS else (64,)


def elements(op, t):
    """The bytes of an element of a, b and c."""
    return (t // 8, 1, t // 8) if op in DRAWERS else ELEMENTS[op]


def record_elements(op, t):
    """The bytes of an element of a, b, c and d, also of the calls on blocks."""
    if op in CALLS:
        return *elements(op, t), 1
    size = 8 if op in BIT_BLOCKS else t // 8
    return size, BLOCKS_B.get(op, size), size, size


def behind_blocks(data):
    """Where in a stream the cases on blocks that stand at its front end."""
    at = 0
    while at < len(data) and data[at] in BLOCKS:
        op, t, *_, n_a, n_b, n_c, n_d = HEAD.unpack_from(data, at)
        a, b, c, d = record_elements(op, t)
        at += HEAD.size + n_a * a + n_b * b + 2 * n_c * c + 2 * n_d * d
    return at


def takes_reference(op):
    """Does the call take its reference? In every other one the reference is expected."""
    return op in (FOR_PACK_BLOCKS, TRICKLE_FROM, RENUMBER)


def search_fault(q):
    """What of a search there cannot be, in words; None where all of it can."""
    return None if len(q.b) == 16 else f"a search has {len(q.b) // 8} bounds, and not two"


def fed_in(q):
    """The bytes that a trickle feeds."""
    return q.a[trickle.ROOM :] if q.op == TRICKLE_FROM and q.reference == BY_HAND else q.a


def trickle_fault(q):
    """What of a trickle there cannot be, in words; None where all of it can."""
    if q.op == TRICKLE_FROM and q.reference not in (BY_HAND, STARTED):
        return f"a state comes from {q.reference}, and there are only {BY_HAND} and {STARTED}"
    if q.op == TRICKLE_FROM and q.reference == BY_HAND and len(q.a) < trickle.ROOM:
        return f"a state made by hand has {len(q.a)} bytes of room, and not {trickle.ROOM}"
    if sum(files.words_of(q.b)) != len(fed_in(q)):
        return f"the chunks have {sum(files.words_of(q.b))} bytes, and {len(fed_in(q))} are fed"
    return None


def renumber_fault(q):
    """What of a renumbering there cannot be, in words; None where all of it can."""
    there = len(q.b) // 8
    if q.reference + q.index > there:
        return f"{q.reference} numbers are old and {q.index} new, and there are {there} together with the order"
    return None


FAULTS = {SEARCH: search_fault, TRICKLE: trickle_fault, TRICKLE_FROM: trickle_fault, RENUMBER: renumber_fault}


def answered(question):
    """What the model gives for a question."""
    return CALLS[question.op](question)


def record(q, outcome):
    """A case of the stream."""
    assert max(len(q.a), len(q.b), len(q.c)) <= MOST_BYTES, f"{q.name}: a buffer is too long for the stream"
    counts = [len(buffer) // size for buffer, size in zip((q.a, q.b, q.c), elements(q.op, q.t))]
    reference = q.reference if takes_reference(q.op) else outcome.reference
    expected = (outcome.number, outcome.place, outcome.value, reference)
    return HEAD.pack(q.op, q.t, q.width, *expected, q.index, *counts, 0) + q.a + q.b + q.c + outcome.c


def cases(stream):
    """The cases of a stream that is open for reading: question and expected outcome of each."""
    while head := stream.read(HEAD.size):
        if len(head) < HEAD.size:
            raise BadStream("a record's head is cut short")
        op, t, width, number, place, value, reference, index, *counts, n_d = HEAD.unpack(head)
        if op not in CALLS:
            raise BadStream(f"there is no call {op}")
        if t not in sizes_of(op):
            raise BadStream(f"call {op} has no size {t}")
        sizes = [n * size for n, size in zip(counts, elements(op, t))]
        if n_d != 0 or max(sizes) > MOST_BYTES:
            raise BadStream(f"buffers of {sizes} bytes and {n_d} elements of d: this cannot be")
        a, b, c, c_exit = (stream.read(size) for size in (*sizes, sizes[2]))
        if [len(a), len(b), len(c), len(c_exit)] != [*sizes, sizes[2]]:
            raise BadStream("a record's buffers are cut short")
        given, expected = (reference, 0) if takes_reference(op) else (0, reference)
        question = Question(op, "", a, b, c, index, t, width, given)
        fault = FAULTS[op](question) if op in FAULTS else None
        if fault:
            raise BadStream(fault)
        yield question, Outcome(number, place, c_exit, value, expected)


def replay(stream):
    """The lines that a replay of the stream prints, with the model in the place of the program."""
    count = differ = 0
    first = None
    try:
        for question, expected in cases(stream):
            if answered(question) != expected:
                differ += 1
                first = first or f"first {count} op {question.op} t {question.t} width {question.width}"
            count += 1
    except BadStream:
        return [f"bad stream at {count}"]
    return [f"cases {count}", f"differ {differ}"] + ([first] if first else [])
