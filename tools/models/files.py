"""The model of the reader (R78 to R90, R97, R98), from the text of its requests alone.

A column file, little-endian throughout:

    edition u16 (1 or 2), number of blocks N u16 (0 to 256)
    N entries of 16 bytes: kind u8, width u8, zero u16, body length u32, reference u64
    in edition 2 of 32 bytes: these, then the smallest of the block's 1,024 values u64 and the largest u64
    the bodies, back to back, and nothing after them

    kind 0, packed        width 0 to 64, reference 0      128·W bytes: the packed words
    kind 1, frame         width 0 to 64, any reference    128·W bytes: the packed words
    kind 2, differences   width 0 to 64, reference 0      128 + 128·W bytes: sixteen base words, the packed words
    kind 3, runs          width 0, reference 0            2048 + 8·n bytes: 1,024 indices u16, n values (1 to 1,024);
                                                          in edition 1 alone (R86)

The tests stand in the order of R90, which is not the order of their numbers: CONTENTS_TESTS has those that look at the
contents and the lengths, and BODY_TESTS those that look into bodies, 13 and then 15. Each of these goes through all
blocks before the next one begins. Before them stands 2, the length of the block output, and after them 12, a row or
block number that is too high.

By R98 a row lookup also says how many packed words the value's bits stand in, for blocks of kinds 0 and 1. For kinds 2
and 3 it gives no count, and neither does a refused call.
"""
import functools
import struct
from typing import NamedTuple

from . import layout

T = 64  # the bits of a value
LANES = layout.lanes_of(T)
WRAP = 2**T  # Sums and differences wrap modulo this.
EDITIONS = (1, 2)  # that are read
PACKED, FRAME, DIFFERENCES, RUNS = range(4)
WITHOUT_RUNS = (2,)  # the editions in which kind 3 is not read (R86)
KINDS = ("packed", "frame", "differences", "runs")
MOST_BLOCKS = 256
HEAD = struct.Struct("<HH")
ENTRIES = {1: struct.Struct("<BBHIQ"), 2: struct.Struct("<BBHIQQQ")}  # by edition
INDICES = struct.Struct("<1024H")
BASE_BYTES = 8 * LANES
TOP = WRAP - 1


class Answer(NamedTuple):
    """The number and the place that a call gives, and a sentence for a person."""

    number: int
    place: int
    why: str


class Entry(NamedTuple):
    kind: int
    width: int
    zero: int
    length: int
    reference: int
    smallest: int | None = None  # in edition 2
    largest: int | None = None  # in edition 2


ACCEPTED = Answer(0, 0, "the file is accepted")


# The contents. Each of these may be asked once the bytes that it reads are known to be there. A file of another edition
# is refused before its entries are looked at; for a person they are then those of edition 1.


def edition_of(data):
    return HEAD.unpack_from(data)[0]


def count_of(data):
    """The number of blocks N."""
    return HEAD.unpack_from(data)[1]


def entry_form(data):
    return ENTRIES.get(edition_of(data), ENTRIES[1])


def entry_bytes(edition, entry):
    """The bytes of an entry; in edition 1 it has no smallest and largest."""
    return ENTRIES[edition].pack(*(entry if edition == 2 else entry[:5]))


def entry_at(data, i):
    form = entry_form(data)
    return Entry(*form.unpack_from(data, HEAD.size + form.size * i))


@functools.lru_cache(maxsize=50)
def entries_of(data):
    """All entries. They are kept for a while, since each test looks at them."""
    form = entry_form(data)
    fields = form.iter_unpack(data[HEAD.size : HEAD.size + form.size * count_of(data)])
    return tuple(Entry(*some) for some in fields)


def contents_length(edition, count):
    """The bytes of the head and so many entries together."""
    return HEAD.size + ENTRIES[edition].size * count


def contents_size(data):
    """The bytes of the head and the entries together."""
    return HEAD.size + entry_form(data).size * count_of(data)


def spans(data):
    """Where each body stands by the lengths of the entries: its first byte, and the byte after its last."""
    at, out = contents_size(data), []
    for entry in entries_of(data):
        out.append((at, at + entry.length))
        at += entry.length
    return out


def end_of(data):
    """Where the last body ends."""
    return contents_size(data) + sum(entry.length for entry in entries_of(data))


def bodies_of(data):
    return [data[start:end] for start, end in spans(data)]


# The tests of the contents. Each may rely on those before it, and gives None where the file passes.


def head_short(data):
    if len(data) < HEAD.size:
        return Answer(8, 0, f"the file has {len(data)} bytes, and edition and number of blocks take 4")


def head_wrong(data):
    if edition_of(data) not in EDITIONS:
        read = " and ".join(map(str, EDITIONS))
        return Answer(9, 0, f"the edition is {edition_of(data)}, and only {read} is read")
    if count_of(data) > MOST_BLOCKS:
        return Answer(9, 0, f"the file says that it has {count_of(data)} blocks, and {MOST_BLOCKS} is the most")


def entries_short(data):
    if len(data) < contents_size(data):
        return Answer(8, 0, f"the entries go to byte {contents_size(data)}, and the file has {len(data)} bytes")


def lengths_for(kind, width):
    """The body lengths that a kind and a width ask for."""
    if kind == RUNS:
        return range(2048 + 8, 2048 + 8 * 1024 + 1, 8)
    return (128 * width + (BASE_BYTES if kind == DIFFERENCES else 0),)


def entry_fault(entry, edition=1):
    """What of an entry is not as laid out, in words; None where all of it is."""
    if entry.kind > RUNS:
        return f"the kind is {entry.kind}, and there are only 0 to 3"
    name = f"kind {entry.kind} ({KINDS[entry.kind]})"
    if entry.kind == RUNS and edition in WITHOUT_RUNS:
        return f"{name} is read in edition 1 alone"
    if entry.kind == RUNS and entry.width != 0:
        return f"the width is {entry.width}, and {name} asks for 0"
    if entry.width > T:
        return f"the width is {entry.width}, and {name} asks for 0 to 64"
    if entry.zero != 0:
        return f"the field that has to be zero is {entry.zero}"
    lengths = lengths_for(entry.kind, entry.width)
    if entry.length not in lengths:
        asked = "2048 + 8n with n from 1 to 1024" if entry.kind == RUNS else f"{lengths[0]} at width {entry.width}"
        return f"the body length is {entry.length}, and {name} asks for {asked}"
    if entry.kind != FRAME and entry.reference != 0:
        return f"the reference is {entry.reference}, and {name} asks for 0"
    if edition == 2 and entry.smallest > entry.largest:
        return f"the smallest is {entry.smallest}, and the largest is only {entry.largest}"
    return None


def entry_wrong(data):
    for i, entry in enumerate(entries_of(data)):
        fault = entry_fault(entry, edition_of(data))
        if fault:
            return Answer(10, i, f"entry {i}: {fault}")


def bodies_short(data):
    if len(data) < end_of(data):
        return Answer(8, 0, f"the bodies go to byte {end_of(data)}, and the file has {len(data)} bytes")


def bytes_left(data):
    if len(data) > end_of(data):
        return Answer(11, 0, f"the last body ends at byte {end_of(data)}, and the file has {len(data)} bytes")


CONTENTS_TESTS = (head_short, head_wrong, entries_short, entry_wrong, bodies_short, bytes_left)


# The values of a block.


def words_of(body):
    return struct.unpack(f"<{len(body) // 8}Q", body)


def values_in(kind, width, reference, body):
    """The 1,024 values of a body, by its kind, width and reference."""
    if kind == RUNS:
        return layout.decode(words_of(body[INDICES.size :]), INDICES.unpack_from(body))
    if kind == DIFFERENCES:
        differences = layout.unpack(T, width, words_of(body[BASE_BYTES:]))
        return layout.undelta(T, differences, words_of(body[:BASE_BYTES]))
    digits = layout.unpack(T, width, words_of(body))
    return [(reference + digit) % WRAP for digit in digits] if kind == FRAME else digits


# The last ones are kept, as their bytes, which take less room, and with their smallest and largest.
@functools.lru_cache(maxsize=4000)
def kept_values(kind, width, reference, body):
    values = values_in(kind, width, reference, body)
    return struct.pack("<1024Q", *values), (min(values), max(values))


def block_values(entry, body):
    """The 1,024 values of a block that passes the tests up to 13."""
    return list(words_of(kept_values(entry.kind, entry.width, entry.reference, body)[0]))


def true_range(entry, body):
    """The smallest and the largest of a block's 1,024 values. Of a run block's values some may stand at no place; these
    do not count."""
    return kept_values(entry.kind, entry.width, entry.reference, body)[1]


def values_of(data, block):
    """The values of one block of an accepted file, which has that block."""
    start, end = spans(data)[block]
    return block_values(entry_at(data, block), data[start:end])


# The tests of bodies, for the blocks that are named, rising. The contents are known to be good.


def run_values(entry):
    """The number n of values of a run block, by its length."""
    return (entry.length - INDICES.size) // 8


def index_fault(entry, body):
    """The lowest run index that is out of range, in words; None where there is none, or the block has no runs."""
    if entry.kind != RUNS:
        return None
    n = run_values(entry)
    for p, index in enumerate(INDICES.unpack_from(body)):
        if index >= n:
            return f"the run index at place {p} is {index}, and the number of values is {n}"
    return None


def range_fault(entry, body):
    """Which of smallest and largest is not the body's, in words; None where both are, or the edition has none."""
    if entry.smallest is None:
        return None
    smallest, largest = true_range(entry, body)
    if entry.smallest != smallest:
        return f"the entry says that the smallest is {entry.smallest}, and in the body it is {smallest}"
    if entry.largest != largest:
        return f"the entry says that the largest is {entry.largest}, and in the body it is {largest}"
    return None


def lowest_with(number, fault, data, blocks):
    """The answer for the lowest of these blocks that has the fault."""
    entries, where = entries_of(data), spans(data)
    for i in blocks:
        words = fault(entries[i], data[slice(*where[i])])
        if words:
            return Answer(number, i, f"block {i}: {words}")


def runs_wrong(data, blocks):
    return lowest_with(13, index_fault, data, blocks)


def ranges_wrong(data, blocks):
    return lowest_with(15, range_fault, data, blocks)


BODY_TESTS = (runs_wrong, ranges_wrong)


def contents_answer(data):
    """8 to 11, or None."""
    return next(filter(None, (test(data) for test in CONTENTS_TESTS)), None)


def bodies_answer(data, blocks):
    """13 or 15 for the blocks that are named, or None."""
    return next(filter(None, (test(data, blocks) for test in BODY_TESTS)), None)


def words_read(entry, place):
    """How many packed words a lookup at a place of a block reads; None where the block's kind gives no count."""
    if entry.kind not in (PACKED, FRAME):
        return None
    return layout.words_read(T, entry.width, layout.ROW_AT[T][place])


# The three calls. What two of them give beside the answer is None where the call is refused.


def check(data):
    """The check of the whole file (R89): never 2 and never 12."""
    return contents_answer(data) or bodies_answer(data, range(count_of(data))) or ACCEPTED


def block_out(data, block, room):
    """One block out, into an output of that many numbers: the answer and the block's values."""
    if room != 1024:
        return Answer(2, 0, f"the output has {room} places, and a block has 1,024"), None
    answer = check(data)
    if answer.number:
        return answer, None
    if block >= count_of(data):
        return Answer(12, 0, f"block {block} is asked for, and the file has {count_of(data)} blocks"), None
    return ACCEPTED, values_of(data, block)


def row_lookup(data, row):
    """The value at a file row: place row mod 1,024 of block row / 1,024. The answer, the value and the count."""
    answer = check(data)
    if answer.number:
        return answer, None, None
    if row // 1024 >= count_of(data):
        answer = Answer(12, 0, f"row {row} is asked for, and the file has {1024 * count_of(data)} rows")
        return answer, None, None
    block, place = divmod(row, 1024)
    return ACCEPTED, values_of(data, block)[place], words_read(entry_at(data, block), place)
