"""Makes column files for cases: good ones, and ones in which something is wrong on purpose.

A block is an entry and a body, and either may say what the other does not bear out. So every fault that R90 refuses can
be made by changing one field or one byte.
"""
import struct
from typing import NamedTuple

from . import files, layout
from .files import DIFFERENCES, FRAME, PACKED, RUNS, Entry, T


class Block(NamedTuple):
    entry: Entry
    body: bytes

    def but(self, **fields):
        """The same body, and an entry with other fields."""
        return Block(self.entry._replace(**fields), self.body)


def ranged(block):
    """The block with the smallest and the largest in its entry, where they are not given: the body's own. Where the
    body cannot be read by the entry, they are 0 and 2^64 - 1, so that nothing is wrong with them."""
    entry = block.entry
    if None not in (entry.smallest, entry.largest):
        return block
    unread = files.entry_fault(entry) or len(block.body) != entry.length or files.index_fault(*block)
    smallest, largest = (0, files.TOP) if unread else files.true_range(*block)
    given = {"smallest": smallest, "largest": largest}
    return block.but(**{field: value for field, value in given.items() if getattr(entry, field) is None})


def column_file(blocks, edition=1, count=None, entries=None):
    """The bytes of a file with these blocks; count is what its head says of their number, and entries is the edition
    whose form they have, which is the file's own or, where there is none, that of edition 1."""
    form = entries or (edition if edition in files.ENTRIES else 1)
    if form == 2:
        blocks = [ranged(block) for block in blocks]
    head = files.HEAD.pack(edition, len(blocks) if count is None else count)
    contents = b"".join(files.entry_bytes(form, block.entry) for block in blocks)
    return head + contents + b"".join(block.body for block in blocks)


def words(numbers):
    return struct.pack(f"<{len(numbers)}Q", *numbers)


def block(kind, width, body, reference=0):
    """A block whose entry has the length that its body has."""
    return Block(Entry(kind, width, 0, len(body), reference), body)


def packed(width, body):
    return block(PACKED, width, body)


def frame(width, body, reference):
    return block(FRAME, width, body, reference)


def differences(width, base, body):
    """A block of kind 2; base is the bytes of its sixteen words."""
    return block(DIFFERENCES, width, base + body)


def runs(indices, values):
    return block(RUNS, 0, struct.pack("<1024H", *indices) + words(values))


def packed_bytes(width, values):
    return words(layout.pack(T, width, values))


# Blocks with anything in them.


def any_runs(dice, n):
    """A run block of n values, with indices that go up and down and name the first value and the last."""
    indices = [i % n for i in struct.unpack("<1024H", dice.bytes(2048))]
    indices[dice.below(512)], indices[512 + dice.below(512)] = 0, n - 1
    return runs(indices, [dice.number() for _ in range(n)])


def any_block(dice, kind, width, body=None):
    """A block of kind 0, 1 or 2. Every body of the right length is one, so without a body it is thrown."""
    body = dice.bytes(128 * width) if body is None else body
    if kind == PACKED:
        return packed(width, body)
    if kind == FRAME:
        return frame(width, body, dice.number())
    return differences(width, dice.bytes(files.BASE_BYTES), body)


def with_index(run_block, place, index):
    """The run block with another index at a place."""
    body = bytearray(run_block.body)
    struct.pack_into("<H", body, 2 * place, index)
    return Block(run_block.entry, bytes(body))
