"""The model of the writer (R99 to R105), from the text of its requests alone.

A block of 1,024 numbers can be laid down in three ways. Each is a candidate, at the least width that restores it:

    kind 0, packed        the numbers themselves                                128·W bytes
    kind 1, frame         each number minus the smallest, the reference         128·W bytes
    kind 2, differences   by rows along each lane, from its number in row 0     128 + 128·W bytes

The shortest body is chosen, and of equal ones that of the lowest kind. What is packed comes back exactly when the width
holds all of it: a digit that has lost something is another number, and along a lane the first sum with such a digit is
wrong, since the one before it was right. So the least width that restores a block is the least that holds what is
packed. The tests do not rely on this: they pack at one bit less and read the block back.

In edition 2 the entry also has the smallest and the largest of the block's numbers. A body has at most 8,192 bytes, so
with its entry a block takes at most 8,208 in edition 1 and 8,224 in edition 2.

The refusals of a write stand in the order of R105: 2, the count of the numbers, then 14, an output that is too short.
"""
import functools
from typing import NamedTuple

from . import build, files, layout
from .files import DIFFERENCES, FRAME, LANES, PACKED, WRAP, Answer, T

EDITION = 2  # that is written
WRITTEN = Answer(0, 0, "the file is written")


class Candidate(NamedTuple):
    """One way to lay a block down, before anything is packed."""

    kind: int
    width: int
    length: int  # of the body
    digits: list  # what is packed
    reference: int = 0
    base: tuple = ()


def least_width(numbers):
    """The least width that holds every one of these numbers."""
    largest = max(numbers)
    return next(width for width in range(T + 1) if largest < 2**width)


def reference_of(values):
    return min(values)


def base_of(values):
    """Each lane's number in row 0."""
    return tuple(values[layout.place(0, lane)] for lane in range(LANES))


def differences_of(values, base):
    return layout.delta(T, values, base)


def candidate(kind, digits, reference=0, base=()):
    width = least_width(digits)
    return Candidate(kind, width, 128 * width + 8 * len(base), digits, reference, base)


def candidates(values):
    """The three candidates of a block, by kind."""
    reference, base = reference_of(values), base_of(values)
    above = [(value - reference) % WRAP for value in values]
    packed = candidate(PACKED, values)
    frame = candidate(FRAME, above, reference=reference)
    return packed, frame, candidate(DIFFERENCES, differences_of(values, base), base=base)


def chosen(three):
    """The shortest, and of equally short ones the lowest kind."""
    return min(three, key=lambda one: (one.length, one.kind))


def laid_down(one):
    """The entry and the body of a candidate."""
    body = build.packed_bytes(one.width, one.digits)
    return build.block(one.kind, one.width, build.words(one.base) + body, one.reference)


def range_of(values):
    """The smallest and the largest."""
    return min(values), max(values)


@functools.lru_cache(maxsize=4000)
def block_for(numbers):
    """The block that is written for 1,024 numbers. It is kept, so they come as their bytes, which take less room."""
    values = files.words_of(numbers)
    smallest, largest = range_of(values)
    return laid_down(chosen(candidates(values))).but(smallest=smallest, largest=largest)


def block_of(values):
    """The same, for the numbers themselves."""
    return block_for(build.words(values))


def blocks_of(values):
    """The numbers of each block, of a count that is a multiple of 1,024."""
    return [values[start : start + 1024] for start in range(0, len(values), 1024)]


def file_of(values, edition=EDITION):
    """The bytes of the file of these numbers, whose count is one that is taken."""
    return build.column_file([block_of(block) for block in blocks_of(values)], edition)


def bound(values, edition=EDITION):
    """The room that a file needs at most. It decides nothing."""
    return files.contents_length(edition, 0) + (8192 + files.ENTRIES[edition].size) * (len(values) // 1024)


def write(values, room):
    """The call, for an output of that many bytes: the answer, and the file's bytes, None where it is refused."""
    blocks, rest = divmod(len(values), 1024)
    if rest:
        return Answer(2, 0, f"there are {len(values)} numbers, and a block has 1,024"), None
    if blocks > files.MOST_BLOCKS:
        return Answer(2, 0, f"there are numbers for {blocks} blocks, and {files.MOST_BLOCKS} is the most"), None
    data = file_of(values)
    if room < len(data):
        return Answer(14, 0, f"the output has {room} bytes, and the file has {len(data)}"), None
    return WRITTEN, data
