"""The model of the calls on a drawer of blocks (R66 to R68), from the text of their request and of the layout alone.

A drawer is M blocks of one width that lie one after another. M is given at the call and is at most 256.

    unpack of M blocks      takes M · LANES · W packed words and gives 1,024 · M values
    for_pack of M blocks    takes 1,024 · M values and one reference and gives M · LANES · W packed words

Block b of what is given is the single call's result on block b of what is taken, with the same reference for each. The
refusals stand in the order of R68: 1, the width is above T; 2, the values are not 1,024 · M, or M is above 256; 3, the
packed length is not M · LANES · W. The place is always 0. So M of 0 asks that both buffers are empty, and is then done.

An element has T bits, and T is 8, 16, 32 or 64. Whole numbers have no end, so no product here can come round to a small
one.
"""
import functools
import struct

from . import layout
from .files import Answer

LETTERS = {8: "B", 16: "H", 32: "I", 64: "Q"}  # of an element, for struct
MOST_BLOCKS = 256
DONE = Answer(0, 0, "every block is done")


def lengths(t, width, blocks):
    """How many values and how many packed words a drawer of so many blocks has."""
    return 1024 * blocks, blocks * layout.lanes_of(t) * width


def numbers_of(t, data):
    """The elements that these bytes are, lowest byte first."""
    return struct.unpack(f"<{len(data) * 8 // t}{LETTERS[t]}", data)


def bytes_of(t, numbers):
    return struct.pack(f"<{len(numbers)}{LETTERS[t]}", *numbers)


def parts_of(data, count):
    """The bytes in so many parts of one length, one after another."""
    size = len(data) // count if count else 0
    return [data[i * size : (i + 1) * size] for i in range(count)]


# Blocks come and go as their bytes, and the last ones are kept, since a case is answered more than once.


@functools.lru_cache(maxsize=500)
def unpacked(t, width, packed):
    return bytes_of(t, layout.unpack(t, width, numbers_of(t, packed)))


@functools.lru_cache(maxsize=500)
def for_packed(t, width, reference, values):
    differences = [(value - reference) % 2**t for value in numbers_of(t, values)]
    return bytes_of(t, layout.pack(t, width, differences))


# The two calls. What they give beside the answer is None where the call is refused.


def answer_to(t, width, blocks, values, packed):
    """The answer to a drawer of so many blocks, with buffers of so many values and packed words."""
    values_asked, packed_asked = lengths(t, width, blocks)
    if width > t:
        return Answer(1, 0, f"the width is {width}, and an element has {t} bits")
    if blocks > MOST_BLOCKS:
        return Answer(2, 0, f"M is {blocks}, and {MOST_BLOCKS} is the most")
    if values != values_asked:
        return Answer(2, 0, f"there are {values} values, and M {blocks} asks for {values_asked}")
    if packed != packed_asked:
        return Answer(3, 0, f"there are {packed} packed words, and M {blocks} at this width asks for {packed_asked}")
    return DONE


def unpack_blocks(t, width, blocks, packed, room):
    """Unpack of M blocks, into an output of so many values: the answer, and the bytes of the values."""
    answer = answer_to(t, width, blocks, room, len(packed) * 8 // t)
    if answer.number:
        return answer, None
    return answer, b"".join(unpacked(t, width, block) for block in parts_of(packed, blocks))


def for_pack_blocks(t, width, blocks, reference, values, room):
    """for_pack of M blocks, into an output of so many words: the answer, and the bytes of the packed words."""
    answer = answer_to(t, width, blocks, len(values) * 8 // t, room)
    if answer.number:
        return answer, None
    return answer, b"".join(for_packed(t, width, reference, block) for block in parts_of(values, blocks))
