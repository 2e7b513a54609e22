"""The calls on blocks of 1,024 numbers, at four element sizes, over anything that has the buffer protocol.

The size T of an element is that of the buffer: 8, 16, 32 or 64 bits, without a sign. A packed block has 1024 / T times its
width elements. Nothing is copied where a buffer is contiguous and aligned. Each call gives its output, which is a new array
unless one is lent as `output`; that may overlap nothing else that the call is lent.
"""
from __future__ import annotations

import ctypes
from array import array
from contextlib import ExitStack
from typing import Any, NamedTuple

from ._library import Lent, held, size, within
from ._refused import of_block

BLOCK = 1024
NO_COUNT = 2**64 - 1
_CODES = {8: "B", 16: "H", 32: "I", 64: "Q"}
_NUMBERS = {8: ctypes.c_uint8, 16: ctypes.c_uint16, 32: ctypes.c_uint32, 64: ctypes.c_uint64}
SIZES = tuple(_CODES)


class Value(NamedTuple):
    """A value, and the number of packed words that it stands in."""

    value: int
    words: int


class Within(NamedTuple):
    """The outputs, how many of them were answered, and the number of packed words that these stand in."""

    output: Any
    answered: int
    words: int


def _room(bits: int, count: int) -> "array[int]":
    return array(_CODES[bits], bytes(count * bits // 8))


def _packed_length(bits: int, width: int) -> int:
    """The elements of a packed block; a width that is too high is refused by the call, whatever the output is."""
    return BLOCK // bits * min(width, bits)


class _Call:
    """One call: the buffers that it lends, which all have one size, and the function of that size."""

    def __init__(self) -> None:
        self._stack = ExitStack()
        self._read: list[Lent] = []
        self._written: list[Lent] = []
        self.bits = 0

    def __enter__(self) -> "_Call":
        return self

    def __exit__(self, *_: Any) -> None:
        self._stack.close()

    def lends(self, thing: Any, what: str, writable: bool = False, bits: int = 0) -> tuple[int, int]:
        """The pointer and the length of a buffer of the call's size, or of so many bits."""
        lent = self._stack.enter_context(Lent(thing, what, writable))
        wanted = bits or self.bits or lent.bits
        if lent.bits != wanted:
            raise TypeError(f"{what} has elements of {lent.bits} bits, and {wanted} are wanted")
        if not bits:
            self.bits = wanted
        for other in [*self._written, *(self._read if writable else ())]:
            if lent.overlaps(other):
                raise ValueError(f"{what} overlaps another buffer of the call")
        (self._written if writable else self._read).append(lent)
        return lent.at, lent.length

    def writes(self, output: Any, count: int, what: str = "the output") -> tuple[Any, tuple[int, int]]:
        """The output that is lent, or a new one, and its pointer and length."""
        output = _room(self.bits, count) if output is None else output
        return output, self.lends(output, what, writable=True)

    def function(self, name: str) -> Any:
        return getattr(held, f"{name}_u{self.bits}")

    def done(self, name: str, *words: Any) -> None:
        """Makes the call; the place is the last of what it takes."""
        place = ctypes.c_size_t()
        number = self.function(name)(*words, ctypes.byref(place))
        if number:
            raise of_block(number, place.value)


def pack(width: int, values: Any, output: Any = None) -> Any:
    """Packs 1,024 values at `width` bits each.

    >>> from array import array
    >>> packed = pack(10, array("Q", range(1024)))
    >>> len(packed), unpack(10, packed)[1000], unpack_single(10, packed, 1000)
    (160, 1000, Value(value=1000, words=1))
    >>> pack(65, array("Q", range(1024)))
    Traceback (most recent call last):
        ...
    fascjoldi.Refused: refused 1 0: the width is above T
    """
    width = size(width, "the width")
    with _Call() as call:
        given = call.lends(values, "the values")
        output, room = call.writes(output, _packed_length(call.bits, width))
        call.done("pack", width, *given, *room)
    return output


def unpack(width: int, packed: Any, output: Any = None) -> Any:
    """Unpacks 1,024 values of `width` bits each."""
    width = size(width, "the width")
    with _Call() as call:
        given = call.lends(packed, "the packed words")
        output, room = call.writes(output, BLOCK)
        call.done("unpack", width, *given, *room)
    return output


def unpack_single(width: int, packed: Any, index: int) -> Value:
    """The value at one place of a packed block, and the number of packed words that it stands in."""
    width, index = size(width, "the width"), size(index, "the index")
    with _Call() as call:
        given = call.lends(packed, "the packed words")
        value, words = _NUMBERS[call.bits](), ctypes.c_uint64()
        call.done("unpack_single", width, *given, index, ctypes.byref(value), ctypes.byref(words))
    return Value(value.value, words.value)


def words_at(bits: int, width: int, index: int) -> int | None:
    """In how many packed words the value at a place stands; None where there is no such width or place.

    >>> words_at(64, 10, 1000), words_at(64, 10, 1024)
    (1, None)
    """
    if bits not in _CODES:
        raise ValueError(f"there are elements of 8, 16, 32 and 64 bits, and not of {bits}")
    words = getattr(held, f"words_at_u{bits}")(size(width, "the width"), size(index, "the index"))
    return None if words == NO_COUNT else words


def unpack_indices(width: int, packed: Any, indices: Any, output: Any = None) -> Within:
    """The values at a list of places, whose numbers have 64 bits, and the number of packed words that they stand in."""
    width = size(width, "the width")
    with _Call() as call:
        given = call.lends(packed, "the packed words")
        places = call.lends(indices, "the indices", bits=64)
        output, room = call.writes(output, places[1])
        words = ctypes.c_uint64()
        call.done("unpack_indices", width, *given, *places, *room, ctypes.byref(words))
    return Within(output, places[1], words.value)


def unpack_within(width: int, packed: Any, indices: Any, budget: int, output: Any = None) -> Within:
    """The values at the first places of a list, as many as a budget of packed words is enough for.

    >>> from array import array
    >>> packed = pack(10, array("Q", range(1024)))
    >>> unpack_within(10, packed, array("Q", [5, 6, 7]), 2)
    Within(output=array('Q', [5, 6, 0]), answered=2, words=2)
    """
    width, budget = size(width, "the width"), within(budget, 2**64, "the budget")
    with _Call() as call:
        given = call.lends(packed, "the packed words")
        places = call.lends(indices, "the indices", bits=64)
        output, room = call.writes(output, places[1])
        answered, words = ctypes.c_size_t(), ctypes.c_uint64()
        lent = ctypes.byref(answered), ctypes.byref(words)
        call.done("unpack_within", width, *given, *places, budget, *room, *lent)
    return Within(output, answered.value, words.value)


def _along_lanes(name: str, values: Any, base: Any, output: Any, first: tuple[Any, ...] = ()) -> Any:
    with _Call() as call:
        given = call.lends(values, "the input")
        bases = call.lends(base, "the base")
        output, room = call.writes(output, BLOCK)
        call.done(name, *first, *given, *bases, *room)
    return output


def delta(values: Any, base: Any, output: Any = None) -> Any:
    """At each place its value minus that of the row before in its lane, at row 0 minus the lane's base.

    >>> from array import array
    >>> values, base = array("Q", range(1024)), array("Q", [0] * 16)
    >>> undelta(delta(values, base), base) == values
    True
    """
    return _along_lanes("delta", values, base, output)


def undelta(differences: Any, base: Any, output: Any = None) -> Any:
    """Sums along each lane by rows, from the lane's base: undoes `delta`."""
    return _along_lanes("undelta", differences, base, output)


def undelta_pack(width: int, packed: Any, base: Any, output: Any = None) -> Any:
    """Unpacks differences of `width` bits each, and sums them along each lane by rows, from the lane's base."""
    return _along_lanes("undelta_pack", packed, base, output, (size(width, "the width"),))


def for_pack(width: int, values: Any, reference: int, output: Any = None) -> Any:
    """Packs each value minus the reference at `width` bits.

    >>> from array import array
    >>> values = array("H", range(5000, 6024))
    >>> unfor_pack(10, for_pack(10, values, 5000), 5000) == values
    True
    """
    width = size(width, "the width")
    with _Call() as call:
        given = call.lends(values, "the values")
        reference = within(reference, 2**call.bits, "the reference")
        output, room = call.writes(output, _packed_length(call.bits, width))
        call.done("for_pack", width, *given, reference, *room)
    return output


def unfor_pack(width: int, packed: Any, reference: int, output: Any = None) -> Any:
    """Unpacks 1,024 values of `width` bits each, and adds the reference to each."""
    width = size(width, "the width")
    with _Call() as call:
        given = call.lends(packed, "the packed words")
        reference = within(reference, 2**call.bits, "the reference")
        output, room = call.writes(output, BLOCK)
        call.done("unfor_pack", width, *given, reference, *room)
    return output


def unpack_blocks(width: int, blocks: int, packed: Any, output: Any = None) -> Any:
    """Unpacks so many blocks of one width, at most 256, that stand one after another."""
    width, blocks = size(width, "the width"), size(blocks, "the number of blocks")
    with _Call() as call:
        given = call.lends(packed, "the packed words")
        output, room = call.writes(output, BLOCK * min(blocks, 256))
        call.done("unpack_blocks", width, blocks, *given, *room)
    return output


def for_pack_blocks(width: int, blocks: int, values: Any, reference: int, output: Any = None) -> Any:
    """Packs so many blocks, at most 256, each value minus the one reference, at one width."""
    width, blocks = size(width, "the width"), size(blocks, "the number of blocks")
    with _Call() as call:
        given = call.lends(values, "the values")
        reference = within(reference, 2**call.bits, "the reference")
        output, room = call.writes(output, _packed_length(call.bits, width) * min(blocks, 256))
        call.done("for_pack_blocks", width, blocks, *given, reference, *room)
    return output


def decode(dictionary: Any, indices: Any, output: Any = None) -> Any:
    """At each place the dictionary's value at that place's index; the indices have 16 bits.

    >>> from array import array
    >>> decode(array("I", [7, 9]), array("H", [0, 1] * 512))[:4]
    array('I', [7, 9, 7, 9])
    """
    with _Call() as call:
        given = call.lends(dictionary, "the dictionary")
        places = call.lends(indices, "the indices", bits=16)
        output, room = call.writes(output, BLOCK)
        call.done("decode", *given, *places, *room)
    return output


def _moved(name: str, values: Any, output: Any) -> Any:
    with _Call() as call:
        given = call.lends(values, "the input")
        output, room = call.writes(output, BLOCK)
        call.done(name, *given, *room)
    return output


def transpose(values: Any, output: Any = None) -> Any:
    """At each place the value found at its source in the plain order."""
    return _moved("transpose", values, output)


def untranspose(values: Any, output: Any = None) -> Any:
    """The value of each place back at its source: undoes `transpose`."""
    return _moved("untranspose", values, output)


def _moved_bits(name: str, bits: int, words: Any, output: Any) -> Any:
    """These two take sixteen words each and are never refused, so the lengths are looked at here."""
    with _Call() as call:
        given, count = call.lends(words, "the input", bits=64)
        output = _room(64, 16) if output is None else output
        room, length = call.lends(output, "the output", writable=True, bits=64)
        if count != 16 or length != 16:
            raise ValueError("a block of 1,024 bits has 16 words of 64 bits")
        getattr(held, f"{name}_u{bits}")(given, room)
    return output


def transpose_bits(bits: int, words: Any, output: Any = None) -> Any:
    """Moves bit l · T + r of a block of 1,024 bits, sixteen words of 64, to the place of row r in lane l, for T `bits`."""
    if bits not in _CODES:
        raise ValueError(f"there are elements of 8, 16, 32 and 64 bits, and not of {bits}")
    return _moved_bits("transpose_bits", bits, words, output)


def untranspose_bits(words: Any, output: Any = None) -> Any:
    """Moves the bits of a block that was transposed for T 64 back to where they came from."""
    return _moved_bits("untranspose_bits", 64, words, output)
