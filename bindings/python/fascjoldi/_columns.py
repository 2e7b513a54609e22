"""Column files: reading, searching, comparing and writing them."""
from __future__ import annotations

import ctypes
import os
from array import array
from typing import Any, Iterable, Iterator, Mapping, NamedTuple, Union, overload

from ._library import Lent, free, held, size, within
from ._refused import Changed, Refused, of_file, of_renumbering, of_row
from ._store import Store

Path = Union[str, "os.PathLike[str]"]
Pairs = Union[Mapping[int, int], Iterable[tuple[int, int]]]
BLOCK = 1024  # the numbers of a block
LONGEST_FILE = 2_625_540  # that is readable: edition 1, 256 run blocks of 1,024 values
KINDS = ("packed", "frame", "differences", "runs")
_DONE, _UNRISING, _TWICE, _TAKEN = 0, 19, 21, 22
_WORST_BLOCK = 8224  # the bytes that our writer takes at most for a block


class Block(NamedTuple):
    """What `columns show` says of a block: how it is laid down, its smallest and largest number, and the bytes of its body."""

    kind: str
    width: int
    reference: int
    smallest: int
    largest: int
    bytes: int


class Change(NamedTuple):
    """A row whose numbers differ between two columns."""

    row: int
    left: int
    right: int


class Renumbered(NamedTuple):
    """What a renumbering did: the bytes of the new file, and how many rows have another number than before."""

    bytes: int
    changed: int


def _numbers(count: int) -> "array[int]":
    """So many zeros."""
    return array("Q", bytes(8 * count))


def _address(data: Any) -> int:
    """Where an array, whose size nobody changes meanwhile, stands."""
    return data.buffer_info()[0]


def _as_numbers(values: Any) -> Any:
    """Numbers that can be lent as 64 bits each: a buffer as it is, and anything else as an array."""
    try:
        view = memoryview(values)
    except TypeError:
        return array("Q", values)
    return values if view.itemsize == 8 and view.format.lstrip("@=<") in ("Q", "L", "N") else array("Q", view.tolist())


def _lists_of(pairs: Pairs) -> "tuple[array[int], array[int], array[int]]":
    """The old numbers, rising, the new ones, and the places of the pairs by rising new number. The call checks all that
    these promise."""
    given = pairs.items() if isinstance(pairs, Mapping) else pairs
    by_old = sorted(tuple(pair) for pair in given)
    new = array("Q", (pair[1] for pair in by_old))
    order = sorted(range(len(new)), key=lambda i: (new[i], i))
    return array("Q", (pair[0] for pair in by_old)), new, array("Q", order)


# ---- reading a file


def _same(first: os.stat_result, now: os.stat_result) -> bool:
    return (first.st_size, first.st_mtime_ns) == (now.st_size, now.st_mtime_ns)


def _read(path: Path) -> bytes:
    """The bytes of a file, up to one more than any readable file has: such a one is refused for its length in either
    case, by what its contents say."""
    with open(path, "rb", buffering=0, opener=lambda name, how: os.open(name, how | os.O_NOCTTY | os.O_CLOEXEC)) as file:
        first = os.fstat(file.fileno())
        parts, rest = [], LONGEST_FILE + 1
        while rest > 0:
            part = file.read(min(rest, 1 << 20))
            if not part:
                break
            parts.append(part)
            rest -= len(part)
        if not _same(first, os.fstat(file.fileno())):
            raise Changed(None, "the file was changed while it was read; try again", os.fspath(path))
    return b"".join(parts)


# ---- columns


class Column:
    """A column file that was read into memory and checked once, whole.

    `Column.open` reads the file. It does not map it: a program whose mapped file is cut short is ended by the system when it
    touches what is gone, and here nothing that happens to the file afterwards changes what the column holds. A file has at
    most 2,625,540 bytes.

    >>> import os, tempfile
    >>> name = os.path.join(tempfile.mkdtemp(), "path.col")
    >>> Column.write(name, range(1000, 3048))
    2628
    >>> column = Column.open(name)
    >>> len(column), column[0], column[-1], list(column[3:6])
    (2048, 1000, 3047, [1003, 1004, 1005])
    >>> list(column.find(1003, 1004))
    [3, 4]
    >>> column.blocks[1]
    Block(kind='frame', width=10, reference=2024, smallest=2024, largest=3047, bytes=1280)
    >>> column[2048]
    Traceback (most recent call last):
        ...
    fascjoldi.NoRow: ...path.col: refused 12 0: there is no row 2048; the last one is row 2047

    A column is never changed, so several threads may ask it at once.
    """

    def __init__(self, data: Any, name: str | None = None) -> None:
        """The column of a file's bytes, which are checked here. The name is said where something is refused."""
        self._data = bytes(data)
        self._name = name
        self._base = ctypes.cast(ctypes.c_char_p(self._data), ctypes.c_void_p).value or 0
        place = ctypes.c_size_t()
        self._ask(free.file_check(self._base, len(self._data), ctypes.byref(place)), place)
        self._front = free.front_length(self._base, 4)
        self._rows: int = free.front_row_count(self._base, self._front)
        self._edition: int = free.front_edition(self._base, self._front)
        self._bodies = tuple(self._each_body())

    @classmethod
    def open(cls, path: Path) -> "Column":
        """The column of a file. Refused where the file is not readable, and OSError where it cannot be read."""
        return cls(_read(path), str(os.fspath(path)))

    def _ask(self, number: int, place: ctypes.c_size_t) -> None:
        if number != _DONE:
            raise of_file(number, place.value, self._name)

    def _each_body(self) -> Iterator[tuple[int, int]]:
        """Where each body begins, and how many bytes it has."""
        number, start, length = ctypes.c_size_t(), ctypes.c_size_t(), ctypes.c_uint32()
        lent = [ctypes.byref(one) for one in (number, start, length)]
        free.body_first(self._base, self._front, *lent)
        for _ in range(self._rows // BLOCK):
            yield start.value, length.value
            free.body_next(self._base, self._front, *lent)

    # ---- rows

    @property
    def name(self) -> str | None:
        """The name that the file was opened by."""
        return self._name

    @property
    def edition(self) -> int:
        """1 or 2."""
        return self._edition

    def __repr__(self) -> str:
        return f"<fascjoldi.Column {self._name or 'of bytes'}: {self._rows} rows, edition {self._edition}>"

    def __len__(self) -> int:
        return self._rows

    def __bytes__(self) -> bytes:
        """The bytes of the file."""
        return self._data

    def block(self, number: int) -> "array[int]":
        """The 1,024 numbers of a block, counted from 0."""
        return self._lay_down(self._block_number(number))

    def _block_number(self, number: int) -> int:
        number = size(number, "the number of a block")
        if number >= len(self._bodies):
            raise of_file(12, 0, self._name)
        return number

    def _lay_down(self, number: int) -> "array[int]":
        start, length = self._bodies[number]
        numbers, place = _numbers(BLOCK), ctypes.c_size_t()
        output = _address(numbers)
        answer = free.body_block_out(
            self._base, self._front, number, self._base + start, length, output, BLOCK, ctypes.byref(place)
        )
        self._ask(answer, place)
        return numbers

    def in_blocks(self) -> "Iterator[array[int]]":
        """The numbers of each block, one block after another."""
        return (self._lay_down(number) for number in range(len(self._bodies)))

    def __iter__(self) -> Iterator[int]:
        """Every number, by rows; one block at a time is laid down."""
        for numbers in self.in_blocks():
            yield from numbers

    @overload
    def __getitem__(self, row: int) -> int: ...

    @overload
    def __getitem__(self, row: slice) -> "array[int]": ...

    def __getitem__(self, row: "int | slice") -> "int | array[int]":
        """The number at a row, or those of a slice of rows as an array. Rows below 0 count from the end, as in a list."""
        if isinstance(row, slice):
            return self._slice(range(*row.indices(self._rows)))
        asked = row.__index__()
        at = asked + self._rows if asked < 0 else asked
        if not 0 <= at < self._rows:
            raise of_row(asked, self._rows, self._name)
        return self._row(at)

    def _row(self, row: int) -> int:
        """The number at a row, out of its body: the file was checked, and no block is laid down."""
        block = row // BLOCK
        value, words, place = ctypes.c_uint64(), ctypes.c_uint64(), ctypes.c_size_t()
        lent = [ctypes.byref(one) for one in (value, words, place)]
        self._ask(free.file_row_from(self._base, len(self._data), block, self._bodies[block][0], row, *lent), place)
        return value.value

    def _slice(self, rows: range) -> "array[int]":
        if not rows:
            return array("Q")
        low, high = min(rows[0], rows[-1]), max(rows[0], rows[-1])
        first = low // BLOCK
        found = array("Q")
        for number in range(first, high // BLOCK + 1):
            found.extend(self._lay_down(number))
        before = first * BLOCK
        stop = rows.stop - before
        return found[rows.start - before : stop if stop >= 0 else None : rows.step]

    def find(self, low: int, high: int) -> "array[int]":
        """The rows whose number lies between two bounds, both included, rising."""
        low, high = within(low, 2**64, "the lower bound"), within(high, 2**64, "the upper bound")
        room = _numbers(self._rows)
        found, opened, place = ctypes.c_size_t(), ctypes.c_size_t(), ctypes.c_size_t()
        lent = [ctypes.byref(one) for one in (found, opened, place)]
        at = _address(room) if self._rows else _address(_NOTHING)
        self._ask(free.file_search(self._base, len(self._data), low, high, at, self._rows, *lent), place)
        return room[: found.value]

    # ---- blocks

    @property
    def blocks(self) -> tuple[Block, ...]:
        """What `columns show` says of each block."""
        return tuple(map(self._summary, range(len(self._bodies))))

    def _summary(self, number: int) -> Block:
        kind, width, length = ctypes.c_uint8(), ctypes.c_uint8(), ctypes.c_uint32()
        reference, smallest, largest = ctypes.c_uint64(), ctypes.c_uint64(), ctypes.c_uint64()
        numbers = self._lay_down(number)
        lent = [ctypes.byref(one) for one in (kind, width, length, reference, smallest, largest)]
        free.summary_of_block(self._base, self._front, number, _address(numbers), BLOCK, *lent)
        return Block(KINDS[kind.value], width.value, reference.value, smallest.value, largest.value, length.value)

    # ---- new files

    @staticmethod
    def write(path: Path, values: Iterable[int], *, replace: bool = False) -> int:
        """Writes a column file of these numbers, and gives its bytes. Their count has to be a multiple of 1,024, and at
        most 262,144.

        The file gets its name when it is whole: it is written beside under another name, synced and renamed, and the folder
        is synced; a run that is cut off leaves what was there. What is there is replaced only where that is asked for, and
        keeps its owner and mode.
        """
        with Store(path, replace) as store:
            data = encode(values)
            store.put(data)
        return len(data)

    def rewritten(self) -> bytes:
        """The bytes that our writer would give for these rows."""
        output = ctypes.create_string_buffer(4 + _WORST_BLOCK * len(self._bodies))
        length, place = ctypes.c_size_t(), ctypes.c_size_t()
        lent = ctypes.byref(length), ctypes.byref(place)
        answer = free.file_rewrite(self._base, len(self._data), ctypes.addressof(output), len(output), *lent)
        self._ask(answer, place)
        return output.raw[: length.value]

    def rewrite(self, path: Path, *, replace: bool = False) -> int:
        """Writes these rows to a file as our writer would, with the care of `write`, and gives its bytes."""
        with Store(path, replace) as store:
            data = self.rewritten()
            store.put(data)
        return len(data)

    def renumbered(self, pairs: Pairs) -> tuple[bytes, int]:
        """The bytes of the file in which each number that is the old one of a pair is its new one, and how many rows have
        another number than before. Every row is taken once, so 1 to 2 with 2 to 3 takes a 1 to 2, and 1 to 2 with 2 to 1
        exchanges them. Pairs come in any order, or as a mapping from old to new.

        Refused where an old number stands twice (19), a new number stands twice (21), or a number that is in the file and
        is not listed is a new one too (22, with the row): two different numbers never become one.

        >>> column = Column(encode([1, 2, 3, 4] * 256))
        >>> data, changed = column.renumbered({1: 2, 2: 1})
        >>> list(Column(data)[:4]), changed
        ([2, 1, 3, 4], 512)
        >>> column.renumbered({1: 3})
        Traceback (most recent call last):
            ...
        fascjoldi.Refused: refused 22 2: a number that is not listed stands among the new numbers; the lowest row that has one (row 2 has 3)
        """
        return self._renumbered(*_lists_of(pairs))

    def _renumbered(self, old: Any, new: Any, order: Any) -> tuple[bytes, int]:
        """By the three lists, which the call checks."""
        output = ctypes.create_string_buffer(4 + _WORST_BLOCK * len(self._bodies))
        length, changed, place = ctypes.c_size_t(), ctypes.c_size_t(), ctypes.c_size_t()
        with Lent(old, "the old numbers") as olds, Lent(new, "the new numbers") as news, Lent(order, "the order") as places:
            lists = [word for one in (olds, news, places) for word in (one.at, one.length)]
            lent = [ctypes.byref(one) for one in (length, changed, place)]
            room = ctypes.addressof(output), len(output)
            answer = held.file_renumber(self._base, len(self._data), *lists, *room, *lent)
        if answer != _DONE:
            told = self._of_pair(answer, place.value, old, new)
            raise of_renumbering(answer, place.value, told, self._name)
        return output.raw[: length.value], changed.value

    def _of_pair(self, number: int, place: int, old: Any, new: Any) -> str:
        """The number that a refusal of a renumbering is about, in words."""
        if number == _UNRISING:
            return f"{old[place]} behind {old[place - 1]}"
        if number == _TWICE:
            return f"{new[place]}"
        return f"row {place} has {self._row(place)}" if number == _TAKEN else ""

    def renumber(self, path: Path, pairs: Pairs, *, replace: bool = False) -> Renumbered:
        """Writes the renumbered rows to a file, with the care of `write`."""
        with Store(path, replace) as store:
            data, changed = self.renumbered(pairs)
            store.put(data)
        return Renumbered(len(data), changed)

    def is_canonical(self) -> bool:
        """Whether the file is byte for byte what our writer would give for its rows."""
        return self.canonical_answer() is None

    def canonical_answer(self) -> Refused | None:
        """None where the file is what our writer would give; else why it is not: 9 for one of edition 1, and 17 with the
        lowest block that is another."""
        place = ctypes.c_size_t()
        number = free.file_check_canonical(self._base, len(self._data), ctypes.byref(place))
        return None if number == _DONE else of_file(number, place.value, self._name)


_NOTHING = _numbers(1)  # where a buffer of no numbers stands


def encode(values: Iterable[int]) -> bytes:
    """The bytes of the column file of these numbers, which are whole blocks of 1,024 and at most 256 of them.

    >>> data = encode([7] * 1024)
    >>> data.hex(" ", 4)
    '02000100 01000000 00000000 07000000 00000000 07000000 00000000 07000000 00000000'
    >>> encode(range(1000))
    Traceback (most recent call last):
        ...
    fascjoldi.Refused: refused 2 0: a block or the room for places that is lent is not 1,024 long, or the numbers to be written are no whole blocks or more than 256 of them
    """
    with Lent(_as_numbers(values), "the numbers") as numbers:
        blocks = min(numbers.length // BLOCK, 256)
        output = ctypes.create_string_buffer(4 + _WORST_BLOCK * blocks)
        length, place = ctypes.c_size_t(), ctypes.c_size_t()
        lent = ctypes.byref(length), ctypes.byref(place)
        number = held.file_write(numbers.at, numbers.length, ctypes.addressof(output), len(output), *lent)
    if number != _DONE:
        raise of_file(number, place.value, None)
    return output.raw[: length.value]


def _column(thing: "Column | Path") -> Column:
    return thing if isinstance(thing, Column) else Column.open(thing)


def changes(left: "Column | Path", right: "Column | Path") -> list[Change]:
    """The rows at which two columns, or the files of these names, differ, rising. Where one has more rows, only those in
    both are compared; `len` says how many each has.

    >>> changes(Column(encode([7] * 1024)), Column(encode([7] * 3 + [9] + [7] * 1020)))
    [Change(row=3, left=7, right=9)]
    """
    left, right = _column(left), _column(right)
    found: list[Change] = []
    both = free.front_blocks_in_both(left._base, left._front, right._base, right._front)
    places, count, place = array("H", bytes(2 * BLOCK)), ctypes.c_size_t(), ctypes.c_size_t()
    lent = _address(places), BLOCK, ctypes.byref(count), ctypes.byref(place)
    for block in range(both):
        old, new = left._lay_down(block), right._lay_down(block)
        number = free.block_differing(_address(old), BLOCK, _address(new), BLOCK, *lent)
        if number != _DONE:
            raise of_file(number, place.value, None)
        found.extend(Change(block * BLOCK + at, old[at], new[at]) for at in places[: count.value])
    return found
