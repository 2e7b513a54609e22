"""Column files, and blocks of 1,024 unsigned numbers, by the proved calls of Fascjoldi.

    import fascjoldi

    column = fascjoldi.Column.open("path.col")
    column[1500], column[10:20], column.find(1000, 1999), column.blocks

What is proved and what is not. Behind each call stands one of the shared library's functions, whose outcome is proved for
every input, as include/fascjoldi.h says. Not proved, and tested, is what stands between: this package, which sees to what
the header asks of whoever calls (`_library.py`), goes from row to block and back, and reads and writes files. Every decision
on what a file is like is the library's.

A call that is refused raises `Refused`, which has the number, the place and the sentence of the program columns.
"""
from ._blocks import Value, Within, decode, delta, for_pack, for_pack_blocks, pack, transpose, transpose_bits, undelta
from ._blocks import undelta_pack, unfor_pack, unpack, unpack_blocks, unpack_indices, unpack_single, unpack_within
from ._blocks import untranspose, untranspose_bits, words_at
from ._columns import Block, Change, Column, Renumbered, changes, encode
from ._library import LIBRARY, __version__
from ._refused import Changed, NoRow, Refused

for _one in (Changed, NoRow, Refused):
    _one.__module__ = "fascjoldi"

__all__ = [
    "Block",
    "Change",
    "Changed",
    "Column",
    "LIBRARY",
    "NoRow",
    "Refused",
    "Renumbered",
    "Value",
    "Within",
    "__version__",
    "changes",
    "decode",
    "delta",
    "encode",
    "for_pack",
    "for_pack_blocks",
    "pack",
    "transpose",
    "transpose_bits",
    "undelta",
    "undelta_pack",
    "unfor_pack",
    "unpack",
    "unpack_blocks",
    "unpack_indices",
    "unpack_single",
    "unpack_within",
    "untranspose",
    "untranspose_bits",
    "words_at",
]
