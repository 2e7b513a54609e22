"""The model of the canonical check (R115 to R117), from the text of its request alone.

It says yes exactly when an edition 2 file is, byte for byte, what the writer would give for the rows that it holds.
Else it names the lowest block whose kind, width, reference, base or body differs from the writer's. Of a file that
the reader accepts nothing else can differ: the edition is 2, N is the number of blocks, an entry's zero is 0, its
body length follows from kind and width, and its smallest and largest are the body's.

The refusals stand in the order of R116: those of the reader, which are those of the check of a whole file; 9 for an
edition 1 file that it accepts; 17 with that block as the place.
"""
from . import files, writer
from .files import Answer

CANONICAL = Answer(0, 0, "the file is what the writer would give")
EDITION = 2


def block_fault(entry, body):
    """What of a block is not as the writer would have it, in words; None where all of it is."""
    right = writer.block_of(files.block_values(entry, body))
    for field in ("kind", "width", "reference"):
        got, wanted = getattr(entry, field), getattr(right.entry, field)
        if got != wanted:
            return f"the {field} is {got}, and the writer has {wanted}"
    if body != right.body:
        other_base = body[: files.BASE_BYTES] != right.body[: files.BASE_BYTES]
        part = "base" if other_base and right.entry.kind == 2 else "body"
        return f"the {part} is another than the writer's"
    return None


def blocks_wrong(data):
    """17 with the lowest block that differs, or None."""
    return files.lowest_with(17, block_fault, data, range(files.count_of(data)))


def check(data):
    """The call."""
    answer = files.check(data)
    if answer.number:
        return answer
    if files.edition_of(data) != EDITION:
        edition = files.edition_of(data)
        return Answer(9, 0, f"the file is good, and its edition is {edition}, which is no longer written")
    return blocks_wrong(data) or CANONICAL
