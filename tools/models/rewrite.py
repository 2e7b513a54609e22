"""The model of the rewrite (R112 to R114), from the text of its request alone.

A rewrite takes any file that is readable and lays its rows down anew, as the writer does: an edition 2 file, every row
the same, each block in the kind and at the width that the writer chooses. It says the length. What the blocks were in
the old file plays no part, so a file that the writer wrote in edition 2 comes out as it is.

The refusals stand in the order of R114: those of the reader, which are those of the check of a whole file, then 14, an
output that is shorter than the new file. The output is then unchanged; bytes past the new file stay.
"""
from . import files, writer
from .files import Answer

REWRITTEN = Answer(0, 0, "the file is rewritten")
EDITION = 2


def all_values(data):
    """The numbers of every row, of a file that is accepted."""
    return [value for block in range(files.count_of(data)) for value in files.values_of(data, block)]


def rewritten(data):
    """The bytes of the new file, for a file that is accepted."""
    return writer.file_of(all_values(data), EDITION)


def rewrite(data, room):
    """The call, for an output of that many bytes: the answer, and the new file's bytes, None where it is refused."""
    answer = files.check(data)
    if answer.number:
        return answer, None
    new = rewritten(data)
    if room < len(new):
        return Answer(14, 0, f"the output has {room} bytes, and the new file has {len(new)}"), None
    return REWRITTEN, new
