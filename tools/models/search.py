"""The model of the search (R107 to R110), from the text of its request alone.

A search lists, rising, the file rows whose value lies between two bounds, both included, and says how many they are.

A block is opened exactly when the range in its entry and the bounds have a number in common, or the edition is 1. A low
bound above the high one leaves no number between them: edition 2 then opens nothing, edition 1 opens everything, and no
row is listed. A block that is not opened gives no rows, whatever its body holds.

The refusals stand in the order of R110: 8 to 11 as the reader gives them; 13 and then 15 for the blocks that are
opened, with the lowest of them as the place; 14 where the room is too short for the rows. The rows stand at the front
of the room, and what is past them stays; a refused search leaves all of it.
"""
from . import files
from .files import Answer

FOUND = Answer(0, 0, "the rows are listed")


def meets(entry, low, high):
    """Have the range of an entry and the bounds a number in common?"""
    return max(entry.smallest, low) <= min(entry.largest, high)


def opened(data, low, high):
    """The blocks that a search opens, rising, of a file whose contents are good."""
    entries = files.entries_of(data)
    return [i for i, entry in enumerate(entries) if files.edition_of(data) == 1 or meets(entry, low, high)]


def rows_in(values, block, low, high):
    """The file rows of a block whose values lie between the bounds."""
    return [1024 * block + place for place, value in enumerate(values) if low <= value <= high]


def rows_of(data, blocks, low, high):
    """The rows that these blocks give."""
    return [row for block in blocks for row in rows_in(files.values_of(data, block), block, low, high)]


def search(data, low, high, room):
    """The call, for a room of so many rows: the answer, and the rows, None where it is refused."""
    answer = files.contents_answer(data)
    if answer:
        return answer, None
    blocks = opened(data, low, high)
    answer = files.bodies_answer(data, blocks)
    if answer:
        return answer, None
    rows = rows_of(data, blocks, low, high)
    if room < len(rows):
        return Answer(14, 0, f"there is room for {room} rows, and {len(rows)} are found"), None
    return FOUND, rows
