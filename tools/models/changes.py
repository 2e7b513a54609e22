"""The model of the program that says what a rename changed (R118 to R121), from the text of its request alone.

The program compares left.col with right.col and prints each row whose numbers differ, rising: the row, the number on
the left and the number on the right, in decimal with single spaces. Then comes `differences K`. If the row counts
differ, only rows in both are compared, and a line `rows A B` comes before the last. Encoding and edition play no
part.

Both files are checked before anything is listed. The first bad one, left before right, gives the only line: `refused
left X Y` or `refused right X Y`, with the number and the place of the reader's check; a file that will not open gives 8
and 0. Each line ends with a newline.
"""
from . import files, rewrite
from .files import Answer

NOT_OPENED = Answer(8, 0, "the file does not open")


def answer_to(data):
    """The reader's answer to a file; None is one that will not open."""
    return NOT_OPENED if data is None else files.check(data)


def refusal(left, right):
    """The line for the first file that is bad; None where both are good."""
    for side, data in (("left", left), ("right", right)):
        answer = answer_to(data)
        if answer.number:
            return f"refused {side} {answer.number} {answer.place}"
    return None


def differing(left, right):
    """The rows in both whose numbers differ, with both numbers; of two lists of numbers."""
    return [(row, *pair) for row, pair in enumerate(zip(left, right)) if pair[0] != pair[1]]


def listed(left, right):
    """The lines for two good files, by their numbers."""
    rows = differing(left, right)
    yield from (f"{row} {old} {new}" for row, old, new in rows)
    if len(left) != len(right):
        yield f"rows {len(left)} {len(right)}"
    yield f"differences {len(rows)}"


def ended(lines):
    return "".join(f"{line}\n" for line in lines)


def text(left, right):
    """All that the program prints for the bytes of two files, of which each may be None."""
    refused = refusal(left, right)
    if refused:
        return ended([refused])
    return ended(listed(rewrite.all_values(left), rewrite.all_values(right)))
