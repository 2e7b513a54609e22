"""The deliberate cases of the writer (R99 to R105): every kind and width that can be chosen, every order of the three
lengths, an outlier at every class of place, and the edges of counts and outputs.

Each section is a function that gives questions, as in reads.py. Every file that the model writes here goes back into
the three calls of the reader.
"""
from cases import shapes
from cases.ask import ask_all, ask_block, ask_check, ask_row, ask_to_fit, ask_write
from cases.shapes import TOP, along_rows, by_place
from models import files, writer

FEW_WIDTHS = (0, 1, 2, 3, 4, 8, 31, 32, 33, 61, 62, 63, 64)


def read_back(dice, name, values, blocks=None):
    """The file of these numbers, in the three calls of the reader: for each block, or for those that are named."""
    data = writer.file_of(values)
    name = f"what is written for {name}"
    yield ask_check(name, data)
    for block in range(len(values) // 1024) if blocks is None else blocks:
        yield ask_block(dice, name, data, block)
        yield ask_row(name, data, 1024 * block + dice.below(1024))


def written(dice, name, values):
    """A write into an output that is long enough, with up to two marks behind the file, and then the file read back."""
    yield ask_to_fit(dice, name, values, dice.below(3))
    yield from read_back(dice, name, values)


# What is chosen.


def written_widths(dice):
    """Every kind at every width at which it can be chosen; shapes.py says why at no other."""
    for kind, most in enumerate(shapes.MOST_WIDTH):
        for width in range(most + 1):
            for edge, values in enumerate(shapes.BY_KIND[kind](dice, width)):
                yield from written(dice, f"kind {kind} width {width}, edge {edge}", values)


def near_ties(widths):
    """The least widths of kinds 0, 1 and 2 where the lengths are equal, or one apart, or the differences wrap."""
    for w1 in widths:
        for w0 in (w1, w1 + 1, w1 + 2):
            for w2 in sorted({w1 - 2, w1 - 1, w1, w0 - 1, 64}):
                if w2 >= 0 and shapes.can_be(w0, w1, w2):
                    yield w0, w1, w2


def written_ties(dice):
    """Each order of the three lengths that there is, with the ties of every two and of all three."""
    for widths in near_ties(FEW_WIDTHS):
        name = "least widths {} {} {}".format(*widths)
        yield from written(dice, name, shapes.with_widths(dice, *widths))


def column_shapes(dice):
    """Blocks as a column has them, and blocks that a wrong sign or a wrong order would take for others."""
    for value in (0, 1, 7, 255, 256, 2**32, 2**63 - 1, 2**63, TOP - 1, TOP):
        yield f"all {value}", [value] * 1024
    yield "rising by place", by_place(lambda p: p)
    yield "rising by place from afar", by_place(lambda p: 2**50 + 3 * p)
    yield "falling by place", by_place(lambda p: 1023 - p)
    yield "falling by place across 0", by_place(lambda p: 511 - p)
    yield "rising by place across 0", by_place(lambda p: p - 511)
    yield "rising by place, transposed", shapes.transposed(by_place(lambda p: p))
    yield "rising by place across 0, transposed", shapes.transposed(by_place(lambda p: p - 511))
    yield "falling by place, transposed", shapes.transposed(by_place(lambda p: 1023 - p))
    yield "rising by rows", along_rows(lambda row, lane: row)
    yield "rising by rows, lanes far apart", along_rows(lambda row, lane: row + 2**59 * lane)
    yield "rising by rows across 0", along_rows(lambda row, lane: row - 31)
    yield "rising by rows across 0, each lane elsewhere", along_rows(lambda row, lane: 9 * row - 30 * lane)
    yield "falling by rows", along_rows(lambda row, lane: 63 - row)
    yield "falling by rows across 0", along_rows(lambda row, lane: 31 - row)
    yield "falling by rows across 0, each lane elsewhere", along_rows(lambda row, lane: 30 * lane - 9 * row)
    yield "0 and 2^64 - 1 by turns along the rows", along_rows(lambda row, lane: -(row % 2))
    yield "2^64 - 1 and 0 by turns along the places", by_place(lambda p: p % 2 - 1)
    yield "0 and 2^64 - 1 by lanes", along_rows(lambda row, lane: -(lane % 2))
    yield "0 and 2^63 by turns along the rows", along_rows(lambda row, lane: 2**63 * (row % 2))
    yield "2^63 - 1 and 2^63 along the rows", along_rows(lambda row, lane: 2**63 - 1 + row // 5 % 2)
    yield "2^63 - 1 and 2^63 by lanes", along_rows(lambda row, lane: 2**63 - 1 + lane % 2)
    yield "0 once and 2^63 else", by_place(lambda p: 2**63 if p != 77 else 0)
    yield "steps of 2^62 - 1 three times over", along_rows(lambda row, lane: min(row, 3) * (2**62 - 1))
    yield "steps of 2^62 three times over", along_rows(lambda row, lane: min(row, 3) * 2**62)
    yield "anything", shapes.thrown(dice, 0, TOP)


def written_shapes(dice):
    for name, values in column_shapes(dice):
        yield from written(dice, name, values)


def outlier_at(dice, sort, row, lane):
    """A block of which one place alone decides: its largest number, its smallest, or the largest of its steps."""

    def here(r, l):
        return (r, l) == (row, lane)

    low = 2**40 + dice.below(2**40)
    if sort == "largest":
        return along_rows(lambda r, l: low + 9 if here(r, l) else low + (r + l) % 4)
    if sort == "smallest":
        return along_rows(lambda r, l: low - 9 if here(r, l) else low + (r + l) % 4)
    # In row 0 a lane has no step, so there the number itself stands apart, and the step after it decides.
    if row == 0:
        return along_rows(lambda r, l: low * (l + 1) + r - 5 * here(r, l))
    return along_rows(lambda r, l: low * (l + 1) + r + (5 if l == lane and r >= row else 0))


def outliers(dice):
    """One outlier in each row, with each lane in turn, then in each lane of the first row and of the last."""
    places = [(row, 5 * row % 16) for row in range(64)]
    places += [(row, lane) for row in (0, 63) for lane in range(16) if (row, lane) not in places]
    for row, lane in places:
        for sort in ("largest", "smallest", "step"):
            yield f"the {sort} in row {row} of lane {lane}", outlier_at(dice, sort, row, lane)


def written_outliers(dice):
    for name, values in outliers(dice):
        yield from written(dice, name, values)


# Counts and outputs.


def one_of_each(dice):
    """For each kind a block whose body is short."""
    return [next(shapes.BY_KIND[kind](dice, width)) for kind, width in enumerate((3, 2, 1))]


def few_blocks(dice):
    """No block, and three blocks of the kinds in every order and with every repetition."""
    yield ask_to_fit(dice, "no blocks", [])
    yield from ask_all(dice, "what is written for no blocks", writer.file_of([]))
    kinds = one_of_each(dice)
    for first in range(3):
        for second in range(3):
            for third in range(3):
                name = f"kinds {first} {second} {third}"
                yield from written(dice, name, kinds[first] + kinds[second] + kinds[third])


def contents_of(count):
    """The bytes in front of the bodies, of so many blocks."""
    return files.contents_length(writer.EDITION, count)


def rooms(values):
    """Lengths of the output: too short by one and by much, enough, and between the file's length and the bound."""
    size, bound = len(writer.file_of(values)), writer.bound(values)
    near = {size + d for d in (-128, -33, -32, -17, -16, -8, -1, 0, 1, 2, 8, 16, 128, 1000)}
    near |= {contents_of(1) + d for d in (-1, 0, 1)}
    return sorted(n for n in near | {0, 1, 3, 4, 5, bound - 1, bound, bound + 1, bound + 100} if n >= 0)


def write_outputs(dice):
    """Every file of a few with every length of the output; whatever stands behind the file is a mark."""
    kinds = one_of_each(dice)
    for name, values in (
        ("no blocks", []),
        ("all 0", [0] * 1024),
        ("all 7", [7] * 1024),
        *((f"kind {kind}", values) for kind, values in enumerate(kinds)),
        ("width 64", shapes.thrown(dice, 0, TOP)),
        ("three kinds", kinds[2] + kinds[0] + kinds[1]),
    ):
        yield from (ask_write(dice, name, values, room) for room in rooms(values))
        yield from read_back(dice, name, values)


def write_counts(dice):
    """Counts that are no multiple of 1,024, with an output that is too short, and with one that has room for more."""
    values = shapes.thrown(dice, 5, 9) * 4
    for count in (1, 2, 15, 16, 64, 512, 1000, 1022, 1023, 1025, 1026, 1536, 2047, 2049, 3071, 3073, 4095):
        yield from (ask_write(dice, "counts", values[:count], room) for room in (0, 3, 4, 20, 4000))
    for count in (1024, 2048, 3072, 4096):
        yield from written(dice, "counts", values[:count])


def many_blocks(dice):
    """256 blocks, short ones of every kind and then the longest that there are; and counts at the limit and past it."""
    few = one_of_each(dice) + [[0] * 1024, [TOP] * 1024, shapes.along_rows(lambda row, lane: row - 31)]
    values = [number for _ in range(256) for number in dice.pick(few)]
    yield ask_to_fit(dice, "256 short blocks", values, 1)
    yield ask_to_fit(dice, "256 short blocks", values, -1)
    yield from read_back(dice, "256 short blocks", values, (0, 1, 127, 128, 255))
    for count, room in ((262143, contents_of(256)), (262145, 0), (257 * 1024, contents_of(257))):
        yield ask_write(dice, "zeros at the limit", [0] * count, room)
    wide = [shapes.thrown(dice, 0, TOP) for _ in range(7)]
    values = [number for i in range(256) for number in wide[i % 7]]
    yield ask_to_fit(dice, "256 of the longest blocks", values)
    yield from read_back(dice, "256 of the longest blocks", values, (255,))


SECTIONS = (
    written_widths,
    written_ties,
    written_shapes,
    written_outliers,
    few_blocks,
    write_outputs,
    write_counts,
    many_blocks,
)
