"""Holds the model of the reader to its rules (R88 to R90, R98), and to worked cases of R150."""
import struct

from cases import sweeps
from cases.ask import ask_row
from cases.dice import Dice
from cases.stream import answered
from cases.sweeps.reads import SEVENS
from models import build, files, layout
from models.build import column_file
from .common import OF_READER, Checked, expected_of, questions_of, swept, unless


def block_of(block):
    """Block 0 of the file that has this block alone."""
    answer, values = files.block_out(column_file([block]), 0, 1024)
    return values if values else [answer] * 1024


def worked_files():
    """The two worked files of R88: what they hold, and that building them gives the same bytes."""
    sevens = build.frame(0, b"", 7)
    yield from unless(column_file([]) == sweeps.reads.NO_BLOCKS, "the file of no blocks is not built as R88 has it")
    yield from unless(column_file([sevens]) == SEVENS, "the file of sevens is not built as R88 has it")
    yield from unless(files.check(sweeps.reads.NO_BLOCKS) == files.ACCEPTED, "the file of no blocks is not accepted")
    yield from unless(files.row_lookup(sweeps.reads.NO_BLOCKS, 0)[0][:2] == (12, 0), "row 0 of no blocks is not 12")
    yield from unless(files.check(SEVENS) == files.ACCEPTED, "the file of sevens is not accepted")
    yield from unless(block_of(sevens) == [7] * 1024, "the file of sevens has other values")
    yield from unless(files.row_lookup(SEVENS, 1023)[1:] == (7, 0), "row 1023 of the sevens is another")
    yield from unless(files.row_lookup(SEVENS, 1024)[0][:2] == (12, 0), "row 1024 of the sevens is not 12")


def lane_body(width, lane, number):
    """A packed body of zeros, but for one lane, whose whole number is given as bytes, lowest first."""
    body = bytearray(128 * width)
    for k in range(width):
        at = 8 * (16 * k + lane)
        body[at : at + 8] = number[8 * k : 8 * k + 8]
    return bytes(body)


def by_rows(lane, value):
    """A block of zeros, but for one lane, whose row r holds value(r)."""
    block = [0] * 1024
    for row in range(64):
        block[(0, 64, 32, 96, 16, 80, 48, 112)[row // 8] + 128 * (row % 8) + lane] = value(row)
    return block


def packed_cases():
    """The cases P4, P6 and P7 (R150), brought to 64 bits.

    P6 has 0 to 7 by rows at width 3, which is the bytes 136, 198, 250. With 64 rows that comes eight times over, and
    lane 0 has its three words at 0, 16 and 32. At width 6 a row can hold its own number.
    """
    yield from unless(layout.place(63, 15) == 1023, "P4: row 63 of lane 15 is not at 1023")
    body = lane_body(3, 0, bytes((136, 198, 250)) * 8)
    values = by_rows(0, lambda row: row % 8)
    yield from unless(block_of(build.packed(3, body)) == values, "P6: the packed body has other values")
    yield from unless(build.packed_bytes(3, values) == body, "P6: packing gives another body")
    data = column_file([build.packed(3, body)])
    yield from unless(files.row_lookup(data, 256)[1:] == (2, 1), "P7: row 256 is not 2, from one word")
    yield from unless(files.row_lookup(data, 672)[1:] == (5, 2), "P7: row 672 is not 5, from two words")
    body = lane_body(6, 3, sum(row * 64**row for row in range(64)).to_bytes(48, "little"))
    values = by_rows(3, lambda row: row)
    yield from unless(block_of(build.packed(6, body)) == values, "width 6: rows do not hold their own number")


def frame_cases():
    """P8, brought to 64 bits: value 3, reference 2^64 - 6, difference 9."""
    for width, result in ((4, 3), (3, 2**64 - 5)):
        body = build.packed_bytes(width, [9] * 1024)
        values = block_of(build.frame(width, body, 2**64 - 6))
        yield from unless(values == [result] * 1024, f"P8: another value at width {width}")


def difference_cases():
    """P9, brought to 64 bits: base 5, differences 0, 2 and 2^64 - 1 by rows; and sums by rows over whole lanes."""
    numbers = [0] * 1024
    numbers[128], numbers[256] = 2, 2**64 - 1
    body = build.packed_bytes(64, numbers)
    values = block_of(build.differences(64, build.words([5] * 16), body))
    yield from unless([values[p] for p in (0, 128, 256)] == [5, 7, 6], "P9: the first three rows are not 5, 7, 6")
    lanes = build.words(range(16))
    values = block_of(build.differences(1, lanes, b"\xff" * 128))
    found = [values[p] for p in (0, 64, 16, 1023)]
    yield from unless(found == [1, 9, 33, 15 + 64], f"kind 2 does not sum by rows: {found} for 1, 9, 33, 79")
    values = block_of(build.differences(0, lanes, b""))
    yield from unless(values == [p % 16 for p in range(1024)], "kind 2 at width 0 is not the lane's base")


def run_cases():
    """P10's runs, read back; then an index at the edge of what is allowed, and one past it."""
    block = build.runs([0, 0, 1] + [2] * 1021, [10, 20, 10])
    yield from unless(block_of(block) == [10, 10, 20] + [10] * 1021, "P10: kind 3 has other values")
    data = column_file([build.frame(0, b"", 7), build.with_index(block, 1023, 3)])
    yield from unless(files.check(data)[:2] == (13, 1), "an index of n is not 13 with its block")


def round_trips():
    """Packing and unpacking at every width, and differences and their sums."""
    dice = Dice("round trips")
    for width in range(65):
        values = list(struct.unpack("<1024Q", dice.bytes(8192)))
        back = layout.unpack(64, width, layout.pack(64, width, values))
        yield from unless(back == [value % 2**width for value in values], f"width {width}: values come back changed")
        words = list(struct.unpack(f"<{16 * width}Q", dice.bytes(128 * width)))
        back = layout.pack(64, width, layout.unpack(64, width, words))
        yield from unless(back == words, f"width {width}: words come back changed")
    base = [dice.number() for _ in range(16)]
    yield from unless(layout.undelta(64, layout.delta(64, values, base), base) == values, "differences come back changed")


def words_by_bits(width, row):
    """The different words in which the bits of a row stand: bit b of row r is bit width·r + b of the lane's number."""
    return {(width * row + bit) // 64 for bit in range(width)}


def words_by_packing(width, first):
    """For the 16 rows from the first on the words that hold them: in lane l only row first + l is not 0, but ones."""
    block = [0] * 1024
    for lane in range(16):
        block[layout.place(first + lane, lane)] = 2**64 - 1
    packed = layout.pack(64, width, block)
    return [{k for k in range(width) if packed[16 * k + lane]} for lane in range(16)]


def counts_of_words():
    """The count of R39 is the number of words that the bits stand in, at every width and row."""
    for width in range(65):
        packed = [found for first in (0, 16, 32, 48) for found in words_by_packing(width, first)]
        for row in range(64):
            count, found = layout.words_read(64, width, row), words_by_bits(width, row)
            yield from unless(count == len(found), f"width {width}, row {row}: the count is {count}, the words {found}")
            yield from unless(packed[row] == found, f"width {width}, row {row}: packing uses the words {packed[row]}")


def counts_by_kind():
    """The same body of width 3 in kinds 0, 1 and 2, and a run block: who gives a count. Row 672 stands in two words."""
    body, base = bytes(384), bytes(128)
    no_count = 2**64 - 1
    for name, block, row, expected in (
        ("kind 0", build.packed(3, body), 672, 2),
        ("kind 0", build.packed(3, body), 1023, 1),
        ("kind 1", build.frame(3, body, 5), 672, 2),
        ("kind 1", build.frame(3, body, 5), 0, 1),
        ("kind 1 at width 0", build.frame(0, b"", 5), 672, 0),
        ("kind 2", build.differences(3, base, body), 672, no_count),
        ("kind 2 at width 0", build.differences(0, base, b""), 672, no_count),
        ("kind 3", build.runs([0] * 1024, [5]), 672, no_count),
        ("a row that is not there", build.packed(3, body), 1024, no_count),
        ("a bad entry", build.packed(3, body).but(zero=1), 672, no_count),
    ):
        found = answered(ask_row(name, column_file([block]), row)).reference
        yield from unless(found == expected, f"{name}, row {row}: the count is {found}, and not {expected}")


def every_set_of_steps():
    for op in OF_READER:
        for way in sweeps.reads.ways():
            sets = sweeps.reads.sets_of_steps(sweeps.reads.steps_of(op), way)
            yield from ((op, way, steps) for steps in sets)


def order_of_refusals(asked):
    """Where several steps fail, the first in the order of R90 answers; and without that one, the next."""
    pairs = set()
    for op, way, steps in every_set_of_steps():
        question = sweeps.reads.faulty_question(op, steps, way)
        name = f"call {op}: {question.name}"
        yield from unless(question in asked, f"{name}: the sweep does not ask this")
        got = answered(question)[:2]
        yield from unless(got == expected_of(steps, way), f"{name}: the model gives {got}")
        rest = answered(sweeps.reads.faulty_question(op, steps[1:], way))[:2]
        yield from unless(rest == expected_of(steps[1:], way), f"{name}: without the first fault it is {rest}")
        if len(steps) == 2:
            pairs.add(tuple(int(step.split()[0]) for step in steps))
    wanted = {(2, 8), (2, 9), (2, 10), (2, 11), (2, 13), (2, 12), (8, 9), (9, 8), (8, 10), (10, 8), (8, 13), (8, 12)}
    wanted |= {(9, 10), (9, 11), (9, 13), (9, 12), (10, 11), (10, 13), (10, 12), (11, 13), (11, 12), (13, 12)}
    wanted |= {(2, 15), (8, 15), (9, 15), (10, 15), (11, 15), (15, 12)}
    yield from unless(pairs == wanted, f"the pairs of refusals are {sorted(pairs)}")


class Reads(Checked):
    def test_worked_files(self):
        self.nothing(worked_files())

    def test_packed(self):
        self.nothing(packed_cases())

    def test_frames(self):
        self.nothing(frame_cases())

    def test_differences(self):
        self.nothing(difference_cases())

    def test_runs(self):
        self.nothing(run_cases())

    def test_round_trips(self):
        self.nothing(round_trips())

    def test_counts_of_words(self):
        self.nothing(counts_of_words())

    def test_counts_by_kind(self):
        self.nothing(counts_by_kind())

    def test_order_of_refusals(self):
        self.nothing(order_of_refusals(set(questions_of(swept()))))
