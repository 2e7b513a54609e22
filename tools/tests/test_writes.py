"""Holds the model of the writer, and the cases of writes, to what R99 to R105 say.

First come files that are worked out by hand. Then everything that the sweep writes is read back, and every body that
would be preferred is tried and has to fail. Last come the writers of wrong/writers.py.
"""
from typing import NamedTuple

from cases import mixed, shapes, sweeps, wrong
from cases.dice import Dice
from cases.shapes import TOP, along_rows
from cases.stream import BLOCK_OUT, CHECK, ROW_LOOKUP, WRITE, Question, answered
from models import build, files, layout, writer
from models.files import DIFFERENCES, FRAME, PACKED
from .common import Checked, questions_of, sample, swept, unless

ENTRY_BYTES, MOST_BYTES = 32, 8224  # of a block's entry, and of all of it


# Files by hand. Each block has its numbers, the first eight bytes of its entry, its reference and its body.


def every_lane(number):
    """A packed body in which each lane's whole number is the one that these bytes make, lowest first."""
    return b"".join(number[k : k + 8] * 16 for k in range(0, len(number), 8))


def falling_number():
    """At width 6, 63 down to 0 by rows."""
    return sum((63 - row) * 64**row for row in range(64)).to_bytes(48, "little")


ONES_FROM_ROW_1 = (2**64 - 2).to_bytes(8, "little")  # at width 1
P6 = bytes((136, 198, 250)) * 8  # the words of P6 (R150), 0 to 7 by rows at width 3, eight times over
ONES_IN_ODD_LANES = build.words([0, TOP] * 8)  # at width 1
FOUR_BASES = build.words([4, 5, 6, 7] * 4)

WORKED = {
    "zeros": ([0] * 1024, "00 00 00 00  00 00 00 00", 0, b""),
    "sevens": ([7] * 1024, "01 00 00 00  00 00 00 00", 7, b""),
    "all 2^64 - 1": ([TOP] * 1024, "01 00 00 00  00 00 00 00", TOP, b""),
    # Here kinds 0 and 1 are equally short. In the second the smallest is not 0, and the reference is 0 all the same.
    "0 to 7 by rows": (along_rows(lambda r, l: r % 8), "00 03 00 00  80 01 00 00", 0, every_lane(P6)),
    "1 and 3 by rows": (along_rows(lambda r, l: 1 + r % 2 * 2), "00 02 00 00  00 01 00 00", 0, b"\xdd" * 256),
    "falling": (along_rows(lambda r, l: 63 - r), "00 06 00 00  00 03 00 00", 0, every_lane(falling_number())),
    "250 to 257 by rows": (along_rows(lambda r, l: 250 + r % 8), "01 03 00 00  80 01 00 00", 250, every_lane(P6)),
    "257 to 250 by rows": (
        along_rows(lambda r, l: 257 - r % 8),
        "01 03 00 00  80 01 00 00",
        250,
        every_lane(bytes((255 - 136, 255 - 198, 255 - 250)) * 8),
    ),
    "lanes rising by 1": (
        along_rows(lambda r, l: 1000 * l + r),
        "02 01 00 00  00 01 00 00",
        0,
        build.words(range(0, 16000, 1000)) + every_lane(ONES_FROM_ROW_1),
    ),
    "rising by 1 across 0": (
        along_rows(lambda r, l: r - 31),
        "02 01 00 00  00 01 00 00",
        0,
        build.words([2**64 - 31] * 16) + every_lane(ONES_FROM_ROW_1),
    ),
    # Each difference is 2^64 - 1, so all three need width 64, at which word k of a lane is its row k.
    "falling by 1 across 0": (
        along_rows(lambda r, l: 31 - r),
        "00 40 00 00  00 20 00 00",
        0,
        b"".join(build.words([(31 - row) % 2**64] * 16) for row in range(64)),
    ),
    # Least widths 1, 1 and 0: three bodies of 128 bytes. Then 3, 1 and 0: kinds 1 and 2 have 128. Then 2, 1 and 1: kind
    # 1 has 128 bytes, kinds 0 and 2 have 256. Then 3, 2 and 0: kind 2 alone has 128.
    "0 and 1 by lanes": (along_rows(lambda r, l: l % 2), "00 01 00 00  80 00 00 00", 0, ONES_IN_ODD_LANES),
    "6 and 7 by lanes": (along_rows(lambda r, l: 6 + l % 2), "01 01 00 00  80 00 00 00", 6, ONES_IN_ODD_LANES),
    "2, and 3 from row 32 on": (
        along_rows(lambda r, l: 2 + r // 32),
        "01 01 00 00  80 00 00 00",
        2,
        every_lane(bytes.fromhex("00 00 00 00 ff ff ff ff")),
    ),
    "4 to 7 by lanes": (along_rows(lambda r, l: 4 + l % 4), "02 00 00 00  80 00 00 00", 0, FOUR_BASES),
}


def by_hand(blocks):
    """The file of some of these blocks, in edition 2."""
    head = bytes((2, 0, len(blocks), 0))
    entries = []
    for values, fields, reference, _ in blocks:
        entries.append(bytes.fromhex(fields) + build.words((reference, sorted(values)[0], sorted(values)[-1])))
    return head + b"".join(entries) + b"".join(body for *_, body in blocks)


def worked_writes():
    none = bytes((2, 0, 0, 0))
    yield from unless(writer.write([], 4)[1] == none, "no numbers: not the file of no blocks")
    for name, block in WORKED.items():
        data = by_hand([block])
        answer, found = writer.write(block[0], len(data))
        yield from unless(answer == writer.WRITTEN, f"{name}: the model gives {answer}")
        yield from unless(found == data, f"{name}: the model writes {(found or b'nothing')[:20].hex(' ')} and so on")
        entry = files.entry_at(data, 0)
        narrower = [width for width in range(entry.width) if restores(entry.kind, width, block[0])]
        yield from unless(not narrower, f"{name}: the block is restored at widths {narrower} too")
    together = by_hand(list(WORKED.values()))
    values = [number for block in WORKED.values() for number in block[0]]
    yield from unless(writer.write(values, len(together))[1] == together, "the worked blocks in one file: another file")


def worked_refusals():
    """Counts and outputs, with the number and the value that the call gives."""
    sevens, zeros = [7] * 1025, [0] * (257 * 1024)
    one, all_256 = 4 + ENTRY_BYTES, 4 + 256 * ENTRY_BYTES  # the files of blocks without a body
    for values, room, expected in (
        ([], 0, (14, 0)),
        ([], 3, (14, 0)),
        ([], 4, (0, 4)),
        ([], 5, (0, 4)),
        (sevens[:1], 0, (2, 0)),
        (sevens[:1], 100, (2, 0)),
        (sevens[:1023], 0, (2, 0)),
        (sevens[:1023], 9000, (2, 0)),
        (sevens[:1024], 0, (14, 0)),
        (sevens[:1024], one - 1, (14, 0)),
        (sevens[:1024], one, (0, one)),
        (sevens[:1024], MOST_BYTES + 3, (0, one)),
        (sevens, 0, (2, 0)),
        (sevens, 9000, (2, 0)),
        (zeros[:262143], 9000, (2, 0)),
        (zeros[:262144], all_256 - 1, (14, 0)),
        (zeros[:262144], all_256, (0, all_256)),
        (zeros[:262145], 9000, (2, 0)),
        (zeros, 0, (2, 0)),
        (zeros, 9000, (2, 0)),
    ):
        before = b"\xa5" * room
        outcome = answered(Question(WRITE, "", build.words(values), c=before))
        name = f"{len(values)} numbers into {room} bytes"
        given = outcome.number, outcome.value
        yield from unless(given == expected and outcome.place == 0, f"{name}: number and value are {given}")
        stays = outcome.c[given[1] :] == before[given[1] :] and len(outcome.c) == room
        yield from unless(stays, f"{name}: the output is not kept where nothing is written")


# What the sweep writes.


def restores(kind, width, values):
    """Does the reader give these numbers back, when they are packed in this kind at this width?"""
    low, base = min(values), values[:16]  # row 0 of lane l stands at place l
    if kind == DIFFERENCES:
        block = build.differences(width, build.words(base), build.packed_bytes(width, layout.delta(64, values, base)))
    elif kind == FRAME:
        block = build.frame(width, build.packed_bytes(width, [value - low for value in values]), low)
    else:
        block = build.packed(width, build.packed_bytes(width, values))
    return files.values_in(kind, width, block.entry.reference, block.body) == list(values)


def preferred(entry):
    """For each kind the widest body that would have been chosen before this one: shorter, or as long and lower."""
    for kind in (PACKED, FRAME, DIFFERENCES):
        most = entry.length // 128 - (0 if kind < entry.kind else 1)  # of 128 bytes
        width = most - (1 if kind == DIFFERENCES else 0)
        if width >= 0:
            yield kind, min(width, 64)


class Written(NamedTuple):
    """The first write that is done of some numbers."""

    name: str
    numbers: bytes
    data: bytes  # the file


def all_written(questions):
    found = {}
    for question in questions:
        if question.op == WRITE and question.a not in found:
            outcome = answered(question)
            if not outcome.number:
                found[question.a] = Written(question.name, question.a, outcome.c[: outcome.value])
    return list(found.values())


def blocks_written(written):
    """The blocks of what is written, each once: its name, its numbers, its entry and its body."""
    seen = set()
    for name, numbers, data in written:
        for i, (entry, body) in enumerate(zip(files.entries_of(data), files.bodies_of(data))):
            block = numbers[8192 * i : 8192 * i + 8192]
            if block not in seen:
                seen.add(block)
                yield f"{name}, block {i}", files.words_of(block), entry, body


def reads_back(written):
    """The reader gives back what was written, and no body that would be preferred does."""
    taken = [one for one in written if files.check(one.data) == files.ACCEPTED]
    yield from (f"{one.name}: the model's reader does not take the file" for one in written if one not in taken)
    for name, numbers, data in taken:
        blocks = len(numbers) // 8192
        yield from unless(files.count_of(data) == blocks, f"{name}: the file has {files.count_of(data)} blocks")
        yield from unless(files.edition_of(data) == 2, f"{name}: the file has another edition")
        yield from unless(len(data) <= 4 + MOST_BYTES * blocks, f"{name}: the file is longer than it may be")
    for name, values, entry, body in blocks_written(taken):
        yield from unless(files.block_values(entry, body) == list(values), f"{name}: other numbers are read")
        ends = sorted(values)[:: len(values) - 1]
        yield from unless([entry.smallest, entry.largest] == ends, f"{name}: smallest and largest are not {ends}")
        for kind, width in preferred(entry):
            said = f"{name} has kind {entry.kind} width {entry.width}, and kind {kind} width {width} restores it"
            yield from unless(not restores(kind, width, values), said)


def goes_back(swept, written):
    """Every file that is written stands in a check, a block out and a row lookup of the sweep."""
    asked = {(question.op, question.a) for question in swept}
    for name, _, data in written:
        missing = [op for op in (CHECK, BLOCK_OUT, ROW_LOOKUP) if (op, data) not in asked]
        yield from unless(not missing, f"{name}: the file is not given to the calls {missing}")


def sign(number):
    return (number > 0) - (number < 0)


# How the lengths of kinds 0 and 1, of 0 and 2, and of 1 and 2 stand to each other; shapes.py says why in no other way.
ORDERS = {(0, 0, 0), (0, -1, -1), (0, 1, 1), (1, -1, -1), (1, 0, -1), (1, 1, -1), (1, 1, 0), (1, 1, 1)}


def what_is_chosen(written):
    """Every kind at every width that can be, and every order of the lengths; and nothing that shapes.py shuts out."""
    found, orders = set(), set()
    for name, values, entry, _ in blocks_written(written):
        found.add((entry.kind, entry.width))
        three = writer.candidates(values)
        n0, n1, n2 = (one.length for one in three)
        orders.add((sign(n0 - n1), sign(n0 - n2), sign(n1 - n2)))
        widths = [one.width for one in three]
        yield from unless(shapes.can_be(*widths), f"{name}: least widths {widths}, which cannot be")
    wanted = {(kind, width) for kind, most in enumerate(shapes.MOST_WIDTH) for width in range(most + 1)}
    missing, others = sorted(wanted - found), sorted(found - wanted)
    yield from unless(found == wanted, f"the sweep's writes have no {missing}, and have {others}")
    yield from unless(orders == ORDERS, f"the sweep's writes have the orders {sorted(orders)}")


def room_words(room, size, bound):
    """How an output of this room stands to a file of this size."""
    return {
        "empty": room == 0,
        "one short": room == size - 1,
        "exact": room == size,
        "one long": room == size + 1,
        "between the file and the bound": size < room < bound,
        "beyond the bound": room > bound,
    }


def what_is_asked(swept, written):
    """Counts at the edges, and outputs that are short, exact and long."""
    sizes = {numbers: len(data) for _, numbers, data in written}
    counts, rooms = set(), set()
    for question in swept:
        if question.op == WRITE:
            count = len(question.a) // 8
            counts.add(count)
            if question.a in sizes:
                words = room_words(len(question.c), sizes[question.a], 4 + MOST_BYTES * count // 1024)
                rooms |= {word for word, so in words.items() if so}
    wanted = {0, 1, 1023, 1024, 1025, 2047, 2049, 3072, 262143, 262144, 262145, 263168}
    yield from unless(wanted <= counts, f"the sweep writes no {sorted(wanted - counts)} numbers")
    yield from unless(rooms == set(room_words(0, 0, 0)), f"the sweep's outputs are only {sorted(rooms)}")


def shapes_as_said():
    """Shapes that are made for a kind and a width, or for three widths, have them."""
    dice = Dice("shapes")
    for kind, most in enumerate(shapes.MOST_WIDTH):
        for width in range(most + 1):
            for block in shapes.BY_KIND[kind](dice, width):
                one = writer.chosen(writer.candidates(block))
                yield from unless((one.kind, one.width) == (kind, width), f"for kind {kind} width {width}: {one[:3]}")
    for widths in sweeps.writes.near_ties(sweeps.writes.FEW_WIDTHS):
        found = tuple(one.width for one in writer.candidates(shapes.with_widths(dice, *widths)))
        yield from unless(found == widths, f"for least widths {widths}: {found}")
    for name, block in sweeps.writes.outliers(dice):
        one = writer.chosen(writer.candidates(block))
        wanted = (DIFFERENCES, 3) if " step " in name else (FRAME, 4)
        yield from unless((one.kind, one.width) == wanted, f"{name}: kind and width are not {wanted}: {one[:3]}")


def wrong_ones_told(sample):
    """The sample finds out every wrong writer, and not the right one."""
    for name in wrong.writers.not_told(sample, wrong.writers.WRONG_PARTS, wrong.writers.WRONG_CALLS):
        yield f"the sample does not find out a wrong writer: {name}"
    right = list(wrong.writers.not_told(sample, {"no part": {}}, {"no call": answered}))
    yield from unless(right == ["no part", "no call"], "the sample finds out the right writer")


class Writes(Checked):
    @classmethod
    def setUpClass(cls):
        cls.written = all_written(questions_of(swept()))

    def test_worked_writes(self):
        self.nothing(worked_writes())

    def test_worked_refusals(self):
        self.nothing(worked_refusals())

    def test_shapes(self):
        self.nothing(shapes_as_said())

    def test_reads_back(self):
        self.nothing(reads_back(self.written))

    def test_random_ones_read_back(self):
        self.nothing(reads_back(all_written(mixed.writes.writes(1, 100))))

    def test_goes_back(self):
        self.nothing(goes_back(questions_of(swept()), self.written))

    def test_what_is_chosen(self):
        self.nothing(what_is_chosen(self.written))

    def test_what_is_asked(self):
        self.nothing(what_is_asked(questions_of(swept()), self.written))

    def test_wrong_ones(self):
        self.nothing(wrong_ones_told(questions_of(sample())))
