"""Holds the model of the calls on drawers, and their cases, to what R66 to R68 say.

First come drawers that are worked out by hand, then every block against a packer that moves one bit at a time. Then the
cases are looked at, and last come the calls of wrong/drawers.py.
"""
from cases import sweeps, wrong
from cases.dice import Dice
from cases.stream import DRAWERS, FOR_PACK_BLOCKS, UNPACK_BLOCKS, Question, answered
from models import layout
from models.drawers import bytes_of, lengths, numbers_of, parts_of
from models.layout import SIZES
from .common import Checked, all_three, of_calls, questions_of, sample, swept, unless

NUMBERS = {0, 1, 2, 3}  # that each call can give


def called(op, t, width, blocks, given, room, reference=0):
    """What a call gives, with an output that holds marks."""
    marks = b"\xa5" * (room * t // 8)
    return answered(Question(op, "", given, c=marks, index=blocks, t=t, width=width, reference=reference))


# By hand.


def worked_drawers():
    """The cases P6 and P8 (R150), at T 8, in drawers of two and three blocks."""
    rows = b"".join(bytes((row,)) + bytes(127) for row in range(8))  # rows of lane 0 hold 0 to 7
    words = b"".join(bytes((word,)) + bytes(127) for word in (136, 198, 250))
    for name, values, packed in (
        ("P6 twice", rows * 2, words * 2),
        ("P6 and zeros", rows + bytes(1024), words + bytes(384)),
        ("zeros and P6 and ones", bytes(1024) + rows + b"\x07" * 1024, bytes(384) + words + b"\xff" * 384),
    ):
        blocks = len(values) // 1024
        outcome = called(UNPACK_BLOCKS, 8, 3, blocks, packed, len(values))
        yield from unless(outcome[:3] == (0, 0, values), f"{name}: unpack gives another outcome")
        outcome = called(FOR_PACK_BLOCKS, 8, 3, blocks, values, len(packed))
        yield from unless(outcome[:3] == (0, 0, packed), f"{name}: for_pack gives another outcome")
    # Value 3 and reference 250 make 9: at width 4 each word has it twice. At width 3 it is 1, and a lane is 11111111 in
    # octal. The second block's 250 makes 0.
    threes = b"\x03" * 1024 + b"\xfa" * 1024
    for width, lane in ((4, (0x99, 0x99, 0x99, 0x99)), (3, (0x49, 0x92, 0x24))):
        packed = b"".join(bytes((word,)) * 128 for word in lane) + bytes(128 * width)
        outcome = called(FOR_PACK_BLOCKS, 8, width, 2, threes, 256 * width, 250)
        yield from unless(outcome[:3] == (0, 0, packed), f"P8 at width {width}: for_pack gives another outcome")


def worked_widths():
    """Widths 0 and T, at every size: zeros, and the words as they are, since rows of T bits fill a word each."""
    dice = Dice("worked widths")
    for t in SIZES:
        outcome = called(UNPACK_BLOCKS, t, 0, 2, b"", 2048)
        yield from unless(outcome[:3] == (0, 0, bytes(256 * t)), f"T {t} width 0: unpack does not give zeros")
        outcome = called(FOR_PACK_BLOCKS, t, 0, 2, dice.bytes(256 * t), 0)
        yield from unless(outcome[:3] == (0, 0, b""), f"T {t} width 0: for_pack gives another outcome")
        lanes = 1024 // t
        rows = [(layout.ORDER[row // 8] * 16 + row % 8 * 128) * t // 8 for row in range(t)]  # the first byte of each
        values = dice.bytes(256 * t)
        blocks = values[: 128 * t], values[128 * t :]
        packed = b"".join(block[at : at + lanes * t // 8] for block in blocks for at in rows)
        outcome = called(UNPACK_BLOCKS, t, t, 2, packed, 2048)
        yield from unless(outcome[:3] == (0, 0, values), f"T {t} width T: unpack does not copy by rows")
        outcome = called(FOR_PACK_BLOCKS, t, t, 2, values, 2048)
        yield from unless(outcome[:3] == (0, 0, packed), f"T {t} width T: for_pack does not copy by rows")


def worked_refusals():
    """T, width, M, count of values and of packed words, with the number that both calls give."""
    for t, width, blocks, values, packed, expected in (
        (8, 0, 0, 0, 0, 0),
        (8, 8, 0, 0, 0, 0),
        (8, 9, 0, 0, 0, 1),
        (64, 65, 0, 0, 0, 1),
        (64, 65535, 0, 0, 0, 1),
        (8, 9, 1, 1024, 1152, 1),
        (8, 9, 257, 1, 1, 1),
        (16, 3, 0, 1, 0, 2),
        (16, 3, 0, 0, 1, 3),
        (16, 3, 0, 1024, 192, 2),
        (16, 3, 1, 0, 0, 2),
        (16, 3, 1, 1023, 192, 2),
        (16, 3, 1, 1025, 192, 2),
        (16, 3, 1, 1024, 191, 3),
        (16, 3, 1, 1024, 193, 3),
        (16, 3, 1, 1024, 0, 3),
        (16, 3, 1, 1024, 192, 0),
        (16, 3, 1, 1023, 191, 2),
        (16, 3, 2, 1024, 384, 2),
        (16, 3, 2, 2048, 192, 3),
        (16, 3, 2, 2048, 384, 0),
        (32, 0, 3, 3072, 0, 0),
        (32, 0, 3, 3072, 1, 3),
        (64, 64, 3, 3072, 3072, 0),
        (64, 64, 3, 3072, 3071, 3),
        (8, 0, 255, 261120, 0, 0),
        (8, 0, 256, 262144, 0, 0),
        (8, 0, 257, 263168, 0, 2),
        (8, 1, 257, 263168, 32896, 2),
        (8, 1, 257, 0, 0, 2),
        (64, 0, 2**54, 0, 0, 2),
        (64, 64, 2**54, 0, 0, 2),
        (64, 64, 2**54 + 1, 1024, 1024, 2),
        (32, 1, 2**61, 0, 0, 2),
        (32, 33, 2**61, 0, 0, 1),
        (8, 8, 2**64 - 1, 0, 0, 2),
    ):
        for op in DRAWERS:
            taken, room = (packed, values) if op == UNPACK_BLOCKS else (values, packed)
            outcome = called(op, t, width, blocks, bytes(taken * t // 8), room)
            name = f"call {op} at T {t}, width {width}, M {blocks}, {values} values and {packed} words"
            yield from unless(outcome.number == expected, f"{name}: the number is {outcome.number}, and not {expected}")
            rest = outcome.place, outcome.value, outcome.reference
            yield from unless(rest == (0, 0, 0), f"{name}: place, value and reference are {rest}")
            kept = outcome.c == b"\xa5" * (room * t // 8)
            yield from unless(kept == (expected != 0 or room == 0), f"{name}: the output is not as it should be")


# Block by block and one bit at a time.


def lane_and_row(t, place):
    """Of a place. The order list undoes itself, so the row's eighths come back by it."""
    lane = place % 128 % (1024 // t)
    return lane, 8 * layout.ORDER[(place % 128 - lane) // 16] + place // 128


def bits_of(t, width):
    """For each bit of each place of a block its word and its place in that word."""
    for place in range(1024):
        lane, row = lane_and_row(t, place)
        for bit in range(width):
            at = width * row + bit
            yield place, bit, 1024 // t * (at // t) + lane, at % t


def packed_by_bits(t, width, values):
    words = [0] * (1024 // t * width)
    for place, bit, word, at in bits_of(t, width):
        words[word] |= (values[place] >> bit & 1) << at
    return words


def unpacked_by_bits(t, width, words):
    values = [0] * 1024
    for place, bit, word, at in bits_of(t, width):
        values[place] |= (words[word] >> at & 1) << bit
    return values


def one_by_one(t, data, of_block):
    """What is given for each of two blocks, one after the other."""
    return b"".join(bytes_of(t, of_block(numbers_of(t, block))) for block in parts_of(data, 2))


def by_bits():
    """Drawers of two blocks at widths at the edges and between, with values that do not fit and a reference."""
    dice = Dice("by bits")
    for t in SIZES:
        for width in (*sweeps.drawers.few_widths(t), t // 2 + 1):
            packed, values = dice.bytes(256 * width), dice.bytes(256 * t)
            expected = one_by_one(t, packed, lambda words: unpacked_by_bits(t, width, words))
            outcome = called(UNPACK_BLOCKS, t, width, 2, packed, 2048)
            yield from unless(outcome.c == expected, f"T {t} width {width}: unpack differs from one bit at a time")
            reference = dice.below(2**t)

            def framed(numbers):
                return packed_by_bits(t, width, [(number + 2**t - reference) % 2**t for number in numbers])

            expected = one_by_one(t, values, framed)
            outcome = called(FOR_PACK_BLOCKS, t, width, 2, values, len(packed) * 8 // t, reference)
            yield from unless(outcome.c == expected, f"T {t} width {width}: for_pack differs from one bit at a time")


def layout_by_bits():
    """At T 64, which column files have, layout.py packs and unpacks as one bit at a time does, at every width."""
    dice = Dice("as layout has it")
    for width in range(65):
        values, packed = numbers_of(64, dice.bytes(8192)), numbers_of(64, dice.bytes(128 * width))
        same = packed_by_bits(64, width, values) == layout.pack(64, width, values)
        same = same and unpacked_by_bits(64, width, packed) == layout.unpack(64, width, packed)
        yield from unless(same, f"width {width}: layout.py differs from one bit at a time")


def round_trips():
    """for_pack, then unpack and the reference added: values that fit come back, and of others the low bits do."""
    dice = Dice("round trips of drawers")
    for t in SIZES:
        for width in range(t + 1):
            blocks, reference = 1 + width % 3, dice.below(2**t)
            thrown = numbers_of(t, dice.bytes(128 * t * blocks))
            fitting = [(reference + number % 2**width) % 2**t for number in thrown]
            low = [(reference + (number - reference) % 2**t % 2**width) % 2**t for number in thrown]
            for name, values, expected in (("values that fit", fitting, fitting), ("values", thrown, low)):
                words = lengths(t, width, blocks)[1]
                packed = called(FOR_PACK_BLOCKS, t, width, blocks, bytes_of(t, values), words, reference).c
                back = numbers_of(t, called(UNPACK_BLOCKS, t, width, blocks, packed, 1024 * blocks).c)
                restored = [(reference + number) % 2**t for number in back]
                yield from unless(restored == expected, f"T {t} width {width}: {name} come back as others")


# The cases.


def order_of_reasons(swept):
    """Of several reasons the one with the lowest number answers, and the sweep asks for every set of them."""
    asked = set(swept)
    for op, t in sweeps.drawers.every_call():
        for reasons in sweeps.drawers.sets_of_reasons():
            for way in sweeps.drawers.ways_of(reasons):
                question = sweeps.drawers.faulty_drawer(op, t, reasons, way)
                got = answered(question)[:2]
                name = f"call {op}: {question.name}"
                yield from unless(got == (min(reasons, default=0), 0), f"{name}: the model gives {got}")
                yield from unless(question in asked, f"{name}: the sweep does not ask this")


def outputs_change(name, asked):
    """Each block of an output that is not empty changes where the call is done."""
    for question, outcome in asked:
        if not outcome.number and question.index:
            before, after = parts_of(question.c, question.index), parts_of(outcome.c, question.index)
            same = [i for i in range(question.index) if before[i] and before[i] == after[i]]
            yield from unless(not same, f"{name}, {question.name}: the blocks {same} would not change")


def numbers_reached(name, asked, by_size=True):
    """Every number that a call can give, at every size where that is wanted."""
    for op in DRAWERS:
        for sizes in [(t,) for t in SIZES] if by_size else [SIZES]:
            found = {outcome.number for question, outcome in asked if question.op == op and question.t in sizes}
            yield from unless(found == NUMBERS, f"{name}: call {op} at T {sizes} gives the numbers {sorted(found)}")


def what_is_done(name, asked, counts, widths):
    """Each call is done at every size with these counts of blocks and widths."""
    for op, t in sweeps.drawers.every_call():
        done = [question for question, outcome in asked if (question.op, question.t, outcome.number) == (op, t, 0)]
        missing = set(counts(t)) - {question.index for question in done}
        yield from unless(not missing, f"{name}: call {op} at T {t} is not done with M {sorted(missing)}")
        missing = set(widths(t)) - {question.width for question in done if question.index}
        yield from unless(not missing, f"{name}: call {op} at T {t} is not done at widths {sorted(missing)}")


OFF = ("a block short", "one short", "one long", "a block long")


def off_by(which, more, block):
    """In words how a buffer is off, where that is by one or by a block."""
    return {f"{which} {by}" for by, length in zip(OFF, (-block, -1, 1, block)) if more == length}


def what_is_refused(asked):
    """The sweep has each buffer off by one and by a block, alone; widths just above T and far; and counts too high."""
    for op, t in sweeps.drawers.every_call():
        off, high, wide = set(), set(), set()
        for question, outcome in asked:
            if (question.op, question.t) != (op, t) or not outcome.number:
                continue
            values, packed = wrong.drawers.counts(question)
            values_asked, packed_asked = lengths(t, question.width, question.index)
            if outcome.number == 1:
                wide.add(question.width)
            elif question.index > 256:
                high.add(question.index)
            elif packed == packed_asked:
                off |= off_by("values", values - values_asked, 1024)
            elif values == values_asked:
                off |= off_by("packed", packed - packed_asked, lengths(t, question.width, 1)[1])
        wanted = {f"{which} {by}" for which in ("values", "packed") for by in OFF}
        yield from unless(off == wanted, f"call {op} at T {t}: lengths are never off by {sorted(wanted - off)}")
        many = {257, 2**54, 2**61, 2**64 - 1}
        yield from unless(many <= high, f"call {op} at T {t}: M is never {sorted(many - high)}")
        yield from unless({t + 1, 256, 65535} <= wide, f"call {op} at T {t}: the widths above T are {sorted(wide)}")


def wrong_ones_told(sample, asked):
    """The sample and the sweep find out every wrong call, and not the right one."""
    few = [question for question, _ in sample]
    refused = [question for question, outcome in asked if outcome.number]
    done = [question for question, outcome in asked if not outcome.number and question.index < 4]
    limit = [question for question, _ in asked if question.index > 254]
    at_length, at_limit = map(wrong.drawers.for_both, (wrong.drawers.WRONG_AT_LENGTH, wrong.drawers.WRONG_AT_LIMIT))
    for name, questions, calls, sizes in (
        ("sample", few, wrong.drawers.WRONG_BLOCKS, (8, 16)),
        ("sweep", done, wrong.drawers.WRONG_BLOCKS, SIZES),
        ("sample", few, wrong.drawers.for_both(wrong.drawers.WRONG_ANSWERS), SIZES),
        ("sample", few, at_length, (8,)),
        ("sweep", refused, at_length, SIZES),
        ("sweep", limit, at_limit, SIZES),
    ):
        for said in wrong.drawers.not_told(questions, calls, sizes):
            yield f"the {name} does not find out a wrong call: {said}"
    right = list(wrong.drawers.not_told(few, wrong.drawers.for_both({"no fault": answered})))
    yield from unless(len(right) == 8, "the sample finds out the right call")


class Drawers(Checked):
    def test_worked_drawers(self):
        self.nothing(worked_drawers())

    def test_worked_widths(self):
        self.nothing(worked_widths())

    def test_worked_refusals(self):
        self.nothing(worked_refusals())

    def test_by_bits(self):
        self.nothing(by_bits())

    def test_layout_by_bits(self):
        self.nothing(layout_by_bits())

    def test_round_trips(self):
        self.nothing(round_trips())

    def test_order_of_reasons(self):
        self.nothing(order_of_reasons(questions_of(of_calls(swept(), DRAWERS))))

    def test_cases(self):
        for name, asked in all_three(DRAWERS):
            with self.subTest(name):
                self.nothing(outputs_change(name, asked))
                self.nothing(numbers_reached(name, asked, name != "mixed"))

    def test_what_the_sweep_does(self):
        asked = of_calls(swept(), DRAWERS)
        self.nothing(what_is_done("sweep", asked, lambda t: (0, 1, 2, 3, 16, 256), lambda t: range(t + 1)))
        self.nothing(what_is_refused(asked))

    def test_what_the_sample_does(self):
        counts, widths = {8: (0, 1, 2), 16: (0, 1, 2)}, {8: (0, 3, 8), 16: (0, 3, 16)}
        few = of_calls(sample(), DRAWERS)
        self.nothing(what_is_done("sample", few, lambda t: counts.get(t, (0,)), lambda t: widths.get(t, (3,))))

    def test_wrong_ones(self):
        self.nothing(wrong_ones_told(of_calls(sample(), DRAWERS), of_calls(swept(), DRAWERS)))
