"""The deliberate cases of the renumbering: chains, exchanges, pairs of equal numbers and lists of every length; numbers at
and about the range of a block, among the old ones and among the new ones; every refusal at the first place, in the middle
and at the last; every two refusals at once; outputs that are one short and exact.

Each section is a function that gives questions, as in reads.py. They have files of both editions.
"""
from cases import encodings, shapes
from cases.ask import ask_renumber, ask_renumbered
from cases.dice import Dice
from models import files, renumber, writer
from models.build import any_block, any_runs, column_file, frame
from models.files import DIFFERENCES, FRAME, PACKED, TOP
from models.renumber import Lists, lists_of, order_of
from . import reads
from .reads import STEPS, has_runs, mixed_blocks

EDITIONS = (1, 2)
LOWS = (10, 100, 1000)  # the smallest of each block of a spaced file
FAR = 5000  # above every number of a spaced file
NOWHERE = 77  # between the blocks of a spaced file; no row has it, and neither the numbers next to it


def spaced(low):
    """A block of the numbers low, low + 2, low + 4 and low + 6, so that there are numbers between that no row has."""
    return [low + 2 * (place % 4) for place in range(1024)]


def spaced_file(edition, lows=LOWS, kinds=(FRAME, PACKED, DIFFERENCES)):
    return column_file([encodings.as_kind(kind, spaced(low)) for low, kind in zip(lows, kinds)], edition)


def all_spaced(lows=LOWS):
    """Every number of a spaced file, rising."""
    return [low + step for low in lows for step in (0, 2, 4, 6)]


def in_a_ring(numbers):
    """Each number becomes the next one, and the last the first."""
    return list(zip(numbers, [*numbers[1:], numbers[0]]))


# What is done.

PAIRS = {
    "no pairs": [],
    "the first number": [(10, 9)],
    "the last number": [(1006, 1007)],
    "a number of the middle block": [(104, 105)],
    "a number of the middle block to the front": [(104, 3)],
    "a number of the first block to the end": [(12, FAR)],
    "a pair that no row has": [(NOWHERE, 78)],
    "a pair below every row": [(3, 4)],
    "a pair above every row": [(FAR, FAR + 1)],
    "pairs between the rows of a block": [(101, 103), (103, 105)],
    "a number listed beside those that no row has": [(101, 99), (102, 101), (103, 109)],
    "a chain of two": [(10, 12), (12, 13)],
    "a chain of two, written from its end": [(12, 10), (10, 9)],
    "a chain through the blocks": [(10, 100), (100, 1000), (1000, 1)],
    "a chain by a number that no row has": [(10, 11), (11, 12), (12, 13)],
    "a chain that goes back through the blocks": [(1006, 106), (106, 16), (16, 20)],
    "an exchange": [(10, 12), (12, 10)],
    "an exchange between blocks": [(14, 1004), (1004, 14)],
    "an exchange with a number that no row has": [(14, NOWHERE), (NOWHERE, 14)],
    "two exchanges": [(10, 1006), (1006, 10), (102, 104), (104, 102)],
    "a ring of all": in_a_ring(all_spaced()),
    "a ring of all, the other way": in_a_ring(all_spaced()[::-1]),
    "all turned round": list(zip(all_spaced(), all_spaced()[::-1])),
    "a pair of equal numbers": [(102, 102)],
    "a pair of equal numbers that no row has": [(NOWHERE, NOWHERE)],
    "every pair equal": [(number, number) for number in all_spaced()],
    "equal pairs among others": [(10, 10), (12, 7), (102, 102), (104, 8), (1006, 1006)],
    "every number, by one more": [(number, number + 1) for number in all_spaced()],
    "every number, far away": [(number, TOP - number) for number in all_spaced()],
    "to 0 and to 2^64 - 1": [(12, 0), (1002, TOP)],
    "across 2^63": [(12, 2**63), (14, 2**63 - 1)],
    "more pairs than numbers": [(number, FAR + number) for number in range(1, 1010)],
}


def renumber_pairs(dice):
    """Pairs by name, on files whose blocks are of the three kinds."""
    for edition in EDITIONS:
        data = spaced_file(edition)
        for name, pairs in PAIRS.items():
            yield ask_renumbered(dice, f"edition {edition}, {name}", data, lists_of(pairs), dice.below(3))


def renumber_ranges(dice):
    """A number at and about each end of each block's range, once as the old one and once as the new one of a pair that
    no row has; and two numbers of which one is below the range and one above it."""
    for edition in EDITIONS:
        data = spaced_file(edition)
        for low in LOWS:
            for number in (low - 1, low, low + 1, low + 3, low + 5, low + 6, low + 7):
                name = f"edition {edition}, {number}"
                yield ask_renumbered(dice, f"{name} is old", data, lists_of([(number, FAR)]), 1)
                yield ask_renumbered(dice, f"{name} is new", data, lists_of([(NOWHERE, number)]), 1)
                yield ask_renumbered(dice, f"{name} stays", data, lists_of([(number, number)]), 1)
            around = low - 1, low + 7
            name = f"edition {edition}, about {low} to {low + 6}"
            yield ask_renumbered(dice, f"{name}, old", data, lists_of(zip(around, (FAR, FAR + 1))))
            yield ask_renumbered(dice, f"{name}, new", data, lists_of(zip((NOWHERE, NOWHERE + 1), around)))


def renumber_edges(dice):
    """The smallest and the largest number that there are, and those about 2^63, in the rows, the old and the new ones."""
    ends = (0, 1, 2**63 - 1, 2**63, TOP - 1, TOP)
    for edition in EDITIONS:
        blocks = [frame(0, b"", number) for number in ends]
        data = column_file(blocks, edition)
        yield ask_renumbered(dice, f"edition {edition}, a ring of the ends", data, lists_of(in_a_ring(ends)), 1)
        yield ask_renumbered(dice, f"edition {edition}, the ends stay", data, lists_of(zip(ends, ends)), 1)
        for number in ends:
            yield ask_renumbered(dice, f"edition {edition}, {number} is old", data, lists_of([(number, NOWHERE)]))
            yield ask_renumbered(dice, f"edition {edition}, {number} is new", data, lists_of([(NOWHERE, number)]))


def renumber_lengths(dice):
    """Lists of many lengths, so that halving ends at every sort of place: each number of a block is the old number of a
    pair, or stands between two of them, below the first one or above the last."""
    rising = shapes.by_place(lambda place: 1000 + place)
    data = {edition: column_file([encodings.as_frame(rising)], edition) for edition in EDITIONS}
    for count in (1, 2, 3, 4, 5, 7, 8, 9, 31, 32, 33, 511, 512, 513, 1023, 1024):
        edition = dice.pick(EDITIONS)
        step = 1024 // count
        old = [1000 + step * i + dice.below(step) for i in range(count)]
        name = f"edition {edition}, {count} pairs"
        away = [2**30 + 5 * number for number in old]
        yield ask_renumbered(dice, f"{name} far away", data[edition], lists_of(zip(old, away)), 1)
        yield ask_renumbered(dice, f"{name} turned round", data[edition], lists_of(zip(old, old[::-1])), 1)
        yield ask_renumbered(dice, f"{name} in a ring", data[edition], lists_of(in_a_ring(old)), 1)
    for count in (1025, 2048, 4000):
        edition = dice.pick(EDITIONS)
        pairs = [(number, 10**6 - number) for number in range(count)]
        yield ask_renumbered(dice, f"edition {edition}, more pairs than rows", data[edition], lists_of(pairs), 1)
        pairs = [(10**6 + number, 2 * 10**6 - number) for number in range(count)]
        yield ask_renumbered(dice, f"edition {edition}, pairs that no row has", data[edition], lists_of(pairs), 1)


def renumber_kinds(dice):
    """Blocks of few numbers that become others, so that the new file has every kind and many widths; and blocks with
    anything in them, of which some numbers are listed."""
    lanes = shapes.along_rows(lambda row, lane: lane)
    rows = shapes.along_rows(lambda row, lane: row)
    for edition in EDITIONS:
        for kind in (PACKED, FRAME, DIFFERENCES):
            data = column_file([encodings.as_kind(kind, lanes), encodings.as_kind(kind, rows)], edition)
            for width in (0, 1, 7, 40, 58):
                far = [(number, number * 2**width + dice.below(2**width)) for number in range(16, 64)]
                pairs = [(number, 2**60 + number * 2**width) for number in range(16)] + far
                name = f"edition {edition}, kind {kind} by 2^{width}"
                yield ask_renumbered(dice, name, data, lists_of(pairs), dice.below(2))
        blocks = [any_block(dice, kind, 3) for kind in (PACKED, FRAME, DIFFERENCES)]
        blocks += [any_runs(dice, 5)] if has_runs(edition) else []
        data = column_file(blocks, edition)
        numbers = sorted({number for block in range(len(blocks)) for number in files.values_of(data, block)[:20]})
        pairs = list(zip(numbers, numbers[::-1]))
        yield ask_renumbered(dice, f"edition {edition}, anything, turned round", data, lists_of(pairs), 1)
        yield ask_renumbered(dice, f"edition {edition}, anything, no pairs", data, lists_of([]), 1)


def renumber_counts(dice):
    """No blocks, with lists and without; 256 blocks, of which the last one alone meets the list, as an old number, as a
    new one, and as one that becomes another's; and files of mixed kinds."""
    for edition in EDITIONS:
        none = column_file([], edition)
        for room in (0, 3, 4, 9):
            yield ask_renumber(dice, f"edition {edition}, no blocks", none, lists_of([]), room)
            yield ask_renumber(dice, f"edition {edition}, no blocks", none, lists_of([(1, 2), (2, 1)]), room)
        yield ask_renumber(dice, f"edition {edition}, no blocks", none, Lists((1,), (), ()), 4)
        many = column_file([frame(0, b"", 2 * i) for i in range(256)], edition)
        for pairs in ([], [(510, 1)], [(0, 1), (510, 3)], [(510, 510)], [(1, 510)], in_a_ring(range(0, 512, 2))):
            yield ask_renumbered(dice, f"edition {edition}, 256 blocks", many, lists_of(pairs), 1)
        mixed = column_file(mixed_blocks(dice, edition), edition)
        for block in range(files.count_of(mixed)):
            number = files.values_of(mixed, block)[5]
            pairs = lists_of([(number, number ^ 2**63)])
            yield ask_renumbered(dice, f"edition {edition}, a number of block {block} of mixed kinds", mixed, pairs)


def renumber_rooms(dice):
    """Every length of the output for files that become longer and shorter; what stands behind the new file is a mark."""
    for edition in EDITIONS:
        for name, pairs in (("longer", [(12, 2**40)]), ("shorter", [(10, 12), (14, 16), (12, 0), (16, 1)]), ("as it is", [])):
            data = spaced_file(edition, LOWS[:1])
            size = len(renumber.renumber(data, lists_of(pairs), 2**23)[1].file)
            bound = writer.bound([0] * 1024, 2)
            near = {size + d for d in (-128, -32, -8, -1, 0, 1, 8)} | {0, 3, 4, 5, 36, len(data), bound - 1, bound}
            for room in sorted(room for room in near if room >= 0):
                yield ask_renumber(dice, f"edition {edition}, a file that gets {name}", data, lists_of(pairs), room)


# What is refused. The lists for this have an old number for each row of a file of one block, and new ones far away.


def plain_lists(count):
    """Lists of so many pairs that are good, whose new numbers go up and down."""
    old = tuple(20 + 3 * i for i in range(count))
    new = tuple(FAR + 7 * i * 37 % 1009 for i in range(count))
    return Lists(old, new, order_of(new))


def but(numbers, changed):
    """The numbers with others at some places."""
    numbers = list(numbers)
    for place, number in changed.items():
        numbers[place] = number
    return tuple(numbers)


def ask_lists(dice, name, lists):
    """The same lists on a file of edition 1, which no pair meets, and on one of edition 2, which some do."""
    for edition, low in ((1, 3), (2, 20)):
        yield ask_renumbered(dice, f"edition {edition}, {name}", spaced_file(edition, (low,)), lists, 1)


def renumber_18(dice):
    for lengths in ((0, 0, 1), (0, 1, 0), (1, 0, 0), (0, 1, 1), (1, 0, 1), (1, 1, 0), (2, 1, 1), (1, 2, 1), (1, 1, 2)):
        lists = plain_lists(2)
        cut = Lists(*(part[:length] for part, length in zip(lists, lengths)))
        yield from ask_lists(dice, f"lengths {lengths}", cut)
    for lengths in ((9, 8, 8), (8, 9, 8), (8, 8, 9), (9, 9, 8), (9, 8, 9), (8, 9, 9), (7, 8, 9), (9, 0, 9), (0, 9, 9)):
        cut = Lists(*(part[:length] for part, length in zip(plain_lists(9), lengths)))
        yield from ask_lists(dice, f"lengths {lengths}", cut)


def renumber_19(dice):
    for count in (2, 3, 9):
        lists = plain_lists(count)
        for place in sorted({1, count // 2, count - 1}):
            for number in (lists.old[place - 1], lists.old[place - 1] - 1, 0):
                old = but(lists.old, {place: number})
                yield from ask_lists(dice, f"old number {place} of {count} is {number}", lists._replace(old=old))
    lists = plain_lists(9)
    for places in ((3, 7), (1, 8), (7, 8)):
        old = but(lists.old, {place: lists.old[place - 1] for place in places})
        yield from ask_lists(dice, f"old numbers {places} do not rise", lists._replace(old=old))
    for old in ((TOP, 0), (2**63, 2**63 - 1), (2**32, 1), (5, 5)):
        yield from ask_lists(dice, f"the old numbers are {old}", plain_lists(2)._replace(old=old))
    for old in ((0, TOP), (2**63 - 1, 2**63), (1, 2**32)):
        yield from ask_lists(dice, f"the old numbers are {old}", plain_lists(2)._replace(old=old))


def renumber_20(dice):
    """Places that are too high, in every way that could be cut to one that is not; new numbers that fall along the
    order; places that come twice; and equal new numbers, whose places have to rise, before they are refused with 21."""
    for count in (1, 2, 3, 9):
        lists = plain_lists(count)
        for place in sorted({0, count // 2, count - 1}):
            for at in (count, count + 1, 2**16, 2**32, 2**32 + lists.order[place], 2**63, TOP):
                order = but(lists.order, {place: at})
                yield from ask_lists(dice, f"place {place} of {count} of the order is {at}", lists._replace(order=order))
    lists = plain_lists(9)
    for place in (1, 4, 8):
        before, here = lists.order[place - 1], lists.order[place]
        order = but(lists.order, {place - 1: here, place: before})
        yield from ask_lists(dice, f"places {place - 1} and {place} exchanged", lists._replace(order=order))
        order = but(lists.order, {place: before})
        yield from ask_lists(dice, f"place {place} is that before it", lists._replace(order=order))
    yield from ask_lists(dice, "the order is that of the pairs", lists._replace(order=tuple(range(9))))
    yield from ask_lists(dice, "the order falls", lists._replace(order=lists.order[::-1]))
    order = but(lists.order, {2: lists.order[1], 6: 9})
    yield from ask_lists(dice, "place 2 twice and place 6 too high", lists._replace(order=order))
    order = but(lists.order, {2: 9, 6: lists.order[5]})
    yield from ask_lists(dice, "place 2 too high and place 6 twice", lists._replace(order=order))
    for places in ((0, 1), (3, 6), (7, 8)):
        new = but(lists.new, {places[1]: lists.new[places[0]]})
        order = order_of(new)
        at = order.index(places[0])
        turned = but(order, {at: places[1], at + 1: places[0]})
        yield from ask_lists(dice, f"equal new numbers at {places}, falling", Lists(lists.old, new, turned))
        twice = but(order, {at + 1: places[0]})
        yield from ask_lists(dice, f"equal new numbers at {places}, one of them twice", Lists(lists.old, new, twice))


def renumber_21(dice):
    """Equal new numbers at two places, at three, and at two times two, of which the larger ones stand in front."""
    for count, groups in (
        (2, [(0, 1)]),
        (3, [(0, 2)]),
        (3, [(1, 2)]),
        (9, [(0, 1)]),
        (9, [(0, 8)]),
        (9, [(3, 5)]),
        (9, [(7, 8)]),
        (9, [(2, 4, 6)]),
        (9, [tuple(range(9))]),
        (9, [(1, 3), (2, 7)]),
        (9, [(1, 8), (2, 3)]),
        (9, [(0, 1), (7, 8)]),
    ):
        for first in (FAR + 5000, FAR - 1000):
            lists = plain_lists(count)
            numbers = {place: first - 10 * i for i, group in enumerate(groups) for place in group}
            new = but(lists.new, numbers)
            said = f"equal new numbers of {count} at {groups}, {first}"
            yield from ask_lists(dice, said, Lists(lists.old, new, order_of(new)))


def one_at(row, blocks, number, other):
    """The values of so many blocks that all have one number, but for a row that has another."""
    values = [number] * (1024 * blocks)
    values[row] = other
    return values


def renumber_22(dice):
    """A number that is not listed and stands among the new ones: in each sort of row, and at the first place of the new
    numbers, in the middle and at the last; in several rows, of which the lowest is named; beside listed ones that stand
    among the new numbers too, which is no fault; and where the block meets the list by its new numbers alone."""
    for edition in EDITIONS:
        for row in (0, 1, 511, 1023, 1024, 2047, 2048, 3071):
            values = one_at(row, 3, 50, 40)
            data = writer.file_of(values, edition)
            for pairs in ([(NOWHERE, 40)], [(50, 40)], [(40, 50)], [(50, 40), (40, 50)]):
                yield ask_renumbered(dice, f"edition {edition}, row {row}, {pairs}", data, lists_of(pairs), 1)
        data = spaced_file(edition)
        for number in (10, 16, 100, 104, 1000, 1006):
            for place in (0, 4, 8):
                pairs = [(NOWHERE + 3 * i, FAR + i) for i in range(9)]
                pairs[place] = (pairs[place][0], number)
                name = f"edition {edition}, {number} is new number {place}"
                yield ask_renumbered(dice, name, data, lists_of(pairs), 1)
        for pairs in ([(10, 12)], [(10, 12), (12, 14)], [(1000, 16), (16, 106)], [(12, 1000), (14, 100)], [(10, 106)]):
            yield ask_renumbered(dice, f"edition {edition}, {pairs}", data, lists_of(pairs), 1)
        twice = writer.file_of(one_at(700, 1, 50, 40) + one_at(3, 1, 50, 40) + one_at(0, 1, 50, 60), edition)
        for pairs in ([(NOWHERE, 40)], [(NOWHERE, 60)], [(NOWHERE, 40), (78, 60)], [(NOWHERE, 50)], [(40, 60)]):
            yield ask_renumbered(dice, f"edition {edition}, two rows, {pairs}", twice, lists_of(pairs), 1)


# Faults together: the steps of the reader, without the output and the number, then those of the lists and the rows, and 14.

LENGTHS, OLD, ORDER, TWICE, ONE = "18 lengths", "19 old numbers", "20 order", "21 new numbers", "22 two become one"
NO_ROOM = "14 output length"
LIST_STEPS = (LENGTHS, OLD, ORDER, TWICE, ONE)
RENUMBER_STEPS = (*STEPS[1:9], *LIST_STEPS, NO_ROOM)
RENUMBER_WAYS = (1, 2, 3)  # of reads.py
BITS = tuple(place // 3 % 2 for place in range(1024))  # the first block of such a file; its first 1 stands in row 3
PLACES = {LENGTHS: 0, OLD: 2, ORDER: 4, TWICE: 1, ONE: 3, NO_ROOM: 0}  # that these steps give


def faulty_lists(steps):
    """Lists of six pairs that fail exactly these steps, on a file that has a 1 and none of the pairs' numbers."""
    old, new = [31, 33, 35, 37, 39, 41], [76, 74, 72, 73, 75, 71]
    if ONE in steps:
        new[5] = 1
    if TWICE in steps:
        new[3] = new[1]
    order = list(order_of(new))
    if ORDER in steps:
        order[4] = order[0]
    if OLD in steps:
        old[2] = old[1]
    if LENGTHS in steps:
        new.append(79)
    return Lists(tuple(old), tuple(new), tuple(order))


def faulty_renumber(steps, way, lean=False):
    """A renumbering that fails exactly these steps. The output is long enough, but where it is to be short, or where that
    cannot be seen and the question is to be lean."""
    data = reads.faulty_file(steps, way, lean, encodings.as_packed(BITS))
    name = f"{' and '.join(steps) or 'nothing wrong'}, way {way}"
    if NO_ROOM in steps or (lean and steps):
        return ask_renumber(Dice(name), name, data, faulty_lists(steps), 3)
    return ask_renumbered(Dice(name), name, data, faulty_lists(steps), 5)


def renumber_steps(way):
    """The sets of steps of a way, and all that are not of the reader at once, with the first taken away one by one."""
    yield from reads.sets_of_steps(RENUMBER_STEPS, way)
    ours = RENUMBER_STEPS[8:]
    yield from (ours[i:] for i in range(len(ours) - 2))


def renumber_faults(dice):
    for way in RENUMBER_WAYS:
        yield from (faulty_renumber(steps, way) for steps in renumber_steps(way))


SECTIONS = (
    renumber_pairs,
    renumber_ranges,
    renumber_edges,
    renumber_lengths,
    renumber_kinds,
    renumber_counts,
    renumber_rooms,
    renumber_18,
    renumber_19,
    renumber_20,
    renumber_21,
    renumber_22,
    renumber_faults,
)
