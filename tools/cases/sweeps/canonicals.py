"""The deliberate cases of the canonical check (R115 to R117): the writer's files; every other way to hold the same
rows, which is another kind, one bit wider, another reference or another base; several blocks that differ; good and bad
files of edition 1; and damaged files of each number.

Each section is a function that gives questions, as in reads.py. The ranges in the entries are the bodies', but
where a section says so.
"""
from cases import encodings, shapes
from cases.ask import ask_canonical
from models import files, writer
from models.build import Block, any_block, any_runs, column_file, frame, packed
from models.files import DIFFERENCES, FRAME, PACKED
from . import reads, writes
from .reads import STEPS


# Files that the writer gives.


def canonical_written(dice):
    """Every kind at every width that the writer chooses, the shapes of columns, ties, and files of several blocks."""
    for kind, most in enumerate(shapes.MOST_WIDTH):
        for width in range(most + 1):
            values = next(shapes.BY_KIND[kind](dice, width))
            yield ask_canonical(f"written kind {kind} width {width}", writer.file_of(values, 2))
    for name, values in writes.column_shapes(dice):
        yield ask_canonical(f"written for {name}", writer.file_of(values, 2))
    kinds = writes.one_of_each(dice)
    for order in ((), (0, 1, 2), (2, 1, 0), (1, 1, 0, 2, 2)):
        values = [number for kind in order for number in kinds[kind]]
        yield ask_canonical(f"written kinds {order}", writer.file_of(values, 2))


# Other ways to hold the same rows.


def shapes_to_hold(dice):
    """Numbers for each kind at its two edges of a few widths, ties of two kinds and of three, and equal numbers."""
    for kind, most in enumerate(shapes.MOST_WIDTH):
        for width in (0, 1, 2, 5, 32, most):
            for edge, values in enumerate(shapes.BY_KIND[kind](dice, width)):
                yield f"kind {kind} width {width}, edge {edge}", values
    for widths in writes.near_ties((0, 1, 2, 7, 33, 63, 64)):
        yield "least widths {} {} {}".format(*widths), shapes.with_widths(dice, *widths)
    for value in (0, 1, 2**63, 2**64 - 1):
        yield f"all {value}", [value] * 1024


def canonical_ways(dice):
    """The same rows held in every way, alone; one of the ways is the writer's. In some of the cases good blocks stand
    around the block."""
    around = frame(0, b"", 9), packed(0, b"")
    for i, (name, values) in enumerate(shapes_to_hold(dice)):
        for way, block in encodings.blocks_of_ways(values, False).items():
            yield ask_canonical(f"{name} as {way}", column_file([block], 2))
            if i % 5 == 0:
                data = column_file([around[0], around[1], block, around[0]], 2)
                yield ask_canonical(f"{name} as {way}, block 2", data)


def canonical_bases(dice):
    """Kind 2 with another base in each lane in turn, and in all: kind, width and reference are the writer's."""
    for width in (1, 2, 62):
        values = next(shapes.kind_2(dice, width))
        base = writer.base_of(values)
        for lane in range(16):
            yield ask_canonical(f"another base in lane {lane}", held_from(values, {lane: base[lane] - 1}))
        yield ask_canonical("another base in all lanes", held_from(values, {i: b - 1 for i, b in enumerate(base)}))
        low = 2**width - 1
        yield ask_canonical("the farthest base that fits", held_from(values, {7: base[7] - low}))


def held_from(values, changes):
    """The file of these numbers in kind 2, with other bases in some lanes."""
    base = [changes.get(lane, number) % 2**64 for lane, number in enumerate(writer.base_of(values))]
    return column_file([encodings.as_differences(values, base)], 2)


def canonical_references(dice):
    """Kind 1 with every reference that fits at the same width, where these are few, and the ends where they are
    many."""
    for low, high in ((100, 104), (2**63 - 3, 2**63 + 2), (2**40, 2**40 + 2**20), (4, 8)):
        values = shapes.between(dice, low, high)
        spare = 2 ** writer.least_width([high - low]) - 1 - (high - low)
        for less in sorted({0, 1, 2, 3, spare - 1, spare} & set(range(spare + 1))):
            data = column_file([encodings.as_frame(values, (low - less) % 2**64)], 2)
            yield ask_canonical(f"{low} to {high} from {less} less", data)


def canonical_bits(dice):
    """One bit of the body, the base or the reference of a written file is another one. The file then holds other rows:
    most of these are refused by their range, and the others are what the writer gives, or are not."""
    for kind, most in enumerate(shapes.MOST_WIDTH):
        for width in (1, 4, 30):
            data = writer.file_of(next(shapes.BY_KIND[kind](dice, width)), 2)
            for _ in range(12):
                other = bytearray(data)
                other[36 + dice.below(len(data) - 36)] ^= 1 << dice.below(8)
                yield ask_canonical(f"kind {kind} width {width}, another bit", bytes(other))
                entry, body = files.entry_at(bytes(other), 0), bytes(other[36:])
                anew = Block(entry._replace(smallest=None, largest=None), body)
                yield ask_canonical(f"kind {kind} width {width}, another bit, the range anew", column_file([anew], 2))


# Several blocks.


def some_others(dice):
    """A good block and two that hold their rows in another way."""
    values = next(shapes.kind_1(dice, 3))
    wide = encodings.as_frame(next(shapes.kind_1(dice, 2)), more=1)
    return encodings.as_frame(values), wide, encodings.as_packed([9] * 1024)


def canonical_several(dice):
    """Blocks that differ in every set of places: the lowest is named."""
    good, wide, other_kind = some_others(dice)
    for chosen in range(32):
        blocks = [(wide, other_kind)[i % 2] if chosen >> i & 1 else good for i in range(5)]
        yield ask_canonical(f"blocks that differ: {chosen:05b} from the last on", column_file(blocks, 2))
    for place in (0, 1, 128, 254, 255):
        blocks = [good] * 256
        blocks[place] = wide
        yield ask_canonical(f"of 256 blocks {place} differs", column_file(blocks, 2))
    yield ask_canonical("of 256 blocks none differs", column_file([good] * 256, 2))
    yield ask_canonical("of 256 blocks all differ", column_file([other_kind] * 256, 2))
    longest = [writer.block_of(shapes.thrown(dice, 0, shapes.TOP)) for _ in range(3)]
    yield ask_canonical("256 of the longest blocks", column_file([longest[i % 3] for i in range(256)], 2))


def canonical_ranges(dice):
    """Ranges that are not the body's, in blocks that differ and in others: 15 of any block comes before 17."""
    good, wide, other_kind = some_others(dice)
    lie = reads.off_by_one
    for name, blocks in (
        ("block 0 differs, the range of 1", [wide, lie(good)]),
        ("block 0 differs, the range of 0", [lie(wide), good]),
        ("the range of 0, block 1 differs", [lie(good), other_kind]),
        ("blocks 0 and 1 differ, the range of 2", [other_kind, wide, lie(good)]),
        ("the ranges of 1 and 2", [good, lie(other_kind), lie(good)]),
        ("the range of the last", [good, good, lie(good)]),
    ):
        yield ask_canonical(name, column_file(blocks, 2))


# Edition 1, and what the reader refuses.


def canonical_edition_1(dice):
    """Good files of edition 1: as the writer's rules have them, and held in another way; and files of run blocks."""
    for name, values in (*writes.column_shapes(dice), ("no blocks", [])):
        yield ask_canonical(f"edition 1, written for {name}", writer.file_of(values, 1))
    good, wide, other_kind = some_others(dice)
    for name, blocks in (("wide", [good, wide]), ("another kind", [other_kind]), ("runs", [good, any_runs(dice, 3)])):
        yield ask_canonical(f"edition 1, {name}", column_file(blocks, 1))
    for kind in (PACKED, FRAME, DIFFERENCES):
        for width in (0, 3, 64):
            yield ask_canonical(f"edition 1, kind {kind} width {width}", column_file([any_block(dice, kind, width)], 1))


def canonical_runs(dice):
    """Run blocks of edition 2, which the writer never gives, and which are not read (R82)."""
    for n in (1, 2, 1024):
        runs = any_runs(dice, n)
        yield ask_canonical(f"{n} runs", column_file([runs], 2))
        yield ask_canonical(f"{n} runs, block 1", column_file([frame(0, b"", 9), runs], 2))
        bad = column_file([frame(0, b"", 9), reads.with_index(runs, 5, n)], 2)
        yield ask_canonical(f"{n} runs with a bad index", bad)


DIFFERS = "17 block that differs"
CANONICAL_STEPS = (*STEPS[1:9], DIFFERS)
CANONICAL_WAYS = (1, 2, 3)  # of reads.py; in the first of all the head has an edition that is read here


def faulty_canonical(steps, way):
    """A file that fails exactly these steps. In edition 2 the writer would give it but for the first block, which is
    one bit wider where it is to differ; an edition 1 file has a reason of its own."""
    wide = encodings.as_packed([place % 2 for place in range(1024)], more=1)
    data = reads.faulty_file(steps, way, True, wide if DIFFERS in steps else None)
    return ask_canonical(f"{' and '.join(steps) or 'nothing wrong'}, way {way}", data)


def canonical_steps(way):
    """The sets of steps of a way."""
    return reads.sets_of_steps(CANONICAL_STEPS, way)


def canonical_faults(dice):
    for way in CANONICAL_WAYS:
        yield from (faulty_canonical(steps, way) for steps in canonical_steps(way))


def canonical_damaged(dice):
    """Written files that are cut, that have bytes left over, another head, or another field in an entry."""
    data = writer.file_of([number for block in writes.one_of_each(dice) for number in block], 2)
    for cut in sorted({0, 1, 2, 3, 4, 5, 35, 36, 99, 100, 101, len(data) - 128, len(data) - 1}):
        yield ask_canonical(f"cut at {cut}", data[:cut])
    for more in (1, 8, 128):
        yield ask_canonical(f"{more} bytes left over", data + bytes(more))
    for edition in (0, 1, 3, 258):
        yield ask_canonical(f"edition {edition}", edition.to_bytes(2, "little") + data[2:])
    for count in (0, 2, 4, 257, 65535):
        yield ask_canonical(f"N {count}", data[:2] + count.to_bytes(2, "little") + data[4:])
    for at in range(4, 100):
        other = bytearray(data)
        other[at] ^= 1
        yield ask_canonical(f"another byte at {at}", bytes(other))


SECTIONS = (
    canonical_written,
    canonical_ways,
    canonical_bases,
    canonical_references,
    canonical_bits,
    canonical_several,
    canonical_ranges,
    canonical_edition_1,
    canonical_runs,
    canonical_faults,
    canonical_damaged,
)
