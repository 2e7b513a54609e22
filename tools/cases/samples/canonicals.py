"""Canonical checks for the sample, in files of short blocks."""
from cases import encodings, shapes
from cases.ask import ask_canonical
from cases.sweeps import reads
from cases.sweeps.canonicals import CANONICAL_WAYS, DIFFERS, canonical_steps, faulty_canonical
from models import writer
from models.build import column_file, frame
from . import writes


def small_ways(dice):
    """Small blocks as the writer has them, and each of the other short ways to hold the same rows."""
    for name, values in writes.small_shapes(dice):
        yield ask_canonical(f"written for {name}", writer.file_of(values, 2))
    held = (
        ("sevens", [7] * 1024),
        ("0 and 1 by lanes", [place % 2 for place in range(1024)]),
        ("8 and 10 by lanes", [8 + place % 2 * 2 for place in range(1024)]),
        ("lanes rising by 1", shapes.along_rows(lambda row, lane: 900 * lane + row)),
    )
    for name, values in held:
        for way, block in encodings.blocks_of_ways(values, False).items():
            if len(block.body) <= 400:
                yield ask_canonical(f"{name} as {way}", column_file([frame(0, b"", 9), block], 2))


def small_canonicals(dice):
    yield from small_ways(dice)
    for edition in (1, 2):
        yield ask_canonical(f"edition {edition}, no blocks", column_file([], edition))
        yield ask_canonical(f"edition {edition}, sevens", column_file([frame(0, b"", 7)], edition))
    good, wide, other = (encodings.as_packed([n] * 1024, more=more) for n, more in ((0, 0), (0, 1), (1, 0)))
    for blocks in ([good, wide, good, other], [good, good, good, wide], [wide, reads.off_by_one(good)]):
        yield ask_canonical("several blocks", column_file(blocks, 2))
    yield ask_canonical("a run block of edition 2", column_file([frame(0, b"", 9), encodings.as_runs([9] * 1024)], 2))
    yield ask_canonical("edition 1, another way", column_file([good, wide], 1))
    for way in CANONICAL_WAYS:
        for steps in canonical_steps(way):
            alone = len(steps) == 1 and way != CANONICAL_WAYS[2]
            if alone or (len(steps) == 2 and steps[1] == DIFFERS and way == CANONICAL_WAYS[2]):
                yield faulty_canonical(steps, way)
