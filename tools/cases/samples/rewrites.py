"""Rewrites for the sample, in files of short blocks."""
from cases import encodings
from cases.ask import ask_rewrite, ask_rewritten
from cases.sweeps.rewrites import EDITIONS, NO_ROOM, REWRITE_WAYS, faulty_rewrite, rewrite_steps
from models.build import column_file, frame, packed, with_index


def small_rewrites(dice):
    """Blocks that come out as another kind or at another width, in both editions; room that is short, exact and longer;
    then each fault alone and beside an output that is too short."""
    lanes = [5 * (place % 16) for place in range(1024)]
    for edition in EDITIONS:
        blocks = [encodings.as_packed([1] * 1024), encodings.as_differences(lanes), frame(1, bytes(128), 9)]
        blocks += [encodings.as_differences([place % 2 for place in range(1024)]), packed(2, dice.bytes(256))]
        data = column_file(blocks, edition)
        for more in (-1, 0, 3):
            yield ask_rewritten(dice, f"edition {edition}, five blocks", data, more)
        yield ask_rewritten(dice, f"edition {edition}, no blocks", column_file([], edition), 2)
        yield ask_rewritten(dice, f"edition {edition}, sevens", column_file([frame(0, b"", 7)], edition))
    yield ask_rewritten(dice, "a run block", column_file([encodings.as_runs([9] * 1023 + [8], before=[5])], 1))
    yield ask_rewrite(dice, "a run block of edition 2", column_file([encodings.as_runs([9] * 1024)], 2), 40)
    bad = with_index(encodings.as_runs([9] * 1024), 1023, 1)
    yield ask_rewrite(dice, "a bad index", column_file([frame(0, b"", 7), bad], 1), 70)
    for way in REWRITE_WAYS[1:]:
        for steps in rewrite_steps(way):
            alone = len(steps) == 1 and way == REWRITE_WAYS[1]
            if alone or (len(steps) == 2 and steps[1] == NO_ROOM and way != REWRITE_WAYS[1]):
                yield faulty_rewrite(steps, way, lean=True)
