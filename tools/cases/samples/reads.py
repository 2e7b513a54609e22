"""Readings for the sample: the sections of the sweep, with fewer wide files and fewer block outputs."""
from cases.ask import ask_all, ask_block, ask_check, ask_row
from cases.stream import BLOCK_OUT, ROW_LOOKUP
from cases.sweeps.reads import EDGE_WIDTHS, NO_BLOCKS, ROOM, SEVENS, TOO_HIGH, cut_places, faulty_question, many_small
from cases.sweeps.reads import mixed_blocks, other_entries, resized, row_in_two, sets_of_steps, steps_of
from cases.sweeps.reads import two_bad_entries, worked_files
from models.build import Block, any_block, any_runs, column_file, frame, packed, with_index
from models.files import DIFFERENCES, FRAME, PACKED


def small_worked(dice):
    """The two worked files of R88, without the output that the file of no blocks leaves as it is."""
    yield from (question for question in worked_files(dice) if question.op != BLOCK_OUT or question.a != NO_BLOCKS)


def small_widths(dice):
    """Each kind at the widths at its edges: a block out and a row. Some blocks out are left to the file of sevens, to
    small_crossing and to small_limits. Of the wide files of kinds 0 and 1 one gives its block and the other a row,
    since the frame is packed as kind 0 is."""
    elsewhere = {(PACKED, 0), (FRAME, 0), (FRAME, 1), (DIFFERENCES, 0)}
    only_row = {(PACKED, 64), (FRAME, 63)}
    only_block = {(PACKED, 63), (FRAME, 64), (DIFFERENCES, 64)}
    for kind in (PACKED, FRAME, DIFFERENCES):
        for width in EDGE_WIDTHS:
            data = column_file([any_block(dice, kind, width)])
            if (kind, width) not in elsewhere | only_row:
                yield ask_block(dice, f"kind {kind} width {width}", data)
            if (kind, width) not in only_block:
                yield ask_row(f"kind {kind} width {width}", data, 1023)


def small_fields(dice):
    """Each field of an entry changed in turn, in files of blocks without a body or with a short one."""
    for block in (packed(0, b""), frame(0, b"", 1), any_block(dice, DIFFERENCES, 0)):
        for name, other in other_entries(block):
            data = column_file([frame(0, b"", 11), other if len(other.body) < 300 else Block(other.entry, b"")])
            yield ask_check(f"kind {block.entry.kind}, then {name}", data)
    block = any_runs(dice, 1)
    for length in (2048, 2055, 2057, 2060):
        yield ask_check(f"kind 3, then a body of {length} bytes", column_file([resized(block, length)]))
    for length in (2056, 10240, 10248):
        without = Block(block.entry._replace(length=length), b"")
        yield ask_check(f"kind 3, length {length} and no body", column_file([without]))
    for changed in ({"kind": 77}, {"width": 64}, {"zero": 256}, {"reference": 2**40}):
        yield ask_row(f"kind 3, then {changed}", column_file([block.but(**changed)]), 3)


def small_runs(dice):
    yield from ask_all(dice, "1 runs", column_file([any_runs(dice, 1)]), row=512)
    yield ask_block(dice, "1024 runs", column_file([any_runs(dice, 1024)]))
    for n, index in ((1, 1), (1, 256), (1, 65535), (3, 2), (3, 3)):
        data = column_file([with_index(any_runs(dice, n), 1023, index)])
        yield ask_check(f"{n} runs, index {index} at 1023", data)
    bad = with_index(any_runs(dice, 2), 0, 2)
    yield ask_check("blocks 1 and 2 have a bad index, at place 0", column_file([frame(0, b"", 5), bad, bad]))


def small_cuts(dice):
    blocks = [any_block(dice, PACKED, 1), any_block(dice, DIFFERENCES, 1), any_block(dice, FRAME, 1)]
    data = column_file(blocks)
    for cut in cut_places(data):
        yield ask_check(f"cut at {cut} of {len(data)}", data[:cut])
    yield ask_check("a byte left over", data + b"\0")
    yield ask_row("16 bytes left over", data + bytes(16), 7)


def small_heads(dice):
    for edition in (0, 2, 256, 257, 65535):
        yield ask_check(f"edition {edition}", column_file([frame(0, b"", 1)], edition, entries=1))
    for count in (2, 256, 257, 65535):
        yield ask_check(f"N {count} and one entry", column_file([frame(0, b"", 1)], 1, count))


def small_counts(dice):
    """Rows in two words, at a narrow width, since a file of a wide block would take much of the sample."""
    for kind in (PACKED, FRAME, DIFFERENCES):
        data = column_file([any_block(dice, kind, 3)])
        for which in (0, -1):
            yield ask_row(f"kind {kind} width 3, in two words", data, row_in_two(dice, 3, which))


def small_crossing(dice):
    """The file of mixed kinds with one run block in it, and two blocks out: one of kind 1 width 1 and one of kind 2
    width 0."""
    blocks = mixed_blocks(dice)
    del blocks[6]
    data = column_file(blocks)
    yield from (ask_row("mixed kinds", data, 1024 * i + 1023 * (i % 2)) for i in range(len(blocks)))
    yield ask_block(dice, "mixed kinds", data, 4)
    yield ask_block(dice, "mixed kinds", data, 6)


def small_limits(dice):
    """256 blocks, the last of kind 0 and the others of kind 1, and the numbers at the limit; then two blocks."""
    blocks = [*many_small(dice)[:255], packed(0, b"")]
    data = column_file(blocks)
    yield ask_block(dice, "256 blocks", data, 255)
    yield from (ask_row("256 blocks", data, row) for row in (261119, 262143, 262144))
    data = column_file(blocks[:2])
    yield from (ask_row("2 blocks", data, row) for row in (1023, 1024, 2047, 2048, *TOO_HIGH))
    yield ask_block(dice, "2 blocks", data, 2**54)


def small_outputs(dice):
    """Output lengths, and block outputs that a bad file leaves as they are."""
    for room in (0, 1025):
        yield ask_block(dice, "a good file", SEVENS, 0, room)
    yield ask_block(dice, "cut in the entry", SEVENS[:19])
    yield ask_block(dice, "edition 256", column_file([], 256))
    yield ask_block(dice, "a byte left over", SEVENS + b"\0")
    yield ask_block(dice, "a bad index", column_file([frame(0, b"", 5), with_index(any_runs(dice, 1), 512, 1)]))


def small_faults(dice):
    """Faults in a row lookup, alone and together; then in a block out, behind an output of a wrong length."""
    for steps in sets_of_steps(steps_of(ROW_LOOKUP), 0):
        yield faulty_question(ROW_LOOKUP, steps, 0, lean=True)
    for steps in sets_of_steps(steps_of(BLOCK_OUT), 1):
        if ROOM in steps:
            yield faulty_question(BLOCK_OUT, steps, 1, room=3, lean=True)


SMALL_SECTIONS = (
    small_worked,
    small_widths,
    small_runs,
    small_crossing,
    small_limits,
    small_outputs,
    small_heads,
    small_fields,
    small_cuts,
    two_bad_entries,
    small_faults,
)


# These outputs of blocks are left to the sweep, and to the row lookups of this sample and of small_editions: with
# edition 2 there is more to keep in the same room.
LEFT_OUT = (
    "the worked file of sevens, block 1 into 1024",
    "kind 1 width 64, block 0 into 1024",
    "kind 2 width 63, block 0 into 1024",
    "1024 runs, block 0 into 1024",
    "mixed kinds, block 4 into 1024",
    "mixed kinds, block 6 into 1024",
    "256 blocks, block 255 into 1024",
    "cut in the entry, block 0 into 1024",
    "edition 256, block 0 into 1024",
    "a byte left over, block 0 into 1024",
)


def small_reads(dice):
    for section in SMALL_SECTIONS:
        yield from (question for question in section(dice) if question.name not in LEFT_OUT)
