"""The deliberate cases of the reader (R89, R90, R98): every kind and width, every count of words, every fault, and
every two faults whose order can be seen.

Each section is a function that gives questions. What the answer is comes from the model and is never written here; the
one exception is the order of the refusals, which stands again in STEPS, so that the tests can hold the model to it.
The sections have files of edition 1, and those that are worth it take the edition, so that editions.py can have
them once more.
"""
from cases.ask import ask_all, ask_block, ask_check, ask_row
from cases.dice import Dice
from cases.stream import BLOCK_OUT, CHECK, ROW_LOOKUP
from models import build, files, layout
from models.build import Block, any_block, any_runs, column_file, frame, packed, runs, with_index
from models.files import DIFFERENCES, FRAME, PACKED, RUNS

NO_BLOCKS = bytes.fromhex("01 00 00 00")
SEVENS = bytes.fromhex("01 00 01 00  01 00 00 00 00 00 00 00  07 00 00 00 00 00 00 00")
# The same two in edition 2: the sevens have 7 as their smallest and as their largest.
NO_BLOCKS_2 = bytes.fromhex("02 00 00 00")
SEVENS_2 = bytes.fromhex("02 00 01 00  01 00 00 00 00 00 00 00" + 3 * "  07 00 00 00 00 00 00 00")

EDGE_WIDTHS = (0, 1, 63, 64)
OTHER_EDITION = max(files.EDITIONS) + 1  # the lowest that is not read
TOO_HIGH = (2**16, 2**26, 2**32, 2**32 + 1, 2**42, 2**54, 2**63, 2**64 - 1)


# Files that are read.


def worked_files(dice):
    """The two files that R88 has byte for byte, in edition 1."""
    yield from ask_all(dice, "the worked file of no blocks", NO_BLOCKS)
    yield from ask_all(dice, "the worked file of sevens", SEVENS, row=1023)
    yield ask_row("the worked file of sevens", SEVENS, 1024)
    yield ask_block(dice, "the worked file of sevens", SEVENS, 1)


def every_width(dice):
    for kind in (PACKED, FRAME, DIFFERENCES):
        for width in range(65):
            data = column_file([any_block(dice, kind, width)])
            yield from ask_all(dice, f"kind {kind} width {width}", data, row=dice.below(1024))
            yield ask_row(f"kind {kind} width {width}", data, 1023)


def edge_bodies(dice):
    """Bodies of zeros, of ones, and with one digit that is not 0 in each lane: the lowest row's or the highest's."""
    for kind in (PACKED, FRAME, DIFFERENCES):
        for width in (0, 1, 2, 31, 32, 33, 62, 63, 64):
            size = 128 * width
            bodies = {"zeros": bytes(size), "ones": b"\xff" * size}
            if width:
                bodies["ones in the first words"] = b"\xff" * 128 + bytes(size - 128)
                bodies["ones in the last words"] = bytes(size - 128) + b"\xff" * 128
            for name, body in bodies.items():
                data = column_file([any_block(dice, kind, width, body)])
                yield ask_block(dice, f"kind {kind} width {width}, a body of {name}", data)


def references(dice):
    """Sums that pass 2^64, and sums that come just up to it."""
    for width in EDGE_WIDTHS:
        for reference in (0, 1, 2**32, 2**63, 2**64 - 1):
            data = column_file([frame(width, dice.bytes(128 * width), reference)])
            yield ask_block(dice, f"kind 1 width {width}, reference {reference}", data)
        for name, base in (("zeros", bytes(128)), ("ones", b"\xff" * 128), ("0 to 127", bytes(range(128)))):
            data = column_file([build.differences(width, base, b"\xff" * 128 * width)])
            yield ask_block(dice, f"kind 2 width {width}, bases of {name}", data)


def every_row(dice):
    """Each row of a small file of each kind, and the rows of a lane where values cross words."""
    small = {0: any_block(dice, PACKED, 3), 1: any_block(dice, FRAME, 1), 2: any_block(dice, DIFFERENCES, 1)}
    for kind, block in small.items():
        data = column_file([block])
        yield from (ask_row(f"kind {kind}", data, row) for row in range(1024))
    data = column_file([any_runs(dice, 3)])
    yield from (ask_row("kind 3", data, row) for row in range(0, 1024, 5))
    for width, lane in ((63, 0), (33, 15), (7, 9)):
        data = column_file([any_block(dice, FRAME, width)])
        yield from (ask_row(f"kind 1 width {width}", data, lane + 16 * i) for i in range(64))


def row_in_two(dice, width, which):
    """A file row of block 0 whose bits stand in two packed words: the first or the last such row of any lane."""
    return layout.place(layout.rows_in_two(files.T, width)[which], dice.below(files.LANES))


def counts_of_words(dice):
    """At each width the first row and the last that stand in two words, where there are such. Kind 2, which packs just
    so and gives no count, is asked for the same rows."""
    for kind in (PACKED, FRAME, DIFFERENCES):
        for width in range(65):
            data = column_file([any_block(dice, kind, width)])
            if layout.rows_in_two(files.T, width):
                for which in (0, -1):
                    yield ask_row(f"kind {kind} width {width}, in two words", data, row_in_two(dice, width, which))


def run_blocks(dice):
    """Run blocks of each length at the edges, with indices at the edge of what is allowed and past it."""
    for n in (1, 2, 255, 256, 257, 1023, 1024):
        block = any_runs(dice, n)
        yield from ask_all(dice, f"{n} runs", column_file([block]), row=dice.below(1024))
        for index in sorted({n - 1, n, n + 1, 256, 1024, 65535}):
            for place in (0, 511, 1023):
                data = column_file([with_index(block, place, index)])
                yield ask_check(f"{n} runs, index {index} at {place}", data)
    for index in (1, 256, 65535):
        data = column_file([any_block(dice, PACKED, 0), with_index(any_runs(dice, 1), 700, index)])
        yield from ask_all(dice, f"1 run, index {index} at 700", data)
    yield from odd_runs(dice)


def odd_runs(dice):
    """What an encoder would not write, and the reader takes all the same."""
    down, up, numbers = range(1023, -1, -1), range(1024), [dice.number() for _ in range(1024)]
    for name, block in (
        ("indices going down", runs(down, numbers)),
        ("indices going up", runs(up, numbers)),
        ("equal values", runs([i % 4 for i in up], [5, 5, 2**64 - 1, 5])),
        ("unused values", runs([3] * 1024, numbers[:9])),
    ):
        data = column_file([block])
        yield ask_block(dice, f"runs with {name}", data)
        yield ask_row(f"runs with {name}", data, 300)


def has_runs(edition):
    """Is kind 3 read in that edition?"""
    return edition not in files.WITHOUT_RUNS


def mixed_blocks(dice, edition=1):
    """A block of each kind and more, small enough to be asked often."""
    frames = any_block(dice, FRAME, 0), any_block(dice, FRAME, 1)
    first = any_block(dice, PACKED, 3), any_runs(dice, 5), any_block(dice, DIFFERENCES, 2)
    blocks = [*first, *frames, any_block(dice, PACKED, 0), any_runs(dice, 1), any_block(dice, DIFFERENCES, 0)]
    return blocks if has_runs(edition) else [block for block in blocks if block.entry.kind != RUNS]


def crossing_rows(dice, edition=1):
    """A file of several blocks of mixed kinds, asked on both sides of each border between blocks."""
    blocks = mixed_blocks(dice, edition)
    data = column_file(blocks, edition)
    yield ask_check("mixed kinds", data)
    for i in range(len(blocks)):
        yield ask_block(dice, "mixed kinds", data, i)
        for row in (0, 1, 511, 1022, 1023):
            yield ask_row("mixed kinds", data, 1024 * i + row)
    yield from ask_all(dice, "mixed kinds", data, len(blocks), 1024 * len(blocks))


def many_small(dice):
    return [frame(0, b"", dice.number()) for _ in range(256)]


def limits(dice, edition=1):
    """Row and block numbers at the limit, past it, and where a short number would come round to a good one."""
    for n in (0, 1, 3, 256):
        data = column_file(many_small(dice)[:n], edition)
        yield ask_check(f"{n} blocks", data)
        last = 1024 * n
        rows = {0, 1, 1023, 1024, 1025, last, last + 1, last + 1024} | ({last - 1} if n else set())
        blocks = {0, 1, 2, n, n + 1, 255, 256, 257} | ({n - 1} if n else set())
        yield from (ask_row(f"{n} blocks", data, row) for row in (*sorted(rows), *TOO_HIGH))
        yield from (ask_block(dice, f"{n} blocks", data, b) for b in (*sorted(blocks), *TOO_HIGH))
        yield from (ask_row(f"{n} blocks", data, 1024 * b + b) for b in range(n))


def outputs(dice):
    """Lengths of the block output, for a good file, a bad file and a block that is not there."""
    bad = column_file([any_block(dice, PACKED, 1).but(kind=9)])
    for room in (0, 1, 16, 512, 1023, 1024, 1025, 2048, 4096):
        yield ask_block(dice, "a good file", SEVENS, 0, room)
        yield ask_block(dice, "a bad entry", bad, 0, room)
        yield ask_block(dice, "no such block", SEVENS, 1, room)


def large_files(dice):
    """256 blocks, near the longest file that the stream takes."""
    blocks = [any_block(dice, i % 3, 64) for i in range(255)] + [any_runs(dice, 1024)]
    data = column_file(blocks)
    yield from ask_all(dice, "256 wide blocks", data, 254, 262143)
    yield ask_row("256 wide blocks", data, 262144)
    yield ask_check("256 wide blocks, one byte short", data[:-1])
    yield ask_check("256 wide blocks, one byte long", data + b"\0")
    blocks[-1] = with_index(blocks[-1], 1023, 1024)
    yield ask_row("256 wide blocks, the last with a bad index", column_file(blocks), 5)


# Files that are refused.


def heads(dice, edition=1):
    """Editions and numbers of blocks that are not taken, with a good file behind them and with nothing. The other
    edition that there is stands here too, with entries that are not its own."""
    good = mixed_blocks(dice, edition)
    for other in sorted({0, 1, 2, 3, 255, 256, 257, 32769, 65535} - {edition}):
        yield from ask_all(dice, f"edition {other}", column_file(good, other, entries=edition))
        yield from ask_all(dice, f"edition {other} and nothing else", column_file([], other))
    for count in (257, 258, 511, 512, 32768, 65535):
        entries = (many_small(dice) * 2)[:count]
        yield from ask_all(dice, f"N {count} and {len(entries)} entries", column_file(entries, edition, count))
        yield from ask_all(dice, f"N {count} and nothing else", column_file([], edition, count))
    both = column_file(many_small(dice), OTHER_EDITION, 257, edition)
    yield from ask_all(dice, f"edition {OTHER_EDITION} and N 257", both)
    for count in (1, 2, 255, 256):
        yield from ask_all(dice, f"N {count} and nothing else", column_file([], edition, count))
    for count in (0, len(good) - 1, len(good) + 1):
        yield from ask_all(dice, f"N {count} with {len(good)} entries", column_file(good, edition, count))


def resized(block, length):
    """The block with a body of that length, zeros added or the end cut off, and the entry saying so."""
    return Block(block.entry._replace(length=length), block.body[:length].ljust(length, b"\0"))


def good_blocks(dice):
    """For each kind a block, its fields near an edge where there is one."""
    for width in (0, 2, 64):
        yield f"kind 0 width {width}", any_block(dice, PACKED, width)
        yield f"kind 1 width {width}", any_block(dice, FRAME, width)
        yield f"kind 2 width {width}", any_block(dice, DIFFERENCES, width)
    for n in (1, 2, 1024):
        yield f"kind 3 with {n} values", any_runs(dice, n)


def other_entries(block):
    """The block with one field of its entry changed at a time, and with bodies that go along with the change."""
    entry = block.entry
    for kind in sorted({0, 1, 2, 3, 4, 5, 128, 255} - {entry.kind}):
        yield f"kind {kind}", block.but(kind=kind)
    for width in sorted({0, 1, entry.width + 1, 63, 64, 65, 66, 128, 255} - {entry.width}):
        yield f"width {width}", block.but(width=width)
    for zero in (1, 255, 256, 32768, 65535):
        yield f"zero field {zero}", block.but(zero=zero)
    for length in sorted(other_lengths(entry)):
        yield f"body length {length}", block.but(length=length)
        if length <= 12000:
            yield f"body of {length} bytes", resized(block, length)
    for reference in (1, *(256**k for k in range(1, 8)), 2**64 - 1):
        yield f"reference {reference}", block.but(reference=reference)
    if entry.kind != RUNS:
        yield "width 65 and its body", resized(block.but(width=65), entry.length + 128 * (65 - entry.width))


def other_lengths(entry):
    """Body lengths near the one in the entry, at the edges of kind 3, and where a short number would come round."""
    near = {entry.length + d for d in (-128, -8, -1, 1, 4, 8, 128)}
    far = {0, entry.length + 2**16, entry.length + 2**31, 2**32 - 1}
    of_runs = {2047, 2048, 2049, 2055, 2056, 2057, 10239, 10240, 10241, 10248} if entry.kind == RUNS else set()
    return {n for n in near | far | of_runs if n >= 0} - {entry.length}


def entry_fields(dice, edition=1):
    """Each field of an entry changed in turn. Where the change asks for it, as kind 0 to 1, the file is still good."""
    around = frame(0, b"", 11), packed(0, b"")
    for of, block in good_blocks(dice):
        for name, other in other_entries(block):
            name = f"{of}, then {name}"
            data = column_file([around[0], other, around[1]], edition)
            yield ask_check(name, data)
            yield ask_row(name, data, 1024 + dice.below(1024))
            if block.entry.width == 2:
                yield ask_block(dice, name, data, 0)
                yield ask_check(f"{name}, alone", column_file([other], edition))


# What makes an entry of kind 1 bad; with kind 0 it is the reference that is then wrong.
FAULTS = {
    "kind": {"kind": 4},
    "width": {"width": 65},
    "zero": {"zero": 1},
    "length": {"length": 1},
    "reference": {"kind": 0},
}


def two_bad_entries(dice, edition=1):
    """Two bad entries of every two sorts: the lower one is named, whatever is wrong with it."""
    good = [frame(0, b"", 1 + dice.number() // 2) for _ in range(5)]
    faults = FAULTS if edition == 1 else {**FAULTS, "range": {"smallest": 9, "largest": 8}}
    for low, first in faults.items():
        for high, second in faults.items():
            blocks = [good[0], good[1].but(**first), good[2], good[3].but(**second), good[4]]
            data = column_file(blocks, edition)
            yield ask_check(f"entry 1 with a bad {low}, entry 3 with a bad {high}", data)
            yield ask_row(f"entry 1 with a bad {low}, entry 3 with a bad {high}", data, 4096)
    last = [*many_small(dice)[:255], good[0].but(zero=1)]
    yield from ask_all(dice, "only entry 255 is bad", column_file(last, edition))


def two_bad_blocks(dice):
    """Blocks with a bad index: the lowest is named, counted over blocks of all kinds, whatever block is asked for."""
    good, bad = any_runs(dice, 2), with_index(any_runs(dice, 2), 1000, 2)
    plain = any_block(dice, FRAME, 0), any_block(dice, DIFFERENCES, 1)
    for name, blocks in (
        ("blocks 2 and 4 have a bad index", [good, plain[1], bad, good, bad]),
        ("blocks 3 and 4 have a bad index", [plain[0], good, plain[1], bad, bad]),
        ("only the last block has a bad index", [good, *plain, good, bad]),
        ("only the first block has a bad index", [bad, *plain, good, good]),
    ):
        data = column_file(blocks)
        yield from ask_all(dice, name, data)
        yield ask_block(dice, name, data, 3)
        yield ask_row(name, data, 1030)
    # A body of another kind may hold what would be bad indices in a run block.
    data = column_file([any_block(dice, PACKED, 17, b"\xff" * 17 * 128), good])
    yield ask_check("a packed body of ones beside a run block", data)


def cut_places(data):
    """Where a file is cut: every place in the contents, and on both sides of every border in the bodies."""
    size = files.contents_size(data)
    borders = {0}
    for entry, (start, end) in zip(files.entries_of(data), files.spans(data)):
        inside = {DIFFERENCES: start + files.BASE_BYTES, RUNS: start + 2048}.get(entry.kind, start)
        borders |= {start, inside, end, (start + end) // 2}
    near = {border + d for border in borders for d in (-8, -1, 0, 1)}
    return sorted(cut for cut in near | set(range(size)) if 0 <= cut < len(data))


def cuts(dice, edition=1):
    """Files that end too soon. What is whole of them is good, so nothing else is wrong."""
    blocks = mixed_blocks(dice, edition)
    data = column_file(blocks, edition)
    ends = [files.contents_length(edition, i) for i in range(len(blocks) + 1)]
    borders = {end + d for end in ends for d in (-1, 0, 1)}
    for cut in cut_places(data):
        yield ask_check(f"cut at {cut} of {len(data)}", data[:cut])
        if cut < 4 or cut in borders or cut > ends[-1]:
            yield ask_block(dice, f"cut at {cut} of {len(data)}", data[:cut])
            yield ask_row(f"cut at {cut} of {len(data)}", data[:cut])
    yield ask_check("not cut", data)
    sevens = column_file([frame(0, b"", 7)], edition)
    for cut in range(len(sevens)):
        yield ask_check(f"the file of sevens cut at {cut}", sevens[:cut])
        yield ask_row(f"the file of sevens cut at {cut}", sevens[:cut])


def trailing(dice, edition=1):
    """Bytes after the last body: zeros, and what looks like more of the file."""
    of = {"no blocks": [], "sevens": [frame(0, b"", 7)], "mixed kinds": mixed_blocks(dice, edition)}
    for name, blocks in of.items():
        data = column_file(blocks, edition)
        for n in (1, 2, 8, 16, 128):
            yield from ask_all(dice, f"{name} and {n} zeros", data + bytes(n))
        yield from ask_all(dice, f"{name} and one more byte", data + b"\x01")
        yield from ask_all(dice, f"{name} and a second file", data + SEVENS)


# Two faults at once. STEPS is the table of R90, in its order.

STEPS = (
    "2 output length",
    "8 head short",
    "9 head wrong",
    "8 entries short",
    "10 entry wrong",
    "8 bodies short",
    "11 bytes left over",
    "13 run index",
    "15 smallest or largest",
    "12 number too high",
)
ROOM, HEAD_SHORT, HEAD_WRONG, ENTRIES_SHORT, ENTRY_WRONG = STEPS[:5]
BODIES_SHORT, BYTES_LEFT, RUNS_WRONG, RANGE_WRONG, TOO_FAR = STEPS[5:]

# Steps that no file can fail together, or not so that it could be seen: the bytes that the later one speaks of are
# not there, or both give 8 at place 0, or the file would have to be both too short and too long.
APART = {
    HEAD_SHORT: {ENTRIES_SHORT, ENTRY_WRONG, BODIES_SHORT, BYTES_LEFT, RUNS_WRONG, RANGE_WRONG},
    ENTRIES_SHORT: {BODIES_SHORT, BYTES_LEFT, RUNS_WRONG, RANGE_WRONG},
    BODIES_SHORT: {BYTES_LEFT},
}
NOT_TESTED = {CHECK: {ROOM, TOO_FAR}, BLOCK_OUT: set(), ROW_LOOKUP: {ROOM}}

# Ways to fail the steps: which entry is bad, which block has the bad index, whose range is not the body's, and what is
# wrong with the head and with the entry. In the one way of an edition the bad entry comes after the bad block, and in
# the other before it; and so do bad index and wrong range.
WAYS = (
    {"edition": 1, "entry": 3, "block": 1, "head": {"edition": OTHER_EDITION}, "fault": {"zero": 3}},
    {"edition": 1, "entry": 2, "block": 4, "head": {"count": 257}, "fault": {"zero": 3}},
    {"edition": 2, "entry": 3, "block": 1, "range": 2, "head": {"edition": 3}, "fault": {"zero": 3}},
    {"edition": 2, "entry": 2, "block": 4, "range": 3, "head": {"count": 257}, "fault": {"smallest": 9, "largest": 8}},
)


def ways():
    """All of them, by number."""
    return range(len(WAYS))


def fits(steps, way):
    """Can one question fail all of these steps?"""
    if HEAD_SHORT in steps and HEAD_WRONG in steps and "edition" not in WAYS[way]["head"]:
        return False  # In three bytes N cannot be seen to be above 256.
    return not any(later in APART.get(step, ()) for step in steps for later in steps)


def cannot_fail(way):
    """Steps that no file of the edition fails."""
    edition = WAYS[way]["edition"]
    return {RANGE_WRONG} if edition == 1 else {RUNS_WRONG}


def off_by_one(block):
    """The block with a range that is too wide by one."""
    smallest, largest = build.ranged(block).entry[-2:]
    return block.but(smallest=smallest - 1) if smallest else block.but(largest=largest + 1)


def faulty_file(steps, way, lean=False, first=None):
    """A file that fails exactly these steps and is good otherwise. A lean one has no run block but the bad one. The
    first block, which is good in every way, may be another one."""
    dice, how = Dice("steps", way), WAYS[way]
    blocks = [any_block(dice, PACKED, 1), any_runs(dice, 1), any_block(dice, FRAME, 1), any_block(dice, PACKED, 0)]
    blocks += [any_runs(dice, 2), any_block(dice, DIFFERENCES, 0)]
    bad_runs = with_index(blocks[how["block"]], 9, 77)
    if lean or not has_runs(how["edition"]):
        blocks = [frame(0, b"", 5) if block.entry.kind == RUNS else block for block in blocks]
    if first is not None:
        blocks[0] = first
    if RUNS_WRONG in steps:
        blocks[how["block"]] = bad_runs
    if RANGE_WRONG in steps:
        blocks[how["range"]] = off_by_one(blocks[how["range"]])
    if ENTRY_WRONG in steps:
        blocks[how["entry"]] = blocks[how["entry"]].but(**how["fault"])
    head = {"edition": how["edition"], "entries": how["edition"], **(how["head"] if HEAD_WRONG in steps else {})}
    data = column_file(blocks, **head)
    if BYTES_LEFT in steps:
        data += b"\0"
    if BODIES_SHORT in steps:
        data = data[:-1]
    if ENTRIES_SHORT in steps:
        data = data[: files.contents_length(how["edition"], len(blocks)) - 1]
    return data[:3] if HEAD_SHORT in steps else data


def faulty_question(op, steps, way, room=1023, lean=False):
    """A call that fails exactly these steps; room is the output's length where that is to be wrong."""
    data = faulty_file(steps, way, lean)
    name = f"{' and '.join(steps) or 'nothing wrong'}, way {way}"
    far = TOO_FAR in steps
    if op == CHECK:
        return ask_check(name, data)
    if op == ROW_LOOKUP:
        return ask_row(name, data, 6 * 1024 if far else 5000)
    return ask_block(Dice(name), name, data, 6 if far else 0, room if ROOM in steps else 1024)


def sets_of_steps(steps, way):
    """Of these steps none, each, every two that can meet, and many at once with the first taken away one by one."""
    steps = [step for step in steps if step not in cannot_fail(way)]
    yield ()
    yield from ((step,) for step in steps)
    yield from ((a, b) for i, a in enumerate(steps) for b in steps[i + 1 :] if fits((a, b), way))
    for last in (BODIES_SHORT, BYTES_LEFT):
        many = [s for s in steps if s in (ROOM, HEAD_WRONG, ENTRY_WRONG, last, RUNS_WRONG, RANGE_WRONG, TOO_FAR)]
        yield from (tuple(many[i:]) for i in range(len(many) - 2))


def steps_of(op):
    """The steps that a call tests."""
    return [step for step in STEPS if step not in NOT_TESTED[op]]


def faults_together(dice):
    for op in (CHECK, BLOCK_OUT, ROW_LOOKUP):
        for way in ways():
            yield from (faulty_question(op, steps, way) for steps in sets_of_steps(steps_of(op), way))


SECTIONS = (
    worked_files,
    every_width,
    edge_bodies,
    references,
    every_row,
    counts_of_words,
    run_blocks,
    crossing_rows,
    limits,
    outputs,
    large_files,
    heads,
    entry_fields,
    two_bad_entries,
    two_bad_blocks,
    cuts,
    trailing,
    faults_together,
)
