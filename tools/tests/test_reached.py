"""Holds the streams to what they are to reach: every call, every number that it can give, every kind, every count."""
from cases import mixed, sweeps
from cases.stream import BLOCK_OUT, CALLS, CANONICAL, CHECK, FOR_PACK_BLOCKS, NO_COUNT, RENUMBER, REWRITE, ROW_LOOKUP
from cases.stream import SEARCH, TRICKLE, TRICKLE_FROM, TRICKLES, UNPACK_BLOCKS, WRITE
from models import files
from models.files import DIFFERENCES, FRAME, PACKED, RUNS
from .common import OF_READER, Checked, sample, swept, thrown, unless

GIVEN = {  # The numbers that each call can give, as the second table of R143 has them.
    CHECK: {0, 8, 9, 10, 11, 13, 15},
    BLOCK_OUT: {0, 2, 8, 9, 10, 11, 12, 13, 15},
    ROW_LOOKUP: {0, 8, 9, 10, 11, 12, 13, 15},
    WRITE: {0, 2, 14},
    SEARCH: {0, 8, 9, 10, 11, 13, 14, 15},
    REWRITE: {0, 8, 9, 10, 11, 13, 14, 15},
    CANONICAL: {0, 8, 9, 10, 11, 13, 15, 17},
    UNPACK_BLOCKS: {0, 1, 2, 3},
    FOR_PACK_BLOCKS: {0, 1, 2, 3},
    TRICKLE: {0, 1, 2, 16},
    TRICKLE_FROM: {0, 2, 16},
    RENUMBER: {0, 8, 9, 10, 11, 13, 14, 15, 18, 19, 20, 21, 22},
}
# Numbers that the sample may leave to other calls and to the sweep, since there a block takes much room.
LEFT_TO_OTHERS = {TRICKLE_FROM: {16}, BLOCK_OUT: {8, 9, 11}}
COUNTS = {  # The counts of words that a row lookup can give in each kind of block (R39, R98).
    PACKED: {0, 1, 2},
    FRAME: {0, 1, 2},
    DIFFERENCES: {NO_COUNT},
    RUNS: {NO_COUNT},
}


def read_at(question):
    """The kind and width, or of runs the length, of the block that a block out or a row lookup reads."""
    block = question.index if question.op == BLOCK_OUT else question.index // 1024
    entry = files.entry_at(question.a, block)
    return entry.kind, entry.width if entry.kind != RUNS else entry.length


def what_is_reached(name, asked, by_rows=False):
    """Every number that a call can give, and no other; every kind is read and written; every count that a kind can
    give is given; outputs change and stay. Blocks come out at the widths at the edges; with by_rows, a kind may
    have a row lookup there in the place of a block out."""
    reached = {op: set() for op in GIVEN}
    kinds, written, counts = set(), set(), {kind: set() for kind in COUNTS}
    for question, outcome in asked:
        reached[question.op].add(outcome.number)
        if question.op == BLOCK_OUT and not outcome.number:
            kinds.add(read_at(question))
            yield from unless(outcome.c != question.c, f"{name}, {question.name}: the output would not change")
        if question.op == ROW_LOOKUP and not outcome.number:
            kind, _ = read_at(question)
            counts[kind].add(outcome.reference)
            if by_rows:
                kinds.add(read_at(question))
        if question.op == WRITE and not outcome.number:
            written |= {entry.kind for entry in files.entries_of(outcome.c)}
            yield from unless(outcome.c != question.c, f"{name}, {question.name}: the output would not change")
        if outcome.number:
            yield from unless(outcome.c == question.c, f"{name}, {question.name}: a refusal changes the output")
            no_value = outcome.value == 0 or question.op in TRICKLES
            yield from unless(no_value, f"{name}, {question.name}: a refusal gives a value")
        if outcome.number or question.op != ROW_LOOKUP:
            none = NO_COUNT if question.op == ROW_LOOKUP else 0
            yield from unless(outcome.reference == none, f"{name}, {question.name}: the reference is another")
    for op in LEFT_TO_OTHERS if name == "sample" else ():
        reached[op] |= LEFT_TO_OTHERS[op]
    yield from unless(reached == GIVEN, f"{name}: the numbers given are {reached}")
    yield from unless(counts == COUNTS, f"{name}: the counts of words by kind are {counts}")
    yield from unless(written == {PACKED, FRAME, DIFFERENCES}, f"{name}: the kinds written are {written}")
    if name == "mixed":
        return  # There the widths are as they come.
    edges = {(kind, width) for kind in (PACKED, FRAME, DIFFERENCES) for width in sweeps.reads.EDGE_WIDTHS}
    edges |= {(RUNS, 2048 + 8), (RUNS, 2048 + 8 * 1024)}
    yield from unless(edges <= kinds, f"{name}: no block out of kind and width {sorted(edges - kinds)}")


def mixed_has_all():
    """The stream of mixed cases has every call that it is to have, and no other."""
    for ops in (CALLS, OF_READER, (*OF_READER, WRITE, SEARCH)):
        found = {question.op for question in mixed.mixed(1, 150, ops)}
        yield from unless(found == set(ops), f"mixed cases of {sorted(ops)} have the calls {sorted(found)}")


class Reached(Checked):
    def test_sweep(self):
        self.nothing(what_is_reached("sweep", swept()))

    def test_sample(self):
        self.nothing(what_is_reached("sample", sample(), by_rows=True))

    def test_mixed(self):
        self.nothing(what_is_reached("mixed", thrown()))

    def test_mixed_has_all(self):
        self.nothing(mixed_has_all())
