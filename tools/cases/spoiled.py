"""Cases with one thing wrong in what is expected, which every replay has to find wrong."""
from .stream import DRAWERS, NO_COUNT, RENUMBER, REWRITE, ROW_LOOKUP, SEARCH, TRICKLES, WRITE, answered


def bytes_to_spoil(question, outcome):
    """Places in the output: its first and last byte. Of a file that is written also one in each field of the contents,
    the first of the bodies, the file's last, and the one behind it. Of a drawer that is done the ends of each block,
    and of a search the ends of its rows."""
    at = {0, len(outcome.c) - 1}
    if question.op in (WRITE, REWRITE) and not outcome.number:
        at |= {2, 4, 5, 6, 8, 12, 20, 28, 36, outcome.value - 1, outcome.value}
    if question.op == RENUMBER and not outcome.number:
        size = outcome.value >> 32
        at |= {2, 4, 5, 6, 8, 12, 20, 28, 36, size - 1, size}
    if question.op == SEARCH and not outcome.number:
        at |= {8 * outcome.value - 1, 8 * outcome.value}
    if question.op in DRAWERS and not outcome.number and question.index:
        size = len(outcome.c) // question.index
        at |= {size * block + end for block in range(question.index) for end in (-1, 0)}
    return sorted(at & set(range(len(outcome.c))))


def wrong_counts(count):
    """Counts that somebody might give in the place of this one: the next, the one before, and none or 0."""
    return sorted({(count + 1) % 2**64, (count - 1) % 2**64, 0, NO_COUNT} - {count})


def spoiled(questions):
    """The cases with one part of what is expected changed, each part in turn; a replay has to find every one."""
    for question in questions:
        outcome = answered(question)
        yield question, outcome._replace(number=outcome.number + 1)
        yield question, outcome._replace(place=outcome.place + 1)
        if question.op == ROW_LOOKUP:
            yield question, outcome._replace(value=(outcome.value + 2**63) % 2**64)
            yield from ((question, outcome._replace(reference=count)) for count in wrong_counts(outcome.reference))
        if question.op in (WRITE, SEARCH, REWRITE, RENUMBER, *DRAWERS, *TRICKLES):
            yield question, outcome._replace(value=outcome.value + 1)
        if question.op == RENUMBER:
            yield question, outcome._replace(value=outcome.value + 2**32)
        for at in bytes_to_spoil(question, outcome):
            c = bytearray(outcome.c)
            c[at] ^= 128
            yield question, outcome._replace(c=bytes(c))
