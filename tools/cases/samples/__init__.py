"""The sample that the repository keeps in crates/replay/stdin: a few of the deliberate cases of every sort, and
some like them that take less room. Each part has dice of its own."""
from cases.dice import Dice
from . import canonicals, drawers, editions, reads, renumbers, rewrites, searches, trickles, writes


def sample():
    """Cases for the repository to keep; below 2^20 bytes, and always the same."""
    yield from reads.small_reads(Dice("sample"))
    yield from reads.small_counts(Dice("sample of counts"))
    yield from editions.small_editions(Dice("sample of editions"))
    yield from writes.small_writes(Dice("sample of writes"))
    yield from drawers.small_drawers(Dice("sample of drawers"))
    yield from trickles.small_trickles(Dice("sample of trickles"))
    yield from searches.small_searches(Dice("sample of searches"))
    yield from rewrites.small_rewrites(Dice("sample of rewrites"))
    yield from canonicals.small_canonicals(Dice("sample of canonical checks"))
    yield from renumbers.small_renumbers(Dice("sample of renumberings"))
