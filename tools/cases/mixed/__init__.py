"""Cases that nobody thought of, of every call that a stream is to have.

Two cases of ten are writes, which writes.py makes, one is a drawer, from drawers.py, one a trickle, from trickles.py,
one a search, from searches.py, one a rewrite, from rewrites.py, one a canonical check, from canonicals.py, and one a
renumbering, from renumbers.py. The others are readings, from reads.py, one of them of a file that the model wrote. Where
the stream is not to have a call, a reading takes its place.

Each case has dice of its own, made from the seed and the case's number. So case 17 of a seed is the same however many
cases are written.
"""
from cases.dice import Dice
from cases.stream import CANONICAL, DRAWERS, RENUMBER, REWRITE, SEARCH, TRICKLES, WRITE
from . import canonicals, drawers, reads, renumbers, rewrites, searches, trickles, writes

# Of ten cases, by the number that is thrown: the calls that one can be of, and who makes it.
OTHERS = {
    0: ((WRITE,), writes.case),
    1: ((WRITE,), writes.case),
    3: (DRAWERS, drawers.case),
    4: (TRICKLES, trickles.case),
    5: ((SEARCH,), searches.case),
    6: ((REWRITE,), rewrites.case),
    7: ((CANONICAL,), canonicals.case),
    8: ((RENUMBER,), renumbers.case),
}


def case(seed, i, ops):
    """A case of one of these calls."""
    sort = Dice("mixed sort", seed, i).below(10)
    calls, made_by = OTHERS.get(sort, ((), None))
    if calls and set(calls) <= set(ops):
        return made_by(seed, i)
    return reads.reading(seed, i, reads.written_file if sort == 2 else reads.some_file)


def mixed(seed, count, ops):
    return (case(seed, i, ops) for i in range(count))
