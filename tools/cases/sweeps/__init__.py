"""The deliberate cases: every one that a rule on files, drawers, trickles or the renumbering asks for, by the call that
they are of.

The cases of the reader (R89, R90, R98) come from reads.py, and what edition 2 adds to them (R82, R87) from editions.py;
those of the writer (R99 to R105) from writes.py, those of drawers (R66 to R68) from drawers.py, those of trickles (R70
to R75) from trickles.py, those of the search (R107 to R110) from searches.py, those of the rewrite (R112 to R114) from
rewrites.py, those of the canonical check (R115 to R117) from canonicals.py, and those of the renumbering (R132 to R135)
from renumbers.py.
"""
from cases.dice import Dice
from . import canonicals, drawers, editions, reads, renumbers, rewrites, searches, trickles, writes

SECTIONS = (
    *reads.SECTIONS,
    *editions.SECTIONS,
    *writes.SECTIONS,
    *drawers.SECTIONS,
    *trickles.SECTIONS,
    *searches.SECTIONS,
    *rewrites.SECTIONS,
    *canonicals.SECTIONS,
    *renumbers.SECTIONS,
)


def sweep(seed):
    for section in SECTIONS:
        yield from section(Dice("sweep", seed, section.__name__))
