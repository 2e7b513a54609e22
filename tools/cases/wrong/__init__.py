"""Models that are wrong on purpose, each in one thing, by the call that they are of. The sample, the sweep or the pairs
have to tell each of them from the right one, so that they find out a program that is wrong in the same way."""
from . import canonicals, changes, drawers, editions, renumbers, rewrites, searches, trickles, writers

__all__ = ["canonicals", "changes", "drawers", "editions", "renumbers", "rewrites", "searches", "trickles", "writers"]
