"""Blocks that hold given numbers, in any way that the reader takes: each kind, at the least width or a wider one, with
any reference or base that fits. The writer would choose one of them, and the others restore the block as well.
"""
from functools import partial

from models import build, layout, writer
from models.files import DIFFERENCES, FRAME, LANES, PACKED, RUNS, WRAP, T


def as_packed(values, more=0):
    """Kind 0, so many bits wider than it has to be."""
    width = writer.least_width(values) + more
    return build.packed(width, build.packed_bytes(width, values))


def as_frame(values, reference=None, more=0):
    """Kind 1, with the smallest as its reference or with another."""
    reference = min(values) if reference is None else reference
    above = [(value - reference) % WRAP for value in values]
    width = writer.least_width(above) + more
    return build.frame(width, build.packed_bytes(width, above), reference)


def as_differences(values, base=None, more=0):
    """Kind 2, with each lane's number in row 0 as its base or with others."""
    base = writer.base_of(values) if base is None else base
    steps = layout.delta(T, values, base)
    width = writer.least_width(steps) + more
    return build.differences(width, build.words(base), build.packed_bytes(width, steps))


def as_runs(values, before=(), after=()):
    """Kind 3, with values in front of the list and behind it that stand nowhere."""
    listed = list(dict.fromkeys(values))
    at = {value: len(before) + i for i, value in enumerate(listed)}
    return build.runs([at[value] for value in values], [*before, *listed, *after])


BY_KIND = {PACKED: as_packed, FRAME: as_frame, DIFFERENCES: as_differences, RUNS: as_runs}


def as_kind(kind, values):
    """The block in that kind, at the least width."""
    return BY_KIND[kind](values)


# Every way, by name. Each comes as a function that makes the block, since packing takes a while.


def other_reference(values):
    """The farthest reference below the smallest that needs no more width; None where there is none."""
    width = writer.least_width([max(values) - min(values)])
    spare = 2**width - 1 - (max(values) - min(values))
    return (min(values) - spare) % WRAP if spare else None


def lower_base(values, lane):
    """The base with one number less in a lane."""
    base = list(writer.base_of(values))
    base[lane] = (base[lane] - 1) % WRAP
    return base


def packed_ways(values):
    width = writer.least_width(values)
    yield "kind 0", partial(as_packed, values)
    if width < T:
        yield "kind 0 one bit wider", partial(as_packed, values, more=1)
        yield "kind 0 at width 64", partial(as_packed, values, more=T - width)


def frame_ways(values):
    smallest, largest = min(values), max(values)
    yield "kind 1", partial(as_frame, values)
    if writer.least_width([largest - smallest]) < T:
        yield "kind 1 one bit wider", partial(as_frame, values, more=1)
    references = {"from 0": 0, "from one less": (smallest - 1) % WRAP, "from the largest": largest}
    references |= {"from afar at the same width": other_reference(values)}
    for name, reference in references.items():
        if reference not in (None, smallest):
            yield f"kind 1 {name}", partial(as_frame, values, reference)


def difference_ways(values):
    """A base that is lower by one needs no more width where the differences have any."""
    width = writer.least_width(layout.delta(T, values, writer.base_of(values)))
    yield "kind 2", partial(as_differences, values)
    if width < T:
        yield "kind 2 one bit wider", partial(as_differences, values, more=1)
    for lane in (0, LANES - 1) if width else ():
        yield f"kind 2 with another base in lane {lane}", partial(as_differences, values, lower_base(values, lane))
    if any(writer.base_of(values)):
        yield "kind 2 from zeros", partial(as_differences, values, [0] * LANES)


def run_ways(values):
    yield "kind 3", partial(as_runs, values)
    if len(set(values)) < 1020:
        yield "kind 3 with unused values", partial(as_runs, values, before=[0, WRAP - 1], after=[5])


def ways_of(values, runs):
    """The ways to hold these numbers; run blocks are among them where those are read."""
    found = {**dict(packed_ways(values)), **dict(frame_ways(values)), **dict(difference_ways(values))}
    return {**found, **dict(run_ways(values))} if runs else found


def blocks_of_ways(values, runs):
    """A block for each of these ways, by name."""
    return {name: made() for name, made in ways_of(values, runs).items()}
