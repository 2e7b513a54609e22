"""What the tests share: the cases with the models' outcomes, made once for all tests, and how a check becomes a test.

A check is a function that gives the things that are not so, in words. A test holds it to giving nothing. Numbers in the
checks are worked out by hand, by the rules.
"""
import functools
import unittest

from cases import mixed, samples, sweeps
from cases.stream import BLOCK_OUT, CHECK, ROW_LOOKUP, WRITE, answered
from cases.sweeps.reads import ENTRY_WRONG, RANGE_WRONG, RUNS_WRONG, WAYS

OF_READER = (CHECK, BLOCK_OUT, ROW_LOOKUP)


def unless(good, said):
    if not good:
        yield said


class Checked(unittest.TestCase):
    """Tests that are made of checks."""

    def nothing(self, check):
        """The check gives nothing."""
        found = list(check)
        if found:
            self.fail("\n".join(found))


# The cases, each with its outcome.


def with_outcomes(questions):
    return [(question, answered(question)) for question in questions]


@functools.cache
def swept():
    return with_outcomes(sweeps.sweep(1))


@functools.cache
def sample():
    return with_outcomes(samples.sample())


@functools.cache
def thrown():
    """Random cases: readings and writes as the stream of mixed cases has them, and then some of every other sort."""
    readings = mixed.mixed(1, 600, (*OF_READER, WRITE))
    others = [mixed.drawers.drawers_of(1, 200), mixed.trickles.trickles(1, 100), mixed.searches.searches(1, 200)]
    others += [mixed.rewrites.rewrites(1, 150), mixed.canonicals.canonicals(1, 200), mixed.renumbers.renumbers(2, 200)]
    return with_outcomes([*readings, *(question for sort in others for question in sort)])


def all_three(ops):
    """The cases of some calls, of the sweep, of the sample and of the random ones, each with its name."""
    every = ("sweep", swept()), ("sample", sample()), ("mixed", thrown())
    return [(name, of_calls(asked, ops)) for name, asked in every]


def of_calls(asked, ops):
    return [(question, outcome) for question, outcome in asked if question.op in ops]


def questions_of(asked):
    return [question for question, _ in asked]


# What the calls on files have in common.


def expected_of(steps, way):
    """The number and the place that the first of these steps gives, by the table of R90."""
    named = {ENTRY_WRONG: "entry", RUNS_WRONG: "block", RANGE_WRONG: "range"}
    place = WAYS[way][named[steps[0]]] if steps and steps[0] in named else 0
    return (int(steps[0].split()[0]), place) if steps else (0, 0)
