"""The examples of the docstrings, run."""
import doctest

from fascjoldi import _blocks, _columns


def load_tests(_loader, tests, _pattern):
    for module in (_blocks, _columns):
        tests.addTests(doctest.DocTestSuite(module, optionflags=doctest.ELLIPSIS))
    return tests
