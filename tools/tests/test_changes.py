"""Holds the model of the program changes, and the pairs, to what R118 to R121 say.

First come texts that are worked out by hand. Then the pairs are looked at, and last come the programs of
wrong/changes.py.
"""
from cases import pairs, wrong
from cases.sweeps.reads import NO_BLOCKS, NO_BLOCKS_2, SEVENS, SEVENS_2
from models import changes, files, rewrite, writer
from models.build import column_file, frame
from .common import Checked, unless

COUNT = 325  # of the pairs that are looked at; 76 more than the deliberate ones


def worked_texts():
    """Two files, and then the text."""
    nine = writer.file_of([7] * 3 + [9] + [7] * 1020, 2)
    three = column_file([frame(0, b"", 7), frame(0, b"", 8), frame(0, b"", 7)], 1)
    lie = column_file([frame(0, b"", 7), frame(0, b"", 7).but(largest=8)], 2)
    eights = "".join(f"{row} 7 8\n" for row in range(1024))
    for left, right, expected in (
        (SEVENS, nine, "3 7 9\ndifferences 1\n"),
        (nine, SEVENS, "3 9 7\ndifferences 1\n"),
        (nine, SEVENS_2, "3 9 7\ndifferences 1\n"),
        (SEVENS, SEVENS_2, "differences 0\n"),
        (SEVENS_2, column_file([frame(0, b"", 8)], 1), eights + "differences 1024\n"),
        (NO_BLOCKS, NO_BLOCKS_2, "differences 0\n"),
        (NO_BLOCKS, SEVENS, "rows 0 1024\ndifferences 0\n"),
        (SEVENS, NO_BLOCKS, "rows 1024 0\ndifferences 0\n"),
        (three, nine, "3 7 9\nrows 3072 1024\ndifferences 1\n"),
        (nine, three, "3 9 7\nrows 1024 3072\ndifferences 1\n"),
        (None, nine, "refused left 8 0\n"),
        (nine, None, "refused right 8 0\n"),
        (None, None, "refused left 8 0\n"),
        (b"", nine, "refused left 8 0\n"),
        (lie, None, "refused left 15 1\n"),
        (nine, lie, "refused right 15 1\n"),
        (SEVENS + b"x", lie, "refused left 11 0\n"),
        (SEVENS, b"\3" + SEVENS[1:], "refused right 9 0\n"),
    ):
        got = changes.text(left, right)
        yield from unless(got == expected, f"for {expected.splitlines()[-2:]} the model prints {got.splitlines()[-2:]}")


def every_row_once(some_pairs):
    """Of good files every row in both is listed exactly where the numbers differ, rising, and the last line counts."""
    for pair in some_pairs:
        if changes.refusal(pair.left, pair.right):
            continue
        *lines, last = changes.text(pair.left, pair.right).splitlines()
        sides = rewrite.all_values(pair.left), rewrite.all_values(pair.right)
        if len(sides[0]) != len(sides[1]):
            wanted = f"rows {len(sides[0])} {len(sides[1])}"
            yield from unless(lines[-1:] == [wanted], f"{pair.name}: the line before the last is not {wanted}")
            lines = lines[:-1]
        rows = [tuple(map(int, line.split())) for line in lines]
        listed = {row: (old, new) for row, old, new in rows}
        yield from unless(sorted(listed) == [row for row, *_ in rows], f"{pair.name}: the rows do not rise")
        for row in range(min(map(len, sides))):
            numbers = sides[0][row], sides[1][row]
            good = listed.get(row, (0, 0)) == (numbers if numbers[0] != numbers[1] else (0, 0))
            if not good:
                yield f"{pair.name}: row {row} with {numbers} is listed as {listed.get(row)}"
        yield from unless(last == f"differences {len(rows)}", f"{pair.name}: the last line is {last}")


def what_is_reached(some_pairs):
    """Both sides are refused with every number; counts of rows differ both ways; editions and kinds meet."""
    refused, shapes, editions = set(), set(), set()
    for pair in some_pairs:
        line = changes.refusal(pair.left, pair.right)
        if line:
            refused.add(tuple(line.split()[1:3]))
            continue
        lines = changes.text(pair.left, pair.right).splitlines()
        counts = files.count_of(pair.left), files.count_of(pair.right)
        shapes.add(((counts[0] > counts[1]) - (counts[0] < counts[1]), lines[-1] == "differences 0"))
        editions.add((files.edition_of(pair.left), files.edition_of(pair.right)))
    wanted = {(side, number) for side in ("left", "right") for number in ("8", "9", "10", "11", "13", "15")}
    yield from unless(refused == wanted, f"no pair is refused with {sorted(wanted - refused)}")
    wanted = {(way, none) for way in (-1, 0, 1) for none in (True, False)}
    yield from unless(shapes == wanted, f"no pair has row counts and differences {sorted(wanted - shapes)}")
    wanted = {(left, right) for left in (1, 2) for right in (1, 2)}
    yield from unless(editions == wanted, f"no pair has the editions {sorted(wanted - editions)}")
    names = [pair.name for pair in some_pairs]
    yield from unless(len(set(names)) == len(names), "two pairs have one name")


def wrong_ones_told(some_pairs):
    for name in wrong.changes.not_told(some_pairs, wrong.changes.WRONG_PROGRAMS):
        yield f"the pairs do not find out a wrong program: {name}"
    right = list(wrong.changes.not_told(some_pairs, {"no fault": changes.text}))
    yield from unless(right == ["no fault"], "the pairs find out the right program")


def is_short(pair):
    return max(len(data or b"") for data in (pair.left, pair.right)) < 40000


class Changes(Checked):
    @classmethod
    def setUpClass(cls):
        """The long pairs take a while and are few, so they are left out here."""
        cls.short = list(filter(is_short, pairs.pairs(1, COUNT)))

    def test_worked_texts(self):
        self.nothing(worked_texts())

    def test_every_row_once(self):
        self.nothing(every_row_once(self.short))

    def test_what_is_reached(self):
        self.nothing(what_is_reached(self.short))

    def test_wrong_ones(self):
        self.nothing(wrong_ones_told(self.short))
