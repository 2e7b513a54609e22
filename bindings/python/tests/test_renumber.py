"""The renumbering, against its model and against the program."""
from fascjoldi import Column, Refused, changes, encode

from .common import Dice, InFolder, good_files, tool

from cases import mixed, samples  # common.py says where they are
from cases.stream import RENUMBER, lists_in
from models import files, renumber, rewrite


def questions():
    """Those of the sample, and random ones, of files that are readable; the output is always long enough here."""
    yield from (q for q in samples.sample() if q.op == RENUMBER)
    yield from mixed.renumbers.renumbers(7, 150)


class Renumbering(InFolder):
    def test_as_the_model(self):
        """Number, place, bytes and K of every list, good and bad, as the model has them."""
        reached = set()
        for question in questions():
            if files.check(question.a).number:
                continue
            lists = lists_in(question)
            answer, given = renumber.renumber(question.a, lists, 2**23)
            reached.add(answer.number)
            column = Column(question.a)
            try:
                data, changed = column._renumbered(*(memoryview(words(part)).cast("Q") for part in lists))
            except Refused as refused:
                self.same((refused.number, refused.place), answer[:2])
                continue
            self.same((answer.number, data, changed), (0, given.file, given.changed))
        self.assertEqual(reached, {0, 18, 19, 20, 21, 22})

    def test_pairs(self):
        """Pairs in any order and as a mapping; what `changes` says of it; and the way back."""
        dice = Dice("python", "renumber")
        for name, data in good_files().items():
            column, rows = Column(data), rewrite.all_values(data)
            numbers = sorted(set(rows))[:: 1 + dice.below(50)]
            pairs = list(zip(numbers, numbers[::-1]))
            new, changed = column.renumbered(dict(pairs))
            self.same((new, changed), column.renumbered(iter(pairs[::-1])))
            self.same(new, renumber.renumber(data, renumber.lists_of(pairs), 2**23)[1].file)
            found = changes(column, Column(new))
            self.assertEqual(len(found), changed, name)
            back, again = Column(new).renumbered((right, left) for left, right in pairs)
            self.same((back, again), (column.rewritten(), changed))

    def test_written_with_care(self):
        path, new = self.folder / "a.col", self.folder / "b.col"
        Column.write(path, [1, 2, 3, 4] * 256)
        column = Column.open(path)
        done = column.renumber(new, {1: 9})
        self.assertEqual((done.changed, done.bytes), (256, new.stat().st_size))
        self.assertEqual(list(Column.open(new)[:4]), [9, 2, 3, 4])
        self.assertRaises(FileExistsError, column.renumber, new, {1: 8})
        with self.assertRaises(Refused) as told:
            column.renumber(self.folder / "c.col", {1: 2})
        self.assertEqual((told.exception.number, told.exception.place), (22, 1))
        self.assertFalse((self.folder / "c.col").exists())
        said = tool("changes", path, new)[1]
        self.assertEqual(len(said.splitlines()), 257)
        theirs = self.folder / "theirs.col"
        _, said, complaint = tool("renumber", path, theirs, given=b"1 9\n")
        self.assertEqual((said, complaint), ("renumbered 256 of 1024 rows, 0 of 1 pairs have no row\n", ""))
        self.same(theirs.read_bytes(), new.read_bytes())

    def test_wrong_pairs(self):
        column = Column(encode([1, 2] * 512))
        for number, place, pairs, about in (
            (19, 1, [(1, 5), (1, 6)], "(1 behind 1)"),
            (21, 0, [(1, 5), (2, 5)], "(5)"),
            (22, 1, [(1, 2)], "(row 1 has 2)"),
        ):
            with self.assertRaises(Refused) as told:
                column.renumbered(pairs)
            self.assertEqual((told.exception.number, told.exception.place), (number, place))
            self.assertTrue(told.exception.sentence.endswith(about), told.exception.sentence)
        for wrong, pairs in ((OverflowError, [(-1, 5)]), (OverflowError, [(1, 2**64)]), (TypeError, [("1", 5)]), (TypeError, 5)):
            self.assertRaises(wrong, column.renumbered, pairs)
        self.assertEqual(column.renumbered([])[1], 0)


def words(numbers):
    return b"".join(int(number).to_bytes(8, "little") for number in numbers)
