"""Columns: every answer as the program's, and as the models have it."""
import os
import re
import threading
import unittest
from array import array
from unittest import mock

import fascjoldi
from fascjoldi import Column, NoRow, Refused, changes, encode
from fascjoldi import _columns

from .common import TOP, Dice, InFolder, bad_files, checks, good_files, tool

from models import build, files, rewrite, writer  # common.py says where they are



class Answers(InFolder):
    """Each good file, asked by Python and by the program."""

    def test_rows(self):
        for name, data in good_files().items():
            path = self.put(name, data)
            column = Column.open(path)
            values = rewrite.all_values(data)
            with self.subTest(name):
                self.assertEqual(tool("check", path)[1], f"ok, {len(values) // 1024} blocks, {len(column)} rows, edition {column.edition}\n")
                self.same(list(column), values)
                self.same("".join(f"{number}\n" for number in column), tool("rows", path)[1])
                self.same([list(block) for block in column.in_blocks()], writer.blocks_of(values))
                self.same(bytes(column), data)
                for block in range(len(values) // 1024):
                    self.same(list(column.block(block)), values[1024 * block : 1024 * (block + 1)])

    def test_single_rows_and_slices(self):
        dice = Dice("python", "slices")
        for name, data in good_files().items():
            column, values = Column(data), rewrite.all_values(data)
            with self.subTest(name):
                for _ in range(200 if values else 0):
                    row = dice.below(2 * len(values)) - len(values)
                    self.assertEqual(column[row], values[row])
                for _ in range(60):
                    ends = [dice.pick((None, dice.below(2 * len(values) + 9) - len(values) - 4)) for _ in range(2)]
                    part = slice(*ends, dice.pick((None, 1, 2, -1, 7, -1023, 1024, 5000)))
                    self.same(list(column[part]), values[part])
                for row in (len(values), len(values) + 5, -len(values) - 1, 2**70):
                    with self.assertRaises(NoRow) as told:
                        column[row]
                    self.assertEqual((told.exception.number, told.exception.place), (12, 0))
                    self.assertIsInstance(told.exception, IndexError)

    def test_sentence_of_a_row(self):
        for name in ("ours.col", "none_2.col"):
            path = self.put(name, good_files()[name])
            with self.assertRaises(NoRow) as told:
                Column.open(path)[9999]
            self.assertEqual(f"{told.exception}\n", tool("row", 9999, path)[2])

    def test_find(self):
        dice = Dice("python", "find")
        for name, data in good_files().items():
            path = self.put(name, data)
            column, values = Column.open(path), rewrite.all_values(data)
            with self.subTest(name):
                for _ in range(20):
                    near = [dice.pick(values or [5]) + dice.below(9) - 4 for _ in range(2)]
                    low, high = (min(max(number, 0), TOP) for number in dice.pick((near, near[:1] * 2, (0, TOP), (0, 0))))
                    rows = list(column.find(low, high))
                    self.same(rows, [row for row, value in enumerate(values) if low <= value <= high])
                    if low <= high:
                        said = tool("find", "-q", low, high, path)[1]
                        self.same("".join(f"{row} {values[row]}\n" for row in rows), said)

    def test_blocks(self):
        for name, data in good_files().items():
            path = self.put(name, data)
            lines = tool("show", path)[1].splitlines()[1:-1]
            for block, line in zip(Column.open(path).blocks, lines, strict=True):
                shown = [block.kind, *map(str, (block.width, block.reference, block.smallest, block.largest, block.bytes))]
                self.assertEqual(shown, line.split()[1:7], f"{name}: {line}")

    def test_canonical_and_rewrite(self):
        for name, data in good_files().items():
            path = self.put(name, data)
            column, new = Column.open(path), self.folder / "new.col"
            with self.subTest(name):
                status, said, _ = tool("canonical", path)
                self.assertEqual(column.is_canonical(), status == 0)
                why = column.canonical_answer()
                if why is not None and why.number != 9:
                    self.assertEqual(f"differs {str(why).split('refused ')[1]}\n", said)
                self.same(column.rewritten(), rewrite.rewritten(data))
                self.assertEqual(column.rewrite(new), len(rewrite.rewritten(data)))
                self.assertEqual(tool("rewrite", path, self.folder / "theirs.col")[0], 0)
                self.same(new.read_bytes(), (self.folder / "theirs.col").read_bytes())
            new.unlink()
            (self.folder / "theirs.col").unlink()

    def test_changes(self):
        dice = Dice("python", "changes")
        some = sorted(good_files())
        for _ in range(25):
            left, right = (self.put(f"{side}.col", good_files()[dice.pick(some)]) for side in ("left", "right"))
            found = changes(left, Column.open(right))
            said = [line for line in tool("changes", left, right)[1].splitlines() if line[0].isdigit()]
            self.same([f"{one.row} {one.left} {one.right}" for one in found], said)
        values = list(range(2048))
        other = values[:700] + [9] + values[701:1500] + [TOP] + values[1501:]
        found = changes(Column(encode(values)), Column(encode(other)))
        self.assertEqual(found, [(700, 700, 9), (1500, 1500, TOP)])


class BadFiles(InFolder):
    def test_refusals(self):
        """Number, place and sentence, as the program prints them."""
        for name, data in bad_files().items():
            path = self.put(name, data)
            with self.subTest(name), self.assertRaises(Refused) as told:
                Column.open(path)
            answer = files.check(data)
            self.assertEqual((told.exception.number, told.exception.place), answer[:2], name)
            status, _, complaint = tool("check", path)
            self.assertEqual((status, complaint), (2, f"{told.exception}\n"))
            with self.assertRaises(Refused):
                changes(path, self.put("good.col", good_files()["ours.col"]))

    def test_files_that_are_not_there(self):
        with self.assertRaises(FileNotFoundError):
            Column.open(self.folder / "nothing.col")
        with self.assertRaises(IsADirectoryError):
            Column.open(self.folder)
        path = self.put("a.col", encode(range(2048)))
        column = Column.open(path)
        os.unlink(path)
        self.assertEqual(column[2047], 2047)

    def test_the_longest(self):
        """The longest file that is readable, and the same with a byte more and with very many."""
        data = checks.longest(Dice("python", "longest"))
        self.assertEqual(len(data), _columns.LONGEST_FILE)
        path = self.put("longest.col", data)
        column = Column.open(path)
        self.same("".join(f"{number}\n" for number in column), tool("rows", path)[1])
        for more in (1, 3_000_000):
            with self.assertRaises(Refused) as told:
                Column.open(self.put("longer.col", data + bytes(more)))
            self.assertEqual((told.exception.number, told.exception.place), (11, 0))

    def test_cut_and_overwritten(self):
        """What happens to the file changes nothing of a column, and brings no process down."""
        path = self.put("a.col", encode(range(262144)))
        column = Column.open(path)
        os.truncate(path, 10)
        self.assertEqual(list(column[262140:]), [262140, 262141, 262142, 262143])
        with open(path, "r+b") as file:
            file.write(b"\xff" * 100)
        self.assertEqual(column[5], 5)
        with self.assertRaises(Refused):
            Column.open(path)

    def test_changed_while_it_is_read(self):
        path = self.put("a.col", encode(range(1024)))
        with mock.patch.object(_columns, "_same", lambda *_: False), self.assertRaises(fascjoldi.Changed) as told:
            Column.open(path)
        self.assertIn("changed while it was read", str(told.exception))

    def test_wrong_words(self):
        column = Column(encode(range(1024)))
        for call in (lambda: column.find(-1, 5), lambda: column.find(0, 2**64), lambda: encode([2**64]), lambda: encode([-1])):
            self.assertRaises(OverflowError, call)
        for call in (lambda: column.find("1", 5), lambda: column.find(1.5, 2), lambda: encode(["1"]), lambda: encode(5)):
            self.assertRaises(TypeError, call)
        self.assertRaises(Refused, column.block, 1)
        self.assertRaises(Refused, encode, range(1023))
        self.assertRaises(Refused, encode, bytes(257 * 1024))


class Writing(InFolder):
    def test_encode(self):
        dice = Dice("python", "encode")
        for name, data in good_files().items():
            values = rewrite.all_values(data)
            wanted = writer.file_of(values)
            for given in (values, tuple(values), iter(values), array("Q", values), memoryview(array("Q", values))):
                self.same(encode(given), wanted)
        small = [dice.below(200) for _ in range(2048)]
        for given in (bytes(small), bytearray(small), array("B", small), array("I", small), array("H", small)):
            self.same(encode(given), writer.file_of(small))
        self.assertEqual(encode([]), build.column_file([], 2))
        self.assertEqual(encode(range(0)), encode(array("Q")))

    def test_write_is_the_programs(self):
        values = [7 * i % 1000 for i in range(4096)]
        length = Column.write(self.folder / "ours.col", values)
        text = "".join(f"{value}\n" for value in values).encode()
        self.assertEqual(tool("write", self.folder / "theirs.col", given=text)[0], 0)
        self.assertEqual((self.folder / "ours.col").read_bytes(), (self.folder / "theirs.col").read_bytes())
        self.assertEqual(length, (self.folder / "ours.col").stat().st_size)

    def test_no_blocks(self):
        column = Column(encode([]))
        self.assertEqual((len(column), list(column), column.blocks, list(column[:]), list(column.find(0, TOP))), (0, [], (), [], []))
        self.assertTrue(column.is_canonical())
        self.assertEqual(column.rewritten(), bytes(column))


class Threads(unittest.TestCase):
    def test_one_column_for_all(self):
        values = [i * i for i in range(64 * 1024)]
        column, wrong = Column(encode(values)), []

        def ask(seed):
            dice = Dice("threads", seed)
            for _ in range(400):
                row = dice.below(len(values))
                if column[row] != values[row]:
                    wrong.append(row)

        threads = [threading.Thread(target=ask, args=(seed,)) for seed in range(8)]
        for thread in threads:
            thread.start()
        for thread in threads:
            thread.join()
        self.assertEqual(wrong, [])


class Names(unittest.TestCase):
    def test_version(self):
        root = _columns.__file__.rsplit("/bindings/", 1)[0]
        with open(f"{root}/VERSION", encoding="ascii") as file:
            self.assertEqual(fascjoldi.__version__, file.read().strip())

    def test_all_is_there(self):
        self.assertEqual([name for name in fascjoldi.__all__ if not hasattr(fascjoldi, name)], [])
        self.assertTrue(re.match(r"<fascjoldi.Column of bytes: 1024 rows, edition 2>", repr(Column(encode(range(1024))))))
