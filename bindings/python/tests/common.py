"""What the tests share: the models of tools/, files that they make, and the program columns."""
import functools
import os
import pathlib
import subprocess
import sys
import tempfile
import unittest

sys.dont_write_bytecode = True
ROOT = pathlib.Path(__file__).resolve().parent.parent.parent.parent
sys.path.insert(0, str(ROOT / "tools"))
from cases import mixed  # noqa: E402
from cases.dice import Dice  # noqa: E402
from columns_checks import common as checks  # noqa: E402
from models import files  # noqa: E402

PROGRAM = os.environ.get("COLUMNS_PROGRAM", str(ROOT / "out" / "columns" / "columns"))
TOP = 2**64 - 1


def tool(*words, given=b""):
    """The program columns: its status, its output and its complaint."""
    done = subprocess.run([PROGRAM, *map(str, words)], input=given, capture_output=True)
    return done.returncode, done.stdout.decode(), done.stderr.decode()


@functools.cache
def good_files():
    """Files that are readable, of both editions, by name."""
    dice, found = Dice("python", "good"), {}
    found.update(checks.good_files(Dice(42, "columns")))
    for i in range(12):
        data = mixed.rewrites.held_file(dice)
        if not files.check(data).number:
            found[f"held_{i}.col"] = data
    return found


@functools.cache
def bad_files():
    """A file for each number of the reader's table, and each way to come to it; and some that were damaged by chance."""
    dice, found = Dice("python", "bad"), dict(checks.damaged_files(Dice(42, "columns")))
    for i in range(40):
        data = bytearray(dice.pick(list(good_files().values())) or b"\0")
        data[dice.below(min(len(data), 100))] = dice.below(256)
        if files.check(bytes(data)).number:
            found[f"changed_{i}.col"] = bytes(data)
    return found


class InFolder(unittest.TestCase):
    """Tests with a folder of their own."""

    def setUp(self):
        folder = tempfile.TemporaryDirectory()
        self.addCleanup(folder.cleanup)
        self.folder = pathlib.Path(folder.name)

    def same(self, found, expected):
        """What assertEqual does, without going through the differences of long lists."""
        if found != expected:
            self.fail(f"{str(found)[:200]} and not {str(expected)[:200]}")

    def put(self, name, data):
        path = self.folder / name
        path.write_bytes(data)
        return str(path)
