"""What the groups of checks share: the counting, the files, and the program columns."""
import pathlib
import subprocess

from columns_checks.common import damaged_files, good_files
from models import files

from .driver import Connection

ROOT = pathlib.Path(__file__).resolve().parent.parent.parent
MOST = 2**63 - 1  # the largest integer of SQLite


class Checks:
    """Counts checks, says which failed, and says of each group in a line how many there were."""

    def __init__(self):
        self.made = self.failed = self.before = 0

    def that(self, name, good, told=""):
        self.made += 1
        if not good:
            self.failed += 1
            print(f"sqlite_test: FAILED: {name}{': ' if told else ''}{told}", flush=True)

    def same(self, name, found, expected):
        self.that(name, found == expected, f"{str(found)[:300]} and not {str(expected)[:300]}")

    def group(self, what):
        print(f"sqlite_test: {what}: {self.made - self.before} checks", flush=True)
        self.before = self.made


def not_tried(what, why):
    print(f"sqlite_test: not tried: {what}, since {why}", flush=True)


class Run:
    """A folder with files, the extension, and the program columns."""

    def __init__(self, folder, lib, extension, program):
        self.folder, self.lib, self.extension, self.program = pathlib.Path(folder), lib, extension, program

    def put(self, name, data):
        path = self.folder / name
        path.write_bytes(data)
        return path

    def open(self, name=":memory:"):
        return Connection(self.lib, self.extension, name)

    def tool(self, *words):
        """The program: its output, and its complaint without the end of the line."""
        done = subprocess.run([self.program, *map(str, words)], capture_output=True, text=True)
        return done.stdout, done.stderr.rstrip("\n")


def some_files(dice):
    """Good files and damaged ones, by name."""
    good, bad = good_files(dice), damaged_files(dice)
    return good, {name: data for name, data in bad.items() if files.check(data).number}
