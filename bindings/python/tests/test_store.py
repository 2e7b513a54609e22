"""Writing with care: what is there stays until the new file is whole, whatever happens."""
import fcntl
import os
import signal
import stat
import subprocess
import sys
import time
from unittest import mock

from fascjoldi import Column, Refused, encode
from fascjoldi import _store

from .common import InFolder, tool

OLD, NEW = range(1024), range(5000, 7048)


class Store(InFolder):
    def setUp(self):
        super().setUp()
        self.path = self.folder / "a.col"

    def names(self):
        return sorted(p.name for p in self.folder.iterdir())

    def test_no_overwriting_unless_asked(self):
        Column.write(self.path, OLD)
        with self.assertRaises(FileExistsError) as told:
            Column.write(self.path, NEW)
        self.assertIn("replace=True", str(told.exception))
        self.assertEqual(self.path.read_bytes(), encode(OLD))
        # It is refused before a number is taken.
        taken = (self.fail("a number is taken") for _ in OLD)
        self.assertRaises(FileExistsError, Column.write, self.path, taken)
        Column.write(self.path, NEW, replace=True)
        self.assertEqual(self.path.read_bytes(), encode(NEW))
        self.assertEqual(self.names(), ["a.col"])

    def test_made_by_another_meanwhile(self):
        """The name is given over nothing that is there, also where it came after the first look."""
        for renames in (True, False):
            with _store.Store(self.path, False) as store:
                self.path.write_bytes(b"another's")
                with mock.patch.object(store, "_may_be_put", lambda: None), self.assertRaises(FileExistsError):
                    if renames:
                        store.put(encode(NEW))
                    else:
                        with mock.patch.object(_store, "_libc", object()):
                            store.put(encode(NEW))
            self.assertEqual(self.path.read_bytes(), b"another's")
            self.assertEqual(self.names(), ["a.col"])
            self.path.unlink()

    def test_file_systems_without_the_one_step(self):
        with mock.patch.object(_store, "_libc", object()):
            Column.write(self.path, NEW)
        self.assertEqual((self.path.read_bytes(), self.names()), (encode(NEW), ["a.col"]))

    def test_mode(self):
        before = os.umask(0o027)
        try:
            Column.write(self.path, OLD)
        finally:
            os.umask(before)
        self.assertEqual(stat.S_IMODE(self.path.stat().st_mode), 0o640)
        self.path.chmod(0o604)
        Column.write(self.path, NEW, replace=True)
        self.assertEqual(stat.S_IMODE(self.path.stat().st_mode), 0o604)

    def test_links(self):
        (self.folder / "far").mkdir()
        (self.folder / "link.col").symlink_to("far/b.col")
        Column.write(self.folder / "link.col", OLD)
        self.assertEqual((self.folder / "far" / "b.col").read_bytes(), encode(OLD))
        Column.write(self.folder / "link.col", NEW, replace=True)
        self.assertTrue((self.folder / "link.col").is_symlink())
        self.assertEqual((self.folder / "far" / "b.col").read_bytes(), encode(NEW))
        (self.folder / "round.col").symlink_to("round.col")
        self.assertRaises(OSError, Column.write, self.folder / "round.col", OLD)

    def test_what_cannot_become_a_file(self):
        os.mkfifo(self.folder / "pipe")
        (self.folder / "folder").mkdir()
        for name, wrong in (("pipe", FileExistsError), ("folder", IsADirectoryError), ("no/a.col", FileNotFoundError)):
            self.assertRaises(wrong, Column.write, self.folder / name, OLD, replace=True)
        self.assertRaises(OSError, Column.write, str(self.folder) + "/", OLD)
        self.assertEqual(self.names(), ["folder", "pipe"])

    def test_refused_numbers_leave_nothing(self):
        self.assertRaises(Refused, Column.write, self.path, range(1000))
        self.assertRaises(OverflowError, Column.write, self.path, [-1] * 1024)
        self.assertEqual(self.names(), [])

    def test_failures_leave_the_old_file(self):
        """Each step fails in turn: what was there is as it was, and no other name stays."""
        Column.write(self.path, OLD)
        for step in ("fsync", "write", "fchmod", "rename"):
            with mock.patch.object(os, step, side_effect=OSError(28, "No space left on device")):
                self.assertRaises(OSError, Column.write, self.path, NEW, replace=True)
            self.assertEqual((self.path.read_bytes(), self.names()), (encode(OLD), ["a.col"]), step)
        with mock.patch.object(os, "fsync", side_effect=KeyboardInterrupt):
            self.assertRaises(KeyboardInterrupt, Column.write, self.path, NEW, replace=True)
        self.assertEqual((self.path.read_bytes(), self.names()), (encode(OLD), ["a.col"]))

    def test_left_over(self):
        """One that is left over is removed; one that another has locked is waited for."""
        left = self.folder / ".a.col.columns-new"
        left.write_bytes(b"half")
        Column.write(self.path, NEW)
        self.assertEqual((self.path.read_bytes(), self.names()), (encode(NEW), ["a.col"]))
        with open(left, "wb") as file:
            fcntl.flock(file, fcntl.LOCK_EX)
            with mock.patch.object(_store, "_TRIES", 5), self.assertRaises(FileExistsError) as told:
                Column.write(self.path, OLD, replace=True)
        self.assertIn("another writes", str(told.exception))
        self.assertEqual(self.path.read_bytes(), encode(NEW))

    def test_the_programs_temporary_name(self):
        """Long names too: a file that the program left is removed here, and one of ours by the program."""
        for name in ("a.col", "b" * 250 + ".col", "\u00fc" * 120 + ".col", "c" * 255):
            left = self.folder / os.fsdecode(_store._temporary_of(name))
            left.write_bytes(b"half")
            text = "".join(f"{number}\n" for number in OLD).encode()
            self.assertEqual(tool("write", self.folder / name, given=text)[0], 0)
            self.assertFalse(left.exists(), name)

    def test_kills(self):
        """A writer that is killed leaves the old numbers or the new ones, whole."""
        text = (
            "import sys; sys.dont_write_bytecode = True; sys.path.insert(0, sys.argv[1]); import fascjoldi\n"
            "old, new = fascjoldi.encode(range(1024)), range(5000, 7048)\n"
            "print('here', flush=True)\n"
            "while True:\n"
            "    fascjoldi.Column.write(sys.argv[2], range(1024), replace=True)\n"
            "    fascjoldi.Column.write(sys.argv[2], new, replace=True)\n"
        )
        Column.write(self.path, OLD)
        package = os.path.dirname(os.path.dirname(_store.__file__))
        for turn in range(8):
            words = [sys.executable, "-c", text, package, str(self.path)]
            with subprocess.Popen(words, stdout=subprocess.PIPE) as process:
                process.stdout.readline()
                time.sleep(0.003 * turn)
                process.send_signal(signal.SIGKILL)
            self.assertIn(self.path.read_bytes(), (encode(OLD), encode(NEW)))
        Column.write(self.path, NEW, replace=True)
        self.assertEqual(self.names(), ["a.col"])

    def test_many_at_once(self):
        """Several write to one name: each is whole, and the last one stays."""
        text = (
            "import sys; sys.dont_write_bytecode = True; sys.path.insert(0, sys.argv[1]); import fascjoldi\n"
            "for i in range(10): fascjoldi.Column.write(sys.argv[2], [int(sys.argv[3])] * 1024, replace=True)\n"
        )
        package = os.path.dirname(os.path.dirname(_store.__file__))
        words = [sys.executable, "-c", text, package, str(self.path)]
        running = [subprocess.Popen([*words, str(i)]) for i in range(4)]
        self.assertEqual([process.wait() for process in running], [0] * 4)
        self.assertIn(self.path.read_bytes(), [encode([i] * 1024) for i in range(4)])
        self.assertEqual(self.names(), ["a.col"])
