"""A new file gets its name when it is whole: it is written to a temporary name beside, synced and renamed, and its folder
is synced. This is what the program columns does, with the same temporary name and the same lock on it, so that the two do
not get into each other's way.

The temporary name is the file's own with `.` before it and `.columns-new` behind it. A run that was ended by force leaves
at most one, which the next write to that name removes: one that can be locked is left over.
"""
from __future__ import annotations

import ctypes
import errno
import fcntl
import os
import stat
import time

_SUFFIX = ".columns-new"
_LONGEST_NAME, _MOST_LINKS, _TRIES, _PAUSE = 255, 40, 500, 0.01
_NOREPLACE = 1
_libc = ctypes.CDLL(None, use_errno=True)


def _fault(number: int, words: str, name: str) -> OSError:
    """The error with that number, with words of its own."""
    return OSError(number, words, name)


def _behind_links(name: str) -> str:
    """Where the last name of a path leads."""
    path = name
    for _ in range(_MOST_LINKS):
        try:
            target = os.readlink(path)
        except OSError:
            return path
        path = os.path.join(os.path.dirname(path), target)
    raise _fault(errno.ELOOP, "is a link that leads back to itself", name)


def _hash_of(base: bytes) -> int:
    """A number that stands for a long name, the same as in the program."""
    found = 14695981039346656037
    for byte in base:
        found = (found ^ byte) * 1099511628211 % 2**64
    return found


def _temporary_of(base: str) -> bytes:
    raw = os.fsencode(base)
    most = _LONGEST_NAME - 1 - len(_SUFFIX)
    if len(raw) > most:
        raw = raw[: most - 21] + f".{_hash_of(raw)}".encode()
    return b"." + raw + _SUFFIX.encode()


class Store:
    """Where a new file goes. It is looked at when this is made, so that what cannot become a file is refused early."""

    def __init__(self, name: str | os.PathLike[str], replace: bool) -> None:
        self._name, self._replace = os.fspath(name), replace
        if not isinstance(self._name, str):
            self._name = os.fsdecode(self._name)
        path = _behind_links(self._name)
        self._base = os.path.basename(path)
        self._folder = os.open(os.path.dirname(path) or ".", os.O_RDONLY | os.O_DIRECTORY | os.O_CLOEXEC)
        try:
            self._old = self._may_be_put()
        except BaseException:
            self.close()
            raise

    def __enter__(self) -> "Store":
        return self

    def __exit__(self, *_: object) -> None:
        self.close()

    def close(self) -> None:
        os.close(self._folder)

    def _may_be_put(self) -> os.stat_result | None:
        """What is there already, which may be replaced where it is a plain file and that was asked for."""
        if not self._base:
            raise _fault(errno.EISDIR, "is a folder, or no name of a file", self._name)
        try:
            old = os.stat(self._base, dir_fd=self._folder, follow_symlinks=False)
        except FileNotFoundError:
            return None
        if stat.S_ISDIR(old.st_mode):
            raise _fault(errno.EISDIR, "is a folder", self._name)
        if not stat.S_ISREG(old.st_mode):
            raise _fault(errno.EEXIST, "is no plain file, and is not replaced", self._name)
        if not self._replace:
            raise _fault(errno.EEXIST, "is there already; replace=True replaces it", self._name)
        return old

    # ---- the temporary file

    def _is_same(self, fd: int, name: bytes) -> bool:
        try:
            named = os.stat(name, dir_fd=self._folder, follow_symlinks=False)
        except OSError:
            return False
        return os.path.samestat(os.fstat(fd), named)

    def _locked(self, fd: int, name: bytes) -> bool:
        try:
            fcntl.flock(fd, fcntl.LOCK_EX | fcntl.LOCK_NB)
        except OSError:
            return False
        return self._is_same(fd, name)

    def _remove_left_over(self, name: bytes) -> None:
        """One that nobody has locked is left over from a run that was ended by force."""
        try:
            fd = os.open(name, os.O_RDWR | os.O_NOFOLLOW | os.O_CLOEXEC | os.O_NONBLOCK, dir_fd=self._folder)
        except OSError:
            return
        try:
            if self._locked(fd, name):
                os.unlink(name, dir_fd=self._folder)
        finally:
            os.close(fd)

    def _made(self, name: bytes) -> int:
        """Makes it. Another who writes to the same name is waited for, for some seconds."""
        how = os.O_RDWR | os.O_CREAT | os.O_EXCL | os.O_CLOEXEC | os.O_NOFOLLOW
        for attempt in range(_TRIES):
            try:
                fd = os.open(name, how, 0o600, dir_fd=self._folder)
            except FileExistsError:
                self._remove_left_over(name)
            else:
                if self._locked(fd, name):
                    return fd
                os.close(fd)
            if attempt:
                time.sleep(_PAUSE)
        raise _fault(errno.EEXIST, "another writes to this name, and has not ended", self._name)

    def _keep_mode(self, fd: int, old: os.stat_result | None) -> None:
        """The new file has the owner and the mode of the old one, or the mode that the umask leaves, before a byte is
        written. An owner that cannot be given is no reason to keep the old numbers; no one gets another's rights by it."""
        if old is None:
            mask = os.umask(0)
            os.umask(mask)
            os.fchmod(fd, 0o666 & ~mask)
            return
        mode, now = stat.S_IMODE(old.st_mode), os.fstat(fd)
        if (now.st_uid, now.st_gid) != (old.st_uid, old.st_gid):
            try:
                os.fchown(fd, old.st_uid, old.st_gid)
            except OSError:
                mode &= 0o777
        os.fchmod(fd, mode)

    # ---- the name

    def _give_name(self, name: bytes) -> None:
        """Gives the temporary file its name, over nothing that is there unless that was asked for."""
        base = os.fsencode(self._base)
        if self._replace:
            os.rename(name, base, src_dir_fd=self._folder, dst_dir_fd=self._folder)
            return
        try:
            done = _libc.renameat2(self._folder, name, self._folder, base, _NOREPLACE)
            why = ctypes.get_errno() if done else 0
        except AttributeError:
            why = errno.ENOSYS
        if why == 0:
            return
        if why not in (errno.EINVAL, errno.ENOSYS, errno.EOPNOTSUPP):
            words = "was made by another meanwhile, and is there already; replace=True replaces it"
            raise _fault(why, words if why == errno.EEXIST else os.strerror(why), self._name)
        # A file system that cannot do that in one step gives a second name, which is never one that is taken.
        os.link(name, base, src_dir_fd=self._folder, dst_dir_fd=self._folder, follow_symlinks=False)
        os.unlink(name, dir_fd=self._folder)

    def put(self, data: bytes) -> None:
        """Writes the bytes, and gives them the name. Where that fails, what was there is as it was."""
        old, name = self._may_be_put(), _temporary_of(self._base)
        fd = self._made(name)
        try:
            self._keep_mode(fd, old)
            rest = memoryview(data)
            while rest:
                rest = rest[os.write(fd, rest) :]
            os.fsync(fd)
            self._give_name(name)
        except BaseException:
            # Where it has its name already, the temporary one is gone.
            if self._is_same(fd, name):
                os.unlink(name, dir_fd=self._folder)
            raise
        finally:
            os.close(fd)
        try:
            os.fsync(self._folder)
        except OSError as error:
            # A file system whose folders cannot be synced says EINVAL, and has nothing to sync.
            if error.errno != errno.EINVAL:
                raise
