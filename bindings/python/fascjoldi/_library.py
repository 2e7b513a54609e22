"""The shared library, its functions with what they take, and how a buffer of Python's is lent to one of them.

The header says what the proof takes for granted of whoever calls: each pointer is not null, is aligned, and points to as
many elements as its length says, all of them written before; what a call writes overlaps nothing else that it is lent; and
no other thread touches it meanwhile. This file sees to all of that, and nothing else of the package makes pointers.

A call on buffers of the program holds Python's own lock, so that no other thread of Python runs while something is lent. A
call on bytes that this package alone has lets other threads run.
"""
from __future__ import annotations

import ctypes
import os
import pathlib
import sys
from typing import Any, Callable, Iterator

from ._tables import FUNCTIONS

__version__ = "0.1.0"
SONAME = f"libfascjoldi.so.{__version__.split('.', maxsplit=1)[0]}"
SHARED = f"libfascjoldi.so.{__version__}"
_TYPES = {
    "z": ctypes.c_size_t,
    "B": ctypes.c_uint8,
    "H": ctypes.c_uint16,
    "I": ctypes.c_uint32,
    "Q": ctypes.c_uint64,
    "?": ctypes.c_bool,
    "P": ctypes.c_void_p,
    "v": None,
}


# ---- loading


def _places() -> Iterator[str]:
    """Where the library may be: where FASCJOLDI_LIBRARY says; else in the lib folder beside the share folder that this
    package was installed to; in the repository where tools/install links it; and where the system looks for libraries."""
    said = os.environ.get("FASCJOLDI_LIBRARY")
    if said:
        yield said
        return
    here = pathlib.Path(__file__).resolve().parent
    for place in (here.parents[3] / "lib" / SONAME, here.parents[2] / "out" / "install" / SHARED):
        if place.is_file():
            yield str(place)
    yield SONAME


def _loaded() -> str:
    """The library that is there, by its name."""
    if sys.platform != "linux" or sys.maxsize < 2**32 or os.uname().machine != "x86_64":
        raise ImportError("fascjoldi: the library is for x86-64 Linux, and this is another system")
    why = ""
    for place in _places():
        try:
            ctypes.CDLL(place)
            return place
        except OSError as error:
            why = str(error)
    raise ImportError(f"fascjoldi: {SONAME} is not found ({why}); tools/install puts it, and FASCJOLDI_LIBRARY says where it is")


LIBRARY = _loaded()
_FREE, _HELD = ctypes.CDLL(LIBRARY), ctypes.PyDLL(LIBRARY)


def has(name: str) -> bool:
    """Whether the library has a function. All are there in one that is as young as this package."""
    return name in FUNCTIONS and hasattr(_FREE, name)


def _function(library: ctypes.CDLL, name: str) -> Callable[..., Any]:
    try:
        found = getattr(library, name)
    except AttributeError:
        raise ImportError(f"fascjoldi: {LIBRARY} has no {name}; it is older than this package") from None
    form = FUNCTIONS[name]
    found.restype = _TYPES[form[0]]
    found.argtypes = [_TYPES[letter] for letter in form[1:]]
    return found


class _Functions:
    """The functions of the library by their names without the front, each looked up when it is first asked for."""

    def __init__(self, library: ctypes.CDLL) -> None:
        self._library = library

    def __getattr__(self, name: str) -> Callable[..., Any]:
        if f"fascjoldi_{name}" not in FUNCTIONS:
            raise AttributeError(f"the library has no function {name}")
        found = _function(self._library, f"fascjoldi_{name}")
        setattr(self, name, found)
        return found


free = _Functions(_FREE)
held = _Functions(_HELD)


# ---- numbers


def size(number: Any, what: str) -> int:
    """A number that fits size_t; ctypes would cut one that does not."""
    return within(number, 2**64, what)


def within(number: Any, end: int, what: str) -> int:
    """A whole number from 0 up to below an end."""
    number = number.__index__() if hasattr(number, "__index__") else number
    if not isinstance(number, int):
        raise TypeError(f"{what} has to be a whole number, and is {type(number).__name__}")
    if not 0 <= number < end:
        raise OverflowError(f"{what} is {number}, and has to be from 0 to {end - 1}")
    return number


# ---- buffers


class _PyBuffer(ctypes.Structure):
    """What Python's C interface says of a buffer."""

    _fields_ = [
        ("buf", ctypes.c_void_p),
        ("obj", ctypes.c_void_p),
        ("len", ctypes.c_ssize_t),
        ("itemsize", ctypes.c_ssize_t),
        ("readonly", ctypes.c_int),
        ("ndim", ctypes.c_int),
        ("format", ctypes.c_char_p),
        ("shape", ctypes.c_void_p),
        ("strides", ctypes.c_void_p),
        ("suboffsets", ctypes.c_void_p),
        ("internal", ctypes.c_void_p),
    ]


_get_buffer = ctypes.pythonapi.PyObject_GetBuffer
_get_buffer.argtypes = [ctypes.py_object, ctypes.POINTER(_PyBuffer), ctypes.c_int]
_get_buffer.restype = ctypes.c_int
_release_buffer = ctypes.pythonapi.PyBuffer_Release
_release_buffer.argtypes = [ctypes.POINTER(_PyBuffer)]
_release_buffer.restype = None
_SIMPLE, _WRITABLE = 0, 1
_EMPTY = (ctypes.c_uint64 * 1)()  # where a buffer of no elements stands


class Lent:
    """A buffer while it is lent: `at` is its address and `length` the number of its elements, of `bits` bits each.

    It is taken as it stands where it is contiguous and aligned. A buffer to be read that is not is copied; one to be written
    is refused. It can neither be given back nor change its size until `close`, which leaving a `with` does.
    """

    def __init__(self, thing: Any, what: str, writable: bool = False) -> None:
        self._held = False
        try:
            view = memoryview(thing)
        except TypeError:
            raise TypeError(f"{what} has to have the buffer protocol, as an array has, and is {type(thing).__name__}") from None
        form = view.format.lstrip("@=<")
        if form not in tuple("BHILQN") or view.itemsize not in (1, 2, 4, 8):
            raise TypeError(f"{what} has to hold unsigned numbers of 8, 16, 32 or 64 bits, and its format is {view.format!r}")
        self.bits = 8 * view.itemsize
        self.length = view.nbytes // view.itemsize
        if writable and view.readonly:
            raise TypeError(f"{what} is to be written, and can only be read")
        if self.length == 0:
            self.at = ctypes.addressof(_EMPTY)
            return
        if view.c_contiguous and self._takes(view, writable):
            return
        if writable:
            raise BufferError(f"{what} is to be written, and is not contiguous and aligned")
        self._copy = (ctypes.c_uint64 * (view.nbytes // 8 + 1))()
        ctypes.memmove(self._copy, view.tobytes(), view.nbytes)
        self.at = ctypes.addressof(self._copy)

    def _takes(self, view: memoryview, writable: bool) -> bool:
        """Takes the buffer as it stands, where it is aligned."""
        self._buffer = _PyBuffer()
        _get_buffer(view, ctypes.byref(self._buffer), _WRITABLE if writable else _SIMPLE)
        self._held = True
        self.at = self._buffer.buf
        if self.at % (self.bits // 8) == 0:
            return True
        self.close()
        return False

    def __enter__(self) -> "Lent":
        return self

    def __exit__(self, *_: Any) -> None:
        self.close()

    def close(self) -> None:
        if self._held:
            self._held = False
            _release_buffer(ctypes.byref(self._buffer))

    def overlaps(self, other: "Lent") -> bool:
        ends = (self.at + self.length * self.bits // 8, other.at + other.length * other.bits // 8)
        return self.length > 0 and other.length > 0 and self.at < ends[1] and other.at < ends[0]
