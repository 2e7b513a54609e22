"""SQLite itself, by ctypes, since Python's own module is often built without the loading of extensions."""
import ctypes
import ctypes.util

OK, ROW, DONE = 0, 100, 101
INTEGER, FLOAT, TEXT, BLOB, NULL = 1, 2, 3, 4, 5
TRANSIENT = ctypes.c_void_p(-1)


class Fault(Exception):
    """What SQLite says where a statement fails."""


def library():
    """SQLite's shared library; None where it is not here, or loads no extensions."""
    name = ctypes.util.find_library("sqlite3")
    if not name:
        return None
    try:
        found = ctypes.CDLL(name)
        found.sqlite3_enable_load_extension
    except (OSError, AttributeError):
        return None
    for function in ("sqlite3_errmsg", "sqlite3_column_text", "sqlite3_libversion"):
        getattr(found, function).restype = ctypes.c_char_p
    found.sqlite3_column_int64.restype = ctypes.c_int64
    found.sqlite3_column_double.restype = ctypes.c_double
    found.sqlite3_column_blob.restype = ctypes.c_void_p
    found.sqlite3_memory_used.restype = ctypes.c_int64
    return found


class Statement:
    """A statement that is gone through by hand."""

    def __init__(self, connection, text, given):
        self._lib, self._connection, self._at = connection.lib, connection, ctypes.c_void_p()
        words = text.encode("utf-8", "surrogateescape")
        connection.good(self._lib.sqlite3_prepare_v2(connection.at, words, len(words), ctypes.byref(self._at), None))
        for i, value in enumerate(given, 1):
            self._bind(i, value)

    def _bind(self, i, value):
        lib, at = self._lib, self._at
        if value is None:
            done = lib.sqlite3_bind_null(at, i)
        elif isinstance(value, int):
            done = lib.sqlite3_bind_int64(at, i, ctypes.c_int64(value))
        elif isinstance(value, float):
            done = lib.sqlite3_bind_double(at, i, ctypes.c_double(value))
        elif isinstance(value, str):
            done = lib.sqlite3_bind_text(at, i, value.encode(), len(value.encode()), TRANSIENT)
        else:
            done = lib.sqlite3_bind_blob(at, i, value, len(value), TRANSIENT)
        self._connection.good(done)

    def step(self):
        """The next row; None at the end."""
        done = self._lib.sqlite3_step(self._at)
        if done == DONE:
            return None
        if done != ROW:
            raise Fault(self._connection.said())
        return tuple(self._column(i) for i in range(self._lib.sqlite3_column_count(self._at)))

    def _column(self, i):
        lib, at = self._lib, self._at
        sort = lib.sqlite3_column_type(at, i)
        if sort == INTEGER:
            return lib.sqlite3_column_int64(at, i)
        if sort == FLOAT:
            return lib.sqlite3_column_double(at, i)
        if sort == TEXT:
            return lib.sqlite3_column_text(at, i).decode()
        if sort == BLOB:
            return ctypes.string_at(lib.sqlite3_column_blob(at, i), lib.sqlite3_column_bytes(at, i))
        return None

    def reset(self):
        self._lib.sqlite3_reset(self._at)

    def close(self):
        self._lib.sqlite3_finalize(self._at)


class Connection:
    """A database with the extension."""

    def __init__(self, lib, extension, name=":memory:"):
        self.lib, self.at = lib, ctypes.c_void_p()
        self.good(lib.sqlite3_open(str(name).encode(), ctypes.byref(self.at)))
        lib.sqlite3_enable_load_extension(self.at, 1)
        why = ctypes.c_char_p()
        if extension and lib.sqlite3_load_extension(self.at, str(extension).encode(), None, ctypes.byref(why)):
            raise Fault(f"the extension is not loaded: {(why.value or b'').decode(errors='replace')}")

    def said(self):
        return self.lib.sqlite3_errmsg(self.at).decode(errors="replace")

    def good(self, done):
        if done != OK:
            raise Fault(self.said())

    def statement(self, text, *given):
        return Statement(self, text, given)

    def ask(self, text, *given):
        """All rows of a statement."""
        statement, rows = self.statement(text, *given), []
        try:
            while (row := statement.step()) is not None:
                rows.append(row)
            return rows
        finally:
            statement.close()

    def fault(self, text, *given):
        """What a statement that fails says; an empty text where it does not fail."""
        try:
            self.ask(text, *given)
        except Fault as error:
            return str(error)
        return ""

    def plan(self, text, *given):
        """The lines of EXPLAIN QUERY PLAN, from the name of the index on."""
        lines = [row[3] for row in self.ask(f"EXPLAIN QUERY PLAN {text}", *given)]
        return [line.partition("VIRTUAL TABLE INDEX ")[2] or line for line in lines]

    def table(self, name, *files):
        quoted = ", ".join("'" + str(file).replace("'", "''") + "'" for file in files)
        self.ask(f"CREATE VIRTUAL TABLE {name} USING column_file({quoted})")

    def close(self):
        self.good(self.lib.sqlite3_close(self.at))
