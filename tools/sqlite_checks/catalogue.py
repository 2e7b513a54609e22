"""A catalogue of four columns and a million rows, joined by row; the time is printed beside that of an ordinary table, and
not judged."""
import time
from array import array

from cases.dice import Dice

ROWS, PART = 1 << 20, 1 << 18
NAMES = ("path", "object", "size", "day")


def numbers(name):
    """A column as a catalogue has it: paths in runs, objects all different, sizes anything, days rising."""
    thrown = array("Q", Dice("sqlite catalogue", name).bytes(8 * ROWS))
    if name == "path":
        return array("Q", (1000 + row // 700 for row in range(ROWS)))
    if name == "object":
        return array("Q", ((row * 7919) % ROWS + 10**9 for row in range(ROWS)))
    if name == "size":
        return array("Q", (number >> 40 for number in thrown))
    return array("Q", (18000 + row // 4096 + (number >> 62) for row, number in enumerate(thrown)))


QUERIES = {
    "a range of paths": "WHERE path.value BETWEEN 1200 AND 1229",
    "all rows": "",
}
WHAT = "count(*), sum(object.value), sum(size.value), max(day.value)"


def timed(db, text):
    began = time.perf_counter()
    rows = db.ask(text)
    return rows, time.perf_counter() - began


def checks_of(checks, run, encode):
    db = run.open()
    for name in NAMES:
        values = numbers(name)
        paths = [run.put(f"{name}{i}.col", encode(values[i * PART : (i + 1) * PART])) for i in range(ROWS // PART)]
        db.table(name, *paths)
    joined = "path JOIN object USING (row) JOIN size USING (row) JOIN day USING (row)"
    db.ask("CREATE TABLE t(row INTEGER PRIMARY KEY, path INTEGER, object INTEGER, size INTEGER, day INTEGER)")
    db.ask(f"INSERT INTO t SELECT path.row, path.value, object.value, size.value, day.value FROM {joined}")
    db.ask("CREATE INDEX by_path ON t(path)")
    for name, where in QUERIES.items():
        rows, taken = timed(db, f"SELECT {WHAT} FROM {joined} {where}")
        ordinary = f"SELECT count(*), sum(object), sum(size), max(day) FROM t {where.replace('path.value', 'path')}"
        others, theirs = timed(db, ordinary)
        checks.same(f"a catalogue, {name}", rows, others)
        print(
            f"sqlite_test: four columns of {ROWS} rows joined by row, {name}: {taken:.3f} s; "
            f"one ordinary table with an index: {theirs:.3f} s",
            flush=True,
        )
    db.close()
    checks.group("a catalogue")
