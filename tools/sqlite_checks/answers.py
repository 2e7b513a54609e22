"""Every answer as the program's and the models': of good files, of damaged ones, and of files that change."""
import ctypes
import os

from cases.dice import Dice
from models import build, files, rewrite, writer

from .common import MOST, not_tried, some_files
from .driver import Fault


# ---- good files


def good_ones(checks, run):
    dice = Dice("sqlite", "good")
    good, _ = some_files(dice)
    for name, data in good.items():
        path, values = run.put(name, data), rewrite.all_values(data)
        db = run.open()
        db.table("t", path)
        checks.same(f"{name}: digits", db.ask("SELECT row, digits FROM t"), [(i, str(n)) for i, n in enumerate(values)])
        checks.same(f"{name}: the count", db.ask("SELECT count(*) FROM t"), [(len(values),)])
        large = next((row for row, value in enumerate(values) if value > MOST), None)
        if large is None:
            checks.same(f"{name}: values", db.ask("SELECT rowid, value FROM t"), list(enumerate(values)))
        else:
            said = db.fault("SELECT value FROM t")
            wanted = f"row {large} of t is {values[large]}, which is above {MOST} "
            checks.that(f"{name}: a value that is too large", said.startswith(wanted) and "digits" in said, said)
            checks.same(f"{name}: its digits", db.ask("SELECT digits FROM t WHERE row = ?", large), [(str(values[large]),)])
        for _ in range(12):
            searched(checks, run, db, path, values, dice)
        db.close()
    checks.same("nothing is kept", run.lib.sqlite3_memory_used(), 0)
    checks.group("good files")


def searched(checks, run, db, path, values, dice):
    """A search, and a row, beside the program's. The bounds are those that an integer of SQLite can be."""
    near = sorted(min(max(dice.pick(values or [5]) + dice.below(9) - 4, 0), MOST) for _ in range(2))
    low, high = dice.pick((near, near[:1] * 2, (0, near[1]), (0, 0)))
    rows = db.ask("SELECT row, digits FROM t WHERE value BETWEEN ? AND ?", low, high)
    said, _ = run.tool("find", "-q", low, high, path)
    checks.same(f"{path.name}: {low} to {high}", "".join(f"{row} {digits}\n" for row, digits in rows), said)
    row = dice.below(len(values) + 3)
    found = db.ask("SELECT digits FROM t WHERE row = ?", row)
    said, _ = run.tool("row", row, path)
    checks.same(f"{path.name}: row {row}", "".join(digits for (digits,) in found), said.partition(",")[0].strip())


def several(checks, run):
    """Files that are one column: rows counted on, with files of no rows among them, as the program's --as-one."""
    dice = Dice("sqlite", "several")
    parts = [[], list(range(2048)), [], [7] * 1024, [dice.below(5000) for _ in range(3072)], [], []]
    paths = [run.put(f"part {i}'s.col", writer.file_of(values, 1 + i % 2)) for i, values in enumerate(parts)]
    values = [value for part in parts for value in part]
    db = run.open()
    db.table("t", *paths)
    checks.same("several files", db.ask("SELECT row, value FROM t"), list(enumerate(values)))
    for low, high in ((0, 6143), (2047, 2048), (3071, 3072), (2048, 2048), (6143, 6144), (6144, 9000), (1000, 5000)):
        wanted = list(enumerate(values))[low : high + 1]
        checks.same(f"rows {low} to {high}", db.ask("SELECT row, value FROM t WHERE row BETWEEN ? AND ?", low, high), wanted)
        said, _ = run.tool("find", "-q", "--as-one", low, high, *paths)
        rows = db.ask("SELECT row, value FROM t WHERE value BETWEEN ? AND ?", low, high)
        checks.same(f"values {low} to {high}", "".join(f"{row} {value}\n" for row, value in rows), said)
        both = db.ask("SELECT row FROM t WHERE value <= ? AND row >= ? AND row < ?", high, low, high)
        checks.same("both", both, [(row,) for row in range(low, min(high, len(values))) if values[row] <= high])
    checks.same("backwards", db.ask("SELECT row FROM t ORDER BY row DESC LIMIT 3"), [(6143,), (6142,), (6141,)])
    db.close()
    db = run.open()
    db.table("t", paths[0], paths[2])
    checks.same("no rows at all", db.ask("SELECT * FROM t WHERE value > 5 AND row < 9"), [])
    checks.same("no rows, counted", db.ask("SELECT count(*), max(value) FROM t"), [(0, None)])
    db.close()
    checks.group("several files as one")


# ---- what the planner is told


PLANS = {
    "SELECT * FROM t": "0:every row",
    "SELECT * FROM t WHERE digits = '5'": "0:every row",
    "SELECT * FROM t WHERE value + 0 = 5": "0:every row",
    "SELECT * FROM t WHERE row = 5": "0:one row: row=",
    "SELECT * FROM t WHERE rowid = 5 AND value > 7": "0:one row: row=",
    "SELECT * FROM t WHERE row > 5": "0:a range of rows: row>",
    "SELECT * FROM t WHERE row BETWEEN 5 AND 9": "0:a range of rows: row>= row<=",
    "SELECT * FROM t WHERE value BETWEEN 5 AND 9": "0:values, blocks whose range meets them: value>= value<=",
    "SELECT * FROM t WHERE value = 5": "0:values, blocks whose range meets them: value=",
    "SELECT * FROM t WHERE value < ? AND row < 9": "0:values in a range of rows, blocks whose range meets them: value< row<",
    "SELECT * FROM old WHERE value = 5": "0:values, every block: value=",
    "SELECT * FROM old WHERE value >= 5 AND row >= 5": "0:values in a range of rows, every block of it: value>= row>=",
}


def plans(checks, run):
    """What EXPLAIN QUERY PLAN says, which order is asked for once more, and that a plan is kept: a body that is damaged
    is an error exactly where its block is opened."""
    db = run.open()
    values = [1000 * (row // 1024) + row % 7 for row in range(8 * 1024)]
    path = run.put("plan.col", writer.file_of(values))
    db.table("t", path)
    db.table("old", run.put("old.col", writer.file_of(values, 1)))
    for text, wanted in PLANS.items():
        checks.same(text, db.plan(text), [wanted])
    for order, sorts in (("row", False), ("rowid", False), ("row, value", False), ("row DESC", True), ("value", True)):
        plan = db.plan(f"SELECT * FROM t WHERE value > 5 ORDER BY {order}")
        checks.same(f"ORDER BY {order}", any("ORDER BY" in line for line in plan), sorts)
    # The table whose bounds meet few blocks goes first, in whatever order the two are named.
    db.table("u", path)
    for text in ("t JOIN u USING (row) WHERE u.value = 5", "u JOIN t USING (row) WHERE u.value = 5"):
        lines = db.ask(f"EXPLAIN QUERY PLAN SELECT 1 FROM {text}")
        checks.that(text, lines[0][3].startswith("SCAN u") and lines[1][3].endswith("one row: row="), str(lines))
    db.close()
    damaged_blocks(checks, run, values)
    checks.group("plans")


def damaged_blocks(checks, run, values):
    """Block 5 says another largest number than it has."""
    entries = [writer.block_of(block) for block in writer.blocks_of(values)]
    smallest, largest = entries[5].entry[-2:]
    entries[5] = entries[5].but(largest=largest + 1)
    db = run.open()
    db.table("t", run.put("one bad.col", build.column_file(entries, 2)))
    for where, opens in (
        ("row = 5119", False),
        ("row = 5120", True),
        ("row = 6143", True),
        ("row = 6144", False),
        ("row < 5120", False),
        ("row >= 6144", False),
        ("row BETWEEN 5000 AND 5120", True),
        (f"value < {smallest}", False),
        (f"value <= {smallest}", True),
        (f"value = {largest + 1}", True),
        (f"value > {largest + 1}", False),
        (f"value > {largest + 1} AND row > 3000", False),
        (f"value = {largest} AND row < 5120", False),
        (f"value = {largest} AND row >= 6144", False),
        (f"value = {largest} AND row >= 6143", True),
        (f"value = {largest}.5", False),
        (f"value < {smallest}.0", False),
        (f"value < {smallest}.5", True),
        (f"value > {largest}.5", True),
        (f"value >= {largest + 1}.5", False),
        ("value = -5", False),
        ("value > 1e30", False),
        ("value = NULL", False),
    ):
        said = db.fault(f"SELECT row, value FROM t WHERE {where}")
        checks.same(f"block 5 is opened by {where}", "refused 15 5: block 5 has another smallest" in said, opens)
    checks.same("nothing is opened to count", db.ask("SELECT count(*) FROM t"), [(len(values),)])
    db.close()


def large_ones(checks, run):
    """A value that is no integer of SQLite is an error exactly where its row is asked for."""
    values = [row % 100 for row in range(2048)]
    values[10], values[1500] = MOST + 1, 2**64 - 1
    db = run.open()
    db.table("t", run.put("large.col", writer.file_of(values)))
    for where, row in (
        ("row = 10", 10),
        ("row = 9", None),
        ("row < 10", None),
        ("row BETWEEN 11 AND 1499", None),
        ("row > 10", 1500),
        ("value < 100", None),
        (f"value <= {MOST}", None),
        (f"value <= {MOST} AND row > 5", None),
        ("value > 50 AND row < 10", None),
        ("value > 50 AND row BETWEEN 11 AND 1499", None),
        ("value > 50 AND row > 10", 1500),
        ("value >= 100", 10),
        ("value > 1e19", 1500),
        ("value = 1", None),
        ("value = 9223372036854775808", 10),
        ("value > 18446744073709551615", None),
    ):
        said = db.fault(f"SELECT row, value FROM t WHERE {where}")
        wanted = "" if row is None else f"row {row} of t is {values[row]}, which is above {MOST} "
        checks.that(f"a value that is too large, {where}", said.startswith(wanted) and bool(said) == bool(wanted), said)
    found = db.ask("SELECT row, digits FROM t WHERE row IN (10, 1500)")
    checks.same("their digits", found, [(10, str(MOST + 1)), (1500, str(2**64 - 1))])
    db.close()
    checks.group("values that are too large")


# ---- damaged files, and files that change


def damaged(checks, run):
    """The complaint is the program's, word for word: with the table where the contents are bad, and else with the query
    that opens the block."""
    _, bad = some_files(Dice("sqlite", "bad"))
    for name, data in bad.items():
        path = run.put(name, data)
        _, complaint = run.tool("find", 0, 2**64 - 1, path)
        db = run.open()
        said = db.fault(f"CREATE VIRTUAL TABLE t USING column_file('{path}')")
        if not said:
            said = db.fault("SELECT digits FROM t")
            checks.that(f"{name}: only bodies are looked at later", files.contents_answer(data) is None)
        checks.same(f"{name}: the complaint", said, complaint)
        answer = files.check(data)
        checks.that(f"{name}: the number", f": refused {answer.number} {answer.place}: " in said, said)
        db.close()
    checks.group("damaged files")


def wrong_words(checks, run):
    db = run.open()
    os.mkfifo(run.folder / "pipe")
    for words, told in (
        ("", "takes the names of files"),
        ("''", "is empty"),
        (f"'{run.folder}/nothing.col'", "nothing.col: No such file or directory"),
        (f"'{run.folder}'", "is no plain file"),
        (f"'{run.folder}/pipe'", "is no plain file"),
    ):
        said = db.fault(f"CREATE VIRTUAL TABLE t USING column_file({words})")
        checks.that(f"column_file({words})", told in said, said)
    run.put("it's \"a\" [b].col", writer.file_of([7] * 1024))
    for words in ("'it''s \"a\" [b].col'", "\"it's \"\"a\"\" [b].col\"", "`it's \"a\" [b].col`", " 'it''s \"a\" [b].col' "):
        here = os.getcwd()
        os.chdir(run.folder)
        try:
            db.ask(f"CREATE VIRTUAL TABLE t USING column_file({words})")
            checks.same(f"the name {words}", db.ask("SELECT value FROM t WHERE row = 1023"), [(7,)])
            db.ask("DROP TABLE t")
        finally:
            os.chdir(here)
    db.table("t", run.folder / "it's \"a\" [b].col")
    for text in ("INSERT INTO t VALUES (1, 2)", "UPDATE t SET value = 1", "DELETE FROM t"):
        checks.that(text, "may not be modified" in db.fault(text))
    checks.that("no table of the module's own name", "no such table" in db.fault("SELECT * FROM column_file"))
    checks.same("digits are hidden", db.ask("SELECT * FROM t WHERE row = 3"), [(3, 7)])
    db.close()
    checks.group("names and words")


def changing(checks, run):
    """Files that vanish, come back, are replaced and are cut: noticed at the next query, and never two files in one."""
    first, second = writer.file_of(list(range(4096))), writer.file_of([9] * 1024)
    path = run.put("moving.col", first)
    db = run.open(run.folder / "kept.db")
    db.table("t", path)
    everything = db.statement("SELECT row, value FROM t")
    checks.same("first", everything.step(), (0, 0))
    other = run.put("other.col", second)
    os.replace(other, path)
    # A query that has the old file open goes on with it; the next one has the new file.
    rows = [everything.step() for _ in range(4095)]
    checks.same("the query that was begun", rows, [(i, i) for i in range(1, 4096)])
    checks.same("its end", everything.step(), None)
    checks.same("the next query", db.ask("SELECT count(*), max(value) FROM t"), [(1024, 9)])
    everything.reset()
    checks.same("the same statement once more", everything.step(), (0, 9))
    everything.close()
    secretly(checks, run, db, path)
    os.unlink(path)
    said = db.fault("SELECT * FROM t")
    checks.that("a file that vanished", "moving.col: No such file or directory" in said, said)
    run.put("moving.col", first)
    checks.same("it is there again", db.ask("SELECT value FROM t WHERE row = 4095"), [(4095,)])
    cut_meanwhile(checks, run, db, path, first)
    run.put("moving.col", first[:-1])
    said = db.fault("SELECT * FROM t")
    checks.that("a file that is cut", "refused 8 0: the file is cut short" in said, said)
    db.close()
    # A table whose file is gone or bad can be dropped, and a database that has one can be opened.
    os.unlink(path)
    db = run.open(run.folder / "kept.db")
    checks.that("a kept table without its file", "No such file" in db.fault("SELECT * FROM t"))
    db.ask("DROP TABLE t")
    checks.that("it is dropped", "no such table" in db.fault("SELECT * FROM t"))
    db.close()
    checks.same("nothing is kept", run.lib.sqlite3_memory_used(), 0)
    checks.group("files that vanish, are replaced and are cut")


def secretly(checks, run, db, path):
    """A file of the same size and age in the place of another; and one that is cut, and as old as before."""
    old = path.stat()
    other = run.put("other.col", writer.file_of([8] * 1024))
    os.utime(other, ns=(old.st_atime_ns, old.st_mtime_ns))
    os.replace(other, path)
    checks.same("as long and as old", path.stat()[6:9], old[6:9])
    checks.same("another file as long and as old", db.ask("SELECT max(value) FROM t"), [(8,)])
    os.truncate(path, old.st_size - 1)
    os.utime(path, ns=(old.st_atime_ns, old.st_mtime_ns))
    said = db.fault("SELECT * FROM t WHERE row = 5")
    checks.that("cut, and as old", "refused" in said, said)


def cut_meanwhile(checks, run, db, path, first):
    """The file that a query reads from is cut, or written over, in its place."""
    for name, change in (
        ("cut", lambda: os.truncate(path, 2000)),
        ("written over", lambda: path.write_bytes(b"\xff" * len(first))),
        ("replaced before it was opened", lambda: os.replace(run.put("new.col", first), path)),
    ):
        run.put("moving.col", first)
        statement = db.statement("SELECT value FROM t" if "opened" not in name else "SELECT row, value FROM t WHERE row > 1023")
        if "opened" in name:
            # Only the row is read first, so no block is opened yet.
            statement.close()
            statement = db.statement("SELECT row, CASE WHEN row > 1024 THEN value END FROM t WHERE row > 1023")
        statement.step()
        change()
        try:
            while statement.step() is not None:
                pass
            said = ""
        except Fault as error:
            said = str(error)
        checks.that(f"{name} while it is read", "changed or replaced while it was read" in said, said)
        statement.close()
    run.put("moving.col", first)


def little_memory(checks, run):
    """With less memory than a query needs it is refused, whatever it was about to do, and all is given back."""
    try:
        limit = run.lib.sqlite3_hard_heap_limit64
    except AttributeError:
        not_tried("a limit of memory", "this SQLite has none")
        return
    values = [row % 50 for row in range(4096)]
    path = run.put("memory.col", writer.file_of(values))
    wanted, failed, done = [(82,)], 0, 0
    for more in range(0, 120_000, 700):
        db = run.open()
        used = run.lib.sqlite3_memory_used()
        limit(ctypes.c_int64(used + more + 1))
        try:
            db.table("t", path, path)
            db.ask("SELECT digits, value FROM t WHERE row = 5")
            found = db.ask("SELECT count(*) FROM t a JOIN t b USING (row) WHERE a.value = 7 AND b.row < 4096")
            checks.same(f"with {more} bytes", found, wanted)
            done += 1
        except Fault as error:
            failed += 1
            checks.that(f"with {more} bytes", "memory" in str(error), str(error))
        finally:
            limit(ctypes.c_int64(0))
            db.close()
    checks.that("some are done and some are not", done > 10 and failed > 10, f"{done} and {failed}")
    checks.same("nothing is kept", run.lib.sqlite3_memory_used(), 0)
    checks.group("little memory")


def checks_of(checks, run):
    good_ones(checks, run)
    several(checks, run)
    plans(checks, run)
    large_ones(checks, run)
    damaged(checks, run)
    wrong_words(checks, run)
    changing(checks, run)
    little_memory(checks, run)
