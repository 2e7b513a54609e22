"""Random queries, asked of column files and of ordinary tables with the same rows."""
from cases.dice import Dice
from models import writer

from .common import MOST

COMPARISONS = ("=", "<", "<=", ">", ">=", "<>", "IS", "IS NOT")


class Tables:
    """Two columns, each as files and as an ordinary table: va and vb, oa and ob."""

    def __init__(self, run):
        dice = Dice("sqlite", "queries")
        self.db = run.open()
        self.columns = {
            "a": [list(range(100, 2148)), [], [dice.below(300) for _ in range(1024)], [MOST - row % 3 for row in range(1024)]],
            "b": [[3 * row // 2 for row in range(3072)], [5] * 1024],
        }
        for name, parts in self.columns.items():
            paths = [run.put(f"{name}{i}.col", writer.file_of(part, 1 + i % 2)) for i, part in enumerate(parts)]
            self.db.table(f"v{name}", *paths)
            self.db.ask(f"CREATE TABLE o{name}(row INTEGER PRIMARY KEY, value INTEGER, digits TEXT)")
            self.db.ask(f"INSERT INTO o{name} SELECT row, value, digits FROM v{name}")
        self.rows = {name: sum(map(len, parts)) for name, parts in self.columns.items()}


def some_number(dice, tables):
    """A number near a row or a value."""
    column = dice.pick(sorted(tables.columns))
    part = dice.pick([part for part in tables.columns[column] if part])
    near = dice.pick((dice.pick(part), dice.below(tables.rows[column]), 1024 * dice.below(6)))
    return min(max(near + dice.below(5) - 2, -1), MOST)


def some_constant(dice, tables):
    """What a comparison is with: mostly a whole number, and everything else that SQL has."""
    number = some_number(dice, tables)
    return dice.pick(
        (
            *[str(number)] * 8,
            f"{number}.0",
            f"{number}.5",
            f"-{abs(number)}.5",
            f"'{number}'",
            f"' {number} '",
            f"'{number}x'",
            "''",
            "NULL",
            "x'3132'",
            str(-(2**63)),
            str(MOST),
            "9223372036854775808",
            "1e300",
            "-1e300",
            "18446744073709551615",
            "0",
            "-0.0",
        )
    )


def some_comparison(dice, tables, alias):
    column = dice.pick((f"{alias}.row", f"{alias}.value", f"{alias}.value", f"{alias}.rowid", f"{alias}.digits"))
    sort = dice.below(8)
    one, other = some_constant(dice, tables), some_constant(dice, tables)
    if sort < 4:
        return f"{column} {dice.pick(COMPARISONS)} {one}"
    if sort == 4:
        return f"{one} {dice.pick(COMPARISONS)} {column}"
    if sort == 5:
        return f"{column} BETWEEN {one} AND {other}"
    if sort == 6:
        return f"{column} IN ({', '.join(some_constant(dice, tables) for _ in range(1 + dice.below(5)))})"
    return f"{alias}.value {dice.pick(COMPARISONS)} {alias}.row + {some_number(dice, tables)}"


def some_condition(dice, tables, alias, depth=2):
    sort = dice.below(6)
    if depth == 0 or sort < 2:
        return some_comparison(dice, tables, alias)
    parts = [some_condition(dice, tables, alias, depth - 1) for _ in range(2)]
    if sort == 2:
        return f"({parts[0]} OR {parts[1]})"
    if sort == 3:
        return f"NOT ({parts[0]})"
    return f"({parts[0]} AND {parts[1]})"


def in_one(columns, rest):
    """A query whose rows come as one text, since Python takes long to go through many."""
    line = " || ' ' || ".join(f"ifnull({column}, '-')" for column in columns)
    return f"SELECT group_concat(line, ',') FROM (SELECT {line} AS line FROM {rest})"


def some_query(dice, tables):
    """A query with {a} and {b} in the place of the tables."""
    one, other = dice.pick((("a", "b"), ("b", "a")))
    where = some_condition(dice, tables, "x")
    order = dice.pick(("", "", " ORDER BY x.row", " ORDER BY x.row DESC", " ORDER BY x.value, x.row", " ORDER BY x.rowid"))
    limit = f" LIMIT {dice.below(50)} OFFSET {dice.below(20)}" if order and dice.below(2) else ""
    sort = dice.below(9)
    if sort < 3:
        return in_one(("x.row", "x.value", "x.digits"), f"{{{one}}} x WHERE {where}{order}{limit}")
    if sort == 3:
        return f"SELECT count(*), sum(x.value % 1000), min(x.row), max(x.value) FROM {{{one}}} x WHERE {where}"
    if sort == 4:
        return f"SELECT x.value % 10 AS digit, count(*) FROM {{{one}}} x WHERE {where} GROUP BY digit ORDER BY digit"
    if sort == 5:
        second = some_condition(dice, tables, "y", 1)
        kind = dice.pick(("JOIN", "LEFT JOIN"))
        joined = f"{{{one}}} x {kind} {{{other}}} y USING (row)"
        return in_one(("x.row", "y.value"), f"{joined} WHERE {where} AND {second}{order}{limit}")
    if sort == 6:
        there = f"EXISTS (SELECT 1 FROM {{{other}}} y WHERE y.row = x.value AND y.value < 900)"
        return in_one(("x.row",), f"{{{one}}} x WHERE {there} AND {where}{order}{limit}")
    if sort == 7:
        among = f"x.row IN (SELECT y.value FROM {{{other}}} y WHERE y.row < 40)"
        return in_one(("x.value",), f"{{{one}}} x WHERE {among} AND {where}{order}{limit}")
    joined = f"{{{one}}} x JOIN {{{other}}} y ON y.value = x.value AND y.row < 2000"
    return in_one(("x.row", "y.row"), f"{joined} WHERE x.row < 40 AND {where}")


CONSTANTS = (
    *("-1", "0", "5", "2147", "4095", "4096", str(MOST), str(MOST - 1), str(-(2**63)), "9223372036854775808", "1e300", "-1e300"),
    *("-0.5", "0.5", "5.0", "5.5", "4095.5", "1e18", "18446744073709551615", "18446744073709551616", "9.3e18", "NULL"),
    *("'5'", "'5.5'", "' 7 '", "'5x'", "''", "'1e3'", "x'35'", "-0.0", "'-3'"),
)


def every_comparison(checks, tables):
    """Each comparison of a row, a rowid and a value with each sort of constant, from the left and from the right, written
    in the query and bound to it."""
    for column in ("row", "rowid", "value"):
        for comparison in COMPARISONS:
            for constant in CONSTANTS:
                for where in (f"x.{column} {comparison} {constant}", f"{constant} {comparison} x.{column}"):
                    text = f"SELECT count(*), sum(x.row), sum(x.row % 89 * (x.value % 97)) FROM {{a}} x WHERE {where}"
                    checks.same(text, asked(tables, text, "v"), asked(tables, text, "o"))
    for column in ("row", "value"):
        for comparison in COMPARISONS:
            for given in (-1, 0, 5, 4095, MOST, -(2**63), 5.5, 4095.0, 1e19, -1e300, None, "5", "5.5", "x", b"5"):
                text = f"SELECT count(*), sum(x.row), sum(x.value % 97) FROM {{a}} x WHERE x.{column} {comparison} ?"
                both = [tables.db.ask(text.format(a=name), given) for name in ("va", "oa")]
                checks.same(f"{text} of {given!r}", *both)


def asked(tables, text, kind):
    """What a query gives of the one or the other kind of tables; where it asks for no order, its lines are sorted."""
    rows = tables.db.ask(text.format(a=f"{kind}a", b=f"{kind}b"))
    if "ORDER BY" in text or not text.startswith("SELECT group_concat"):
        return rows
    return sorted((rows[0][0] or "").split(","))


def checks_of(checks, run, count, seed=1):
    tables, found = Tables(run), 0
    every_comparison(checks, tables)
    for i in range(count):
        text = some_query(Dice("sqlite query", seed, i), tables)
        rows = asked(tables, text, "v")
        found += rows not in ([(None,)], [""], []) and rows[0][0] != 0
        checks.same(f"query {i}: {text}", rows, asked(tables, text, "o"))
    checks.that("many of these find something", found > count / 3, f"{found} of {count}")
    tables.db.close()
    checks.same("nothing is kept", run.lib.sqlite3_memory_used(), 0)
    checks.group("random queries beside an ordinary table")
