"""Every verb on every file, one at a time and many at once."""
from models import changes, columns, files, rewrite, writer

from .common import LONGEST, TOP, as_told, longest


def bounds_of(data):
    """Bounds that find nothing, one value, a few and all."""
    values = rewrite.all_values(data) if not files.check(data).number else []
    some = sorted(set(values))
    out = [(0, TOP), (TOP, TOP), (0, 0)]
    if some:
        out += [(some[0], some[0]), (some[len(some) // 3], some[len(some) // 2]), (some[-1], TOP)]
    return out


def rows_of(data):
    n = 1024 * files.count_of(data) if len(data) >= 4 else 0
    return sorted({0, 1, 1023, 1024, n // 2, max(n - 1, 0), n, n + 5, TOP})


def one_by_one(checks, run, some):
    """Every verb on every file."""
    for name, data in some.items():
        as_told(checks, f"check {name}", run.program("check", name), columns.check(data), name)
        as_told(checks, f"show {name}", run.program("show", name), columns.show(data), name)
        as_told(checks, f"show --plot {name}", run.program("show", "--plot", name), columns.show(data, plot=True), name)
        as_told(checks, f"rows {name}", run.program("rows", name), columns.rows(data), name)
        as_told(checks, f"canonical {name}", run.program("canonical", name), columns.is_canonical(data), name)
        for low, high in bounds_of(data):
            as_told(
                checks,
                f"find {low} {high} {name}",
                run.program("find", low, high, name),
                columns.find(data, low, high),
                name,
            )
            expected = columns.find(data, low, high, quiet=True)
            as_told(checks, f"find -q {low} {high} {name}", run.program("find", "-q", low, high, name), expected, name)
        for p in rows_of(data):
            as_told(checks, f"row {p} {name}", run.program("row", p, name), columns.row(data, p), name)
            as_told(checks, f"rows {p} {name}", run.program("rows", p, name), columns.rows(data, p), name)
        for a, b in ((0, 0), (1000, 1030), (1023, 1024), (2047, 5000)):
            as_told(checks, f"rows {a} {b} {name}", run.program("rows", a, b, name), columns.rows(data, a, b), name)
        rewritten(checks, run, name, data)


def rewritten(checks, run, name, data):
    new = run.folder / "rewritten.col"
    said = run.program("rewrite", name, new.name)
    answer, expected = rewrite.rewrite(data, 2_105_348)
    if answer.number:
        as_told(checks, f"rewrite {name}", said, columns.refused(answer), name)
        checks.that(f"rewrite {name} makes nothing", not new.exists())
        return
    good = (said.out, said.status, said.err) == (b"", 0, "") and new.read_bytes() == expected
    checks.that(f"rewrite {name}", good, str(said))
    new.unlink(missing_ok=True)


def whole(told):
    """What is printed of several files, and what is complained: each in order."""
    out = "".join(text for _, (text, _, _) in told)
    return out.encode(), "".join(f"{name}: {complaint}\n" for name, (_, _, complaint) in told if complaint)


def all_at_once(checks, run, some):
    """Several files in one command: each line has the file's name, and on threads it is the same. One of these files is
    refused by every verb, so the status is 2."""
    for words, text in (
        (["check"], lambda data, name: columns.check(data, name)),
        (["show"], lambda data, name: columns.show(data, name)),
        (["show", "--plot"], lambda data, name: columns.show(data, name, plot=True)),
        (["canonical"], lambda data, name: columns.is_canonical(data, name)),
        (["find", 0, 100], lambda data, name: columns.find(data, 0, 100, name)),
        (["find", "-q", 0, TOP], lambda data, name: columns.find(data, 0, TOP, name, quiet=True)),
        (["find", 8, 8], lambda data, name: columns.find(data, 8, 8, name)),
        (["row", 1030], lambda data, name: columns.row(data, 1030, name)),
        (["rows", 1020, 1030], lambda data, name: columns.rows(data, 1020, 1030, name)),
        (["rows"], lambda data, name: columns.rows(data, name=name)),
    ):
        out, err = whole([(name, text(data, name)) for name, data in some.items()])
        for jobs in ([], ["-j", 1], ["-j2"], ["-j", 3], ["-j", 64]):
            said = run.program(words[0], *jobs, *words[1:], *some)
            checks.that(f"{words} {jobs} of many", (said.out, said.err, said.status) == (out, err, 2), str(said))


def several(checks, run):
    """The status of several good files, and of one that is refused among them. 1 is: a difference is found, or nothing
    is found. ours.col has the values 7 and 1000 and not 1001, "in 1" has 7 and is of edition 1, and low.col has neither
    7 nor 1000."""
    old = "ours in 1.col"
    for words, status in (
        (["check", "ours.col", old], 0),
        (["show", "ours.col", old], 0),
        (["row", 5, "ours.col", old], 0),
        (["rows", 5, "ours.col", old], 0),
        (["row", 1024, "ours.col", "low.col"], 2),
        (["canonical", "ours.col", "low.col"], 0),
        (["canonical", "ours.col", old], 1),
        (["canonical", old, "ours.col"], 1),
        (["canonical", old, old], 1),
        (["canonical", old, "index.col"], 2),
        (["canonical", "index.col", "ours.col"], 2),
        (["find", 7, 7, "ours.col", old], 0),
        (["find", 7, 7, "ours.col", "low.col"], 0),
        (["find", 7, 7, "low.col", "ours.col"], 0),
        (["find", 1001, 1001, "low.col", "ours.col"], 1),
        (["find", 7, 7, "ours.col", "edition_3.col"], 2),
        (["find", 7, 7, "edition_3.col", "low.col"], 2),
    ):
        said = run.program(*words)
        checks.that(f"status of {words}", said.status == status, str(said))


def with_names(checks, run):
    """-H: the file's name begins each line where there is one file too, and stands anywhere behind the verb."""
    data, name = (run.folder / "ours.col").read_bytes(), "ours.col"
    for words, expected in (
        (["check", "-H", name], columns.check(data, name)),
        (["check", name, "-H"], columns.check(data, name)),
        (["show", "-H", name], columns.show(data, name)),
        (["find", "-H", 0, 9, name], columns.find(data, 0, 9, name)),
        (["find", 0, 9, name, "-H"], columns.find(data, 0, 9, name)),
        (["canonical", "-H", name], columns.is_canonical(data, name)),
        (["row", "-H", 3, name], columns.row(data, 3, name)),
        (["rows", "-H", 3, 9, name], columns.rows(data, 3, 9, name)),
    ):
        as_told(checks, f"{words}", run.program(*words), expected, name)
    damaged = (run.folder / "index.col").read_bytes()
    as_told(
        checks,
        "check -H index.col",
        run.program("check", "-H", "index.col"),
        columns.check(damaged, "index.col"),
        "index.col",
    )


def several_are_there(run, dice):
    """Files that checks of several groups use."""
    run.put({"longest.col": longest(dice), "low.col": writer.file_of([3] * 1024)})


def long_ones(checks, run):
    """The longest file that is readable, with every verb."""
    name = "longest.col"
    data = (run.folder / name).read_bytes()
    checks.that("the longest file has its length", len(data) == LONGEST, str(len(data)))
    values = rewrite.all_values(data)
    half = sorted(values)[len(values) // 2]
    for verb, words, expected in (
        ("check", [name], columns.check(data)),
        ("show", [name], columns.show(data)),
        ("rows", [name], columns.rows(data)),
        ("rows", [262_140, name], columns.rows(data, 262_140)),
        ("row", [262_143, name], columns.row(data, 262_143)),
        ("row", [262_144, name], columns.row(data, 262_144)),
        ("find", [0, half, name], columns.find(data, 0, half)),
        ("find", [0, TOP, name], columns.find(data, 0, TOP)),
        ("canonical", [name], columns.is_canonical(data)),
    ):
        as_told(checks, f"{verb} {words} of the longest", run.program(verb, *words), expected, name)
    rewritten(checks, run, name, data)


def small_stack(checks, run, some):
    """Nothing of length stands on the stack: 512 thousand bytes are enough, on the longest file too."""
    for words in (
        ["check"],
        ["show"],
        ["rows"],
        ["canonical"],
        ["row", 5],
        ["find", 0, TOP],
        ["check", "-j", 4],
        ["find", "-j", 4, 0, TOP],
    ):
        plain = run.program(*words, *some, "longest.col")
        said = run.program(*words, *some, "longest.col", before="ulimit -s 512;")
        checks.that(
            f"{words} with a small stack",
            (said.out, said.err, said.status) == (plain.out, plain.err, plain.status),
            str(said),
        )
    for words in (["rewrite", "longest.col", "small.col"], ["changes", "longest.col", "ours.col"]):
        said = run.program(*words, before="ulimit -s 512;")
        checks.that(f"{words} with a small stack", said.status in (0, 1) and said.err == "", str(said))
    (run.folder / "small.col").unlink(missing_ok=True)


def changes_of_two(checks, run):
    """The verb changes, which another program has too."""
    left, right = writer.file_of(list(range(1000, 3048)), 1), writer.file_of([1000, 5, *range(1002, 3048)])
    run.put({"left one.col": left, "right.col": right})
    of_two = (
        ("left one.col", "right.col", 1),
        ("right.col", "right.col", 0),
        ("right.col", "index.col", 2),
        ("longest.col", "longest.col", 0),
    )
    for a, b, status in of_two:
        said = run.program("changes", a, b)
        text = changes.text((run.folder / a).read_bytes(), (run.folder / b).read_bytes())
        checks.that(f"changes {a} {b}", said.out == text.encode() and said.status == status, str(said))


def checks_of(checks, run, some):
    one_by_one(checks, run, some)
    checks.group("every verb on every file")
    all_at_once(checks, run, some)
    several(checks, run)
    with_names(checks, run)
    checks.group("several files, on one thread and on more")
    long_ones(checks, run)
    small_stack(checks, run, some)
    changes_of_two(checks, run)
    checks.group("the longest file, a small stack, and changes")
