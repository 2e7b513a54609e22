"""What a file can be: no file, a folder, a pipe, standard input, an odd name, thousands of names; and reads that go
wrong."""
import os
import shutil
import signal
import socket
import subprocess
import threading
import time

from cases import encodings
from models import build, changes, columns, files, writer

from .common import TOP, as_told, not_tried

EACH = (("check", []), ("show", []), ("rows", []), ("row", ["0"]), ("canonical", []), ("find", ["0", "1005"]))

# What makes reads odd, as tools/odd_reads.c has it.
FEW, AGAIN = {"ODD_MOST": 1}, {"ODD_AGAIN": 2}


def failing_from(n):
    return {"ODD_FAIL": n}


def no_files(checks, run):
    """Names that lead to no file that can be read: each with its own name and why."""
    for verb, more in (*EACH, ("rewrite", [])):
        behind = ["new.col"] if verb == "rewrite" else []
        for name, word in (
            ("not there.col", "No such file"), (".", "is a folder"), ("pipe", "is a pipe that nobody writes to"), (
                "x" * 5000, "too long"
            ),
            ("ours.col/x", "Not a directory"), ("", "No such file"),
        ):  # fmt: skip
            said = run.program(verb, *more, name, *behind, timeout=60)
            good = said.status == 2 and said.out == b"" and word in said.err and said.err.startswith(
                (name or "''") + ": "
            )
            checks.that(f"{verb} {name[:20]!r}", good, str(said))


def without_permission(checks, run):
    """A file that may not be read. Root may read all, so the program is then run as nobody, as a copy in a folder that
    all may enter."""
    name, program = run.folder / "closed.col", run.folder / "program"
    name.write_bytes(writer.file_of(list(range(1024))))
    name.chmod(0)
    by = [] if os.geteuid() else ["setpriv", "--reuid=65534", "--regid=65534", "--clear-groups"]
    if by and not shutil.which("setpriv"):
        not_tried("a file without permission", "root reads all and there is no setpriv")
        return
    shutil.copyfile(run.command[-1], program)
    program.chmod(0o755)
    run.folder.chmod(0o755)
    command, run.command = run.command, [*run.command[:-1], str(program)]
    for verb, more in (*EACH, ("rewrite", [])):
        said = run.program(verb, *more, "closed.col", *(["new.col"] if verb == "rewrite" else []), by=by)
        good = (said.status, said.out, said.err) == (2, b"", "closed.col: Permission denied\n")
        checks.that(f"{verb} without permission", good, str(said))
    said = run.program("write", "new.col", given=b"1\n" * 1024, by=by)
    good = said.status == 2 and said.err == "new.col: no file can be made beside it: Permission denied\n"
    checks.that("write without permission", good, str(said))
    run.command = command
    program.unlink()
    name.unlink()


def standard_input(checks, run, some):
    """`-` and /dev/stdin, from a pipe and from a file; a process's output; a pipe with a name and one who writes to
    it."""
    for name, data in some.items():
        for verb, more in EACH:
            expected = run.program(verb, *more, name)
            wanted = expected.out, expected.err.replace(f"{name}: ", "standard input: "), expected.status
            said = run.program(verb, *more, "-", given=data)
            checks.that(f"{verb} - of {name} by a pipe", (said.out, said.err, said.status) == wanted, str(said))
            with open(run.folder / name, "rb") as stream:
                said = run.program(verb, *more, "-", stdin=stream)
            checks.that(f"{verb} - of {name} by a file", (said.out, said.err, said.status) == wanted, str(said))
        said = run.program("check", "/dev/stdin", given=data)
        expected = columns.check(data)
        complaint = f"/dev/stdin: {expected[2] if data else 'is a pipe that nobody writes to, or that gave no bytes'}\n"
        good = (said.out, said.status, said.err) == (
            expected[0].encode(), expected[1], complaint if expected[2] else ""
        )
        checks.that(f"check /dev/stdin of {name}", good, str(said))
    ours, old = some["ours.col"], some["ours in 1.col"]
    said = run.shell("columns check - < 'ours in 1.col' ours.col")
    checks.that(
        "- among others",
        said.out == (columns.check(old, "standard input")[0] + columns.check(ours, "ours.col")[0]).encode(),
        str(said),
    )
    said = run.shell("columns rows <(cat ours.col)")
    checks.that(
        "rows of a process's output", said.out == columns.rows(ours)[0].encode() and said.status == 0, str(said)
    )
    said = run.shell("columns check <(cat ours.col) <(cat ours.col; echo) | sed 's,^/dev/fd/[0-9]*,X,'")
    checks.that(
        "check of two outputs",
        said.out == columns.check(ours, "X")[0].encode() and "refused 11 0" in said.err,
        str(said),
    )
    said = run.shell("columns changes - ours.col < ours.col; columns changes <(cat ours.col) 'ours in 1.col'")
    expected = changes.text(ours, ours) + changes.text(ours, old)
    checks.that("changes of a stream", said.out == expected.encode() and said.status == 1, str(said))
    said = run.shell("columns rewrite - new.col < 'ours in 1.col' && columns check new.col && rm new.col")
    checks.that("rewrite of standard input", said.out.startswith(b"ok, 2 blocks") and said.status == 0, str(said))
    said = run.shell("(cat ours.col > pipe) & sleep 0.3; columns check pipe; wait", timeout=60)
    checks.that(
        "a pipe that has one who writes", said.out == columns.check(ours)[0].encode() and said.status == 0, str(said)
    )
    held = os.open(run.folder / "pipe", os.O_RDWR)
    started = run.begun("find", 0, 9, "pipe", stdin=subprocess.DEVNULL)
    time.sleep(0.5)
    waits = started.poll() is None
    started.terminate()
    checks.that(
        "a pipe that does not end is waited for, and a signal ends that", waits and started.wait(60) == -signal.SIGTERM
    )
    os.close(held)


def devices(checks, run):
    for name, word in (("/dev/null", "refused 8 0"), ("/dev/zero", "refused 9 0"), ("/dev/full", "refused 9 0")):
        for verb, more in EACH:
            said = run.program(verb, *more, name, timeout=60)
            checks.that(
                f"{verb} {name}",
                said.status == 2 and said.out == b"" and said.err.startswith(f"{name}: {word}"),
                str(said),
            )
    place = run.folder / "socket"
    with socket.socket(socket.AF_UNIX) as one:
        os.chdir(run.folder)
        one.bind("socket")
    said = run.program("check", "socket")
    checks.that("a socket", said.status == 2 and said.err.startswith("socket: "), str(said))
    place.unlink()


def pipes(checks, run):
    """A pipe without a writer is refused, and not waited for."""
    for words, out in (
        *(
            (words, b"")
            for words in (
                "check ours.col pipe",
                "show pipe",
                "rows pipe",
                "row 0 pipe",
                "find 0 1 pipe",
                "canonical pipe",
                "rewrite pipe b.col",
            )
        ),
        ("changes pipe ours.col", b"refused left 8 0\n"),
        ("changes ours.col pipe", b"refused right 8 0\n"),
    ):
        said = run.program(*words.split(), timeout=60)
        expected = columns.check(
            (run.folder / "ours.col").read_bytes(), "ours.col"
        )[0].encode() if words.startswith("check") else out
        checks.that(
            f"{words}, without a writer",
            said.status == 2 and said.out == expected and "pipe: is a pipe" in said.err,
            str(said),
        )


def odd_names(checks, run):
    """Names that a shell or a terminal can take for something else."""
    data = writer.file_of(list(range(1024)))
    for name, shown in (
        ("a\nb.col", "$'a\\nb.col'"), ("end\n", "$'end\\n'"), ("\x1b[31mred", "$'\\033[31mred'"), (
            "tab\there", "$'tab\\there'"
        ),
        ("it's \\ \r", "$'it\\'s \\\\ \\r'"), ("a b*?.col", "a b*?.col"), ("größe.col", "größe.col"), (
            "\x7f", "$'\\177'"
        ),
    ):  # fmt: skip
        run.put({name: data})
        as_told(checks, f"check -H {name!r}", run.program("check", "-H", name), columns.check(data, shown))
        as_told(checks, f"find {name!r}", run.program("find", 5, 6, name), columns.find(data, 5, 6))
        said = run.program("changes", name, "ours.col")
        checks.that(f"changes {name!r}", said.status == 1 and said.err == "", str(said))
        (run.folder / name).unlink()
        said = run.program("check", name)
        checks.that(
            f"{name!r} is not there",
            said.status == 2 and said.err == f"{shown}: No such file or directory\n",
            str(said),
        )
    raw = os.fsencode(run.folder) + b"/\xff\xfe"
    with open(raw, "wb") as out:
        out.write(data)
    said = run.program("check", os.fsdecode(raw))
    checks.that("a name that is no UTF-8", said.status == 0 and said.out == columns.check(data)[0].encode(), str(said))
    os.unlink(raw)


def many_names(checks, run):
    """14,000 names in one command, on one thread and on four."""
    place = run.folder / "many"
    place.mkdir()
    data = writer.file_of([7] * 1024)
    (place / "one").write_bytes(data)
    names = []
    for i in range(14_000):
        name = f"many/{i:05}"
        os.link(place / "one", run.folder / name)
        names.append(name)
    expected = "".join(columns.check(data, name)[0] for name in names).encode()
    for jobs in ("1", "4"):
        said = run.program("check", "-j", jobs, *names)
        checks.that(
            f"14,000 names, -j {jobs}",
            (said.out, said.err, said.status) == (expected, "", 0),
            f"{len(said.out)} {said.err[:200]}",
        )
    said = run.program("check", "-j", 4, *names, before="ulimit -n 20;")
    checks.that(
        "14,000 names with 20 open files", (said.out, said.status) == (expected, 0), f"{len(said.out)} {said.err[:200]}"
    )
    said = run.program("rows", "--as-one", 14_000 * 1024 - 2, *names)
    checks.that("14,000 files as one", (said.out, said.status) == (b"7\n7\n", 0), str(said))
    shutil.rmtree(place)


def closed_files(checks, run):
    """Standard files that are closed: no other file takes their place."""
    ours = (run.folder / "ours.col").read_bytes()
    said = run.program("check", "ours.col", before="exec <&-;")
    checks.that("no standard input", said.out == columns.check(ours)[0].encode() and said.status == 0, str(said))
    said = run.program("check", "-", before="exec <&-;")
    checks.that("- where it is closed", said.status == 2 and said.err.startswith("standard input: "), str(said))
    said = run.program("write", "new.col", before="exec <&-;")
    good = said.status == 2 and "standard input: a read failed: Bad file descriptor" in said.err and not (
        run.folder / "new.col"
    ).exists()
    checks.that("write where standard input is closed", good, str(said))
    said = run.program("check", "ours.col", before="exec >&-;")
    checks.that(
        "no standard output", said.status == 2 and "standard output: Bad file descriptor" in said.err, str(said)
    )
    said = run.program("find", 0, 9, "ours.col", before="exec 2>&-;")
    checks.that("no standard error", said.status == 0 and said.out == columns.find(ours, 0, 9)[0].encode(), str(said))
    said = run.program("check", "index.col", before="exec 2>&- <&-;")
    checks.that("a refusal and no standard error", said.status == 2 and said.out == b"", str(said))
    said = run.program("write", "new.col", given=b"1\n" * 1024, before="exec >&- 2>&-;")
    new = run.folder / "new.col"
    checks.that(
        "write with neither", said.status in (0, 2) and new.read_bytes() == writer.file_of([1] * 1024), str(said)
    )
    new.unlink(missing_ok=True)
    checks.that("no file was written over", (run.folder / "ours.col").read_bytes() == ours)


# ---- reads that go wrong


def failing_reads(checks, run):
    """A read that fails says nothing of the file, so the file is not called cut short."""
    for verb, more in (*EACH, ("rewrite", [])):
        reads = (1, 2, 3) if verb == "find" else (1,)
        for start in reads:
            said = run.program(
                verb, *more, "ours.col", *(["new.col"] if verb == "rewrite" else []), odd=failing_from(start)
            )
            good = (said.status, said.out, said.err) == (
                2, b"", "ours.col: a read failed: Input/output error; nothing is said of the file\n"
            )
            checks.that(f"{verb} where reads fail from {start} on", good, str(said))


def few_and_again(checks, run, some):
    """A reader that hands out few bytes at a time, and one that is interrupted, change nothing."""
    for odd in (FEW, AGAIN):
        for name, data in some.items():
            as_told(checks, f"check {name} with {odd}", run.program("check", name, odd=odd), columns.check(data), name)
            as_told(checks, f"rows {name} with {odd}", run.program("rows", name, odd=odd), columns.rows(data), name)
            as_told(
                checks,
                f"find {name} with {odd}",
                run.program("find", 0, TOP, name, odd=odd),
                columns.find(data, 0, TOP),
                name,
            )


def shrinking(checks, run):
    """A file that becomes shorter while it is read is refused; what is answered is the old file or the new one."""
    data = (run.folder / "ours.col").read_bytes()
    front = files.contents_size(data)
    changed = "ours.col: the file was changed while it was read; try again\n"
    for cut in (0, 3, 40, front, len(data) - 1):
        run.put({"later": data[:cut]})
        for read in (1, 2, 3, 4):
            odd = {"ODD_FROM": read, "ODD_SIDE": 1, "ODD_FILE": run.folder / "later"}
            for verb, more in (*EACH, ("rewrite", [])):
                if verb != "find" and read > 1:
                    continue
                said = run.program(verb, *more, "ours.col", *(["new.col"] if verb == "rewrite" else []), odd=odd)
                # A search reads the head, the front, and then bodies: of a cut that comes behind what it reads it knows
                # nothing.
                lucky = verb == "find" and (said.out, said.status) == (run_expected(data, verb, more), 0)
                good = said.status == 2 and said.out == b"" and said.err == changed
                short = verb == "find" and said.status == 2 and said.out == b"" and "refused" in said.err and read == 1
                checks.that(f"{verb}, cut to {cut} from read {read} on", good or lucky or short, str(said))
                (run.folder / "new.col").unlink(missing_ok=True)
    (run.folder / "later").unlink()


def really_shrinking(checks, run):
    """The same with another who cuts the file and writes it again, all the time."""
    data = writer.file_of([i * 7919 % 65536 for i in range(1024 * 64)])
    there, stop = run.folder / "moving.col", threading.Event()
    there.write_bytes(data)

    def move():
        n = 0
        while not stop.is_set():
            n += 1
            os.truncate(there, n * 7919 % len(data))
            with open(there, "r+b") as out:
                out.write(data)

    mover = threading.Thread(target=move)
    mover.start()
    wrong, answered = [], 0
    expected = {verb: run_expected(data, verb, more) for verb, more in EACH}
    for i in range(120):
        verb, more = EACH[i % len(EACH)]
        said = run.program(verb, *more, "moving.col")
        if said.status == 2 and said.out == b"" and said.err.startswith("moving.col: "):
            continue
        answered += 1
        if said.out != expected[verb]:
            wrong.append((verb, str(said)))
    stop.set()
    mover.join()
    there.unlink()
    checks.that("a file that shrinks and grows is never answered wrongly", not wrong, str(wrong[:2]))


def run_expected(data, verb, more):
    told = {"check": columns.check, "show": columns.show, "rows": columns.rows, "canonical": columns.is_canonical}
    if verb == "row":
        return columns.row(data, int(more[0]))[0].encode()
    if verb == "find":
        return columns.find(data, int(more[0]), int(more[1]))[0].encode()
    return told[verb](data)[0].encode()


def reads_of_find(checks, run):
    """A search reads the head, the contents, and the bodies that it opens; and no other byte of the file."""
    values = [block * 1000 + i % 7 for block in range(20) for i in range(1024)]
    data = writer.file_of(values)
    run.put({"steps.col": data, "log": b""})
    front, spans = files.contents_size(data), files.spans(data)
    for low, high in ((0, 0), (3000, 5006), (50_000, 60_000), (0, TOP)):
        (run.folder / "log").write_bytes(b"")
        as_told(
            checks,
            f"find {low} {high}",
            run.program("find", low, high, "steps.col", odd={"ODD_LOG": run.folder / "log"}),
            columns.find(data, low, high),
        )
        read = [tuple(map(int, line.split())) for line in (run.folder / "log").read_text().splitlines()]
        opened = [i for i in range(20) if low <= i * 1000 + 6 and i * 1000 <= high]
        expected = [(0, 4), (0, front)] + [(spans[i][0], spans[i][1] - spans[i][0]) for i in opened]
        checks.that(f"what find {low} {high} reads", read == expected, f"{read}; expected {expected}")
    for name in ("steps.col", "log"):
        (run.folder / name).unlink()


# ---- changes, on two files of three blocks each


class Two:
    """Files that differ in each of three blocks, in the folder `two`, and the program changes and the verb changes
    there. Both read the head, the contents and the three bodies of the left file, then those of the right one, and then
    the bodies once more, left and right in turn: reads 1 to 5, 6 to 10 and 11 to 16."""

    READS = ["left"] * 5 + ["right"] * 5 + ["left", "right"] * 3

    def __init__(self, run, command):
        self.place = run.folder / "two"
        self.place.mkdir()
        self.runs = [
            (type(run)(self.place, command, run.library), []),
            (type(run)(self.place, run.command, run.library), ["changes", "left.col", "right.col"]),
        ]
        self.old = [[i // 300 + 10 * block for i in range(1024)] for block in range(3)]
        self.new = [
            [9 if i == 5 + block else value for i, value in enumerate(values)] for block, values in enumerate(self.old)
        ]
        self.left = build.column_file([encodings.as_runs(values) for values in self.old], 1)
        self.right = build.column_file([wide(values) for values in self.new], 2)
        self.runs[0][0].put({"left.col": self.left, "right.col": self.right})

    def begun(self, blocks):
        """The lines of the first blocks, and no other line."""
        rows = changes.differing(sum(self.old[:blocks], []), sum(self.new[:blocks], []))
        return [f"{row} {a} {b}" for row, a, b in rows]

    def says(self, checks, name, odd, expected):
        """Both say this text. The verb has a sentence on standard error where it is a refusal."""
        for run, words in self.runs:
            said = run.program(*words, odd=odd)
            refused = "refused" in expected
            good = said.out == expected.encode() and (bool(said.err) == refused if words else said.err == "")
            good = good and (not words or said.status == (2 if refused else 1))
            checks.that(f"{name} {words[:1]}", good, f"{said}; expected {expected!r}")

    def refused(self, checks, name, odd, lines, last):
        """These lines, and the refusal behind them."""
        self.says(checks, name, odd, changes.ended([*lines, last]))

    def changing(self, side, read, data):
        """From that read on the file on that side has these bytes."""
        self.runs[0][0].put({"later": data})
        return {"ODD_FROM": read, "ODD_SIDE": 1 if side == "left" else 2, "ODD_FILE": self.place / "later"}


def wide(values, **said):
    """A packed block with room for numbers beyond its largest."""
    return build.packed(16, build.packed_bytes(16, values)).but(**said)


def changes_half_way(checks, two):
    """A read that fails gives a file that is cut short: before the list that is the only line, and in it the last
    one."""
    text = changes.text(two.left, two.right)
    for n, side in enumerate(two.READS, 1):
        lines = two.begun(max(0, n - 11) // 2)
        two.refused(checks, f"changes where reads fail from {n} on", failing_from(n), lines, f"refused {side} 8 0")
    two.says(checks, "changes makes 16 reads", failing_from(17), text)
    for odd in (FEW, AGAIN):
        two.says(checks, f"changes with {odd}", odd, text)


def changes_meanwhile(checks, two):
    """A file that changes while it is read. A body is tested again when it is read again, and no row is listed from one
    that is refused then."""
    runs = [encodings.as_runs(values) for values in two.old]
    index = build.column_file([runs[0], build.with_index(runs[1], 700, 9), runs[2]], 1)
    lie = [9 if i != 77 else 60_000 for i in range(1024)]
    low, high = min(two.new[2]), max(two.new[2])
    ranges = build.column_file([wide(two.new[0]), wide(two.new[1]), wide(lie, smallest=low, largest=high)], 2)
    for data, old in ((index, two.left), (ranges, two.right)):
        front = files.contents_size(old)
        checks.that("only a body changes", data[:front] == old[:front] and len(data) == len(old) and data != old)
    for side, data, read, blocks, last in (
        ("left", index, 1, 0, "13 1"),
        ("left", index, 4, 0, "13 1"),
        ("left", index, 5, 1, "13 1"),
        ("left", index, 13, 1, "13 1"),
        ("right", ranges, 6, 0, "15 2"),
        ("right", ranges, 10, 0, "15 2"),
        ("right", ranges, 11, 2, "15 2"),
        ("right", ranges, 16, 2, "15 2"),
        ("left", two.left[:-1], 5, 0, "8 0"),
        ("left", two.left[:-1], 6, 2, "8 0"),
        ("right", two.right[:40], 11, 0, "8 0"),
        ("right", b"", 14, 1, "8 0"),
        ("right", b"", 6, 0, "8 0"),
    ):
        odd = two.changing(side, read, data)
        two.refused(checks, f"changes, {side} changes at read {read}", odd, two.begun(blocks), f"refused {side} {last}")
    other = build.column_file([runs[0], runs[1], build.runs([0] * 5 + [1] * 1019, [55, 20, 21, 22])], 1)
    front = files.contents_size(other)
    checks.that("another good body", other[:front] == two.left[:front] and files.check(other).number == 0)
    odd = two.changing("left", 11, other)
    two.says(checks, "changes, a body becomes another good one", odd, changes.text(other, two.right))
    two.refused(
        checks, "changes, and then a read fails", {**odd, **failing_from(14)}, two.begun(1), "refused right 8 0"
    )


def changes_by_names(checks, run, tool):
    """tools/changes and `columns changes` say the same of any two names: a name that leads to no file that can be read
    is one of no bytes, and a sentence on standard error has it."""
    good = {name: (run.folder / name).read_bytes() for name in ("ours.col", "mixed_1.col", "index.col")}
    run.put({"empty": b""})
    closed = run.folder / "shut.col"
    closed.write_bytes(good["ours.col"])
    closed.chmod(0)
    names = {
        **good,
        "not there.col": None,
        ".": None,
        "pipe": None,
        "": None,
        "n" * 300: None,
        "x" * 5000: None,
        "none/a.col": None,
        "empty": b"",
    }
    if os.geteuid():
        names["shut.col"] = None

    def script(a, b):
        return run.tool(a, b, start=tool)

    def verb(a, b):
        return run.program("changes", a, b)

    for a, left in names.items():
        for b, right in names.items():
            if left is not None and right is not None and a != b:
                continue
            expected = changes.text(left, right).encode()
            status = 2 if b"refused" in expected else 0 if expected == b"differences 0\n" else 1
            for way in (script, verb):
                said = way(a, b)
                unread = [name[:20] for name, data in ((a, left), (b, right)) if data is None]
                told = [(f"'{name}" if way == script else name or "''") in said.err for name in unread]
                checks.that(
                    f"{way.__name__} changes {a[:20]!r} {b[:20]!r}",
                    (said.out, said.status) == (expected, status) and all(told),
                    str(said),
                )
    closed.unlink()


def checks_of(checks, run, some, changes_command, changes_tool):
    no_files(checks, run)
    without_permission(checks, run)
    devices(checks, run)
    pipes(checks, run)
    odd_names(checks, run)
    closed_files(checks, run)
    checks.group("no files, folders, pipes, devices, odd names and closed files")
    standard_input(checks, run, some)
    checks.group("standard input and streams")
    many_names(checks, run)
    checks.group("14,000 names")
    failing_reads(checks, run)
    few_and_again(checks, run, some)
    shrinking(checks, run)
    really_shrinking(checks, run)
    reads_of_find(checks, run)
    checks.group("reads that fail, are short or find another file, and what find reads")
    if changes_tool:
        changes_by_names(checks, run, changes_tool)
        two = Two(run, changes_command)
        changes_half_way(checks, two)
        changes_meanwhile(checks, two)
        shutil.rmtree(two.place)
        checks.group("changes, the program and the verb")
