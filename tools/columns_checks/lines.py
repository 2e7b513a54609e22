"""What is printed: whole lines, in order, and as much as can be written; progress on a terminal; and several files side
by side or as one."""
import os
import pty
import signal
import socket
import subprocess
import time

from models import changes, columns, rewrite, writer

from .common import TOP, as_told, numbers_text, with_byte
from .writing import usual_signals, waited


def whole_lines(checks, run, some):
    """Each write to what is no plain file has whole lines, and at most 4,096 bytes. A socket of packets shows where one
    write ends."""
    for words in (
        ["rows", "ours.col"],
        ["find", 0, TOP, "mixed_1.col"],
        ["check", *some],
        ["show", *some],
        ["changes", "ours.col", "mixed_1.col"],
        ["-h"],
    ):
        ours, theirs = socket.socketpair(socket.AF_UNIX, socket.SOCK_SEQPACKET)
        started = run.begun(*words, stdout=theirs, stderr=subprocess.DEVNULL, stdin=subprocess.DEVNULL)
        theirs.close()
        packets = []
        while packet := ours.recv(1 << 20):
            packets.append(packet)
        ours.close()
        started.wait()
        good = all(len(p) <= 4096 and p.endswith(b"\n") for p in packets)
        checks.that(
            f"whole lines of {words[:3]}",
            good and b"".join(packets) == run.program(*words).out,
            str([len(p) for p in packets][:20]),
        )


def together(checks, run, some):
    """Six processes that write into one pipe: no line is torn, so each is one that a file gives."""
    names = "".join(f"{name}\\0" for name in list(some) * 4)
    for words, text in (
        ("check -H", columns.check),
        ("find -H 0 18446744073709551615", lambda data, name: columns.find(data, 0, TOP, name)),
        ("rows -H", lambda data, name: columns.rows(data, name=name)),
    ):
        told = sorted("".join(text(data, name)[0] for name, data in some.items()).splitlines() * 4)
        command = " ".join(f"'{word}'" for word in run.command)
        said = run.shell(f"printf '{names}' | xargs -0 -n 3 -P 6 {command} {words} | cat")
        checks.that(f"{words} by xargs -P 6", sorted(said.out.decode().splitlines()) == told, f"{len(said.out)} bytes")
    said = run.shell(f"printf '{names}' | xargs -0 -n 3 -P 6 {command} check > /dev/null")
    checks.that("the status of xargs", said.status == 123, str(said))


def not_whole(checks, run):
    """Output that cannot be written."""
    # What the longest file prints is more than is gathered at once, so a write in the middle fails there, and with
    # ours.col the last one.
    for words in (
        "rows longest.col",
        "rows ours.col",
        "check ours.col",
        "find 0 9 ours.col",
        "changes ours.col mixed_2.col",
        "help",
        "--version",
    ):
        said = run.shell(f"columns {words} > /dev/full")
        checks.that(
            f"{words} to a full disk",
            said.status == 2 and "standard output: No space left on device" in said.err,
            str(said),
        )
    for words in (
        "rows longest.col",
        "changes longest.col ours.col",
        "find 0 18446744073709551615 longest.col",
        "rows -j 2 longest.col longest.col",
    ):
        said = run.shell(f"columns {words} | head -n 1; exit ${{PIPESTATUS[0]}}", preexec_fn=usual_signals)
        checks.that(
            f"{words} to a reader that goes away", said.status == 128 + signal.SIGPIPE and said.err == "", str(said)
        )
    said = run.shell(
        "trap '' PIPE; columns rows longest.col | head -n 1; exit ${PIPESTATUS[0]}", preexec_fn=usual_signals
    )
    checks.that(
        "where that signal is ignored", said.status == 2 and "standard output: Broken pipe" in said.err, str(said)
    )
    said = run.shell(
        "columns check index.col 2>&1 >/dev/null | cat; columns check index.col 2>/dev/full", preexec_fn=usual_signals
    )
    checks.that("a complaint that cannot be written", said.status == 2, str(said))
    ours = (run.folder / "ours.col").read_bytes()
    read, write = os.pipe()
    os.set_blocking(write, False)
    started = run.begun("rows", "ours.col", stdout=write, stdin=subprocess.DEVNULL)
    os.close(write)
    time.sleep(0.3)
    with os.fdopen(read, "rb") as stream:
        out = stream.read()
    checks.that("a pipe that does not block", out == columns.rows(ours)[0].encode() and started.wait() == 0)


def order(checks, run, some):
    """Complaints stand behind the lines of the files before them, where both go to one place."""
    for jobs in ("1", "5"):
        names = " ".join(f"'{name}'" for name in some)
        said = run.shell(f"columns check -j {jobs} {names} 2>&1")
        told = [(name, columns.check(data, name)) for name, data in some.items()]
        expected = "".join(text or f"{name}: {complaint}\n" for name, (text, _, complaint) in told)
        checks.that(f"one place for both, -j {jobs}", said.out == expected.encode(), str(said))


def on_terminal(command, run, odd, out):
    """What a run writes to standard error, where that is a terminal."""
    ours, theirs = pty.openpty()
    started = run.begun(*command, odd=odd, stderr=theirs, stdout=out, stdin=subprocess.DEVNULL)
    os.close(theirs)
    said = b""
    try:
        while part := os.read(ours, 65536):
            said += part
    except OSError:
        pass
    os.close(ours)
    return said, waited(started)


def progress(checks, run):
    """A long run says on standard error how far it is, where that is a terminal, and takes it away at the end."""
    names = ["ours.col"] * 40
    slow = {"ODD_SLOW": 50}
    for jobs in ("1", "2"):
        said, status = on_terminal(
            ["check", "-j", jobs, *names], run, slow if jobs == "1" else {"ODD_SLOW": 100}, subprocess.DEVNULL
        )
        good = status == 0 and b" of 40 files" in said and said.endswith(b"\r\x1b[K")
        checks.that(f"progress, -j {jobs}", good, repr(said[:300]))
    ours, theirs = pty.openpty()
    started = run.begun("write", "long.col", stdin=subprocess.PIPE, stderr=theirs)
    for part in (b"1\n" * 512, b"1\n" * 512):
        started.stdin.write(part)
        started.stdin.flush()
        time.sleep(1.2)
    started.stdin.close()
    status = waited(started)
    os.close(theirs)
    said = os.read(ours, 65536)
    os.close(ours)
    checks.that("progress of write", status == 0 and b"columns: 1024 numbers are read" in said, repr(said))
    (run.folder / "long.col").unlink(missing_ok=True)
    said, status = on_terminal(["check", *names[:3]], run, None, subprocess.DEVNULL)
    checks.that("no progress of a short run", (said, status) == (b"", 0), repr(said))
    said = run.program("check", *names, odd=slow)
    checks.that("no progress where there is no terminal", (said.err, said.status) == ("", 0), str(said))


# ---- more than one file


def side_by_side(checks, run, some):
    """row of several, rows -t, and find --with."""
    columns_of = {name: data for name, data in some.items() if name in ("ours.col", "shifted.col", "runs.col")}
    values = [rewrite.all_values(data) for data in columns_of.values()]
    for p in (0, 1500, 4095):
        expected = "".join(columns.row(data, p, name)[0] for name, data in columns_of.items())
        as_told(checks, f"row {p} of three", run.program("row", p, *columns_of), (expected, 0, None))
    for span in ((), (5,), (1020, 1030), (4095, 4095)):
        first, last = (span + (4095,))[0] if span else 0, span[1] if len(span) == 2 else 4095
        lines = "".join("\t".join(str(column[row]) for column in values) + "\n" for row in range(first, last + 1))
        as_told(checks, f"rows -t {span}", run.program("rows", "-t", *span, *columns_of), (lines, 0, None))
    said = run.program("rows", "-t", "ours.col", "low.col")
    checks.that(
        "rows -t of files of other lengths",
        said.status == 2 and said.out == b"" and "low.col: has not as many rows" in said.err,
        str(said),
    )
    said = run.program("rows", "-t", 0, 9, "ours.col", "low.col")
    checks.that("rows -t of the rows that both have", said.status == 0 and len(said.out.splitlines()) == 10, str(said))
    said = run.program("rows", "-t", 1020, 1024, "ours.col", "low.col")
    checks.that(
        "rows -t of rows that one has not",
        said.status == 2 and said.out == b"" and "the last one is row 1023" in said.err,
        str(said),
    )
    ours, *others = columns_of.values()
    _, *names = columns_of
    for low, high in ((7, 7), (1000, 1010), (0, TOP), (8, 9)):
        expected = columns.find(ours, low, high, beside=others)
        as_told(
            checks, f"find {low} {high} --with", run.program("find", low, high, "ours.col", "--with", *names), expected
        )
        expected = columns.find(ours, low, high, quiet=True, name="ours.col", beside=others)
        as_told(
            checks,
            f"find -H -q {low} {high} --with",
            run.program("find", low, high, "ours.col", "-q", "-H", "--with", *names),
            expected,
        )
    for name, word in (
        ("low.col", "has not as many rows"),
        ("index.col", "has not as many rows"),
        ("edition_3.col", "refused 9 0"),
        ("none", "No such file"),
    ):
        said = run.program("find", 7, 7, "ours.col", "--with", name)
        checks.that(
            f"find --with {name}", said.status == 2 and said.out == b"" and f"{name}: {word}" in said.err, str(said)
        )
    run.put({"bad.col": with_byte(writer.file_of(list(range(4096))), 4 + 32 * 3 + 16, 9)})
    said = run.program("find", 0, TOP, "ours.col", "--with", "bad.col")
    checks.that(
        "find --with a damaged one",
        said.status == 2 and said.out == b"" and "bad.col: refused 15 3" in said.err,
        str(said),
    )
    (run.folder / "bad.col").unlink()


def as_one(checks, run):
    """Files whose rows are counted on, as write --split lays them."""
    values = [i * 7 % 100_003 for i in range(262_144 + 4096)]
    said = run.program("write", "--split", "one", given=numbers_text(values))
    names = ["one.000.col", "one.001.col"]
    checks.that("write --split for --as-one", said.status == 0, str(said))
    run.put({"none.col": writer.file_of([])})
    three = [names[0], "none.col", names[1]]
    said = run.program("check", "--as-one", *three)
    lines = [
        "one.000.col: ok, 256 blocks, 262144 rows, edition 2, rows 0 to 262143",
        "none.col: ok, 0 blocks, 0 rows, edition 2",
        "one.001.col: ok, 4 blocks, 4096 rows, edition 2, rows 262144 to 266239",
        "as one: 3 files, 260 blocks, 266240 rows",
    ]
    checks.that(
        "check --as-one", said.out.decode().splitlines() == lines and (said.err, said.status) == ("", 0), str(said)
    )
    said = run.program("check", "--as-one", names[0], "index.col", names[1])
    good = said.status == 2 and "index.col: refused 13 1" in said.err and "not counted on" in said.err
    good = good and b"as one" not in said.out
    checks.that(
        "check --as-one with one that is refused",
        good and b"one.001.col: ok, 4 blocks, 4096 rows, edition 2\n" in said.out,
        str(said),
    )
    for row in (0, 262_143, 262_144, 266_239):
        said = run.program("row", "--as-one", row, *three)
        checks.that(
            f"row --as-one {row}",
            said.out.startswith(b"%d, " % values[row]) and (said.err, said.status) == ("", 0),
            str(said),
        )
    said = run.program("row", "--as-one", 266_240, *three)
    checks.that(
        "row --as-one beyond",
        said.status == 2 and "there is no row 266240; the last one is row 266239" in said.err,
        str(said),
    )
    for span in ((), (262_140,), (262_140, 262_150), (0, 3), (266_239, 266_239)):
        first, last = span[0] if span else 0, span[1] if len(span) == 2 else 266_239
        for jobs in ("1", "3"):
            said = run.program("rows", "--as-one", "-j", jobs, *span, *three)
            checks.that(
                f"rows --as-one {span}",
                said.out == numbers_text(values[first : last + 1]) and (said.err, said.status) == ("", 0),
                f"{len(said.out)}",
            )
    said = run.program("rows", "--as-one", 5, 266_240, *three)
    checks.that(
        "rows --as-one beyond",
        said.status == 2 and said.out == b"" and "the last one is row 266239" in said.err,
        str(said),
    )
    for low, high in ((50, 60), (0, 0), (100_003, TOP)):
        found = [(i, v) for i, v in enumerate(values) if low <= v <= high]
        opened = sum(
            1
            for at in range(0, len(values), 1024) if max(low, min(values[at : at + 1024])) <= min(
                high, max(values[at : at + 1024])
            )
        )
        lines = [f"{i} {v}" for i, v in found]
        last = f"found {len(found)}, opened {opened} of 260 blocks"
        for words, expected in (([], [*lines, last]), (["-q"], lines), (["-j", "3"], [*lines, last])):
            said = run.program("find", "--as-one", *words, low, high, *three)
            good = said.out.decode().splitlines() == expected and (said.err, said.status) == ("", 0 if found else 1)
            checks.that(f"find --as-one {words} {low} {high}", good, str(said))
    said = run.program("find", "--as-one", "-H", 50, 50, *three)
    checks.that("find --as-one -H", said.out.splitlines()[0].startswith(b"one.00") and said.status == 0, str(said))
    for words in (["find", "--as-one", 0, 9], ["rows", "--as-one"], ["row", "--as-one", 0]):
        said = run.program(*words, names[0], "edition_3.col")
        checks.that(
            f"{words} with one that is refused",
            said.status == 2 and said.out == b"" and "edition_3.col: refused 9 0" in said.err,
            str(said),
        )
        said = run.program(*words, names[0], "-", given=(run.folder / names[1]).read_bytes())
        checks.that(
            f"{words} with standard input",
            said.status == 2 and said.out == b"" and "standard input: is no plain file" in said.err,
            str(said),
        )
    for name in three:
        (run.folder / name).unlink()


def refusals(checks, run, bad):
    """Every refusal has its number, its place and a sentence, on standard error; and changes prints the line of R121
    alone on standard output."""
    for name, data in bad.items():
        answer = columns.files.check(data)
        sentence = columns.refusal(answer)
        for words in (
            ["check", name],
            ["show", name],
            ["rows", name],
            ["row", 0, name],
            ["canonical", name],
            ["rewrite", name, "new.col"],
        ):
            said = run.program(*words)
            checks.that(
                f"the refusal of {words}",
                (said.out, said.err, said.status) == (b"", f"{name}: {sentence}\n", 2),
                str(said),
            )
        for left, right, side in ((name, "ours.col", "left"), ("ours.col", name, "right")):
            said = run.program("changes", left, right)
            text = changes.text((run.folder / left).read_bytes(), (run.folder / right).read_bytes())
            good = said.out == text.encode() == f"refused {side} {answer.number} {answer.place}\n".encode()
            checks.that(
                f"changes {left} {right}", good and said.err == f"{name}: {sentence}\n" and said.status == 2, str(said)
            )


def checks_of(checks, run, some, bad):
    shifted = [v + 1 if v < TOP else 0 for v in rewrite.all_values(some["ours.col"])]
    more = {
        "ours.col": some["ours.col"],
        "shifted.col": writer.file_of(shifted),
        "runs.col": writer.file_of([i // 100 for i in range(4096)], 1),
    }
    run.put(more)
    whole_lines(checks, run, {**some, **bad})
    together(checks, run, {**some, **bad})
    order(checks, run, {**some, **bad})
    not_whole(checks, run)
    checks.group("whole lines, order, and output that cannot be written")
    progress(checks, run)
    checks.group("progress on a terminal")
    side_by_side(checks, run, more)
    as_one(checks, run)
    checks.group("more than one file: row, rows -t, find --with, --as-one")
    refusals(checks, run, bad)
    checks.group("refusals")
