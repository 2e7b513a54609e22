"""The words of a command: help, options, numbers, and what is refused of them."""
import re
import shutil

from models import columns, writer

from .common import ROOT, TOP, as_told

VERBS = ("check", "show", "rows", "row", "find", "write", "rewrite", "canonical", "changes")


def helped(checks, run):
    """Help of the program and of each verb, the version, and no help where there is no verb."""
    for words in (["-h"], ["--help"], ["help"]):
        said = run.program(*words)
        checks.that(
            f"{words}", said.status == 0 and said.out.startswith(b"usage: columns check") and said.err == "", str(said)
        )
    for verb in VERBS:
        page = run.program("help", verb)
        good = page.status == 0 and page.out.startswith(f"usage: columns {verb}".encode()) and page.err == ""
        checks.that(f"help {verb}", good, str(page))
        checks.that(
            f"help {verb} is narrow", all(len(line) <= 90 for line in page.out.decode().splitlines()), str(page)
        )
        for words in ([verb, "-h"], [verb, "--help"], [verb, "a.col", "-h"]):
            said = run.program(*words)
            checks.that(f"{words}", (said.status, said.out, said.err) == (0, page.out, ""), str(said))
        checks.that(f"help names {verb}", f"columns {verb} ".encode() in run.program("help").out)
    said = run.program("--version")
    version = (ROOT / "VERSION").read_text().strip()
    checks.that("--version", (said.status, said.out, said.err) == (0, f"columns {version}\n".encode(), ""), str(said))
    said = run.program()
    checks.that(
        "no verb", said.status == 2 and said.out == b"" and said.err.startswith("usage: columns check"), str(said)
    )
    every = [run.program("help", verb).out for verb in VERBS] + [run.program("-h").out]
    checks.that("no page speaks of a document", not any(re.search(rb"document 0\d", page) for page in every))


def refused(checks, run):
    """Words that cannot be: status 2, no output, and a sentence that says where the usage is."""
    for words in (
        ["nothing"], ["check"], ["show"], ["row"], ["row", "5"], ["row", "a.col"], ["row", "a.col", "5"], ["rows"], [
            "rows", "1"
        ], ["rows", "1", "2"],
        ["rows", "a", "1", "2"], ["rows", "1", "2", "3", "a"], ["find", "1", "a.col"], ["find", "1", "2"], ["write"], [
            "write", "a", "b"
        ],
        ["rewrite", "a"], ["rewrite", "a", "b", "c"], ["changes", "a"], ["changes", "a", "b", "c"], ["canonical"], [
            "check", "-f", "a"
        ],
        ["check", "-H"], ["find", "-H", "1", "2"], ["write", "-H", "a"], ["check", "-q", "a"], ["check", "-x"], [
            "check", "--then"
        ],
        ["check", "-", "-"], ["changes", "-", "-"], ["find", "1", "2", "-", "--with", "-"], ["write", "-"], [
            "rewrite", "a", "-"
        ],
        ["write", "--split", "-"], ["write", "--split"], ["write", "--split", "a", "b"], ["write", "--rows", "a.col"], [
            "write", "--rows", "x", "a.col"
        ],
        ["write", "--rows"], ["check", "-j", "a.col"], ["check", "-j", "0", "a.col"], [
            "check", "-j", "1025", "a.col"
        ], ["check", "-j"], ["check", "-jx", "a"],
        ["find", "1", "2", "a", "--with"], ["find", "1", "2", "a", "b", "--with", "c"], [
            "find", "--as-one", "1", "2", "a", "--with", "b"
        ],
        ["rows", "-t", "--as-one", "a"], ["rows", "-t", "-H", "a"], ["-H", "check", "a"], ["-j", "2", "check", "a"], [
            "help", "nothing"
        ],
        ["help", "check", "show"], ["show", "--plot=2", "a"], ["changes", "-f", "a", "b"], ["--nothing"],
    ):  # fmt: skip
        said = run.program(*words)
        good = said.status == 2 and said.out == b"" and said.err.startswith("columns: ") and "columns help" in said.err
        checks.that(f"wrong use {words}", good and said.err.count("\n") == 1, str(said))
    large = str(TOP + 1)
    for words, word in (
        (["row", "x", "ours.col"], "'x', which is no number"),
        (["row", "ours.col", "5"], "the row first"),
        (["row", large, "ours.col"], "too large"),
        (["rows", "y", "ours.col"], "y: No such file"),
        (["rows", large, "ours.col"], "too large"),
        (["rows", "1", large, "ours.col"], "too large"),
        (["rows", "5", "4", "ours.col"], "say the lower one first"),
        (["find", "5", "4", "ours.col"], "say the lower one first"),
        (["rows", "ours.col", "5"], "./ before it"),
        (["rows", "1", "2", "3", "ours.col"], "./ before it"),
        (["find", "a", "1", "ours.col"], "first word is 'a', which is no number"),
        (["find", large, "1", "ours.col"], "too large"),
        (["find", "1", "", "ours.col"], "which is no number"),
        (["find", "1", "0x2", "ours.col"], "second word is '0x2', which is no number"),
        (["find", "1", large, "ours.col"], "too large"),
        (["row", TOP, "ours.col"], f"refused 12 0: there is no row {TOP}; the last one is row 4095"),
        (["row", 5, "none_2.col"], "refused 12 0: there is no row 5; the file has no rows"),
        (["check", "-x"], "there is no option '-x'; a file of that name is said with ./ before it, or behind --"),
        (["check", "-q", "ours.col"], "'-q' is no option of this verb"),
    ):
        said = run.program(*words)
        good = said.status == 2 and (
            said.out == b"" or words[0] == "rows" and word.startswith("y:")
        ) and word in said.err
        checks.that(f"wrong word {words}", good, str(said))


def dashed_names(checks, run):
    """A name with a dash in front: behind `--`, and with ./ before it; and a name that is a number."""
    old = writer.file_of(list(range(1024)))
    run.put({"-h": old, "--as-one": old, "7": old, "--": old})
    for name in ("-h", "--as-one", "--"):
        as_told(checks, f"check -- {name}", run.program("check", "--", name), columns.check(old), name)
        as_told(checks, f"check ./{name}", run.program("check", f"./{name}"), columns.check(old), name)
    as_told(checks, "check -H -- -h", run.program("check", "-H", "--", "-h"), columns.check(old, "-h"))
    as_told(checks, "rows 3 -- ./7", run.program("rows", 3, "--", "./7"), columns.rows(old, 3))
    as_told(checks, "row 3 7", run.program("row", 3, "7"), columns.row(old, 3))
    as_told(checks, "find 1 2 -- -h", run.program("find", 1, 2, "--", "-h"), columns.find(old, 1, 2))
    for name in ("-h", "--as-one", "7", "--"):
        (run.folder / name).unlink()


def examples(checks, run):
    """The examples of the help, one after the other, in a folder with no other files. What stands behind three spaces
    says what one does."""
    place = run.folder / "examples"
    place.mkdir()
    lines = [
        line.strip().split("   ")[0]
        for line in run.program("-h").out.decode().splitlines() if line.startswith("    ") and line[4] != " "
    ]
    checks.that("the help has examples", len(lines) == 10, str(lines))
    for line in lines:
        said = run.shell("cd examples && " + line)
        checks.that(f"example: {line}", said.status == (1 if " changes " in line else 0) and said.err == "", str(said))
    shutil.rmtree(place)


def checks_of(checks, run):
    helped(checks, run)
    refused(checks, run)
    dashed_names(checks, run)
    examples(checks, run)
    checks.group("help, options and words that cannot be")
