"""renumber: the rows are those of the model, nothing is written where it is refused, and what is wrong is said with its line."""
from models import changes, files, renumber, rewrite

from .common import TOP


def pairs_text(pairs):
    return "".join(f"{old} {new}\n" for old, new in pairs).encode()


def some_pairs(dice, rows):
    """Pairs for the rows of a file: some of its numbers, in any order, to numbers that no row has, with a chain, an exchange, one that stays
    and some that no row has."""
    there = sorted(set(rows))
    chosen = [there[dice.below(len(there))] for _ in range(12)] if there else []
    chosen = list(dict.fromkeys(chosen))
    new = [dice.number() for _ in chosen]
    if len(chosen) > 4:
        new[0], new[1] = chosen[1], chosen[0]
        new[2] = chosen[3]
        new[4] = chosen[4]
    pairs = list(zip(chosen, new)) + [(TOP - 5 - i, TOP - 500 - i) for i in range(3)]
    return [pair for pair in pairs if pair[0] not in there or pair[0] in chosen]


def said_of(data, pairs):
    """What a renumbering that is done prints, by the model."""
    rows = rewrite.all_values(data)
    lists = renumber.lists_of(pairs)
    changed = renumber.changed_in(rows, renumber.new_rows(rows, lists))
    unused = len(set(lists.old) - set(rows))
    return f"renumbered {changed} of {len(rows)} rows, {unused} of {len(pairs)} pairs have no row\n".encode()


def renumbered(checks, run, dice, good):
    """Every good file with pairs in any order, written, looked at before, and turned round."""
    there, back = run.folder / "renumbered.col", run.folder / "back.col"
    for name, data in good.items():
        rows = rewrite.all_values(data)
        for pairs in ([], some_pairs(dice, rows), some_pairs(dice, rows)[::-1]):
            lists = renumber.lists_of(pairs)
            answer, wanted = renumber.renumber(data, lists, 1 << 30)
            if answer.number:
                continue
            label = f"renumber {name} by {len(pairs)} pairs"
            said = run.program("renumber", "-n", name, given=pairs_text(pairs))
            text = changes.text(data, wanted.file)
            checks.that(f"{label}, -n", (said.out, said.err, said.status) == (text.encode(), "", 0) and not there.exists(), str(said))
            said = run.program("renumber", name, there.name, given=pairs_text(pairs))
            done = (said.out, said.err, said.status) == (said_of(data, pairs), "", 0) and there.read_bytes() == wanted.file
            checks.that(label, done, str(said))
            said = run.program("renumber", there.name, back.name, given=pairs_text((new, old) for old, new in pairs))
            checks.that(f"{label} and back", said.status == 0 and back.read_bytes() == rewrite.rewritten(data), str(said))
            there.unlink(missing_ok=True)
            back.unlink(missing_ok=True)
    own = run.folder / "own.col"
    own.write_bytes(good["ours.col"])
    said = run.program("renumber", "-f", own.name, own.name, given=b"  7\t 9  \n")
    checks.that("renumber a file over itself", said.status == 0 and set(rewrite.all_values(own.read_bytes())[1024:2048]) == {9}, str(said))
    said = run.program("renumber", own.name, own.name, given=b"9 7\n")
    checks.that("renumber over a file that is there", said.status == 2 and "-f replaces it" in said.err, str(said))
    own.unlink()


def refused_lines(checks, run):
    """Input that is refused with its line, and a file that is not written."""
    there = run.folder / "renumbered.col"
    for name, given, line, word in (
        ("a letter", b"1 2\nx 3\n", 2, "byte 1 is no digit"),
        ("a letter in the second", b"1 2x\n", 1, "byte 4 is no digit"),
        ("one number", b"1 2\n3\n", 2, "one number stands there"),
        ("three numbers", b"1 2 3\n", 1, "more than two numbers"),
        ("no number", b"1 2\n\n", 2, "no number stands there"),
        ("a carriage return", b"1 2\r\n", 1, "(CRLF)"),
        ("a comma", b"1,2\n", 1, "byte 2 is no digit"),
        ("too large", b"1 %d\n" % 2**64, 1, "too large"),
        ("a long line", b"1 " + b"0" * 130 + b"\n", 1, "more than 128 bytes"),
        ("cut", b"1 2\n3 4", 2, "does not end"),
        ("an old number twice", b"5 6\n1 2\n9 9\n1 3\n", 4, "stands in line 2 too"),
        ("an old number twice, twice", b"5 6\n1 2\n5 9\n1 3\n", 3, "stands in line 1 too"),
        ("a new number twice", b"5 6\n1 2\n3 6\n", 3, "refused 21: the new number 6 stands in line 1 too"),
    ):
        for words in (("renumber", "ours.col", there.name), ("renumber", "-n", "ours.col")):
            said = run.program(*words, given=given)
            good = said.err.startswith(f"columns: standard input, line {line}: ") and word in said.err
            checks.that(f"renumber, {name}", said.out == b"" and said.status == 2 and good and not there.exists(), str(said))


def refused_rows(checks, run, good):
    """A row whose number is not listed and is a new one, by its row, its number and the line."""
    there, rows = run.folder / "renumbered.col", rewrite.all_values(good["ours.col"])
    said = run.program("renumber", "ours.col", there.name, given=b"1 2\n1003 7\n")
    wanted = (
        f"ours.col: refused 22 {rows.index(7)}: row {rows.index(7)} has the number 7, which is no old number and is the new one of line 2: "
        "two numbers would become one; list it too, or choose another new number\n"
    )
    checks.that("renumber to a number that a row has", (said.out, said.err, said.status) == (b"", wanted, 2) and not there.exists(), str(said))
    said = run.program("renumber", "ours.col", there.name, given=b"1003 7\n7 1003\n")
    checks.that("renumber by an exchange", said.status == 0 and there.exists(), str(said))
    there.unlink(missing_ok=True)


def refused_files(checks, run, bad):
    there = run.folder / "renumbered.col"
    for name, data in bad.items():
        said = run.program("renumber", name, there.name, given=b"1 2\n")
        answer = files.check(data)
        good = said.err.startswith(f"{name}: refused {answer.number} {answer.place}: ")
        checks.that(f"renumber {name}", said.out == b"" and said.status == 2 and good and not there.exists(), str(said))


def words(checks, run):
    for given, word in (
        (("renumber", "ours.col"), "takes a file and the name of a new one"),
        (("renumber", "-n", "ours.col", "new.col"), "'renumber -n' takes a file"),
        (("renumber", "-n", "-f", "ours.col"), "does not go with it"),
        (("renumber", "-", "new.col"), "which has the pairs"),
        (("renumber", "ours.col", "-"), "no name of a new file"),
        (("rewrite", "-n", "ours.col", "new.col"), "no option of this verb"),
    ):
        said = run.program(*given)
        checks.that(" ".join(given), said.status == 2 and said.out == b"" and word in said.err, str(said))


def checks_of(checks, run, dice, good, bad):
    renumbered(checks, run, dice, good)
    refused_lines(checks, run)
    refused_rows(checks, run, good)
    refused_files(checks, run, bad)
    words(checks, run)
    checks.group("renumber: what it writes, -n, the way back, and refusals")
