"""The program built once more by cc with AddressSanitizer and UBSan, and some commands under valgrind."""
import os
import shutil
import subprocess

from models import build, writer
from cases.dice import Dice

from .common import ROOT, TOP, Run, damaged_files, good_files, not_tried, numbers_text


def commands(checks, folder, archive, command):
    """The commands of the programs that all checks are made with: that of the sanitizers, where it can be built."""
    under_valgrind(checks, folder, command)
    compiler = shutil.which("cc")
    if not compiler or os.uname().machine != "x86_64":
        not_tried("AddressSanitizer and UBSan", "there is no cc for x86-64")
        return
    program = folder / "columns"
    words = "cc -g -fsanitize=address,undefined -fno-sanitize-recover=all -fno-omit-frame-pointer"
    done = subprocess.run(
        [ROOT / "bindings" / "columns" / "build", "--with", words, archive, program], capture_output=True, text=True
    )
    if done.returncode:
        trial = subprocess.run(
            [
                *words.split(), "-x", "c", "-", "-o", folder / "trial"
            ], input="int main(void) { return 0; }", capture_output=True, text=True
        )
        if trial.returncode:
            not_tried("AddressSanitizer and UBSan", "cc has no such libraries")
            return
        checks.that("the program by cc with sanitizers", False, done.stderr[:1000])
        return
    print("columns_test: with AddressSanitizer and UBSan:", flush=True)
    yield [str(program)]


def under_valgrind(checks, folder, command):
    if not shutil.which("valgrind") or len(command) != 1:
        not_tried("valgrind", "it is not here")
        return
    place = folder / "valgrind"
    place.mkdir()
    run, dice = Run(place, ["valgrind", "-q", "--error-exitcode=99", *command], None), Dice(27, "valgrind")
    some = {**good_files(dice), **damaged_files(dice)}
    run.put({**some, "beside.col": writer.file_of(list(range(4096)))})
    run.put({"runs.col": build.column_file([build.any_runs(dice, 9)], 1)})
    for words, given in (
        (["check", *some], b""),
        (["check", "-j", 3, *some], b""),
        (["check", "--as-one", "ours.col", "runs.col"], b""),
        (["show", *some], b""),
        (["show", "--plot", "-j", 2, *some], b""),
        (["canonical", *some], b""),
        (["row", 1000, *some], b""),
        (["row", "--as-one", 5000, "ours.col", "runs.col"], b""),
        (["rows", 1000, 1030, *some], b""),
        (["rows", "-t", 5, 9, "ours.col", "runs.col"], b""),
        (["rows", "--as-one", 4090, "ours.col", "runs.col"], b""),
        (["find", 0, TOP, *some], b""),
        (["find", 0, 9, "ours.col", "--with", "beside.col"], b""),
        (["find", "--as-one", "-q", 0, 9, "ours.col", "runs.col"], b""),
        (["changes", "ours.col", "mixed_1.col"], b""),
        (["changes", "ours.col", "index.col"], b""),
        (["check", "-"], some["ours.col"]),
        (["rewrite", "mixed_1.col", "new.col"], b""),
        (["write", "written.col"], numbers_text(range(2048))),
        (["write", "-f", "written.col"], numbers_text(range(1024))),
        (["write", "x.col"], b"1\nx\n"),
        (["write", "--split", "part"], numbers_text(range(1024 * 257))),
        (["help"], b""),
        (["nothing"], b""),
        (["check", "-x"], b""),
    ):
        said = run.program(*words, given=given)
        checks.that(f"{words[:3]} under valgrind", said.status in (0, 1, 2) and "==" not in said.err, str(said))
    checks.group("under valgrind")
