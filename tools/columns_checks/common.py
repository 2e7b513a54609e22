"""What all groups of checks share: the files that the models make, the ways to run the program, and the counting."""
import os
import pathlib
import subprocess

from models import build, files, writer

ROOT = pathlib.Path(__file__).resolve().parent.parent.parent
TOOL = ROOT / "tools" / "columns"
TOP = 2**64 - 1
LONGEST = 2_625_540


# ---- the files


def mixed(dice, edition):
    """A file with a block of each kind that the edition has, at several widths."""
    kinds = (files.PACKED, files.FRAME, files.DIFFERENCES)
    blocks = [build.any_block(dice, kind, width) for kind in kinds for width in (0, 1, 7, 64)]
    if edition == 1:
        blocks += [build.any_runs(dice, n) for n in (1, 2, 64, 65, 1024)]
    return build.column_file(blocks, edition)


def with_byte(data, at, value):
    return data[:at] + bytes([value]) + data[at + 1 :]


def good_files(dice):
    steps = [1000 + 3 * i for i in range(1024)]
    return {
        "none_1.col": build.column_file([], 1),
        "none_2.col": build.column_file([], 2),
        "mixed_1.col": mixed(dice, 1),
        "mixed_2.col": mixed(dice, 2),
        "ours.col": writer.file_of(steps + [7] * 1024 + [dice.number() for _ in range(1024)] + [TOP] * 1024),
        "ours in 1.col": writer.file_of(steps + [7] * 1024, 1),
    }


def damaged_files(dice):
    """A file for each number of the reader's table, and each way to come to it."""
    ours = writer.file_of(list(range(2048)))
    old = build.column_file([build.any_runs(dice, 3), build.any_runs(dice, 5)], 1)
    run = build.any_runs(dice, 5)
    two = files.contents_length(2, 1)
    return {
        "empty.col": b"",
        "three_bytes.col": ours[:3],
        "entries_cut.col": ours[:40],
        "body_cut.col": ours[:-1],
        "edition_0.col": with_byte(ours, 0, 0),
        "edition_3.col": with_byte(ours, 0, 3),
        "blocks_257.col": with_byte(with_byte(ours, 2, 1), 3, 1),
        "text.col": b"1\n2\n3\n" * 100,
        "width_65.col": with_byte(ours, 4 + 32 + 1, 65),
        "kind_9.col": with_byte(ours, 4, 9),
        "runs_in_2.col": build.column_file([run], 2),
        "range_turned.col": ours[: 4 + 16] + ours[4 + 24 : 4 + 32] + ours[4 + 16 : 4 + 24] + ours[4 + 32 :],
        "over.col": ours + b"x",
        "twice.col": ours + ours,
        "index.col": build.column_file([build.any_runs(dice, 4), build.with_index(run, 700, 5)], 1),
        "smallest.col": with_byte(ours, 4 + 32 + 16, 1),
        "body_changed.col": with_byte(writer.file_of([5] * 1023 + [9]), two + 3, 255),
        "far_too_long.col": old + bytes(3_000_000),
    }


def longest(dice):
    return build.column_file([build.any_runs(dice, 1024) for _ in range(256)], 1)


def numbers_text(values):
    return "".join(f"{v}\n" for v in values).encode()


# ---- the counting


class Checks:
    """Counts checks, says which failed, and says of each group in a line how many there were."""

    def __init__(self):
        self.made = self.failed = self.before = 0

    def that(self, name, good, told=""):
        self.made += 1
        if not good:
            self.failed += 1
            print(f"columns_test: FAILED: {name}{': ' if told else ''}{told}", flush=True)

    def group(self, what):
        print(f"columns_test: {what}: {self.made - self.before} checks", flush=True)
        self.before = self.made


def not_tried(what, why):
    print(f"columns_test: not tried: {what}, since {why}", flush=True)


# ---- the running


class Said:
    """What a run printed, and its status: below 0 where a signal ended it."""

    def __init__(self, done):
        self.out, self.err, self.status = done.stdout, done.stderr.decode(errors="replace"), done.returncode

    def __str__(self):
        return f"status {self.status}, output {self.out[:200]!r}, complaint {self.err[:400]!r}"


class Run:
    """A folder with files, and the ways to run the program there. The command is what starts it, and the library makes
    its calls odd."""

    def __init__(self, folder, command, library):
        self.folder, self.command, self.library = pathlib.Path(folder), command, library
        self.sanitized = False

    def put(self, some):
        for name, data in some.items():
            (self.folder / name).write_bytes(data)

    def started(self, odd=None, more=None):
        """What starts the program, and its environment: with the library of odd calls where these are asked for."""
        there = dict(os.environ, **(more or {}), ASAN_OPTIONS="verify_asan_link_order=0:detect_leaks=0")
        if not odd:
            return self.command, there
        there.update({name: str(value) for name, value in odd.items()})
        if len(self.command) == 1:
            there["LD_PRELOAD"] = str(self.library)
            return self.command, there
        return [*self.command[:-1], "--preload", str(self.library), self.command[-1]], there

    def program(self, *words, given=b"", before="", by=(), odd=None, more=None, **how):
        """The program. What stands in before is done by a shell first, and what stands in by starts it."""
        command, there = self.started(odd, more)
        command = [*by, *command, *map(str, words)]
        if before:
            command = ["bash", "-c", f'{before} exec "$@"', "-", *command]
        if "stdin" not in how:
            how["input"] = given
        return Said(
            subprocess.run(command, cwd=self.folder, stdout=subprocess.PIPE, stderr=subprocess.PIPE, env=there, **how)
        )

    def begun(self, *words, odd=None, **how):
        """The program, started and not waited for."""
        command, there = self.started(odd)
        return subprocess.Popen([*command, *map(str, words)], cwd=self.folder, env=there, **how)

    def shell(self, text, **how):
        """A command line; $C starts the program."""
        _, there = self.started()
        text = f'columns() {{ {" ".join(map(quoted, self.command))} "$@"; }}\n{text}'
        how.setdefault("stdin", subprocess.DEVNULL)
        done = subprocess.run(
            ["bash", "-c", text], cwd=self.folder, stdout=subprocess.PIPE, stderr=subprocess.PIPE, env=there, **how
        )
        return Said(done)

    def tool(self, *words, given=b"", before="", more=None, start=TOOL):
        """tools/columns, as a newcomer starts it."""
        there = dict(os.environ, **(more or {}))
        command = ["bash", "-c", f'{before} exec "$@"', "-", str(start), *map(str, words)]
        return Said(subprocess.run(command, cwd=self.folder, input=given, capture_output=True, env=there))

    def names(self):
        return sorted(p.name for p in self.folder.iterdir())


def quoted(word):
    return "'" + str(word).replace("'", "'\\''") + "'"


def as_told(checks, name, said, expected, file=""):
    """The output, the status, and the complaint: none where none is expected, and else the file and the refusal
    alone."""
    text, status, complaint = expected
    wanted = f"{file}: {complaint}\n" if complaint else ""
    good = said.out == text.encode() and said.status == status and said.err == wanted
    checks.that(name, good, f"{said}; expected status {status}, {text[:200]!r}, {wanted[:200]!r}")
