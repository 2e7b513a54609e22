"""tools/columns, the newcomer's command: from any folder, through any link, whatever the caller's shell exports, and
without rt where nothing changed."""
import os
import shutil
import subprocess
import time

from models import columns

from .common import ROOT, TOOL, as_told, not_tried


def anywhere(checks, run):
    data = (run.folder / "ours.col").read_bytes()
    expected = columns.check(data)
    as_told(checks, "tools/columns", run.tool("check", "ours.col"), expected)
    link, far = run.folder / "a link *", run.folder / "bin"
    far.mkdir()
    link.symlink_to(TOOL)
    (far / "columns").symlink_to(link)
    as_told(checks, "through a link", run.tool("check", "ours.col", start=link), expected)
    as_told(checks, "through a link to a link", run.tool("check", "ours.col", start=far / "columns"), expected)
    as_told(
        checks,
        "by a link on the PATH",
        run.tool("check", "ours.col", start="columns", more={"PATH": f"{far}:{os.environ['PATH']}"}),
        expected,
    )
    for more in (
        {"CDPATH": "/tmp:/"},
        {"POSIXLY_CORRECT": "1"},
        {"BASHOPTS": "nullglob"},
        {"GREP_OPTIONS": "-v", "COLUMNS": "10"},
        {"LC_ALL": "C"},
    ):
        as_told(checks, f"with {more}", run.tool("check", "ours.col", "-H", more=more), columns.check(data, "ours.col"))
    as_told(checks, "with noclobber", run.tool("check", "ours.col", before="export SHELLOPTS; set -C;"), expected)
    as_told(checks, "with a small stack", run.tool("check", "ours.col", before="ulimit -s 512;"), expected)
    said = run.tool("find", 1, 2, "nothing *")
    checks.that(
        "words come as they are", said.status == 2 and said.err == "nothing *: No such file or directory\n", str(said)
    )
    shutil.rmtree(far)
    link.unlink()


def without_rt(checks, run):
    """Where nothing changed rt is not asked: a rt that fails is on the PATH, and then none."""
    data, place = (run.folder / "ours.col").read_bytes(), run.folder / "tricks"
    place.mkdir()
    (place / "rt").write_text("#!/bin/sh\necho asked >&2\nexit 1\n")
    (place / "rt").chmod(0o755)
    as_told(
        checks,
        "rt is not asked",
        run.tool("check", "ours.col", more={"PATH": f"{place}:/usr/bin:/bin"}),
        columns.check(data),
    )
    shutil.rmtree(place)


def elsewhere(checks, run):
    """The same in a folder whose name has a space and a star, as another user, and where it can only be read. What it
    is built of is a copy."""
    place = run.folder / "a place *"
    (place / "tools").mkdir(parents=True)
    shutil.copy(TOOL, place / "tools" / "columns")
    shutil.copytree(ROOT / "bindings" / "columns", place / "bindings" / "columns")
    shutil.copytree(ROOT / "bindings" / "c" / "include", place / "bindings" / "c" / "include")
    shutil.copytree(ROOT / "include", place / "include")
    shutil.copy(ROOT / "VERSION", place / "VERSION")
    (place / "crates" / "exports").mkdir(parents=True)
    (place / "crates.txt").write_text("exports staticlib:\n")
    start = place / "tools" / "columns"
    if shutil.which("rt", path="/usr/bin:/bin"):
        not_tried("a start without the kit", "it is where the system's own commands are")
    else:
        said = run.tool("check", "ours.col", start=start, more={"PATH": "/usr/bin:/bin"})
        good = said.status == 2 and "the command rt, which proves it, is not on the PATH" in said.err
        checks.that("neither built nor a kit", good, str(said))
    time.sleep(0.05)
    shutil.copytree(ROOT / "out" / "columns", place / "out" / "columns")
    (place / "out" / "columns" / "start").touch()
    data = (run.folder / "ours.col").read_bytes()
    as_told(
        checks,
        "from a folder with a space",
        run.tool("check", "ours.col", start=start, more={"PATH": "/usr/bin:/bin"}),
        columns.check(data),
    )
    run.folder.chmod(0o755)
    if not os.geteuid() and shutil.which("setpriv"):
        by = "setpriv --reuid=65534 --regid=65534 --clear-groups"
        said = run.shell(f"PATH=/usr/bin:/bin {by} '{start}' check ours.col")
        checks.that(
            "by another user",
            said.out == columns.check(data)[0].encode() and (said.err, said.status) == ("", 0),
            str(said),
        )
        time.sleep(0.05)
        (place / "VERSION").touch()
        said = run.shell(f"{by} '{start}' check ours.col", timeout=60)
        checks.that(
            "by another user who may not build",
            said.status == 2 and said.out == b"" and said.err.startswith("tools/columns: "),
            str(said),
        )
    shutil.rmtree(place)


def how_long(checks, run):
    """A start takes what the program takes: the median of some, in ms, is printed, and is far below what asking rt
    takes."""
    times = {}
    for name, command in (("the program", run.command), ("tools/columns", [str(TOOL)])):
        taken = []
        for _ in range(11):
            began = time.monotonic()
            subprocess.run([*command, "check", "ours.col"], cwd=run.folder, stdout=subprocess.DEVNULL, check=True)
            taken.append(time.monotonic() - began)
        times[name] = sorted(taken)[5] * 1000
    print("columns_test: a start takes " + ", ".join(f"{name} {ms:.1f} ms" for name, ms in times.items()), flush=True)
    checks.that("a start is short", times["the program"] < 200, str(times))


def checks_of(checks, run):
    anywhere(checks, run)
    without_rt(checks, run)
    elsewhere(checks, run)
    how_long(checks, run)
    checks.group("tools/columns from anywhere")
