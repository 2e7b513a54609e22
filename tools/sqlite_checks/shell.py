"""The commands of the page, as a person gives them to the program sqlite3; and Python's own module, where it loads
extensions."""
import shutil
import sqlite3
import subprocess

from models import writer

from .common import not_tried

PATHS, OBJECTS = list(range(900, 2948)), [7 * row % 5000 for row in range(2048)]
PAGE = """\
.load libfascjoldi_sqlite
CREATE VIRTUAL TABLE path   USING column_file('path.col');
CREATE VIRTUAL TABLE object USING column_file('object.col');
SELECT o.row, o.value FROM path p JOIN object o USING (row) WHERE p.value BETWEEN 1000 AND 1999;
"""


def the_program(checks, run):
    """The extension is found by its bare name, in the folder where libraries are looked for."""
    if not shutil.which("sqlite3"):
        not_tried("the program sqlite3", "it is not here")
        return
    there = {"PATH": "/usr/bin:/bin", "LD_LIBRARY_PATH": str(run.extension.parent)}
    done = subprocess.run(["sqlite3"], input=PAGE, cwd=run.folder, env=there, capture_output=True, text=True)
    if "unknown command" in done.stderr or "not authorized" in done.stderr:
        not_tried("the program sqlite3", "it loads no extensions")
        return
    wanted = "".join(f"{row}|{OBJECTS[row]}\n" for row, path in enumerate(PATHS) if 1000 <= path <= 1999)
    checks.same("the page's commands", (done.stdout, done.stderr), (wanted, ""))
    # By its whole name it needs no folder that is looked in: the library stands beside it.
    text = PAGE.replace(".load libfascjoldi_sqlite", f".load {run.extension}")
    done = subprocess.run(["sqlite3"], input=text, cwd=run.folder, env={"PATH": "/usr/bin:/bin"}, capture_output=True, text=True)
    checks.same("by its whole name", (done.stdout, done.stderr), (wanted, ""))


def the_module(checks, run):
    if not hasattr(sqlite3.Connection, "enable_load_extension"):
        not_tried("Python's own module sqlite3", "it is built without the loading of extensions")
        return
    db = sqlite3.connect(":memory:")
    db.enable_load_extension(True)
    db.load_extension(str(run.extension))
    db.execute(f"CREATE VIRTUAL TABLE path USING column_file('{run.folder}/path.col')")
    found = db.execute("SELECT row FROM path WHERE value IN (?, ?)", (900, 2947)).fetchall()
    checks.same("Python's module", found, [(0,), (2047,)])
    db.close()


def checks_of(checks, run):
    run.put("path.col", writer.file_of(PATHS))
    run.put("object.col", writer.file_of(OBJECTS))
    the_program(checks, run)
    the_module(checks, run)
    checks.group("the program sqlite3 and Python's module")
