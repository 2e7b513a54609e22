"""Many damaged files, in one process each time, against the models."""
import random
import shutil

from models import build, columns, files, writer
from cases.dice import Dice

EACH_TIME = 2000


def small_files(dice):
    """Good files that are quickly read by the models, of both editions and all kinds."""
    narrow = [
        build.any_block(dice, kind, width)
        for kind in (files.PACKED, files.FRAME, files.DIFFERENCES) for width in (0, 1, 3)
    ]
    return [
        build.column_file([], 1), build.column_file([], 2), build.column_file(narrow[:1], 2), build.column_file(
            narrow[3:5], 1
        ),
        build.column_file(narrow[1:3], 2), build.column_file(narrow[4:6], 2), build.column_file(
            narrow[7:9], 2
        ), build.column_file(narrow[6:8], 1),
        build.column_file(
            [build.any_runs(dice, 3), build.any_runs(dice, 2)], 1
        ), writer.file_of([7] * 1024), writer.file_of(list(range(1024))),
    ]  # fmt: skip


def damaged(data, dice):
    """The file with a byte, a few bytes or its length changed; more often in the front, where most is decided."""
    data = bytearray(data)
    way = dice.randrange(10)
    if way == 0:
        return bytes(data[: dice.randrange(len(data) + 1)])
    if way == 1:
        return bytes(data) + dice.randbytes(dice.choice((1, 2, 32, 1000)))
    for _ in range(dice.choice((1, 1, 1, 2, 3))):
        end = len(data) if dice.randrange(3) == 0 else min(len(data), 4 + 32 * 3)
        at = dice.randrange(end)
        data[at] = dice.choice((0, 1, 2, 3, 9, 64, 65, 255, dice.randrange(256), data[at] ^ 1 << dice.randrange(8)))
    return bytes(data)


def compare(checks, run, some, words, text):
    out, err = "", ""
    for name, data in some.items():
        told, _, complaint = text(data, name)
        out += told
        err += f"{name}: {complaint}\n" if complaint else ""
    said = run.program(*words, *some)
    checks.that(
        f"{words} of {len(some)} damaged files",
        (said.out, said.err) == (out.encode(), err),
        first_difference(said, out, err),
    )


def first_difference(said, out, err):
    for mine, theirs in zip((said.out.decode() + said.err).splitlines(), (out + err).splitlines()):
        if mine != theirs:
            return f"{mine!r}, expected {theirs!r}"
    return f"{len(said.out)} bytes, {len(said.err)} of complaints; expected {len(out)} and {len(err)}"


def checks_of(checks, run, count):
    dice, good = random.Random(112), small_files(Dice(40, "damage"))
    place = run.folder / "damage"
    refused = 0
    for begin in range(0, count, EACH_TIME):
        place.mkdir()
        some = {
            f"damage/{begin + i:06}": damaged(dice.choice(good), dice) for i in range(min(EACH_TIME, count - begin))
        }
        run.put(some)
        told = {}

        def check(data, name):
            told[name] = columns.check(data, name)
            return told[name]

        compare(checks, run, some, ["check", "-j", 2], check)
        refused += sum(status == 2 for _, status, _ in told.values())
        few = dict(list(some.items())[: EACH_TIME // 20])
        compare(checks, run, few, ["find", "-j", 2, 3, 900], lambda data, name: columns.find(data, 3, 900, name))
        compare(checks, run, few, ["show", "-j", 2], lambda data, name: columns.show(data, name))
        compare(checks, run, few, ["row", "-j", 2, 1000], lambda data, name: columns.row(data, 1000, name))
        compare(checks, run, few, ["canonical", "-j", 2], lambda data, name: columns.is_canonical(data, name))
        shutil.rmtree(place)
    print(
        f"columns_test: {count} damaged files against the models: {refused} refused, {count - refused} still good",
        flush=True,
    )
    checks.that("damage refuses many and leaves some good", 0 < count - refused < count or count < 100)
    checks.group("damaged files")
