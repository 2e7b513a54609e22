"""Worked examples of column files (R88) and of bodies that trickle in, and a case for each of their numbers, for
tools/edges. Each file is written out here byte by byte as R79 to R84 say, and so is what its call must give: nothing
comes from the port, and nothing from tools/models."""
import struct

MARK = 77
NO_COUNT = 2**64 - 1
TOP = 2**64 - 1


def words(numbers):
    return struct.pack(f"<{len(numbers)}Q", *numbers)


def entry(kind, width, length, reference, *ends):
    """An entry: sixteen bytes, and with a smallest and a largest value thirty-two."""
    return struct.pack("<BBHIQ", kind, width, 0, length, reference) + words(ends)


def column(edition, *blocks):
    """A file of blocks, each an entry and a body."""
    head = struct.pack("<HH", edition, len(blocks))
    return head + b"".join(e for e, _ in blocks) + b"".join(body for _, body in blocks)


NONE = bytes.fromhex("01000000")
SEVENS = bytes.fromhex("01000100 0100000000000000 0700000000000000")
NONE_2 = bytes.fromhex("02000000")
SEVENS_2 = bytes.fromhex("02000100 0100000000000000 0700000000000000 0700000000000000 0700000000000000")
SEVEN = (entry(1, 0, 0, 7), b"")
SEVEN_2 = (entry(1, 0, 0, 7, 7, 7), b"")
PLAIN_2 = (entry(0, 3, 384, 0, 7, 7), b"\xff" * 384)  # three ones in each of 64 rows: three words of ones to a lane
RUN_BODY = bytes(2048) + words([7])
RUNS = (entry(3, 0, 2056, 0), RUN_BODY)
BAD_RUNS = (entry(3, 0, 2056, 0), struct.pack("<H", 1) + RUN_BODY[2:])
RUNS_2 = (entry(3, 0, 2056, 0, 7, 7), RUN_BODY)
BLOCK = [7] * 1024


class FileCase:
    """A question to a call on files or a trickle, with what the rules say of it."""

    def __init__(self, op, name, a=b"", b=(), c=b"", left=None, number=0, place=0, value=0, **more):
        self.op, self.name, self.a, self.b, self.c = op, name, a, list(b), c
        self.left = c if left is None else left
        self.number, self.place, self.value = number, place, value
        self.width, self.index, self.reference = (more.get(key, 0) for key in ("width", "index", "reference"))

    def record(self):
        """The record of docs/CASES.md. Only a write takes numbers as a, and only a write and a rewrite bytes as c."""
        n_a = len(self.a) // (8 if self.op == 19 else 1)
        n_c = len(self.c) // (1 if self.op in (19, 21) else 8)
        head = (self.op, 64, self.width, self.number, self.place, self.value, self.reference, self.index, n_a, len(self.b), n_c, 0)
        return struct.pack("<BBHB3xQQQQ4I", *head) + self.a + words(self.b) + self.c + self.left

    def line(self):
        kept = "kept" if self.left == self.c else f"{len(self.left)} bytes"
        return f"{CALLS[self.op]} | {self.name} | number {self.number} place {self.place} value {self.value} | {kept}"


CALLS = {
    16: "check of a file",
    17: "block out",
    18: "row lookup",
    19: "write",
    20: "search",
    21: "rewrite",
    22: "canonical check",
    26: "trickle",
}


def check(name, file, number=0, place=0):
    return FileCase(16, name, file, number=number, place=place)


def block_out(name, file, block, left=None, number=0, length=1024):
    lent = words([MARK] * length)
    return FileCase(17, name, file, c=lent, left=left and words(left), index=block, number=number)


def row(name, file, p, value=0, count=NO_COUNT, number=0):
    return FileCase(18, name, file, index=p, value=value, reference=count, number=number)


def made(op, name, a, file, room, number=0):
    """A write or a rewrite: the file at the front of the output, whose other bytes stay."""
    lent = bytes([MARK]) * room
    left = lent if number else file + lent[len(file) :]
    return FileCase(op, name, a, c=lent, left=left, number=number, value=0 if number else len(file))


def search(name, file, low, high, rows=(), room=3, number=0, place=0):
    lent = [MARK] * room
    left = words([*rows, *lent[len(rows) :]])
    return FileCase(20, name, file, (low, high), words(lent), left, number, place, len(rows))


def canonical(name, file, number=0, place=0):
    return FileCase(22, name, file, number=number, place=place)


def trickle(name, width, fed, left=None, number=0, place=0, value=0, length=1024):
    lent = words([MARK] * length)
    return FileCase(26, name, fed, (len(fed),), lent, left and words(left), number, place, value, width=width)


def cases():
    yield check("R88: no blocks", NONE)
    yield check("R88: one block of sevens", SEVENS)
    yield block_out("R89: the block of sevens", SEVENS, 0, BLOCK)
    for p in (0, 3, 1023):
        yield row(f"R97: row {p} of the sevens", SEVENS, p, 7, 0)
    yield block_out("2: an output of 1,023", SEVENS, 0, number=2, length=1023)
    yield check("8: three bytes", NONE[:3], 8)
    yield check("8: the entries cut short", SEVENS[:19], 8)
    yield check("8: the bodies cut short", column(1, (entry(0, 1, 128, 0), bytes(127))), 8)
    yield check("9: edition 3", b"\3" + SEVENS[1:], 9)
    yield check("9: 257 blocks", bytes.fromhex("01000101"), 9)
    yield check("10: a third field that is not zero", column(1, SEVEN, (SEVENS[4:6] + b"\1" + SEVENS[7:], b"")), 10, 1)
    yield check("11: a byte left over", SEVENS + b"\0", 11)
    yield row("12: row 1,024 of one block", SEVENS, 1024, number=12)
    yield block_out("12: a block of no blocks", NONE, 0, number=12)
    yield check("R86: runs in edition 1", column(1, SEVEN, RUNS))
    yield check("13: a run index out of range", column(1, SEVEN, BAD_RUNS), 13, 1)
    yield made(19, "R88: 1,024 sevens", words(BLOCK), SEVENS_2, 40)
    yield made(19, "R104: no numbers", b"", NONE_2, 4)
    yield made(19, "2: 1,023 numbers", words(BLOCK[1:]), b"", 40, 2)
    yield made(19, "14: an output of 35 bytes", words(BLOCK), b"", 35, 14)
    yield check("R88: the sevens of edition 2", SEVENS_2)
    yield check("10: smallest above largest", column(2, (entry(1, 0, 0, 7, 8, 7), b"")), 10)
    yield check("15: another smallest value", column(2, SEVEN_2, (entry(1, 0, 0, 7, 6, 7), b"")), 15, 1)
    yield check("15: another largest value", column(2, (entry(1, 0, 0, 7, 7, 8), b"")), 15)
    three = [1024, 1025, 1026]
    steps = column(2, SEVEN_2, (entry(1, 64, 8192, 0, 0, 1023), in_rows(range(1024))))
    yield search("R107: both bounds included", steps, 0, 2, three, 4)
    yield search("14: room for one row less", steps, 0, 2, (), 2, 14)
    yield search("R108: no block is opened", SEVENS_2, 8, TOP)
    yield search("R108: low above high opens nothing", SEVENS_2, 7, 6)
    yield search("R110: a range that lies, not opened", column(2, (entry(1, 0, 0, 7, 6, 7), b"")), 8, 9)
    yield search("15: a range that lies, opened", column(2, (entry(1, 0, 0, 7, 6, 7), b"")), 6, 6, number=15)
    yield search("13: edition 1 opens every block", column(1, SEVEN, BAD_RUNS), 1, 0, number=13, place=1)
    yield made(21, "R112: the sevens of edition 1", SEVENS, SEVENS_2, 40)
    yield made(21, "R112: sevens as runs", column(1, RUNS), SEVENS_2, 36)
    yield made(21, "14: an output of 35 bytes", SEVENS, b"", 35, 14)
    yield check("10: kind 3 in edition 2", column(2, SEVEN_2, RUNS_2), 10, 1)
    yield canonical("R117: the sevens of edition 2", SEVENS_2)
    yield canonical("R117: no blocks", NONE_2)
    yield canonical("9: the sevens of edition 1", SEVENS, 9)
    yield canonical("17: sevens of kind 0", column(2, SEVEN_2, PLAIN_2), 17, 1)
    yield canonical("15 before 17", column(2, PLAIN_2, (entry(1, 0, 0, 7, 6, 7), b"")), 15, 1)
    yield trickle("1: width 65", 65, b"", number=1)
    yield trickle("R72: width 0 is ready at once", 0, b"", [0] * 1024)
    yield trickle("R71: ones at width 1", 1, b"\xff" * 130, [1] * 1024, value=128)
    yield trickle("16: 127 bytes of 128", 1, b"\xff" * 127, number=16, place=127, value=127)
    yield trickle("2: an output of 1,023", 1, b"\xff" * 128, number=2, value=128, length=1023)


def in_rows(values):
    """The body of width 64 of a block: word k of lane l is the value of row k, at place order[k / 8] · 16 + (k mod 8) · 128 + l."""
    order, at = (0, 4, 2, 6, 1, 5, 3, 7), list(values)
    return words([at[order[k // 8] * 16 + k % 8 * 128 + l] for k in range(64) for l in range(16)])
