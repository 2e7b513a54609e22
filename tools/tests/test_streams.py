"""Holds the case stream to docs/CASES.md: records byte for byte, and that a replay finds every wrong expectation."""
import io
import struct

from cases.ask import ask_row
from cases.spoiled import spoiled
from cases.stream import FOR_PACK_BLOCKS, RENUMBER, REWRITE, ROW_LOOKUP, SEARCH, TRICKLE_FROM, WRITE, Outcome, Question
from cases.stream import answered, cases, record, replay
from cases.sweeps.reads import SEVENS, SEVENS_2
from models import build
from models.build import column_file
from .common import Checked, questions_of, sample, unless


def streams(questions):
    """A stream is read as it was written, and a replay finds every wrong expectation and no other."""
    whole = b"".join(record(question, answered(question)) for question in questions)
    back = list(cases(io.BytesIO(whole)))
    same = [(q._replace(name=""), answered(q)) for q in questions] == back
    yield from unless(same, "a stream is not read as it was written")
    said = replay(io.BytesIO(whole))
    yield from unless(said == [f"cases {len(back)}", "differ 0"], f"the sample's replay says {said}")
    wrong = [record(*case) for case in spoiled(questions)]
    said = replay(io.BytesIO(b"".join(wrong)))
    all_differ = [f"cases {len(wrong)}", f"differ {len(wrong)}"]
    yield from unless(said[:2] == all_differ, f"the replay of spoiled cases says {said}")
    said = replay(io.BytesIO(whole[:-1]))
    yield from unless(said == [f"bad stream at {len(back) - 1}"], f"the replay of a cut stream says {said}")
    head = struct.pack("<BBHB3xQQQQ4I", ROW_LOOKUP, 64, 0, 0, 0, 7, 0, 1023, len(SEVENS), 0, 0, 0)
    question = ask_row("the sevens", SEVENS, 1023)
    yield from unless(record(question, Outcome(0, 0, b"", 7)) == head + SEVENS, "a record has another form")
    head = struct.pack("<BBHB3xQQQQ4I", ROW_LOOKUP, 64, 0, 12, 0, 0, 2**64 - 1, 1024, len(SEVENS), 0, 0, 0)
    question = ask_row("the sevens", SEVENS, 1024)
    same = record(question, answered(question)) == head + SEVENS
    yield from unless(same, "a record of a refused row lookup has another form")
    head = struct.pack("<BBHB3xQQQQ4I", WRITE, 64, 0, 0, 0, 36, 0, 0, 1024, 0, 39, 0)
    numbers, before, after = struct.pack("<1024Q", *[7] * 1024), b"\xa5" * 39, SEVENS_2.ljust(39, b"\xa5")
    question = Question(WRITE, "the sevens", numbers, c=before)
    same = record(question, answered(question)) == head + numbers + before + after
    yield from unless(same, "a record of a write has another form")
    # 263 words of two blocks at T 16 width 5, so that it is refused with 2; the reference is given.
    head = struct.pack("<BBHB3xQQQQ4I", FOR_PACK_BLOCKS, 16, 5, 2, 0, 0, 40000, 2, 263, 0, 3, 0)
    taken, before = bytes(range(256)) * 2 + b"abcdefghijklmn", b"\xa5" * 6
    question = Question(FOR_PACK_BLOCKS, "a drawer", taken, c=before, index=2, t=16, width=5, reference=40000)
    same = record(question, answered(question)) == head + taken + before + before
    yield from unless(same, "a record of a drawer has another form")
    # Of two blocks of sevens the second is to be listed, and it is not, since its entry says 8.
    head = struct.pack("<BBHB3xQQQQ4I", SEARCH, 64, 0, 15, 1, 0, 0, 0, 68, 2, 3, 0)
    blocks = [build.frame(0, b"", 7), build.frame(0, b"", 7).but(largest=8)]
    data, bounds = column_file(blocks, 2), struct.pack("<2Q", 8, 9)
    question = Question(SEARCH, "a search", data, bounds, b"\xa5" * 24)
    same = record(question, answered(question)) == head + data + bounds + b"\xa5" * 48
    yield from unless(same, "a record of a search has another form")
    # Sevens of edition 1 become sevens of edition 2, and two bytes of the output are left.
    head = struct.pack("<BBHB3xQQQQ4I", REWRITE, 64, 0, 0, 0, 36, 0, 0, 20, 0, 38, 0)
    question = Question(REWRITE, "a rewrite", SEVENS, c=b"\xa5" * 38)
    same = record(question, answered(question)) == head + SEVENS + b"\xa5" * 38 + SEVENS_2 + b"\xa5" * 2
    yield from unless(same, "a record of a rewrite has another form")
    # Sevens become eights; 3 becomes 2, and no row has it. The counts of old and new numbers are given, the rest is order.
    head = struct.pack("<BBHB3xQQQQ4I", RENUMBER, 64, 0, 0, 0, 36 * 2**32 + 1024, 2, 2, 20, 6, 38, 0)
    numbers, eights = struct.pack("<6Q", 3, 7, 2, 8, 0, 1), SEVENS_2[:12] + struct.pack("<3Q", 8, 8, 8)
    question = Question(RENUMBER, "a renumbering", SEVENS, numbers, b"\xa5" * 38, 2, reference=2)
    same = record(question, answered(question)) == head + SEVENS + numbers + b"\xa5" * 38 + eights + b"\xa5" * 2
    yield from unless(same, "a record of a renumbering has another form")
    for other in ({"reference": 5}, {"index": 5}, {"reference": 2**64 - 1}, {"index": 2**64 - 1}):
        wrong = record(question._replace(**other), Outcome(0, 0, question.c))
        said = replay(io.BytesIO(wrong))
        yield from unless(said == ["bad stream at 0"], f"the replay of a renumbering that cannot be says {said}")
    # A state made by hand of width 2 with 250 bytes held takes 6 of 9 bytes, and the output is too short.
    head = struct.pack("<BBHB3xQQQQ4I", TRICKLE_FROM, 64, 2, 2, 0, 6, 0, 250, 8201, 3, 1, 0)
    taken, lengths = bytes(8192) + b"abcdefghi", struct.pack("<3Q", 4, 0, 5)
    question = Question(TRICKLE_FROM, "a state", taken, lengths, b"\xa5" * 8, 250, width=2)
    same = record(question, answered(question)) == head + taken + lengths + b"\xa5" * 16
    yield from unless(same, "a record of a trickle has another form")
    for other in ({"b": lengths[:16]}, {"a": taken[:8191], "b": b""}, {"reference": 2}):
        wrong = record(question._replace(**other), Outcome(0, 0, question.c))
        said = replay(io.BytesIO(wrong))
        yield from unless(said == ["bad stream at 0"], f"the replay of a trickle that cannot be says {said}")


def size_of_sample(asked):
    """The sample is below 2^20 bytes."""
    size = sum(len(record(question, outcome)) for question, outcome in asked)
    yield from unless(size < 2**20, f"the sample has {size} bytes, and is to be below 2^20")


class Streams(Checked):
    def test_streams(self):
        self.nothing(streams(questions_of(sample())))

    def test_size_of_sample(self):
        self.nothing(size_of_sample(sample()))
