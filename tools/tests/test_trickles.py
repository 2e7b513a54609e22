"""Holds the model of trickles, and their cases, to what R70 to R75 say.

First come trickles that are worked out by hand. Then bodies are cut in many ways, which makes no difference, and asked
for at every byte. Then the cases are looked at, and last come the trickles of wrong/trickles.py.
"""
from cases import sweeps, wrong
from cases.dice import Dice
from cases.stream import BY_HAND, STARTED, TRICKLE, TRICKLE_FROM, TRICKLES, Question, answered, fed_in, trickle_fault
from models import build, layout, trickle
from models.files import words_of
from .common import Checked, all_three, of_calls, questions_of, sample, swept, unless

NUMBERS = {TRICKLE: {0, 1, 2, 16}, TRICKLE_FROM: {0, 2, 16}}  # that each call can give
MARKS = b"\xa5" * 8192
ZEROS = bytes(8192)


def called(op, width, given, lengths, held=0, room=1024, reference=0):
    """What a call gives, with an output that holds marks."""
    marks = b"\xa5" * (8 * room)
    return answered(Question(op, "", given, build.words(lengths), marks, held, width=width, reference=reference))


# By hand.

ONES_IN_LANE_1 = b"".join(((2**64 - 1) * (lane == 1)).to_bytes(8, "little") for lane in range(16))  # at width 1
LANE_1 = b"".join((place % 16 == 1).to_bytes(8, "little") for place in range(1024))


def worked_trickles():
    """Width, bytes, chunks, output, and then number, place, value and output at exit."""
    body = ONES_IN_LANE_1
    for width, fed, lengths, room, expected in (
        (0, b"", [], 1024, (0, 0, 0, ZEROS)),
        (0, b"abc", [0, 2, 1], 1024, (0, 0, 0, ZEROS)),
        (0, b"", [], 1023, (2, 0, 0, MARKS[:8184])),
        (1, body, [128], 1024, (0, 0, 128, LANE_1)),
        (1, body, [1] * 128, 1024, (0, 0, 128, LANE_1)),
        (1, body, [0, 7, 0, 8, 9, 104, 0], 1024, (0, 0, 128, LANE_1)),
        (1, body + b"more", [132], 1024, (0, 0, 128, LANE_1)),
        (1, body + b"more", [100, 30, 2], 1024, (0, 0, 128, LANE_1)),
        (1, body[:127], [127], 1024, (16, 127, 127, MARKS)),
        (1, body[:127], [60, 67], 1024, (16, 127, 127, MARKS)),
        (1, b"", [], 1024, (16, 0, 0, MARKS)),
        (1, b"", [0, 0], 1024, (16, 0, 0, MARKS)),
        (1, body[:1], [1], 1024, (16, 1, 1, MARKS)),
        (1, body[:1], [1], 0, (2, 0, 1, b"")),
        (1, body + b"more", [132], 3, (2, 0, 128, MARKS[:24])),
        (64, MARKS[:8191], [8191], 1024, (16, 8191, 8191, MARKS)),
        (64, MARKS + b"x", [8193], 1024, (0, 0, 8192, MARKS)),
        (65, b"abc", [3], 1024, (1, 0, 0, MARKS)),
        (65, b"", [], 7, (1, 0, 0, MARKS[:56])),
        (256, b"", [], 1024, (1, 0, 0, MARKS)),
        (65535, b"abc", [3], 0, (1, 0, 0, b"")),
    ):
        outcome = called(TRICKLE, width, fed, lengths, room=room)
        found = outcome.number, outcome.place, outcome.value, outcome.c
        said = f"width {width}, {len(fed)} bytes, {len(lengths)} chunks into {room}: the model gives {found[:3]}"
        yield from unless(found == expected and outcome.reference == 0, said)


def worked_states():
    """Width, bytes held, room, where the state comes from, bytes fed, and then as above. The room is the body and then
    marks, so a byte too many shows."""
    body = ONES_IN_LANE_1
    room = body + MARKS[128:]
    for width, held, reference, given, lengths, expected in (
        (0, 0, BY_HAND, room, [], (0, 0, 0, ZEROS)),
        (0, 1, BY_HAND, room + b"ab", [2], (0, 0, 0, ZEROS)),
        (1, 128, BY_HAND, room, [], (0, 0, 0, LANE_1)),
        (1, 128, BY_HAND, room + b"ab", [2], (0, 0, 0, LANE_1)),
        (1, 127, BY_HAND, room, [], (16, 127, 0, MARKS)),
        (1, 127, BY_HAND, room + b"\0ab", [0, 3], (0, 0, 1, LANE_1)),
        (1, 0, BY_HAND, MARKS + body, [60, 68], (0, 0, 128, LANE_1)),
        (1, 0, BY_HAND, room, [], (16, 0, 0, MARKS)),
        (1, 129, BY_HAND, room + b"ab", [1, 1], (0, 0, 0, ZEROS)),
        (1, 2**63, BY_HAND, room + b"ab", [2], (0, 0, 0, ZEROS)),
        (2, 128, BY_HAND, room + b"ab", [2], (16, 130, 2, MARKS)),
        (64, 8192, BY_HAND, MARKS, [], (0, 0, 0, MARKS)),
        (64, 8193, BY_HAND, MARKS, [], (0, 0, 0, ZEROS)),
        (65, 0, BY_HAND, room + b"ab", [2], (0, 0, 0, ZEROS)),
        (65, 8192, BY_HAND, MARKS, [], (0, 0, 0, ZEROS)),
        (65535, 5, BY_HAND, room + b"ab", [2], (0, 0, 0, ZEROS)),
        (1, 0, STARTED, body, [128], (0, 0, 128, LANE_1)),
        (1, 0, STARTED, body[:9], [9], (16, 9, 9, MARKS)),
        (65, 0, STARTED, body, [100, 28], (0, 0, 0, ZEROS)),
        (65535, 0, STARTED, b"", [], (0, 0, 0, ZEROS)),
    ):
        outcome = called(TRICKLE_FROM, width, given, lengths, held, reference=reference)
        found = outcome.number, outcome.place, outcome.value, outcome.c
        said = f"a state of width {width} with {held} held, from {reference}: the model gives {found[:3]}"
        yield from unless(found == expected and outcome.reference == 0, said)


# What holds of every body.


def cuts_make_no_difference():
    """Bodies in one chunk, and in chunks that are thrown, empty ones among them: the same state. It gives what unpack
    gives."""
    dice = Dice("cuts")
    for width in range(65):
        body = dice.bytes(128 * width)
        whole = trickle.feed(trickle.start(width)[1], body)[1]
        thrown, at = trickle.start(width)[1], 0
        while at < len(body):
            taken, thrown = trickle.feed(thrown, body[at : at + dice.below(300)])
            at += taken
        yield from unless(whole == thrown, f"width {width}: the cuts make a difference")
        answer, values = trickle.ask(whole, 1024)
        right = layout.unpack(64, width, words_of(body))
        yield from unless((answer.number, values) == (0, right), f"width {width}: the values are not those of unpack")


def asked_at_every_byte():
    """A body of width 1 and one of width 2, asked for after each byte, and fed on: the question changes nothing."""
    for width in (1, 2):
        size = 128 * width
        body, state = bytes(range(128)) * width, trickle.start(width)[1]
        for held in range(size + 3):
            answer, values = trickle.ask(state, 1024)
            wanted = (16, held) if held < size else (0, 0)
            yield from unless(answer[:2] == wanted, f"width {width}, {held} bytes fed: the model gives {answer}")
            yield from unless((values is None) == (held < size), f"width {width}, {held} bytes: the values are wrong")
            taken, state = trickle.feed(state, (body + b"xyz")[held : held + 1])
            yield from unless(taken == (held < size), f"width {width}, {held} bytes fed: one more takes {taken}")


# The cases.


def order_of_reasons(swept):
    """Of several reasons the one with the lowest number answers, and the sweep asks for every set of them."""
    asked = set(swept)
    for op in sweeps.trickles.REASONS:
        for reasons in sweeps.trickles.sets_of_reasons(op):
            for room in (0, 1023, 1025) if 2 in reasons else (1024,):
                question = sweeps.trickles.faulty_trickle(op, reasons, room)
                held = 90 if op == TRICKLE else 190
                wanted = min(reasons, default=0), held if reasons == (16,) else 0
                got = answered(question)[:2]
                yield from unless(got == wanted, f"call {op}: {question.name}: the model gives {got}")
                yield from unless(question in asked, f"call {op}: {question.name}: the sweep does not ask this")


def numbers_reached(name, asked):
    """Every number that a call can give. In the sample call 26 alone gives 16."""
    for op, numbers in NUMBERS.items():
        numbers = numbers - {16} if (name, op) == ("sample", TRICKLE_FROM) else numbers
        found = {outcome.number for question, outcome in asked if question.op == op}
        yield from unless(found == numbers, f"{name}: call {op} gives the numbers {sorted(found)}")


def as_a_stream_has_it(name, asked):
    """Every case is one that there can be, changes its output where it is done, and keeps it where it is refused."""
    for question, outcome in asked:
        yield from unless(not trickle_fault(question), f"{name}, {question.name}: {trickle_fault(question)}")
        same = outcome.c == question.c
        yield from unless(same == (outcome.number != 0), f"{name}, {question.name}: the output is not as it should be")
        most = 128 * question.width if question.width <= 64 else 0
        yield from unless(outcome.value <= most, f"{name}, {question.name}: {outcome.value} bytes are taken")


def how_cut(question):
    """The sorts of chunks that a trickle has, in words."""
    lengths, size = words_of(question.b), 128 * question.width
    ends = {sum(lengths[: i + 1]) for i in range(len(lengths))}
    words = {
        "none": not lengths,
        "an empty one first": lengths[:1] == (0,),
        "an empty one last": lengths[-1:] == (0,),
        "two empty ones": any(pair == (0, 0) for pair in zip(lengths, lengths[1:])),
        "all of one byte": len(lengths) > 100 and set(lengths) == {1},
        "all in one": lengths == (size,),
        "the last too long": ends and max(ends) > size and size not in ends,
        "several after full": sum(1 for end in ends if end > size) > 1,
        "just full": bool(size) and max(ends, default=0) == size,
    }
    return {word for word, so in words.items() if so} | {f"of {n}" for n in (7, 8, 9) if n in lengths}


CUTS = {"none", "an empty one first", "an empty one last", "two empty ones", "all of one byte", "all in one"}
CUTS |= {"the last too long", "several after full", "just full", "of 7", "of 8", "of 9"}


def cuts_reached(asked):
    """Blocks that are given after chunks of every sort, at each of the few widths where there can be such."""
    for width in sweeps.trickles.FEW_WIDTHS:
        given = [q for q, outcome in asked if not outcome.number and q.op == TRICKLE and q.width == width]
        found = set().union(*(how_cut(q) for q in given))
        missing = CUTS - found - ({"none", "all of one byte"} if width else {"just full", "all of one byte"})
        missing -= {"of 7", "of 8", "of 9"} if not width else set()
        yield from unless(not missing, f"the sweep has no block of width {width} with chunks {sorted(missing)}")
    found = {q.width for q, outcome in asked if not outcome.number and "all of one byte" in how_cut(q)}
    yield from unless({1, 17, 64} <= found, f"the sweep has one byte at a time only at the widths {sorted(found)}")


def states_reached(asked):
    """Questions too early at their edges, and states made by hand at theirs, for each width."""
    early, held = {}, {}
    for question, outcome in asked:
        if question.op == TRICKLE and outcome.number == 16:
            early.setdefault(question.width, set()).add(outcome.place)
        if question.op == TRICKLE_FROM and question.reference == BY_HAND:
            held.setdefault(question.width, set()).add(question.index)
    for width in (1, 17, 63, 64):
        wanted = {0, 1, 128 * width - 1}
        yield from unless(wanted <= early.get(width, set()), f"width {width} is not asked for early at {wanted}")
    for width in sweeps.trickles.FEW_WIDTHS:
        wanted = {0, 128 * width // 2, 128 * width, 128 * width + 1, 2**63}
        yield from unless(wanted <= held.get(width, set()), f"no states of width {width} have {wanted} held")
    wide = {65, 2**16 - 1}
    yield from unless(wide <= set(held), f"no states are as wide as {sorted(wide - set(held))}")
    started = {q.width for q, outcome in asked if q.reference == STARTED and not outcome.number}
    yield from unless(wide <= started, f"no refused start is asked for {sorted(wide - started)}")
    behind = [q for q, outcome in asked if q.reference == BY_HAND and q.op == TRICKLE_FROM and not outcome.number]
    missing = [q.name for q in behind if not any(q.a[min(q.index, 8000) : 8192]) and q.index < 8192]
    yield from unless(not missing, f"zeros stand behind what is held in {missing}")
    fed = {len(fed_in(q)) for q in behind}
    yield from unless({0, 5} <= fed, f"states made by hand are fed only {sorted(fed)} bytes")


def wrong_ones_told(swept, sample):
    """The sample finds out the wrong trickles that it has cases for, the sweep the others, and neither the right
    one."""
    parts, calls = wrong.trickles.WRONG_PARTS, wrong.trickles.WRONG_CALLS
    found = set(wrong.trickles.not_told(sample, parts, calls))
    others = found ^ wrong.trickles.NOT_IN_SAMPLE
    yield from unless(not others, f"the sample finds out other wrong trickles than is said: {sorted(others)}")
    rest = {name: parts[name] for name in wrong.trickles.NOT_IN_SAMPLE}
    for name in wrong.trickles.not_told(swept, rest, {}):
        yield f"the sweep does not find out a wrong trickle: {name}"
    right = list(wrong.trickles.not_told(sample, {"no part": {}}, {"no call": answered}))
    yield from unless(right == ["no part", "no call"], "the sample finds out the right trickle")


class Trickles(Checked):
    def test_worked_trickles(self):
        self.nothing(worked_trickles())

    def test_worked_states(self):
        self.nothing(worked_states())

    def test_cuts_make_no_difference(self):
        self.nothing(cuts_make_no_difference())

    def test_asked_at_every_byte(self):
        self.nothing(asked_at_every_byte())

    def test_order_of_reasons(self):
        self.nothing(order_of_reasons(questions_of(of_calls(swept(), TRICKLES))))

    def test_cases(self):
        for name, asked in all_three(TRICKLES):
            with self.subTest(name):
                self.nothing(as_a_stream_has_it(name, asked))
                self.nothing(numbers_reached(name, asked))

    def test_what_is_reached(self):
        self.nothing(cuts_reached(of_calls(swept(), TRICKLES)))
        self.nothing(states_reached(of_calls(swept(), TRICKLES)))

    def test_wrong_ones(self):
        self.nothing(wrong_ones_told(of_calls(swept(), TRICKLES), of_calls(sample(), TRICKLES)))
