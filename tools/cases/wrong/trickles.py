"""Trickles that are wrong on purpose, each in one thing.

The sweep has to tell each of them from the right one, so that it finds out a program that is wrong in the same way. The
sample, where a block takes much room, has to tell those that it has the cases for.
"""
import struct

from cases.stream import BY_HAND, TRICKLE_FROM, answered, fed_in
from models import layout, trickle
from models.files import words_of
from models.trickle import OF_WIDTH_0, ROOM, State, body_size, lacking
from .instead import instead

# First those with another function in the place of one of the model's.

right_start, right_feed, right_ask, right_handed = trickle.start, trickle.feed, trickle.ask, trickle.handed_in


def taking(count):
    """A feed that says it took so many bytes of the chunk; count is given the state and the chunk. What is past the
    body is not kept."""

    def feed(state, chunk):
        taken = count(state, chunk)
        return taken, State(state.width, (state.held + chunk[:taken])[: body_size(state.width)])

    return feed


def holding(held):
    """A feed that takes the right number of bytes and then holds others; held is given the state and these bytes."""

    def feed(state, chunk):
        taken, _ = right_feed(state, chunk)
        return taken, State(state.width, held(state, chunk[:taken]))

    return feed


def all_or_nothing(state, chunk):
    return len(chunk) if len(chunk) <= lacking(state) else 0


def whole_words(state, chunk):
    return min(len(chunk), lacking(state)) // 8 * 8


def filled_up(state, taken):
    """The chunk is filled up to whole words."""
    return (state.held + taken + bytes(-len(taken) % 8))[: body_size(state.width)]


def begun_anew(state, chunk):
    """A full body is thrown away when more comes."""
    return right_feed(State(state.width, b"") if chunk and not lacking(state) else state, chunk)


def none_at_once(state, chunk):
    """A chunk that makes the body full is taken but for its last byte."""
    return min(len(chunk), max(lacking(state) - 1, 0))


def emptied_by_none(state, chunk):
    return right_feed(state, chunk) if chunk else (0, State(state.width, b""))


def early_by(bytes_short):
    """A question that is answered though so many bytes are lacking, with zeros for them."""

    def ask(state, room):
        if 0 < lacking(state) <= bytes_short:
            state = State(state.width, state.held + bytes(lacking(state)))
        return right_ask(state, room)

    return ask


def never_full(state, room):
    """A body counts as whole only when something follows it, which there never is; so it is asked for too early."""
    answer, values = right_ask(state, room)
    return (answer, values) if answer.number else (answer._replace(number=16, place=len(state.held)), None)


def early_first(state, room):
    answer, _ = right_ask(state, 1024)
    return right_ask(state, 1024 if answer.number == 16 else room)


def with_place(place):
    def ask(state, room):
        answer, values = right_ask(state, room)
        return (answer._replace(place=place(state)) if answer.number == 16 else answer), values

    return ask


def with_values(values):
    """A question that gives other values; they are made from the body and its width."""

    def ask(state, room):
        answer, right = right_ask(state, room)
        return answer, right if answer.number else values(state.width, state.held)

    return ask


def turned_words(width, body):
    return layout.unpack(64, width, struct.unpack(f">{len(body) // 8}Q", body))


def one_after_another(width, body):
    """Values packed in place order, without lanes."""
    number = int.from_bytes(body, "little")
    return [number // 2 ** (width * p) % 2**width for p in range(1024)]


def refused_start(state):
    """A start that gives another state where it is refused; the state is made from the width."""

    def start(width):
        answer, right = right_start(width)
        return answer, state(width) if answer.number else right

    return start


def start_up_to(most):
    def start(width):
        if width > most:
            return right_start(65)
        return trickle.TAKEN, State(width, b"")

    return start


def handed(width_counts, held_counts):
    """A state made by hand that is taken for another one where its width, or the bytes held, are too many."""

    def handed_in(width, held, room):
        if width > 64:
            return width_counts(width, held, room)
        if held > body_size(width):
            return held_counts(width, held, room)
        return right_handed(width, held, room)

    return handed_in


def as_width_0(*_):
    return OF_WIDTH_0


def full_of(width, room):
    return State(width, room[: body_size(width)])


WRONG_PARTS = {
    "a chunk that is too long is not taken": {"feed": taking(all_or_nothing)},
    "a chunk is always taken whole": {"feed": taking(lambda state, chunk: len(chunk))},
    "one byte past the body is taken": {"feed": taking(lambda state, chunk: min(len(chunk), lacking(state) + 1))},
    "whole words alone are taken": {"feed": taking(whole_words)},
    "the body's last byte is not taken": {"feed": taking(none_at_once)},
    "128 bytes at a time": {"feed": taking(lambda state, chunk: min(len(chunk), lacking(state), 128))},
    "chunks are filled up to words": {"feed": holding(filled_up)},
    "each chunk stands in front": {"feed": holding(lambda state, taken: taken + state.held)},
    "each chunk is put over the one before": {
        "feed": holding(lambda state, taken: (taken + state.held)[: max(len(state.held), len(taken))])
    },
    "a full body begins anew": {"feed": begun_anew},
    "an empty chunk empties the state": {"feed": emptied_by_none},
    "one byte too early is answered": {"ask": early_by(1)},
    "a word too early is answered": {"ask": early_by(8)},
    "every question is answered": {"ask": early_by(ROOM)},
    "no question is answered": {"ask": never_full},
    "16 before 2": {"ask": early_first},
    "2 for shorter outputs alone": {"ask": lambda state, room: right_ask(state, min(room, 1024))},
    "2 for longer outputs alone": {"ask": lambda state, room: right_ask(state, max(room, 1024))},
    "no 2": {"ask": lambda state, room: right_ask(state, 1024)},
    "16 at place 0": {"ask": with_place(lambda state: 0)},
    "16 with the bytes that lack": {"ask": with_place(lacking)},
    "16 with the bytes of the body": {"ask": with_place(lambda state: body_size(state.width))},
    "16 with the words held": {"ask": with_place(lambda state: len(state.held) // 8)},
    "words with the highest byte first": {"ask": with_values(turned_words)},
    "values one after another": {"ask": with_values(one_after_another)},
    "width 65 is taken": {"start": start_up_to(65)},
    "width 64 is refused": {"start": start_up_to(63)},
    "any width is taken": {"start": start_up_to(2**16)},
    "the width in 8 bits": {"start": lambda width: right_start(width % 2**8)},
    "a refused start keeps its width": {"start": refused_start(lambda width: State(width, b""))},
    "a refused start gives width 64": {"start": refused_start(lambda width: State(64, b""))},
    "a state too wide keeps its width": {
        "handed_in": handed(lambda width, held, room: State(width, room[:held]), as_width_0)
    },
    "a state too wide has width 64": {
        "handed_in": handed(lambda width, held, room: right_handed(64, held, room), as_width_0)
    },
    "a state's width in 8 bits": {"handed_in": lambda width, held, room: right_handed(width % 2**8, held, room)},
    "a state too full is full": {"handed_in": handed(as_width_0, lambda width, _, room: full_of(width, room))},
    "a state too full is empty": {"handed_in": handed(as_width_0, lambda width, *_: State(width, b""))},
    "a state is too full where its room is": {
        "handed_in": handed(as_width_0, lambda w, held, room: full_of(w, room) if held <= ROOM else OF_WIDTH_0)
    },
    "bytes held in 16 bits": {"handed_in": lambda width, held, room: right_handed(width, held % 2**16, room)},
    "bytes held in 32 bits": {"handed_in": lambda width, held, room: right_handed(width, held % 2**32, room)},
    "bytes held in 63 bits": {"handed_in": lambda width, held, room: right_handed(width, held % 2**63, room)},
    "a full state counts as too full": {
        "handed_in": lambda w, held, room: OF_WIDTH_0 if held >= body_size(w) else right_handed(w, held, room)
    },
    "a state of width 64 counts as too wide": {
        "handed_in": lambda w, held, room: OF_WIDTH_0 if w >= 64 else right_handed(w, held, room)
    },
    "what stands behind the bytes held counts": {
        "handed_in": lambda w, held, room: full_of(w, room) if right_handed(w, held, room).width else OF_WIDTH_0
    },
    "the bytes held are forgotten": {
        "handed_in": lambda w, held, room: State(right_handed(w, held, room).width, b"")
    },
}


# Then those that are right about the state and wrong about the call.


def value_where_done(q):
    return answered(q)._replace(value=0) if answered(q).number else answered(q)


def value_of(words):
    """The value is another one, where the start is not refused."""
    return lambda q: answered(q) if answered(q).number == 1 else answered(q)._replace(value=words(q) % 2**64)


def last_taken(q):
    """The bytes that the last chunk gave."""
    lengths = words_of(q.b)
    before = q.a[: len(q.a) - lengths[-1]] if lengths else q.a
    return answered(q).value - answered(q._replace(a=before, b=q.b[:-8])).value


def held_and_taken(q):
    state = trickle.handed_in(q.width, q.index, q.a[:ROOM])
    by_hand = q.op == TRICKLE_FROM and q.reference == BY_HAND
    return answered(q).value + (len(state.held) if by_hand else 0)


def goes_on(q):
    """A refused start is fed and asked all the same."""
    outcome = answered(q)
    if outcome.number != 1:
        return outcome
    return answered(q._replace(width=0))


def goes_on_then_refused(q):
    """A refused start is fed for the width in 8 bits, and the number is that of the start."""
    outcome = answered(q)
    return outcome if outcome.number != 1 else outcome._replace(value=answered(q._replace(width=64)).value)


def cleared(q):
    return answered(q)._replace(c=bytes(len(q.c))) if answered(q).number else answered(q)


def kept_at_width_0(q):
    """At width 0 nothing is written, since there is nothing to unpack."""
    outcome = answered(q)
    return outcome if outcome.number or any(outcome.c) else outcome._replace(c=q.c)


WRONG_CALLS = {
    "no value where it is refused": value_where_done,
    "the value of the last chunk alone": value_of(last_taken),
    "the bytes fed as the value": value_of(lambda q: len(fed_in(q))),
    "the bytes held at first in the value": value_of(held_and_taken),
    "the chunks as the value": value_of(lambda q: len(q.b) // 8),
    "a refused start goes on": goes_on,
    "a refused start takes bytes": goes_on_then_refused,
    "the output is cleared where it is refused": cleared,
    "nothing is written at width 0": kept_at_width_0,
}

# These need blocks that the sample has no room for.
NOT_IN_SAMPLE = {
    "2 for shorter outputs alone",
    "a full state counts as too full",
    "a state of width 64 counts as too wide",
}


def not_told(asked, parts, calls):
    """Those of these trickles that give what the right one gives in every case. The cases with few chunks come first,
    since they are answered soon."""
    asked = sorted(asked, key=lambda case: len(case[0].b))
    for name, functions in parts.items():
        with instead(trickle, functions):
            told = any(answered(question) != outcome for question, outcome in asked)
        if not told:
            yield name
    for name, call in calls.items():
        if all(call(question) == outcome for question, outcome in asked):
            yield name
