"""A question for each call, made from what the call takes."""
from models import build, drawers, renumber, rewrite, search, trickle, writer
from .stream import BLOCK_OUT, CANONICAL, CHECK, RENUMBER, REWRITE, ROW_LOOKUP, SEARCH, STARTED, TRICKLE
from .stream import TRICKLE_FROM, UNPACK_BLOCKS, WRITE, Question


def ask_check(name, data):
    return Question(CHECK, name, data)


def ask_block(dice, name, data, block=0, room=1024):
    return Question(BLOCK_OUT, f"{name}, block {block} into {room}", data, c=dice.bytes(8 * room), index=block)


def ask_row(name, data, row=0):
    return Question(ROW_LOOKUP, f"{name}, row {row}", data, index=row)


def ask_all(dice, name, data, block=0, row=0):
    """The three calls of the reader for one file."""
    yield ask_check(name, data)
    yield ask_block(dice, name, data, block)
    yield ask_row(name, data, row)


def ask_write(dice, name, values, room):
    """A write into an output of that many bytes. What they hold before is thrown, so that each of them is a mark."""
    return Question(WRITE, f"{name}, count {len(values)} into {room} bytes", build.words(values), c=dice.bytes(room))


def ask_to_fit(dice, name, values, more=0):
    """A write into an output that is as long as the file, or longer by that much, or shorter where it is below 0."""
    return ask_write(dice, name, values, len(writer.file_of(values)) + more)


def ask_search(dice, name, data, low, high, room):
    """A search with room for so many rows. What the room holds before is thrown, so that each place is a mark."""
    said = f"{name}, {low} to {high}, room for {room}"
    return Question(SEARCH, said, data, build.words((low, high)), dice.bytes(8 * room))


def ask_found(dice, name, data, low, high, more=1):
    """A search with room for the rows that are found and so many more, or fewer where that is below 0. Where the search
    is refused for another reason, there is room for a few."""
    _, rows = search.search(data, low, high, 2**18)
    return ask_search(dice, name, data, low, high, max((len(rows) if rows is not None else 3) + more, 0))


def ask_rewrite(dice, name, data, room):
    """A rewrite into an output of that many bytes, which are thrown."""
    return Question(REWRITE, f"{name}, {len(data)} bytes into {room}", data, c=dice.bytes(room))


def ask_rewritten(dice, name, data, more=0):
    """A rewrite into an output that is as long as the new file, or longer by that much, or shorter where it is below 0.
    Where the file is refused, the output is as long as the file."""
    _, new = rewrite.rewrite(data, 2**23)
    return ask_rewrite(dice, name, data, max(len(data if new is None else new) + more, 0))


def ask_canonical(name, data):
    return Question(CANONICAL, name, data)


def ask_renumber(dice, name, data, lists, room):
    """A renumbering into an output of that many bytes, which are thrown."""
    old, new, order = lists
    said = f"{name}, {len(old)} old, {len(new)} new, {len(order)} places, {len(data)} bytes into {room}"
    numbers = build.words([*old, *new, *order])
    return Question(RENUMBER, said, data, numbers, dice.bytes(room), index=len(new), reference=len(old))


def ask_renumbered(dice, name, data, lists, more=0):
    """A renumbering into an output that is as long as the new file, or longer by that much, or shorter where it is below
    0. Where it is refused, the output is as long as the file."""
    _, given = renumber.renumber(data, lists, 2**23)
    return ask_renumber(dice, name, data, lists, max(len(data if given is None else given.file) + more, 0))


def ask_drawer(dice, op, name, t, width, blocks, given, room, reference=0):
    """A call on a drawer: given is the bytes that it takes, and room the elements of its output, which are thrown."""
    framed = "" if op == UNPACK_BLOCKS else f", reference {reference}"
    said = f"{name}, T {t} width {width} M {blocks}{framed}, {len(given) * 8 // t} into {room}"
    return Question(op, said, given, c=dice.bytes(room * t // 8), index=blocks, t=t, width=width, reference=reference)


def ask_thrown(dice, op, name, t, width, blocks, values, packed):
    """A call on a drawer with buffers of so many values and packed words. What they hold is thrown, and so is the
    reference; so for_pack has values that do not fit the width."""
    taken, room = (packed, values) if op == UNPACK_BLOCKS else (values, packed)
    reference = 0 if op == UNPACK_BLOCKS else dice.below(2**t)
    return ask_drawer(dice, op, name, t, width, blocks, dice.bytes(taken * t // 8), room, reference)


def ask_fitting(dice, op, name, t, width, blocks):
    """The same, with buffers as long as the call asks for."""
    return ask_thrown(dice, op, name, t, width, blocks, *drawers.lengths(t, width, blocks))


def chunk_words(lengths):
    """The lengths of chunks for a name: all where they are few, else the first ones and how many there are."""
    shown = " ".join(map(str, lengths[:6]))
    return f"chunks {shown or 'none'}" if len(lengths) <= 6 else f"{len(lengths)} chunks {shown} ..."


def ask_trickle(dice, name, width, lengths, room=1024):
    """A body that trickles in, in chunks of these lengths. Its bytes are thrown, and so is what the output holds."""
    said = f"{name}, width {width}, {chunk_words(lengths)}, into {room}"
    fed = dice.bytes(sum(lengths))
    return Question(TRICKLE, said, fed, build.words(lengths), dice.bytes(8 * room), width=width)


def ask_trickle_from(dice, name, width, held, lengths, room=1024):
    """The same from a state made by hand, with so many bytes held. The whole of its room is thrown, so that what stands
    behind the bytes held is no zeros."""
    said = f"{name}, width {width}, {held} held, {chunk_words(lengths)}, into {room}"
    given = dice.bytes(trickle.ROOM + sum(lengths))
    return Question(TRICKLE_FROM, said, given, build.words(lengths), dice.bytes(8 * room), index=held, width=width)


def ask_trickle_started(dice, name, width, lengths, room=1024):
    """The same from the state that the start gave, refused or not."""
    question = ask_trickle(dice, f"{name}, a state from the start", width, lengths, room)
    return question._replace(op=TRICKLE_FROM, reference=STARTED)
