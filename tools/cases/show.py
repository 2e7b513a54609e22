"""Shows a column file to a person: its contents as far as they are there, and the answer with what is wrong.

Of a write it shows the three candidates of each block, and the file that the model writes. Of a drawer it shows the
blocks that the model gives, of a trickle what every chunk adds, of a search the blocks that it opens, of a rewrite the
old file, the candidates and the new file, of a canonical check the file and the candidates, and of a renumbering the old
file, the first pairs and the new file.
"""
from models import canonical, drawers, files, renumber, rewrite, search, trickle, writer
from .stream import BY_HAND, CANONICAL, DRAWERS, FOR_PACK_BLOCKS, NO_COUNT, RENUMBER, REWRITE, ROW_LOOKUP, SEARCH
from .stream import TRICKLE, TRICKLES, TRICKLE_FROM, UNPACK_BLOCKS, WRITE, fed_in, lists_in


def plural(n, word):
    return f"{n} {word}" if n == 1 else f"{n} {word}s"


def head_lines(data):
    if len(data) < files.HEAD.size:
        yield f"edition and number of blocks: cut short, the bytes are {data.hex(' ') or 'none'}"
        return
    count = files.count_of(data)
    yield f"edition {files.edition_of(data)}, {plural(count, 'block')}, {plural(1024 * count, 'row')}"


def entry_words(entry):
    kind = files.KINDS[entry.kind] if entry.kind <= files.RUNS else "no such kind"
    zero = f", zero field {entry.zero}" if entry.zero else ""
    n = f" ({plural(files.run_values(entry), 'value')})" if entry.kind == files.RUNS and entry.length > 2048 else ""
    ends = "" if entry.smallest is None else f", smallest {entry.smallest}, largest {entry.largest}"
    fields = f"width {entry.width}{zero}, length {entry.length}{n}, reference {entry.reference}{ends}"
    return f"kind {entry.kind} ({kind}), {fields}"


def body_words(data, start, end):
    """Where a body stands by the lengths in the entries, and how much of it is there."""
    if start == end:
        return "no body"
    there = "" if end <= len(data) else ", cut short" if start < len(data) else ", not there"
    return f"body from byte {start} to {end}{there}"


def body_fault(data, entry, start):
    """What is wrong with a body, or with the smallest and the largest that its entry says, in words; None where it is
    good or not all there."""
    body = data[start : start + entry.length]
    if len(body) < entry.length:
        return None
    return files.index_fault(entry, body) or files.range_fault(entry, body)


def entry_lines(data):
    """A line for each entry that is there, one more where something is wrong in it, and one for a cut entry."""
    if len(data) < files.HEAD.size:
        return
    count = files.count_of(data)
    size = files.entry_form(data).size
    whole, rest = divmod(len(data) - files.HEAD.size, size)
    start = files.contents_size(data)
    for i in range(min(count, whole)):
        entry = files.entry_at(data, i)
        yield f"entry {i}: {entry_words(entry)}; {body_words(data, start, start + entry.length)}"
        fault = files.entry_fault(entry, files.edition_of(data)) or body_fault(data, entry, start)
        if fault:
            yield f"  WRONG: {fault}"
        start += entry.length
    if whole < count:
        yield f"entry {whole} of {count}: cut short, {rest} of its {size} bytes are there"


def value_lines(data):
    """For each block of an accepted file its smallest and largest value and its first few."""
    for i in range(files.count_of(data)):
        values = files.values_of(data, i)
        first = " ".join(map(str, values[:4]))
        yield f"block {i}: smallest {min(values)}, largest {max(values)}, first {first} ..."


def answer_line(answer):
    return f"answer: number {answer.number}, place {answer.place}: {answer.why}"


def contents_lines(data):
    """What a file has in front of its bodies, and what is wrong in it."""
    yield plural(len(data), "byte")
    yield from head_lines(data)
    yield from entry_lines(data)


def lines(data):
    yield from contents_lines(data)
    answer = files.check(data)
    if not answer.number:
        yield from value_lines(data)
    yield answer_line(answer)


def block_lines(data, block):
    """What block out gives: sixteen values to a line, with the file row of the first."""
    answer, values = files.block_out(data, block, 1024)
    if values:
        for p in range(0, 1024, 16):
            yield f"row {1024 * block + p}: {' '.join(map(str, values[p : p + 16]))}"
    yield answer_line(answer)


def count_words(count):
    """How many packed words a lookup read."""
    return "no count of words" if count in (None, NO_COUNT) else f"{plural(count, 'word')} read"


def row_lines(data, row):
    answer, value, count = files.row_lookup(data, row)
    if value is not None:
        yield f"row {row}: {value}, {count_words(count)}"
    yield answer_line(answer)


def candidate_lines(values):
    """For each block the width and the length of every candidate, and which of them is chosen."""
    for i, block in enumerate(writer.blocks_of(values)):
        three = writer.candidates(block)
        said = ", ".join(f"kind {one.kind} width {one.width} length {one.length}" for one in three)
        yield f"block {i}: {said}; kind {writer.chosen(three).kind} is chosen"


def write_lines(values, room):
    """What the model does with a write: its answer, and the file where there is one."""
    answer, data = writer.write(values, room)
    if answer.number != 2:
        yield from candidate_lines(values)
    yield answer_line(answer)
    if data is not None:
        yield from lines(data)


def output_words(expected, answered):
    """How an output stands to the one that is expected."""
    if answered == expected:
        return "as expected"
    return f"another from byte {next(i for i, (a, b) in enumerate(zip(answered, expected)) if a != b)} on"


def outcome_words(question, outcome):
    """Number, place and value, the count of words of a row lookup, and a reference that no other call should have."""
    said = f"number {outcome.number}, place {outcome.place}, value {outcome.value}"
    if question.op == ROW_LOOKUP:
        return f"{said}, {count_words(outcome.reference)}"
    return f"{said}, reference {outcome.reference}" if outcome.reference else said


def drawer_answer(question):
    """The model's answer to a call on a drawer, with what is wrong in words."""
    taken, room = (len(buffer) * 8 // question.t for buffer in (question.a, question.c))
    values, packed = (room, taken) if question.op == UNPACK_BLOCKS else (taken, room)
    return drawers.answer_to(question.t, question.width, question.index, values, packed)


def drawer_lines(question, answered):
    """What the model does with a drawer: its answer, and the first elements of each block that it gives."""
    yield answer_line(drawer_answer(question))
    if not answered.number:
        for i, block in enumerate(drawers.parts_of(answered.c, question.index)):
            first = " ".join(map(str, drawers.numbers_of(question.t, block)[:4]))
            yield f"block {i}: first {first} ..." if first else f"block {i}: no packed words"


def drawer_difference(question, expected, answered):
    """The first element of the output that is another than the one that is expected."""
    pairs = zip(drawers.numbers_of(question.t, expected.c), drawers.numbers_of(question.t, answered.c))
    for i, (wanted, found) in enumerate(pairs):
        if wanted != found:
            yield f"element {i} of the output: {wanted} is expected, and the model gives {found}"
            return


def search_lines(question):
    """What the model does with a search: the file, the blocks that are opened, the first rows, and the answer."""
    low, high = files.words_of(question.b)
    yield from contents_lines(question.a)
    answer, rows = search.search(question.a, low, high, len(question.c) // 8)
    if answer.number not in (8, 9, 10, 11):
        blocks = search.opened(question.a, low, high)
        yield f"{low} to {high}: {plural(len(blocks), 'block')} opened {' '.join(map(str, blocks))}".rstrip()
    if rows is not None:
        yield f"{plural(len(rows), 'row')} {' '.join(map(str, rows[:8]))}{' ...' if len(rows) > 8 else ''}".rstrip()
    yield answer_line(answer)


def rewrite_lines(question):
    """What the model does with a rewrite: the old file, and where it is taken the candidates and the new one."""
    yield from contents_lines(question.a)
    answer, new = rewrite.rewrite(question.a, len(question.c))
    if answer.number in (0, 14):
        yield from candidate_lines(rewrite.all_values(question.a))
    if new is not None:
        yield from contents_lines(new)
    yield answer_line(answer)


def renumber_lines(question):
    """What the model does with a renumbering: the old file, the first pairs, and where it is done the new file."""
    yield from contents_lines(question.a)
    lists = lists_in(question)
    for i, pair in enumerate(zip(*lists)):
        if i < 20:
            yield "pair {}: {} to {}; place {} of the order is {}".format(i, *pair[:2], i, pair[2])
        elif i == 20:
            yield "..."
    answer, given = renumber.renumber(question.a, lists, len(question.c))
    if given is not None:
        yield from contents_lines(given.file)
        yield f"K {given.changed}"
    yield answer_line(answer)


def canonical_lines(question):
    """What the model does with a canonical check: the file, and where it is readable what the writer has to choose
    from."""
    yield from contents_lines(question.a)
    if not files.check(question.a).number:
        yield from candidate_lines(rewrite.all_values(question.a))
    yield answer_line(canonical.check(question.a))


def state_of(question):
    """The state that a trickle begins with, and where it comes from, in words."""
    answer, state = trickle.start(question.width)
    if question.op == TRICKLE or question.reference != BY_HAND:
        return state, "of a refused start" if answer.number else "of the start"
    state = trickle.handed_in(question.width, question.index, question.a[: trickle.ROOM])
    too_much = (question.width, question.index) != (state.width, len(state.held))
    return state, "made by hand, which counts as that of width 0" if too_much else "made by hand"


def trickle_lines(question):
    """What the model does with a trickle: the state, how many bytes it takes of each of the first chunks, and the
    answer."""
    if question.op == TRICKLE and trickle.start(question.width)[0].number:
        yield answer_line(trickle.start(question.width)[0])
        return
    state, whence = state_of(question)
    yield f"state {whence}: width {state.width}, {plural(len(state.held), 'byte')} held"
    for i, chunk in enumerate(trickle.chunks_of(fed_in(question), files.words_of(question.b))):
        taken, state = trickle.feed(state, chunk)
        if i < 20:
            yield f"chunk {i} of {plural(len(chunk), 'byte')}: {taken} taken, {len(state.held)} held"
        elif i == 20:
            yield "..."
    answer, values = trickle.ask(state, len(question.c) // 8)
    if values:
        yield f"values: first {' '.join(map(str, values[:4]))} ..."
    yield answer_line(answer)


def trickle_words(question):
    """What goes into a trickle."""
    by_hand = question.op == TRICKLE_FROM and question.reference == BY_HAND
    state = f"{plural(question.index, 'byte')} held, " if by_hand else ""
    fed = f"{plural(len(fed_in(question)), 'byte')} in {plural(len(question.b) // 8, 'chunk')}"
    return f"width {question.width}, {state}{fed}, output of {plural(len(question.c) // 8, 'place')}"


def given_words(question):
    """What goes into a call."""
    if question.op == WRITE:
        return f"{plural(len(question.a) // 8, 'number')}, output of {plural(len(question.c), 'byte')}"
    if question.op in TRICKLES:
        return trickle_words(question)
    if question.op == CANONICAL:
        return plural(len(question.a), "byte")
    if question.op == RENUMBER:
        counts = "{} old, {} new and {} places".format(*map(len, lists_in(question)))
        return f"{counts}, {plural(len(question.a), 'byte')}, output of {plural(len(question.c), 'byte')}"
    if question.op == REWRITE:
        return f"{plural(len(question.a), 'byte')}, output of {plural(len(question.c), 'byte')}"
    if question.op == SEARCH:
        low, high = files.words_of(question.b)
        return f"from {low} to {high}, room for {plural(len(question.c) // 8, 'row')}"
    if question.op not in DRAWERS:
        return f"index {question.index}, output of {plural(len(question.c) // 8, 'place')}"
    framed = f", reference {question.reference}" if question.op == FOR_PACK_BLOCKS else ""
    taken, room = (len(buffer) * 8 // question.t for buffer in (question.a, question.c))
    words = ("packed word", "value") if question.op == UNPACK_BLOCKS else ("value", "packed word")
    buffers = f"{plural(taken, words[0])}, output of {plural(room, words[1])}"
    return f"T {question.t}, width {question.width}, M {question.index}{framed}, {buffers}"


def case_lines(i, question, expected, answered):
    """A case of a stream, what is expected of it, what the model gives, and its file, its blocks or its chunks."""
    yield f"case {i}: call {question.op}, {given_words(question)}"
    yield f"expected: {outcome_words(question, expected)}"
    if answered == expected:
        yield "the model gives the same"
    else:
        said = outcome_words(question, answered)
        yield f"the model: {said}, output {output_words(expected.c, answered.c)}"
    if question.op in DRAWERS:
        yield from drawer_difference(question, expected, answered)
        yield from drawer_lines(question, answered)
    elif question.op in TRICKLES:
        yield from trickle_lines(question)
    elif question.op == SEARCH:
        yield from search_lines(question)
    elif question.op == REWRITE:
        yield from rewrite_lines(question)
    elif question.op == CANONICAL:
        yield from canonical_lines(question)
    elif question.op == RENUMBER:
        yield from renumber_lines(question)
    elif question.op == WRITE:
        yield from write_lines(files.words_of(question.a), len(question.c))
    else:
        yield from lines(question.a)
