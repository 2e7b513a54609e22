"""Rewrites that are wrong on purpose, each in one thing.

The sample has to tell each of them from the right one, so that it finds out a program that is wrong in the same way.
"""
from cases.stream import Outcome, answered
from models import build, files, rewrite, writer
from models.files import RUNS, words_of
from .instead import instead

# First those that make another file.


def blocks_in(data):
    return [build.Block(*block) for block in zip(files.entries_of(data), files.bodies_of(data))]


def kept_blocks(data):
    """The blocks as they are, with entries of edition 2."""
    return build.column_file(blocks_in(data), 2)


def kept_edition_2(data):
    """A file of edition 2 is taken as it is."""
    return data if files.edition_of(data) == 2 else right_file(data)


def kept_but_for_runs(data):
    """Run blocks alone are made anew."""
    kept = [anew(block) if block.entry.kind == RUNS else block for block in blocks_in(data)]
    return build.column_file(kept, 2)


def anew(block):
    return writer.block_of(files.block_values(*block))


def kept_kinds(data):
    """Every block keeps its kind, and has the least width; only run blocks get another kind."""
    blocks = []
    for block in blocks_in(data):
        three = writer.candidates(files.block_values(*block))
        one = writer.chosen(three) if block.entry.kind == RUNS else three[block.entry.kind]
        blocks.append(writer.laid_down(one))
    return build.column_file(blocks, 2)


def shorter_of_both(data):
    """A block is made anew only where that is shorter."""
    blocks = []
    for block in blocks_in(data):
        new = anew(block)
        blocks.append(new if len(new.body) < len(block.body) or block.entry.kind == RUNS else block)
    return build.column_file(blocks, 2)


def range_of_list(data):
    """The range of a run block is that of its list."""
    blocks = []
    for block in blocks_in(data):
        listed = words_of(block.body[2048:]) if block.entry.kind == RUNS else files.block_values(*block)
        blocks.append(anew(block).but(smallest=min(listed), largest=max(listed)))
    return build.column_file(blocks, 2)


def in_edition_1(data):
    return writer.file_of(rewrite.all_values(data), 1)


def same_edition(data):
    return writer.file_of(rewrite.all_values(data), files.edition_of(data))


def blocks_falling(data):
    return writer.file_of([n for block in writer.blocks_of(rewrite.all_values(data))[::-1] for n in block], 2)


def first_block(data):
    return writer.file_of(rewrite.all_values(data)[:1024], 2)


right_file = rewrite.rewritten
WRONG_FILES = {
    "the blocks are kept": kept_blocks,
    "a file of edition 2 is kept": kept_edition_2,
    "all but run blocks are kept": kept_but_for_runs,
    "the kinds are kept": kept_kinds,
    "blocks are made anew where that is shorter": shorter_of_both,
    "the range of a run block's list": range_of_list,
    "edition 1 is written": in_edition_1,
    "the same edition is written": same_edition,
    "the last block first": blocks_falling,
    "the first block alone": first_block,
}


# Then those that are wrong about the call.


def size_of(q):
    """The length of the new file; None where the file is refused."""
    new = rewrite.rewrite(q.a, 2**23)[1]
    return None if new is None else len(new)


def room_first(q):
    """14 before 13 and 15, where the output has no room for the contents."""
    outcome = answered(q)
    if outcome.number in (13, 15) and len(q.c) < files.contents_length(2, files.count_of(q.a)):
        return Outcome(14, 0, q.c)
    return outcome


def room_before_all(q):
    """14 before everything, where the output has no room for a head."""
    return Outcome(14, 0, q.c) if len(q.c) < 4 else answered(q)


def room_of_old(q):
    """14 where the output is shorter than the old file."""
    outcome = answered(q)
    return Outcome(14, 0, q.c) if not outcome.number and len(q.c) < len(q.a) else outcome


def bound_decides(q):
    outcome = answered(q)
    short = not outcome.number and len(q.c) < 4 + 8224 * files.count_of(q.a)
    return Outcome(14, 0, q.c) if short else outcome


def exact_refused(q):
    outcome = answered(q)
    return Outcome(14, 0, q.c) if not outcome.number and outcome.value == len(q.c) else outcome


def written_then_refused(q):
    outcome = answered(q)
    if outcome.number != 14:
        return outcome
    return outcome._replace(c=rewrite.rewritten(q.a)[: len(q.c)])


def begun_then_refused(q):
    """The head is written before the bodies are looked at."""
    outcome = answered(q)
    if outcome.number not in (13, 15) or len(q.c) < 4:
        return outcome
    return outcome._replace(c=files.HEAD.pack(2, files.count_of(q.a)) + q.c[4:])


def without_ranges(q):
    """15 is not looked for; a range plays no part in the rows."""
    if answered(q).number != 15:
        return answered(q)
    with instead(files, {"range_fault": lambda *_: None}):
        return answered(q)


def other_rule_of_runs(q):
    """Kind 3 is read in edition 2 too."""
    with instead(files, {"WITHOUT_RUNS": ()}):
        return answered(q)


def only_edition_1(q):
    """A file of edition 2 is refused, since it needs no rewrite."""
    outcome = answered(q)
    return Outcome(9, 0, q.c) if not outcome.number and files.edition_of(q.a) == 2 else outcome


def at_place_0(q):
    return answered(q)._replace(place=0)


def cleared(q):
    return answered(q)._replace(c=bytes(len(q.c))) if answered(q).number else answered(q)


def cleared_behind(q):
    outcome = answered(q)
    return outcome if outcome.number else outcome._replace(c=outcome.c[: outcome.value].ljust(len(q.c), b"\0"))


def length_though_refused(q):
    outcome = answered(q)
    return outcome._replace(value=size_of(q)) if outcome.number == 14 else outcome


def with_value(value):
    return lambda q: answered(q) if answered(q).number else answered(q)._replace(value=value(q))


WRONG_CALLS = {
    "14 before 13 and 15": room_first,
    "14 before everything": room_before_all,
    "14 by the old file's length": room_of_old,
    "14 by the bound": bound_decides,
    "14 for an output that just fits": exact_refused,
    "the file is begun before it is refused": written_then_refused,
    "the head is written before a body is refused": begun_then_refused,
    "no 15": without_ranges,
    "the other rule for kind 3": other_rule_of_runs,
    "edition 2 is refused": only_edition_1,
    "every place is 0": at_place_0,
    "the output is cleared where it is refused": cleared,
    "the bytes past the file are cleared": cleared_behind,
    "the length though it is refused": length_though_refused,
    "the old length is given back": with_value(lambda q: len(q.a)),
    "the output's length is given back": with_value(lambda q: len(q.c)),
    "the number of blocks is given back": with_value(lambda q: files.count_of(q.a)),
}


def not_told(asked, new_files, calls):
    """Those of these rewrites that give what the right one gives in every case."""
    for name, function in new_files.items():
        with instead(rewrite, {"rewritten": function}):
            told = any(answered(question) != outcome for question, outcome in asked)
        if not told:
            yield name
    for name, call in calls.items():
        if all(call(question) == outcome for question, outcome in asked):
            yield name
