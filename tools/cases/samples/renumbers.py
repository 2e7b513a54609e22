"""Renumberings for the sample, in files of short blocks and with short lists."""
from cases import encodings
from cases.ask import ask_renumber, ask_renumbered
from cases.sweeps.reads import RANGE_WRONG, RUNS_WRONG
from cases.sweeps.renumbers import EDITIONS, LENGTHS, LIST_STEPS, NO_ROOM, RENUMBER_STEPS, RENUMBER_WAYS
from cases.sweeps.renumbers import but, faulty_renumber, plain_lists
from models.build import column_file, frame
from models.files import TOP
from models.renumber import Lists, lists_of, order_of
from .searches import mostly

SMALL_PAIRS = (
    *([], [(10, 9)], [(21, 25)], [(15, 16)], [(30, TOP)], [(40, 41)], [(0, 1)], [(20, 20), (10, 11)], [(31, 29)]),
    *([(20, 21), (21, 20)], [(10, 20), (20, 30), (30, 40)], [(30, 20), (20, 10), (10, 0)], [(10, 11), (11, 12), (12, 13)]),
    *([(40, 30)], [(20, 21)], [(5, 20), (6, 7)], [(9, 10)], [(21, 30)], [(40, 41), (41, 21), (42, 43)], [(19, 22)]),
)


def small_done(dice, edition):
    """Pairs that are done, and pairs of which two numbers become one; then room that is one short, exact, and more. Of
    edition 1 there are half as many, since it has no ranges."""
    data = column_file([frame(0, b"", 10), encodings.as_frame(mostly(dice, 20, 21, 3)), frame(0, b"", 30)], edition)
    for pairs in SMALL_PAIRS[:: 3 - edition]:
        yield ask_renumbered(dice, f"edition {edition}, {pairs}", data, lists_of(pairs), dice.below(2))
    for more in (-1, 0, 3):
        yield ask_renumbered(dice, f"edition {edition}", data, lists_of([(10, 12), (21, 20), (20, 25)]), more)
    none = column_file([], edition)
    yield ask_renumbered(dice, f"edition {edition}, no blocks", none, lists_of([(2, 1)]), 2)
    yield ask_renumber(dice, f"edition {edition}, no blocks", none, Lists((1,), (2,), (1,)), 4)


def small_kept(dice):
    """A file whose blocks the writer would lay down in another way, with a list that no block meets."""
    blocks = [encodings.as_packed([1] * 1024), encodings.as_differences([5 * (place % 16) for place in range(1024)])]
    data = column_file(blocks, 2)
    yield ask_renumbered(dice, "blocks of other kinds", data, lists_of([(900, 901)]), 1)
    yield ask_renumbered(dice, "blocks of other kinds, no pairs", data, lists_of([]))
    yield ask_renumbered(dice, "a block that becomes another's kind", data, lists_of([(75, 2**40), (1, 3)]))
    wide = column_file([encodings.as_frame(mostly(dice, 20, 22, 3))], 2)
    yield ask_renumbered(dice, "a block that gets narrower", wide, lists_of([(22, 21)]))


def small_lists(dice):
    """18 to 21 at the first place that can have them, in the middle and at the last, and at two places."""
    data, five = column_file([frame(0, b"", 3)], 2), plain_lists(5)
    wrong = [Lists(*(part[:n] for part, n in zip(five, cut))) for cut in ((4, 5, 5), (5, 4, 5), (5, 5, 4), (0, 1, 1))]
    wrong += [five._replace(old=but(five.old, {place: five.old[place - 1]})) for place in (1, 3, 4)]
    wrong += [five._replace(old=but(five.old, {2: 1, 4: 2})), plain_lists(2)._replace(old=(2**63, 1))]
    wrong += [five._replace(order=but(five.order, {place: at})) for place, at in ((0, 5), (2, 6), (4, TOP))]
    wrong += [five._replace(order=but(five.order, {place: five.order[place - 1]})) for place in (1, 4)]
    wrong += [five._replace(order=but(five.order, {4: 2**32 + five.order[4]}))]
    wrong += [five._replace(order=but(five.order, {1: five.order[0], 3: 5}))]
    wrong += [five._replace(order=five.order[::-1]), five._replace(order=but(five.order, {1: 5, 3: five.order[2]}))]
    for places in ((0, 1), (1, 3), (3, 4)):
        new = but(five.new, {places[1]: five.new[places[0]]})
        wrong.append(Lists(five.old, new, order_of(new)))
        at = order_of(new).index(places[0])
        wrong.append(Lists(five.old, new, but(order_of(new), {at: places[1], at + 1: places[0]})))
    new = (9, 8, 8, 9, 7)
    wrong.append(Lists(five.old, new, order_of(new)))
    for lists in wrong:
        yield ask_renumber(dice, "wrong lists", data, lists, 4)


def small_faults(dice):
    """Each fault of the reader beside lists of different lengths; every fault of the lists and the rows beside the next
    one; and a bad body beside the last two."""
    for step in RENUMBER_STEPS[:8]:
        way = RENUMBER_WAYS[0] if step == RUNS_WRONG else RENUMBER_WAYS[1]
        yield faulty_renumber((step, LENGTHS), way, lean=True)
    ours = (*LIST_STEPS, NO_ROOM)
    yield from (faulty_renumber(pair, RENUMBER_WAYS[2], lean=True) for pair in zip(ours, ours[1:]))
    yield from (faulty_renumber((RANGE_WRONG, step), RENUMBER_WAYS[2], lean=True) for step in ours[-2:])


def small_renumbers(dice):
    for edition in EDITIONS:
        yield from small_done(dice, edition)
    yield from small_kept(dice)
    yield from small_lists(dice)
    yield from small_faults(dice)
