"""Renumberings that nobody thought of: random files, with lists made from their rows and from numbers near them, some of
them spoiled.

Each case has dice of its own, as in mixed.py.
"""
from cases.ask import ask_renumber
from cases.dice import Dice
from models import files, renumber, rewrite
from models.files import WRAP
from models.renumber import Lists, lists_of, order_of
from . import rewrites


def some_listed(dice, rows):
    """Numbers to be old: some of the rows', and some near them that may be in no row."""
    there = sorted(set(rows)) or [dice.number()]
    count = dice.pick((0, 1, 2, 3, dice.below(40), dice.below(len(there) + 1)))
    found = {dice.pick(there) for _ in range(count)}
    found |= {(dice.pick(there) + dice.pick((1, -1, 2, 1000))) % WRAP for _ in range(dice.pick((0, 1, 5)))}
    return sorted(found)


def shuffled(dice, things):
    return sorted(things, key=lambda _: dice.number())


def some_new(dice, old):
    """New numbers for these: the same ones turned about, new ones from near or far, or some of both."""
    shape = dice.below(4)
    if shape == 0:
        return shuffled(dice, old)
    if shape == 1:
        return [old[(i + 1) % len(old)] for i in range(len(old))]
    near = shape == 2
    fresh = set()
    while len(fresh) < len(old):
        fresh.add((dice.pick(old) + dice.below(4096)) % WRAP if near else dice.number())
    fresh = shuffled(dice, sorted(fresh))
    stay = [number if not dice.below(3) and number not in fresh else other for number, other in zip(old, fresh)]
    return stay


def some_lists(dice, rows):
    old = some_listed(dice, rows)
    return lists_of(list(zip(old, some_new(dice, old))))


def changed(dice, numbers):
    """The numbers with another one at some place: that of another place, one more or less, or anything."""
    numbers = list(numbers)
    place = dice.below(len(numbers))
    other = numbers[place] + dice.pick((1, -1))
    numbers[place] = dice.pick((dice.pick(numbers), other % WRAP, dice.number(), len(numbers)))
    return tuple(numbers)


def spoiled(dice, lists, rows):
    """Lists with something changed, so that most of them are refused."""
    sort = dice.below(5)
    if sort == 0 or not lists.old:
        parts = list(lists)
        which = dice.below(3)
        parts[which] = parts[which][:-1] if parts[which] and dice.below(2) else (*parts[which], dice.below(9))
        return Lists(*parts)
    if sort == 1:
        return lists._replace(old=changed(dice, lists.old))
    if sort == 2:
        return lists._replace(order=changed(dice, lists.order))
    new = list(lists.new)
    new[dice.below(len(new))] = dice.pick(new if sort == 3 or not rows else rows)
    return Lists(lists.old, tuple(new), order_of(new))


def case(seed, i):
    dice = Dice("renumbers", seed, i)
    data = rewrites.some_file(dice)
    rows = [] if files.check(data).number else rewrite.all_values(data)
    lists = some_lists(dice, rows)
    if dice.below(3) == 0:
        lists = spoiled(dice, lists, rows)
    _, given = renumber.renumber(data, lists, 2**23)
    size = len(data if given is None else given.file)
    room = dice.pick((size, size, size, size + 1, size + dice.below(100), size - 1, dice.below(size + 1), len(data)))
    return ask_renumber(dice, f"renumberings {seed} case {i}", data, lists, max(room, 0))


def renumbers(seed, count):
    return (case(seed, i) for i in range(count))
