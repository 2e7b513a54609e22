"""Programs in the place of changes that are wrong on purpose, each in one thing: functions of two files that give
another text than that of R118 to R121.

The pairs have to tell each of them from the right one.
"""
from models import changes, files, rewrite
from .instead import instead
from .writers import signed


def both_good(left, right):
    return changes.refusal(left, right) is None


def of_good(lines):
    """Other lines where both files are good; they are made from the numbers of both."""

    def program(left, right):
        if not both_good(left, right):
            return changes.text(left, right)
        return changes.ended(lines(rewrite.all_values(left), rewrite.all_values(right)))

    return program


def of_rows(form, keep=lambda rows: rows):
    """Other lines for the rows, and the right ones after them."""

    def lines(left, right):
        rows = changes.differing(left, right)
        found = list(changes.listed(left, right))
        return [form(*row) for row in keep(rows)] + found[len(rows) :]

    return of_good(lines)


def with_longer(left, right):
    """Rows that one file alone has are compared with 0."""
    count = max(len(left), len(right))
    rows = changes.differing(left + [0] * (count - len(left)), right + [0] * (count - len(right)))
    lines = [f"{row} {old} {new}" for row, old, new in rows]
    lines += [f"rows {len(left)} {len(right)}"] if len(left) != len(right) else []
    return [*lines, f"differences {len(rows)}"]


def all_counted(left, right):
    """Rows that one file alone has count as differences, and are not listed."""
    more = abs(len(left) - len(right))
    *lines, _ = changes.listed(left, right)
    return [*lines, f"differences {len(changes.differing(left, right)) + more}"]


def rows_last(left, right):
    lines = list(changes.listed(left, right))
    return lines if len(left) == len(right) else [*lines[:-2], lines[-1], lines[-2]]


def no_rows(left, right):
    return [line for line in changes.listed(left, right) if not line.startswith("rows")]


def rows_always(left, right):
    *lines, last = changes.listed(left, right)
    return [*lines, last] if len(left) != len(right) else [*lines, f"rows {len(left)} {len(right)}", last]


def rows_in_blocks(left, right):
    blocks = f"rows {len(left) // 1024} {len(right) // 1024}"
    return [blocks if line.startswith("rows") else line for line in changes.listed(left, right)]


def rows_alone(left, right):
    """Where the row counts differ, nothing is compared."""
    if len(left) != len(right):
        return [f"rows {len(left)} {len(right)}", "differences 0"]
    return changes.listed(left, right)


def first_of_blocks(rows):
    """The first row of each block that differs."""
    seen = {}
    for row in rows:
        seen.setdefault(row[0] // 1024, row)
    return list(seen.values())


def equal_ones_too(left, right):
    lines = [f"{row} {old} {new}" for row, (old, new) in enumerate(zip(left, right))]
    return [*lines, *list(changes.listed(left, right))[len(changes.differing(left, right)) :]]


def right_first(left, right):
    refused = changes.refusal(right, left)
    if not refused:
        return changes.text(left, right)
    side = {"left": "right", "right": "left"}
    return changes.ended([" ".join(side.get(word, word) for word in refused.split())])


def both_refused(left, right):
    sides = [("left", left), ("right", right)]
    answers = [(side, changes.answer_to(data)) for side, data in sides]
    lines = [f"refused {side} {answer.number} {answer.place}" for side, answer in answers if answer.number]
    return changes.ended(lines) if lines else changes.text(left, right)


def of_refused(line):
    """Another line where a file is refused; it is made from the three words behind the first."""

    def program(left, right):
        refused = changes.refusal(left, right)
        return changes.ended([line(*refused.split()[1:])]) if refused else changes.text(left, right)

    return program


def listed_before(left, right):
    """The rows of the blocks that can be read are listed, and then a file is refused by a range or an index."""
    refused = changes.refusal(left, right)
    if not refused or None in (left, right) or any(files.contents_answer(data) for data in (left, right)):
        return changes.text(left, right)
    place = int(refused.split()[-1])
    numbers = []
    for data in (left, right):
        blocks = range(min(place, files.count_of(data)))
        if any(files.bodies_answer(data, [block]) for block in blocks):
            return changes.text(left, right)
        numbers.append([value for block in blocks for value in files.values_of(data, block)])
    return changes.ended([*(f"{row} {old} {new}" for row, old, new in changes.differing(*numbers)), refused])


def without_ranges(left, right):
    """15 is not looked for."""
    with instead(files, {"range_fault": lambda *_: None}):
        return changes.text(left, right)


def same_edition(left, right):
    """Files of two editions are not compared."""
    text = changes.text(left, right)
    if both_good(left, right) and files.edition_of(left) != files.edition_of(right):
        return changes.ended(["refused right 9 0"])
    return text


def by_blocks(left, right):
    """Blocks are compared by their entry and body, and all rows of one that differs are listed where a number does."""
    if not both_good(left, right):
        return changes.text(left, right)
    blocks = zip(files.entries_of(left), files.bodies_of(left)), zip(files.entries_of(right), files.bodies_of(right))
    rows = []
    for block, (old, new) in enumerate(zip(*blocks)):
        if old != new:
            pairs = zip(files.block_values(*old), files.block_values(*new))
            rows += [(1024 * block + place, *pair) for place, pair in enumerate(pairs)]
    return changes.ended([*(f"{row} {old} {new}" for row, old, new in rows), f"differences {len(rows)}"])


WRONG_PROGRAMS = {
    "rows from 1": of_rows(lambda row, old, new: f"{row + 1} {old} {new}"),
    "rows in their block": of_rows(lambda row, old, new: f"{row % 1024} {old} {new}"),
    "right before left": of_rows(lambda row, old, new: f"{row} {new} {old}"),
    "the numbers alone": of_rows(lambda row, old, new: f"{old} {new}"),
    "two spaces": of_rows(lambda row, old, new: f"{row}  {old}  {new}"),
    "in hexadecimal": of_rows(lambda row, old, new: f"{row} {old:x} {new:x}"),
    "with a sign": of_rows(lambda row, old, new: f"{row} {signed(old)} {signed(new)}"),
    "rows falling": of_rows(lambda row, old, new: f"{row} {old} {new}", lambda rows: rows[::-1]),
    "the first row of each block": of_rows(lambda row, old, new: f"{row} {old} {new}", first_of_blocks),
    "equal rows too": of_good(equal_ones_too),
    "rows of one file against 0": of_good(with_longer),
    "rows of one file count": of_good(all_counted),
    "the line of rows is the last": of_good(rows_last),
    "no line of rows": of_good(no_rows),
    "the line of rows always": of_good(rows_always),
    "the line of rows counts blocks": of_good(rows_in_blocks),
    "nothing is compared where the row counts differ": of_good(rows_alone),
    "the right file is refused first": right_first,
    "both files are refused": both_refused,
    "no place": of_refused(lambda side, number, place: f"refused {side} {number}"),
    "no number": of_refused(lambda side, number, place: f"refused {side}"),
    "place 0": of_refused(lambda side, number, place: f"refused {side} {number} 0"),
    "place before number": of_refused(lambda side, number, place: f"refused {side} {place} {number}"),
    "differences after a refusal": lambda left, right: changes.text(left, right)
    + ("" if both_good(left, right) else "differences 0\n"),
    "a file that will not open is empty": lambda left, right: changes.text(
        *(b"\2\0\0\0" if data is None else data for data in (left, right))
    ),
    "rows are listed before a file is refused": listed_before,
    "no 15": without_ranges,
    "other editions are not compared": same_edition,
    "blocks are compared and not rows": by_blocks,
    "no newline at the end": lambda left, right: changes.text(left, right)[:-1],
    "an empty line at the end": lambda left, right: changes.text(left, right) + "\n",
}


def not_told(some_pairs, programs):
    """Those of these programs that print what the right one prints for every pair. Short pairs come first."""
    some_pairs = sorted(some_pairs, key=lambda pair: sum(len(data or b"") for data in pair[1:]))
    texts = [changes.text(pair.left, pair.right) for pair in some_pairs]
    for name, program in programs.items():
        if all(program(pair.left, pair.right) == text for pair, text in zip(some_pairs, texts)):
            yield name
