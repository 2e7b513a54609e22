"""What the program columns (bindings/columns) is to print, from the models beside this one and from its help.

Each function gives the text for standard output, the status, and what a complaint on standard error says behind the
file's name, or None where there is no complaint. The layout of a line and the sentences are ours and stand here a
second time; every number in them is the models'.
"""
from . import canonical, files, rewrite, search

HEADING = (
    "block  kind         width             reference              smallest               largest"
    "  bytes  bytes/row  a # for 4 bits"
)
SENTENCES = {
    8: "the file is cut short, it ends before its contents or its bodies do; fetch it again",
    9: "this is no column file of edition 1 or 2 with at most 256 blocks; look whether it is the right file",
    10: "entry {} of the contents is not as laid out: its kind, width, length, reference or range cannot be; "
    "fetch the file again",
    11: "there are bytes behind the last body, as where two files were joined; fetch it again",
    13: "block {} has a run index at or beyond the number of its run values, so its rows cannot be told; "
    "fetch the file again",
    15: "block {} has another smallest or largest value than the contents say: one of the two is damaged; "
    "fetch the file again",
    17: "block {} is not as our writer would write it; `columns rewrite` makes a file that is",
}
OLD_EDITION = "9 0: the file is of edition 1, and our writer gives edition 2; `columns rewrite` makes one"
MOST_ROWS = 1024 * files.MOST_BLOCKS


def answer_words(answer):
    return f"{answer.number} {answer.place}: {SENTENCES[answer.number].format(answer.place)}"


def refusal(answer):
    """The complaint of a refusal."""
    return f"refused {answer_words(answer)}"


def named(name, lines):
    """The lines, each behind the file's name where there is one."""
    return "".join(f"{name}: {line}\n" if name else f"{line}\n" for line in lines)


def thousandths(size, rows):
    """Bytes a row, with three places behind the point and no more."""
    n = size * 1000 // rows if rows else 0
    return f"{n // 1000}.{n % 1000:03}"


def counts(data):
    n = files.count_of(data)
    return f"{n} blocks, {1024 * n} rows, edition {files.edition_of(data)}"


def refused(answer):
    return "", 2, refusal(answer)


def no_row(row, rows):
    last = f"the last one is row {rows - 1}" if rows else "the file has no rows"
    return "", 2, f"refused 12 0: there is no row {row}; {last}"


def check(data, name=""):
    answer = files.check(data)
    if answer.number:
        return refused(answer)
    return named(name, [f"ok, {counts(data)}"]), 0, None


def block_line(data, i):
    entry, values = files.entry_at(data, i), files.values_of(data, i)
    bar = "#" * -(-entry.width // 4)
    size = f"{entry.length:>7}{thousandths(entry.length, 1024):>11}"
    where = f"{entry.reference:>22}{min(values):>22}{max(values):>22}"
    return f"{i:>5}  {files.KINDS[entry.kind]:<11}  {entry.width:>5}{where}{size}" + (f"  {bar}" if bar else "")


PLOT = 48


def plot_lines(data, n):
    """The range of each block within that of all, in 48 places."""
    if not n:
        return ["block  width  no rows"]
    ranges = [(min(values), max(values)) for values in (files.values_of(data, i) for i in range(n))]
    low, high = min(a for a, _ in ranges), max(b for _, b in ranges)
    step = (high - low) // PLOT + 1
    lines = [f"block  width  from {low} to {high}, a # where the block has or may have numbers"]
    for i, (a, b) in enumerate(ranges):
        bar = "".join("#" if (a - low) // step <= x <= (b - low) // step else " " for x in range(PLOT))
        lines.append(f"{i:>5}{files.entry_at(data, i).width:>7}  |{bar}|  {a} to {b}")
    return lines


def show(data, name="", plot=False):
    answer = files.check(data)
    if answer.number:
        return refused(answer)
    n = files.count_of(data)
    blocks = plot_lines(data, n) if plot else [HEADING, *(block_line(data, i) for i in range(n))]
    total = f"{counts(data)}, {len(data)} bytes, {thousandths(len(data), 1024 * n)} bytes/row"
    return named(name, [*blocks, total]), 0, None


def rows(data, first=None, last=None, name=""):
    answer = files.check(data)
    if answer.number:
        return refused(answer)
    values = rewrite.all_values(data)
    for row in (first, last):
        if row is not None and len(values) <= row:
            return no_row(row, len(values))
    end = len(values) if last is None else last + 1
    return named(name, values[first or 0 : end]), 0, None


def row(data, p, name=""):
    answer, value, words = files.row_lookup(data, p)
    if answer.number == 12:
        return no_row(p, 1024 * files.count_of(data))
    if answer.number:
        return refused(answer)
    return named(name, [f"{value}, no count" if words is None else f"{value}, in {words} words"]), 0, None


def find(data, low, high, name="", quiet=False, beside=()):
    """A search; beside are the bytes of other good files, whose numbers stand behind those that are found."""
    answer, found = search.search(data, low, high, MOST_ROWS)
    if answer.number:
        return refused(answer)
    blocks = {
        p // 1024: [files.values_of(other, p // 1024) for other in (data, *beside)]
        for p in {1024 * (p // 1024) for p in found}
    }
    lines = [" ".join(map(str, [p, *(block[p % 1024] for block in blocks[p // 1024])])) for p in found]
    opened = len(search.opened(data, low, high))
    last = f"found {len(found)}, opened {opened} of {files.count_of(data)} blocks"
    return named(name, lines if quiet else [*lines, last]), 0 if found else 1, None


def is_canonical(data, name=""):
    answer = files.check(data)
    if answer.number:
        return refused(answer)
    answer = canonical.check(data)
    if not answer.number:
        return named(name, ["ok, this is what our writer gives"]), 0, None
    words = OLD_EDITION if answer.number == 9 else answer_words(answer)
    return named(name, [f"differs {words}"]), 1, None
