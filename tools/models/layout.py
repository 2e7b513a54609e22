"""The layout of a block of elements of T bits (R13 to R32), where T is 8, 16, 32 or 64, in plain whole-number
arithmetic.

A block has 1,024 values, in 1024 / T lanes of T rows. A lane is one whole number, the sum of its word k times 2^(T·k).
Its digits to the base 2^W are the lane's values by rows. Nothing here shifts or masks, and nothing comes from the port.

The models of column files and of bodies that trickle in have it at T 64; that of drawers, and the cases of tools/edges,
have it at every size. The tests hold it to one bit at a time.
"""

SIZES = (8, 16, 32, 64)
ORDER = (0, 4, 2, 6, 1, 5, 3, 7)


def lanes_of(t):
    return 1024 // t


def place(row, lane):
    """Where a lane's row stands in a block, whatever T is."""
    return ORDER[row // 8] * 16 + row % 8 * 128 + lane


PLACES = {t: [[place(row, lane) for row in range(t)] for lane in range(lanes_of(t))] for t in SIZES}  # of lanes, by rows
ROW_AT = {t: {p: row for rows in PLACES[t] for row, p in enumerate(rows)} for t in SIZES}  # of each place


def words_read(t, width, row):
    """The count of R39: how many packed words the bits of a value in that row stand in."""
    if width == 0:
        return 0
    return 1 if row * width % t + width <= t else 2


def rows_in_two(t, width):
    """The rows whose bits stand in two words; at a width that divides T there are none."""
    return [row for row in range(t) if words_read(t, width, row) == 2]


def pack(t, width, values):
    """The packed words of 1,024 values, each taken modulo 2^width."""
    lanes = lanes_of(t)
    words = [0] * (lanes * width)
    base, powers = 2**width, [2 ** (width * row) for row in range(t)]
    for lane in range(lanes):
        number = sum(values[p] % base * power for p, power in zip(PLACES[t][lane], powers))
        for k in range(width):
            number, words[lanes * k + lane] = divmod(number, 2**t)
    return words


def unpack(t, width, words):
    """The 1,024 digits that the lanes' numbers hold; zeros at width 0, since then each number is 0."""
    lanes = lanes_of(t)
    values = [0] * 1024
    base, powers = 2**width, [2 ** (t * k) for k in range(width)]
    for lane in range(lanes):
        number = sum(words[lanes * k + lane] * power for k, power in enumerate(powers))
        for p in PLACES[t][lane]:
            number, values[p] = divmod(number, base)
    return values


def delta(t, values, base):
    """Along each lane by rows, each value minus the one before; row 0 minus the lane's base."""
    out = [0] * 1024
    for lane in range(lanes_of(t)):
        before = base[lane]
        for p in PLACES[t][lane]:
            out[p] = (values[p] - before) % 2**t
            before = values[p]
    return out


def undelta(t, differences, base):
    """Along each lane by rows, each difference plus the result before; row 0 plus the lane's base."""
    out = [0] * 1024
    for lane in range(lanes_of(t)):
        result = base[lane]
        for p in PLACES[t][lane]:
            result = (result + differences[p]) % 2**t
            out[p] = result
    return out


def decode(dictionary, indices):
    """At each place the dictionary's value that the index there names."""
    return [dictionary[index] for index in indices]
