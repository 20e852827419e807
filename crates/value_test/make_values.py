# make_values.py VECTORS OUT: writes `values` into the folder OUT from the original's answers, values.tsv of the folder VECTORS, and `tables`.
# What a table's check says, its widths and its entries are worked out here from the rules, record by record.
# data/README.md says what stands in a record.
import os
import random
import sys

sys.path.append(os.path.join(os.path.dirname(os.path.abspath(__file__)), "../../tools"))
from limits import TYPE_COUNT, TYPE_WIDTH
from parts import record, write_parts

UNIT, SUM, PRODUCT = range(3)
UNPADDED = 65535


def packed_table(table):
    return b"".join(bytes([t]) + a.to_bytes(2, "big") + b.to_bytes(2, "big") for t, a, b in table)


def unpacked_table(data):
    return [(data[k], int.from_bytes(data[k + 1:k + 3], "big"), int.from_bytes(data[k + 3:k + 5], "big")) for k in range(0, len(data) // 5 * 5, 5)]


def unpacked(data):
    return [int(c) for b in data for c in f"{b:08b}"]


def packed(bits):
    bits = bits + [0] * (-len(bits) % 8)
    return bytes(int("".join(map(str, bits[i:i + 8])), 2) for i in range(0, len(bits), 8))


# The width of a record that keeps the rules, or None.
def width_of(table, widths, i):
    tag, left, right = table[i]
    if tag > PRODUCT or table[i] in table[:i]:
        return None
    if tag == UNIT:
        return 0 if left == right == 0 else None
    if left >= i or right >= i:
        return None
    width = 1 + max(widths[left], widths[right]) if tag == SUM else widths[left] + widths[right]
    return width if width <= TYPE_WIDTH else None


# The entry of a record: the mark of a type without padding, or the next record that matters.
def entry_of(table, widths, entries, i):
    tag, left, right = table[i]
    even = tag != SUM or widths[left] == widths[right]
    if tag == UNIT or even and entries[left] == entries[right] == UNPADDED:
        return UNPADDED
    if tag == PRODUCT and 0 in (widths[left], widths[right]):
        return entries[right if widths[left] == 0 else left]
    return i


# The answer, and width and entry of each record before the first bad one.
def check(data):
    table, widths, entries = unpacked_table(data), [], []
    if not 1 <= len(table) <= TYPE_COUNT:
        return (4, 0), widths, entries
    for i in range(len(table)):
        width = width_of(table, widths, i)
        if width is None:
            return (2, i), widths, entries
        entries.append(entry_of(table, widths, entries, i))
        widths.append(width)
    return (0, len(table)), widths, entries


def table_record(data):
    answer, widths, entries = check(data)
    arrays = b"".join(w.to_bytes(2, "big") + n.to_bytes(2, "big") for w, n in zip(widths, entries))
    return record([*answer] + [0] * 7, [data, arrays, b"", b""])


# How many of the bits a value of the type takes, or None where there are too few.
def taken(table, i, bits, p):
    tag, left, right = table[i]
    if tag == UNIT:
        return p
    if tag == SUM:
        return taken(table, (left, right)[bits[p]], bits, p + 1) if p < len(bits) else None
    middle = taken(table, left, bits, p)
    return None if middle is None else taken(table, right, bits, middle)


def put(fill, size, at, bits):
    store = unpacked(bytes([fill]) * size)
    store[at:at + len(bits)] = bits
    return packed(store)


# A value whose padded cells are known, at places that go with the turn; short of cells where told so.
def value_record(rng, turn, table, i, count, bits, read, padded, short_of_cells=False):
    p, at, q, fill = turn % 8, turn * 3 % 11, turn * 5 % 13, rng.randrange(256)
    stream = packed([rng.randrange(2) for _ in range(p)] + bits)
    cells, answer = (at + len(padded) + 7) // 8 + turn % 2, (q + len(padded) + 7) // 8 + turn % 3 // 2
    if short_of_cells:
        cells, padded, compact = (at + len(padded) - 1) // 8, [], []
    else:
        compact = bits[:read]
    numbers = (2 if short_of_cells else 0, i, p, p + count, p + read, at, q, fill, check(table)[1][i])
    return record(numbers, [table, stream, put(fill, cells, at, padded), put(fill, answer, q, compact)])


def short_record(rng, turn, table, i, count, bits):
    p, fill = turn % 8, rng.randrange(256)
    stream = packed([rng.randrange(2) for _ in range(p)] + bits)
    end, width = taken(unpacked_table(table), i, unpacked(stream), p), check(table)[1][i]
    numbers = (1 if end is None else 3, i, p, p + count, end or 0, 0, 0, fill, width)
    return record(numbers, [table, stream, bytes([fill]) * ((width + 7) // 8), b""])


def originals(rng, folder):
    for turn, line in enumerate(l for l in open(folder + "/values.tsv") if not l.startswith("#")):
        _, answer, width, read, padded, count, bits, i, table = line.rstrip("\n").split("\t")
        data = b"" if bits == "-" else bytes.fromhex(bits)
        table, i, count = bytes.fromhex(table), int(i), int(count)
        if answer == "short":
            yield short_record(rng, turn, table, i, count, unpacked(data)[:count])
            continue
        cells = [] if padded == "-" else unpacked(bytes.fromhex(padded))[:int(width)]
        yield value_record(rng, turn, table, i, count, unpacked(data), int(read), cells)
        if cells and turn % 4 == 0:
            yield value_record(rng, turn, table, i, count, unpacked(data), int(read), cells, True)


def doubled(start, count):
    table = [(UNIT, 0, 0), (SUM, 0, 0)][:start + 1]
    while len(table) < count:
        table.append((PRODUCT, len(table) - 1, len(table) - 1))
    return table


# The last type of the table below `depth` products with a unit, doubled so many times.
def deep(table, depth, times):
    for k in range(depth):
        table = table + [(PRODUCT, 0, len(table) - 1) if k % 2 else (PRODUCT, len(table) - 1, 0)]
    for _ in range(times):
        table = table + [(PRODUCT, len(table) - 1, len(table) - 1)]
    return table


# A bit, which has no padding, and an optional bit, which has; deep down in a type of the greatest width.
DEEP_BIT = deep([(UNIT, 0, 0), (SUM, 0, 0)], 900, 15)
DEEP_OPTION = deep([(UNIT, 0, 0), (SUM, 0, 0), (SUM, 0, 1)], 900, 14)


def random_table(rng):
    table = [(UNIT, 0, 0)]
    for i in range(1, rng.randrange(1, 14)):
        table.append((rng.choice((SUM, PRODUCT)), rng.randrange(i), rng.randrange(i)))
    if rng.randrange(3):
        i = rng.randrange(len(table))
        table[i] = rng.choice([(3, 0, 0), (255, 0, 0), (UNIT, 1, 0), (UNIT, 0, 1), (SUM, i, 0), (PRODUCT, 0, i), (SUM, 0, i + 1), table[0], (SUM, 65535, 0)])
    return table


def tables(rng):
    for n in range(5):
        yield bytes(n)
    yield from (packed_table(t) for t in (doubled(1, 17), doubled(1, 18), doubled(0, 1024), doubled(0, 1025), DEEP_BIT, DEEP_OPTION))
    for _ in range(120):
        yield packed_table(random_table(rng)) + rng.randbytes(rng.choice((0, 0, 1, 2, 3, 4)))


# Types that a walk down to every leaf, or through every product, would take long for.
def timed(rng):
    yield value_record(rng, 3, packed_table(doubled(0, 1024)), 1023, 0, [], 0, [])
    bits = [rng.randrange(2) for _ in range(TYPE_WIDTH)]
    yield value_record(rng, 5, packed_table(DEEP_BIT), len(DEEP_BIT) - 1, TYPE_WIDTH, bits, TYPE_WIDTH, bits)
    options = [rng.choice(([0], [1, 0], [1, 1])) for _ in range(TYPE_WIDTH // 2)]
    bits, cells = sum(options, []), sum(((o + [0])[:2] for o in options), [])
    yield value_record(rng, 6, packed_table(DEEP_OPTION), len(DEEP_OPTION) - 1, len(bits), bits, len(bits), cells)


if __name__ == "__main__":
    rng = random.Random(1)
    made = {"tables": [table_record(t) for t in tables(rng)], "values": [*originals(rng, sys.argv[1]), *timed(rng)]}
    for name, records in made.items():
        write_parts(f"{sys.argv[2]}/{name}", records)
        print(len(records), name, sum(map(len, records)), "bytes")
