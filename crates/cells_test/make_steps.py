# make_steps.py FOLDER: writes the files `steps` and `runs`, steps on packed cells with what each leaves, by a list of bits that knows
# nothing of bytes.
# A cell past the end reads as 0 and is not written; a copy goes bit by bit from the first cell on, each from the list as it then is.
import os
import random
import sys

sys.path.append(os.path.join(os.path.dirname(os.path.abspath(__file__)), "../../tools"))
from parts import record

READ, WRITE, COPY, ZERO, PUT = range(5)


def unpacked(data):
    return [int(c) for b in data for c in f"{b:08b}"]


def packed(bits):
    return bytes(int("".join(map(str, bits[i:i + 8])), 2) for i in range(0, len(bits), 8))


def read(bits, p):
    return bits[p] if p < len(bits) else 0


def write(bits, p, b):
    if p < len(bits):
        bits[p] = b


# What a step leaves in the list; and its answer, 0 where it has none.
def step(bits, op, x, y, z):
    if op == READ:
        return read(bits, x)
    if op == WRITE:
        write(bits, x, y % 2)
    if op == COPY:
        for i in range(z):
            write(bits, y + i, read(bits, x + i))
    if op == ZERO:
        for i in range(y):
            write(bits, x + i, 0)
    if op == PUT:
        old = list(bits)
        for i in range(z):
            write(bits, y + i, read(old, x + i))
    return 0


def step_record(data, op, x, y, z):
    bits = unpacked(data)
    answer = step(bits, op, x, y, z)
    return record([op, x, y, z, answer], [data], packed(bits))


def place(rng, cells):
    return rng.choice([rng.randrange(cells + 1), rng.randrange(cells + 20), 2**32 - 1 - rng.randrange(9)][: rng.choice((1, 1, 1, 2, 3))])


def count(rng, cells):
    return rng.choice([rng.randrange(4), rng.randrange(cells + 1), rng.randrange(cells + 20)])


def made(rng):
    for n in list(range(13)) * 90:
        data, cells = rng.randbytes(n), 8 * n
        op = rng.choice((READ, WRITE, COPY, COPY, ZERO))
        x = place(rng, cells)
        y = {WRITE: rng.randrange(256), COPY: place(rng, cells), ZERO: count(rng, cells)}.get(op, 0)
        yield step_record(data, op, x, y, count(rng, cells) if op == COPY else 0)


# Copies to every place in a byte, from up to nine cells before the target to nine behind it.
def near(rng):
    for to in range(16, 24):
        for apart in range(-9, 10):
            yield step_record(rng.randbytes(6), COPY, to - apart, to, 8 + rng.randrange(17))


# Bits put from every place in a byte to every place in a byte, and from and to any place.
def puts(rng):
    for x in range(8):
        for y in range(8, 16):
            yield step_record(rng.randbytes(6), PUT, x, y, 8 + rng.randrange(33))
    for n in list(range(13)) * 10:
        cells = 8 * n
        yield step_record(rng.randbytes(n), PUT, place(rng, cells), place(rng, cells), count(rng, cells))


# Cells 0 to 8, sixteen of them: the second byte is copied after it was written.
def sixteen_from_0_to_8():
    return step_record(bytes([0xA5, 0x3C, 0xFF]), COPY, 0, 8, 16)


# Source and target at the same place in a byte, every place and every count of cells from 0 to 70: copies that overlap either way or lie
# apart, puts, and clearing.
def runs(rng):
    for place in range(8):
        for n in range(71):
            a, b = rng.choice([(0, 1), (0, 2), (1, 0), (2, 0), (3, 3), (0, 5), (5, 0), (2, 1), (1, 2)])
            yield step_record(rng.randbytes(15), COPY, 8 * a + place, 8 * b + place, n)
            yield step_record(rng.randbytes(11), *rng.choice([(PUT, 8 * a + place, 8 * b + place, n), (ZERO, 8 * a + place, n, 0)]))


def write_file(folder, name, steps):
    with open(os.path.join(folder, name), "wb") as file:
        file.write(b"".join(steps))
    print(name, {op: sum(s[7] == op for s in steps) for op in range(5)}, sum(map(len, steps)), "bytes")


if __name__ == "__main__":
    rng = random.Random(1)
    write_file(sys.argv[1], "steps", [*made(rng), *near(rng), *puts(rng)])
    write_file(sys.argv[1], "runs", [sixteen_from_0_to_8(), *runs(rng)])
