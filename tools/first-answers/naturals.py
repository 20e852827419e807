# naturals.tsv: the original's read_natural on codes whole, cut off, too long and over a bound,
# at every start bit.

from itertools import product

from coding import natural, pack, text
from limits import NODE_COUNT

MOST = 2**32 - 1
POWERS = [2**k + d for k in range(7, 32) for d in (-1, 0, 1)] + [MOST]
COLUMNS = "group\tanswer\tvalue\tnext\tbound\tstart\tbytes"
NOTES = [
    "read_natural of the original, from bit `start` of `bytes` (top bit first), with `bound`.",
    "answer: value (the natural `value`), ended (the stream), long (a length above 31),",
    "over (`value` is above `bound`).",
    "next: the position after the last bit read, counted from the first bit of `bytes`.",
    "A bound of 4294967295 was also asked as no bound at all, with the same answer.",
    "bytes: hex, - for none.",
]


class Streams:
    def __init__(self, rng):
        self.rng = rng
        self.rows = []

    # A stream of bits behind `start` others, its last byte filled up.
    def add(self, group, bits, start=0, bound=MOST, filler="0"):
        data = pack(self.rng.bits(start) + bits, filler)
        if (data, start, bound) not in (row[1:] for row in self.rows):
            self.rows.append((group, data, start, bound))

    # The same, ending with the last bit given.
    def add_ending(self, group, bits, bound=MOST):
        self.add(group, bits, -len(bits) % 8, bound)


# 1 to 70, followed by zeros or ones.
def small(streams):
    for n in range(1, 71):
        streams.add("small", natural(n), filler="01"[n % 2])


# Powers of two and their neighbours up to the largest natural.
def powers(streams):
    for at, n in enumerate(POWERS):
        streams.add("power", natural(n), at % 8, filler="01"[at % 2])


# Codes of several lengths at every bit of a byte, and behind whole bytes.
def offsets(streams):
    numbers = (1, 2, 5, 16, 300, 65536, 2**31 + 12345)
    for start, n in product((*range(8), 13, 40, 47), numbers):
        streams.add("offset", natural(n) + "1" * 8, start)


# Every proper prefix of some codes.
def cut(streams):
    streams.add("cut", "", 8)
    for n, bound in ((2, MOST), (8, MOST), (70, 3), (NODE_COUNT + 1, NODE_COUNT), (2**31 + 77, MOST)):
        code = natural(n)
        for end in range(len(code)):
            streams.add_ending("cut", code[:end], bound)


# Lengths of 31 and more: cut by a bit, just there, followed by zeros, by ones.
def lengths(streams):
    for length in (31, 32, 33, 48, 63, 64, 1000, 65535, 65536, 2**31, MOST):
        code = "1" + natural(length)
        streams.add_ending("length", code[:-1])
        streams.add_ending("length", code)
        streams.add("length", code + "0" * 40, length % 8)
        streams.add("length", code + "1" * 72, length % 5, bound=7)


# Five and more leading ones, then anything: some length is always above 31.
def towers(streams):
    rng = streams.rng
    for depth in (5, 6, 7, 8, 12, 20) * 4:
        streams.add("tower", "1" * depth + "0" + rng.bits(90), rng.below(8))


# Around a bound: one below the natural, the natural, one above.
def bounds(streams):
    numbers = (1, 2, 3, 5, 8, 31, 32, 33, 100, NODE_COUNT - 1, NODE_COUNT, NODE_COUNT + 1, 65535, 2**31, MOST - 1)
    for n, step in product(numbers, (-1, 0, 1)):
        streams.add("bound", natural(n), n % 8, n + step)


# Far above a bound, and bounds of 0.
def far(streams):
    for n, bound in product((2, 9, MOST), (0, 1, 32, NODE_COUNT, MOST - 1)):
        streams.add("far", natural(n), 3, bound)


# Streams of ones, and ones with a last zero.
def ones(streams):
    for count, end in product((0, 1, 2, 3, 4, 5, 8, 16, 40), "10"):
        streams.add("ones", ("1" * 8 * count)[:-1] + end * (count > 0))


# Two bytes of ones from each bit on.
def ones_from(streams):
    for start in range(1, 8):
        streams.add("ones", "1" * (16 - start), start, start)


# Any bytes at all, with small bounds.
def anything(streams):
    rng = streams.rng
    for _ in range(70):
        start = rng.below(8)
        bits = rng.bits(8 * (1 + rng.below(9)) - start)
        streams.add("random", bits, start, rng.pick([MOST, 1, 4, 32, NODE_COUNT, 1 + rng.below(60)]))


MAKERS = [small, powers, offsets, cut, lengths, towers, bounds, far, ones, ones_from, anything]


# The answer's columns: answer, value, next.
def columns(answer):
    words = answer.split()
    place = words[-1].removeprefix("bits=")
    if words[0] == "ok":
        return "value", words[1], place
    if words[1] == "3":
        return "ended", "-", place
    if words[2] == "bound":
        return "over", words[3], place
    assert words[2] == "overflow"
    return "long", "-", place


# All rows.
def rows(oracle, rng):
    streams = Streams(rng)
    for make in MAKERS:
        make(streams)
    asked = [f"nat {bound} {text(data)} {start}" for _, data, start, bound in streams.rows]
    free = [question.replace(f"nat {MOST} ", "nat - ") for question in asked]
    answers = oracle.ask(asked)
    assert answers == oracle.ask(free), "a bound of 2^32 - 1 is not the same as none"
    return [
        (group, *columns(answer), bound, start, text(data))
        for (group, data, start, bound), answer in zip(streams.rows, answers)
    ]
