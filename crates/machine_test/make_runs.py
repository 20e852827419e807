# make_runs.py: writes the files data/runs and stdout in the crate's folder. It builds a few small programs of each kind of node and the deepest and
# dearest ones, works out their bounds, and runs each by the requirements' rules on cells, frames by frames. data/README.md says what stands in a record.
import os
import sys
import threading

sys.path.append(os.path.join(os.path.dirname(os.path.abspath(__file__)), "../../tools"))
from limits import FRAME_NUMBERS, NODE_COUNT, TYPE_COUNT
from parts import record, short_number, write_parts

COMP, CASE, PAIR, DISCONNECT, INJL, INJR, TAKE, DROP, IDEN, UNIT, FAIL, DISCONNECT1, WITNESS, HIDDEN, WORD = range(15)
FILLS = (0x00, 0xFF, 0xA5)


class Stopped(Exception):
    pass


# Types, nodes and all that a run takes. Children are built before their parents, the left one first, so that nodes stand in the walk's order.
class Program:
    def __init__(self, with_bit=True):
        self.records, self.widths = [(0, 0, 0)], [0]
        self.nodes, self.arrows, self.made = [], [], {}
        self.word_bits, self.hashes, self.given, self.witness = "", b"", b"", ""
        self.bit = self.sum(0, 0) if with_bit else None

    def type(self, tag, left, right, width):
        if (tag, left, right) not in self.records:
            self.records.append((tag, left, right))
            self.widths.append(width)
        return self.records.index((tag, left, right))

    def sum(self, left, right):
        return self.type(1, left, right, 1 + max(self.widths[left], self.widths[right]))

    def product(self, left, right):
        return self.type(2, left, right, self.widths[left] + self.widths[right])

    # 2^(2^n)
    def power(self, n):
        half = self.power(n - 1) if n else None
        return self.product(half, half) if n else self.bit

    # A node of its own, or the one that is equal to it; words and fail nodes are given bits of their own here.
    def node(self, kind, source, target, a=0, b=0):
        made = (kind, a, b, 0), (source, target)
        if kind not in (DISCONNECT, WITNESS) and made in self.made:
            return self.made[made]
        self.made[made] = len(self.nodes)
        self.nodes.append(made[0])
        self.arrows.append(made[1])
        return len(self.nodes) - 1

    def source(self, i):
        return self.arrows[i][0]

    def target(self, i):
        return self.arrows[i][1]

    def unit(self, source=0):
        return self.node(UNIT, source, 0)

    def iden(self, of):
        return self.node(IDEN, of, of)

    def injl(self, f, other):
        return self.node(INJL, self.source(f), self.sum(self.target(f), other), f)

    def injr(self, other, f):
        return self.node(INJR, self.source(f), self.sum(other, self.target(f)), f)

    def take(self, f, other):
        return self.node(TAKE, self.product(self.source(f), other), self.target(f), f)

    def drop(self, other, f):
        return self.node(DROP, self.product(other, self.source(f)), self.target(f), f)

    def comp(self, f, g):
        return self.node(COMP, self.source(f), self.target(g), f, g)

    def pair(self, f, g):
        return self.node(PAIR, self.source(f), self.product(self.target(f), self.target(g)), f, g)

    def case(self, f, g):
        _, a, c = self.records[self.source(f)]
        b = self.records[self.source(g)][1]
        return self.node(CASE, self.product(self.sum(a, b), c), self.target(f), f, g)

    # Cases with the right or the left branch pruned; `pruned` is the type that it would take.
    def assertl(self, f, pruned):
        _, a, c = self.records[self.source(f)]
        return self.node(CASE, self.product(self.sum(a, pruned), c), self.target(f), f, self.hidden())

    def assertr(self, pruned, hidden, g):
        _, b, c = self.records[self.source(g)]
        return self.node(CASE, self.product(self.sum(pruned, b), c), self.target(g), hidden, g)

    def hidden(self):
        self.hashes += bytes(range(len(self.hashes), len(self.hashes) + 32))
        return self.node(HIDDEN, 0, 0, len(self.hashes) - 32)

    def fail(self, source, target):
        self.hashes += bytes(64)
        return self.node(FAIL, source, target, len(self.hashes) - 64)

    def value(self, source, target, bits):
        self.witness += bits
        return self.node(WITNESS, source, target)

    def word(self, bits):
        n = len(bits).bit_length()
        self.word_bits += "01" * (len(self.word_bits) // 4 + 2) + bits
        return self.node(WORD, 0, self.power(n - 1), n, len(self.word_bits) - len(bits))

    def disconnect(self, f, g, given):
        b = self.records[self.target(f)][1]
        self.given += given
        a = self.records[self.source(f)][2]
        return self.node(DISCONNECT, a, self.product(b, self.target(g)), f, g)


# Extra cells, extra frames and cost of each node.
def bounds(p):
    rows = []
    for i, (kind, a, b, _) in enumerate(p.nodes):
        width = p.widths[p.target(i)]
        left, right = (rows[j] if j < i else (0, 0, 0) for j in (a, b))
        most, both = (max(left[0], right[0]), max(left[1], right[1])), left[2] + right[2]
        if kind in (INJL, INJR, TAKE, DROP):
            rows.append((*left[:2], 100 + left[2]))
        elif kind in (CASE, PAIR):
            rows.append((*most, 100 + (both if kind == PAIR else max(left[2], right[2]))))
        elif kind == COMP:
            m = p.widths[p.target(a)]
            rows.append((m + most[0], 1 + most[1], 100 + m + both))
        elif kind == DISCONNECT:
            s, t, first = p.widths[p.source(a)], p.widths[p.target(a)], p.widths[p.records[p.target(a)][1]]
            rows.append((s + t + most[0], 2 + most[1], 100 + 2 * s + t + first + both))
        else:
            rows.append((0, 0, {FAIL: 0, HIDDEN: 0, UNIT: 100}.get(kind, 100 + width)))
    cells, frames, cost = rows[-1]
    return p.widths[p.source(-1)] + p.widths[p.target(-1)] + cells, frames + 2, cost


# The padded cells of the value that compact bits begin with, and the bits after it.
def padded(p, t, bits):
    tag, left, right = p.records[t]
    if p.widths[t] == 0:
        return [], bits
    if tag == 1:
        side = (left, right)[int(bits[0])]
        part, rest = padded(p, side, bits[1:])
        return [int(bits[0])] + [0] * (p.widths[t] - 1 - p.widths[side]) + part, rest
    first, rest = padded(p, left, bits)
    second, rest = padded(p, right, rest)
    return first + second, rest


def compact(p, t, cells):
    tag, left, right = p.records[t]
    if p.widths[t] == 0:
        return ""
    if tag == 1:
        side = (left, right)[cells[0]]
        return str(cells[0]) + compact(p, side, cells[p.widths[t] - p.widths[side]:])
    return compact(p, left, cells[:p.widths[left]]) + compact(p, right, cells[p.widths[left]:])


# Two stacks of frames, each a cursor, a start and a length, over one row of cells. A new frame comes after all others.
class Machine:
    def __init__(self, p, cells):
        self.p, self.cells, self.reads, self.writes = p, cells, [], []
        rest, self.values = p.witness, {}
        for i, node in enumerate(p.nodes):
            if node[0] == WITNESS:
                self.values[i], rest = padded(p, p.target(i), rest)

    def new(self, length):
        start = sum(f[2] for f in self.reads + self.writes)
        self.writes.append([start, start, length])

    def move(self):
        frame = self.writes.pop()
        self.reads.append([frame[1], frame[1], frame[2]])

    def put(self, bits):
        for bit in bits:
            self.cells[self.writes[-1][0]] = bit
            self.writes[-1][0] += 1

    def skip(self, n):
        if n:
            self.writes[-1][0] += n

    def forward(self, n):
        if n:
            self.reads[-1][0] += n

    def copy(self, n):
        for k in range(n):
            self.put([self.cells[self.reads[-1][0] + k]])

    def inject(self, i, child):
        kind, p = self.p.nodes[i][0], self.p
        self.put([kind - INJL])
        self.skip(p.widths[p.target(i)] - 1 - p.widths[p.target(child)])
        self.run(child)

    def choose(self, i, left, right):
        p = self.p
        _, a, b = p.records[p.records[p.source(i)][1]]
        bit = self.cells[self.reads[-1][0]]
        child, part = ((left, a), (right, b))[bit]
        if p.nodes[child][0] == HIDDEN:
            raise Stopped(19, i)
        move = 1 + max(p.widths[a], p.widths[b]) - p.widths[part]
        self.forward(move)
        self.run(child)
        self.forward(-move)

    def disconnect(self, i, left, right):
        p = self.p
        at = 32 * sum(node[0] == DISCONNECT for node in p.nodes[:i])
        first = p.widths[p.records[p.target(left)][1]]
        self.new(p.widths[p.source(left)])
        self.put([int(c) for byte in p.given[at:at + 32] for c in f"{byte:08b}"])
        self.copy(p.widths[p.source(i)])
        self.move()
        self.new(p.widths[p.target(left)])
        self.run(left)
        self.move()
        self.copy(first)
        self.forward(first)
        self.run(right)
        self.reads.pop()
        self.reads.pop()

    def run(self, i):
        p = self.p
        kind, a, b, _ = p.nodes[i]
        if kind == IDEN:
            self.copy(p.widths[p.source(i)])
        elif kind in (INJL, INJR):
            self.inject(i, a)
        elif kind == TAKE:
            self.run(a)
        elif kind == DROP:
            move = p.widths[p.records[p.source(i)][1]]
            self.forward(move)
            self.run(a)
            self.forward(-move)
        elif kind == COMP:
            self.new(p.widths[p.target(a)])
            self.run(a)
            self.move()
            self.run(b)
            self.reads.pop()
        elif kind == PAIR:
            self.run(a)
            self.run(b)
        elif kind == CASE:
            self.choose(i, a, b)
        elif kind == DISCONNECT:
            self.disconnect(i, a, b)
        elif kind == WITNESS:
            self.put(self.values[i])
        elif kind == WORD:
            self.put([int(c) for c in p.word_bits[b:b + 2 ** (a - 1)]])
        elif kind == FAIL:
            raise Stopped(18, i)


def bytes_of(bits):
    bits = "".join(map(str, bits))
    bits += "0" * (-len(bits) % 8)
    return bytes(int(bits[k:k + 8], 2) for k in range(0, len(bits), 8))


# What a run in stores of some sizes says and leaves: a line's answer, cells, frame numbers, answer bytes.
def outcome(p, given, fill, sizes):
    cells, frames, _ = bounds(p)
    source, target = p.widths[p.source(-1)], p.widths[p.target(-1)]
    old = [bytes([fill] * sizes[0]), [fill * 0x01010101] * sizes[1], bytes([fill] * sizes[2])]
    for place, need in enumerate(((cells + 7) // 8, FRAME_NUMBERS * frames, (target + 7) // 8)):
        if sizes[place] < need:
            return f"refused 17 {place}", *old
    machine = Machine(p, [int(c) for c in f"{fill:08b}"] * sizes[0])
    if source:
        machine.new(source)
        machine.put(padded(p, p.source(-1), given)[0])
        machine.move()
    if target:
        machine.new(target)
    said, left = "", old[2]
    try:
        machine.run(len(p.nodes) - 1)
        bits = compact(p, p.target(-1), machine.cells[source:source + target])
        said = f"value {len(bits)}"
        left = bytes_of(bits) + left[len(bytes_of(bits)):]
    except Stopped as why:
        said = "refused %d %d" % why.args
    return said, bytes_of(machine.cells), [0] * (FRAME_NUMBERS * frames) + old[1][FRAME_NUMBERS * frames:], left


# A list in hexadecimal, a run of equal numbers as the number, a star and the count.
def runs(numbers):
    text, k = "", 0
    while k < len(numbers):
        n = 1
        while k + n < len(numbers) and numbers[k + n] == numbers[k]:
            n += 1
        text += f" {numbers[k]:x}" + (f"*{n}" if n > 1 else "")
        k += n
    return text


def run_record(name, p, given, fill, sizes):
    parts = [
        name.encode(),
        b"".join(bytes([t]) + a.to_bytes(2, "big") + b.to_bytes(2, "big") for t, a, b in p.records),
        b"".join(short_number(n) for node in p.nodes for n in node),
        b"".join(n.to_bytes(2, "big") for arrow in p.arrows for n in arrow),
        bytes_of(p.word_bits), p.hashes, p.given, bytes_of(p.witness), bytes_of(given),
    ]
    return record([len(p.witness), len(given), fill, *sizes], parts)


# Widths 1, 2, 8 and a sum that pads: 1 + 2^8.
def leaves():
    p = Program()
    p.unit(p.bit)
    yield "unit", p, "1"
    p = Program()
    p.iden(p.product(p.sum(0, p.power(3)), p.sum(p.power(3), 0)))
    yield "iden of padded parts", p, "01"
    yield "iden of full parts", p, "110110010" + "001110001"
    p = Program()
    p.value(p.bit, p.product(p.sum(0, p.power(2)), p.bit), "01")
    yield "witness with padding", p, "0"
    p = Program()
    p.word("1011001110001111")
    yield "word", p, ""
    p = Program()
    p.word("1")
    yield "word of one bit", p, ""
    p = Program()
    p.fail(p.bit, p.power(2))
    yield "fail", p, "1"


def one_child():
    p = Program()
    p.injl(p.iden(p.bit), p.power(3))
    yield "injl", p, "1"
    p = Program()
    p.injr(p.power(3), p.iden(p.bit))
    yield "injr", p, "1"
    p = Program()
    p.injr(p.bit, p.injl(p.unit(p.bit), p.power(2)))
    yield "injr of injl", p, "0"
    p = Program()
    p.take(p.iden(p.power(1)), p.power(2))
    yield "take", p, "10" + "0110"
    p = Program()
    p.drop(p.sum(0, p.power(2)), p.iden(p.power(1)))
    yield "drop past padding", p, "0" + "10"


# A case on a sum of uneven parts, beside a bit.
def branches():
    p = Program()
    p.case(p.drop(p.bit, p.iden(p.bit)), p.drop(p.power(2), p.iden(p.bit)))
    yield "case, left", p, "01" + "1"
    yield "case, right", p, "10110" + "1"
    p = Program()
    p.assertl(p.take(p.iden(p.bit), p.power(1)), p.power(2))
    yield "assertion, left", p, "01" + "10"
    yield "assertion, right pruned", p, "11010" + "10"
    p = Program()
    hidden = p.hidden()
    p.assertr(p.power(2), hidden, p.take(p.iden(p.bit), p.power(1)))
    yield "assertion, right", p, "11" + "10"
    yield "assertion, left pruned", p, "01010" + "10"
    p = Program()
    p.case(p.take(p.fail(p.bit, p.bit), 0), p.take(p.iden(p.bit), 0))
    yield "case, fail reached", p, "00"
    yield "case, fail passed by", p, "11"


def pairs():
    p = Program()
    first = p.injl(p.iden(p.bit), p.power(2))
    p.pair(first, p.iden(p.bit))
    yield "pair, padding left", p, "1"
    p = Program()
    p.pair(p.iden(p.bit), p.fail(p.bit, p.bit))
    yield "pair, right fails", p, "1"
    p = Program()
    p.comp(p.injl(p.iden(p.bit), p.power(3)), p.iden(p.sum(p.bit, p.power(3))))
    yield "comp, padding of the middle copied", p, "1"
    p = Program()
    p.comp(p.unit(), p.iden(0))
    yield "comp of width 0", p, ""
    p = Program()
    full = p.comp(p.injr(0, p.word("11111111")), p.iden(p.sum(0, p.power(3))))
    empty = p.comp(p.injl(p.unit(), p.power(3)), p.iden(p.sum(0, p.power(3))))
    p.pair(full, empty)
    yield "comp, old cells of another middle shown", p, ""


# The hash of the right child, and the input, beside each other; what comes of both.
def disconnects():
    p = Program()
    hash_and_bit = p.product(p.power(8), p.sum(0, p.bit))
    left = p.pair(p.drop(p.power(8), p.iden(p.sum(0, p.bit))), p.take(p.iden(p.power(8)), p.sum(0, p.bit)))
    assert p.source(left) == hash_and_bit
    p.disconnect(left, p.iden(p.power(8)), bytes(range(100, 132)))
    yield "disconnect, hash handed on", p, "0"
    p = Program()
    left = p.take(p.pair(p.unit(p.power(8)), p.unit(p.power(8))), p.bit)
    p.disconnect(left, p.unit(), bytes(32))
    yield "disconnect of width 0", p, "1"


# The most nodes, all but one of them below each other. Each take of a chain needs a type of its own; where the types end, a witness of the largest one,
# which takes no bits, feeds the chain below.
def deepest():
    p = Program(with_bit=False)
    top = 0
    while len(p.records) < TYPE_COUNT:
        top = p.product(top, 0)
    witness = p.value(0, top, "")
    node = p.iden(0)
    while len(p.nodes) < NODE_COUNT:
        node = p.comp(witness, node) if p.source(node) == top else p.take(node, 0)
    return p


# The deepest nesting of nodes and of types, the most nodes, the largest cost.
def largest():
    p = Program()
    node = iden = p.iden(0)
    for _ in range(1022):
        node = p.comp(node, iden)
    yield "1,022 nested comps", p, ""
    p = Program()
    node = p.iden(0)
    for _ in range(17):
        node = p.comp(node, node)
    yield "17 doubled comps", p, ""
    yield f"{NODE_COUNT:,} nodes, {NODE_COUNT - 1:,} of them nested", deepest(), ""
    p = Program()
    node = p.iden(p.bit)
    for _ in range(TYPE_COUNT - 2):
        node = p.drop(0, node)
    yield f"{TYPE_COUNT - 2:,} nested drops", p, "1"
    p = Program()
    deep = p.bit
    for _ in range(1000):
        deep = p.sum(0, deep)
    p.value(0, deep, "1" * 1000 + "0")
    yield "a type of depth 1,000", p, ""
    p = Program()
    deep = p.bit
    for _ in range(1000):
        deep = p.product(0, deep)
    p.comp(p.value(0, deep, "1"), p.iden(deep))
    yield "a bit below 1,000 products", p, ""


# Each program in stores of just the right size with each filling, in larger ones, and with each store one short.
def trials(p, small):
    cells, frames, _ = bounds(p)
    sizes = [(cells + 7) // 8, FRAME_NUMBERS * frames, (p.widths[p.target(-1)] + 7) // 8]
    if not small:
        return [(0xA5, sizes)]
    short = [sizes[:k] + [sizes[k] - 1] + sizes[k + 1:] for k in range(3) if sizes[k]]
    return [(fill, sizes) for fill in FILLS] + [(0x5A, [n + 2 for n in sizes])] + [(0xFF, s) for s in short]


def main():
    sys.setrecursionlimit(100000)
    made, lines = [], ""
    groups = [(True, group) for group in (leaves, one_child, branches, pairs, disconnects)] + [(False, largest)]
    for small, group in groups:
        for name, p, given in group():
            for fill, sizes in trials(p, small):
                said, cells, frames, answer = outcome(p, given, fill, sizes)
                made.append(run_record(name, p, given, fill, sizes))
                lines += f"{name}, filled with {fill:x}: {said}; cells{runs(cells)}; frames{runs(frames)}; answer{runs(answer)}\n"
    folder = os.path.dirname(os.path.abspath(__file__))
    write_parts(folder + "/data/runs", made)
    open(folder + "/stdout", "w").write(lines)
    print(len(made), "runs", sum(map(len, made)), "bytes")


if __name__ == "__main__":
    threading.stack_size(512 << 20)
    thread = threading.Thread(target=main)
    thread.start()
    thread.join()
