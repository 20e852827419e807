# make_tables.py ORIGINAL CASES OUT: writes the files `lent` and `programs` into the folder OUT. ORIGINAL is the folder with the original's answers
# (tables.tsv), CASES the one with the packed cases (stores). data/README.md says what stands in a record.
# What is right is worked out here from the requirements; where the original or a case tells an answer, a table or a store, it is compared first.
import os
import random
import sys

sys.path.append(os.path.join(os.path.dirname(os.path.abspath(__file__)), "../../tools"))
from limits import DOSSIER_BYTES, NATURAL_LENGTH, NODE_COUNT, WORD_MOST
from parts import read_parts, record, short_number, write_parts

COMP, CASE, PAIR, DISCONNECT, INJL, INJR, TAKE, DROP, IDEN, UNIT, FAIL, DISCONNECT1, WITNESS, HIDDEN, WORD = range(15)
TWO, ONE, NONE = (COMP, CASE, PAIR, DISCONNECT), (INJL, INJR, TAKE, DROP, DISCONNECT1), (IDEN, UNIT, WITNESS)
STORED = {FAIL: 64, HIDDEN: 32}
TOP = (1 << 32) - 1


class Refused(Exception):
    pass


def records(numbers):
    return [tuple(numbers[i:i + 4]) for i in range(0, len(numbers) // 4 * 4, 4)]


def holds(i, record, program_bytes, hash_bytes):
    kind, a, b, c = record
    if kind in TWO:
        return a < i and b < i and c == 0
    if kind in ONE:
        return a < i and b == c == 0
    if kind in NONE:
        return a == b == c == 0
    if kind in STORED:
        return a + STORED[kind] <= hash_bytes and b == c == 0
    return kind == WORD and 1 <= a <= WORD_MOST and b + 2 ** (a - 1) <= 8 * program_bytes and c == 0


def children(record):
    return record[1:3] if record[0] in TWO else record[1:2] if record[0] in ONE else ()


# What node i asks when it is done; all nodes before it are.
def ask(table, hashes, i):
    kind, at = table[i][:2]
    if kind == HIDDEN:
        earlier = [a for k, a, _, _ in table[:i] if k == HIDDEN]
        if any(hashes[a:a + 32] == hashes[at:at + 32] for a in earlier):
            raise Refused(9, i)
        return
    hidden = [j for j in children(table[i]) if table[j][0] == HIDDEN]
    if kind == CASE and len(hidden) == 2:
        raise Refused(8, i)
    if kind != CASE and hidden:
        raise Refused(7, i)


def walk(table, hashes):
    done, path = set(), [len(table) - 1]
    while path:
        i = path[-1]
        waiting = [j for j in children(table[i]) if j not in done]
        if waiting:
            path.append(waiting[0])
            continue
        if i != len(done):
            raise Refused(6, len(done))
        ask(table, hashes, i)
        done.add(i)
        path.pop()
    if table[-1][0] == HIDDEN:
        raise Refused(7, len(table) - 1)


# What a stage says of a lent table: 4, 26, 1, then the walk.
def lent_answer(numbers, program_bytes, hashes):
    table = records(numbers)
    if not 1 <= len(table) <= NODE_COUNT:
        return 4, 0
    for i, record in enumerate(table):
        if not holds(i, record, program_bytes, len(hashes)):
            return 26, i
    if program_bytes > DOSSIER_BYTES:
        return 1, 0
    try:
        walk(table, hashes)
    except Refused as why:
        return why.args
    return 0, 0


def packed(numbers):
    return b"".join(map(short_number, numbers))


# A hash store of zeros is told by its size alone.
def lent_record(numbers, program_bytes, hashes):
    values = [*lent_answer(numbers, program_bytes, hashes), program_bytes, len(hashes)]
    return record(values, [packed(numbers), hashes if any(hashes) else b""])


# A sound table of three nodes, the last of them of some kind. Hash store: 96 bytes; program: 16 bytes.
def sound(kind):
    a, b = (0, 1) if kind in TWO else (1, 0) if kind in ONE else (3, 0) if kind == WORD else (7, 0) if kind in STORED else (0, 0)
    return [[UNIT, 0, 0, 0], [INJL, 0, 0, 0], [kind, a, b, 0]]


# Each number of the last record of each kind at each edge.
def broken():
    for kind in range(15):
        yield sound(kind), 16, 96
        edges = (31, 32, 33, 64, 65, TOP - 63, TOP - 31) if kind in STORED else (32, 33, 124, 125, 128) if kind == WORD else ()
        for place in (1, 2, 3):
            for value in (1, 2, 3, 1 << 31, TOP) + edges:
                table = sound(kind)
                table[2][place] = value
                yield table, 16, 96
    for kind in (15, 16, 255, 256, 269, 1 << 16, 1 << 31, TOP):
        yield [[UNIT, 0, 0, 0], [kind, 0, 0, 0]], 16, 96


# A word of each n: its last position, the one after it, and positions that wrap in 32 bits.
def words():
    for n in range(0, 35):
        bits = 2 ** (n - 1) if n else 1
        for program_bytes in (1, 16, DOSSIER_BYTES, 65536):
            last = 8 * program_bytes - bits
            for at in sorted({last, last + 1} | ({0, TOP + 1 - bits, TOP} if program_bytes == DOSSIER_BYTES else set())):
                if 0 <= at <= TOP:
                    yield [[WORD, n, at, 0]], program_bytes, 0


# Hidden and fail nodes at the end of the hash store.
def stored():
    for kind, size in STORED.items():
        for hash_bytes in (0, size - 1, size, size + 1, 4096):
            for at in (0, 1, hash_bytes - size, hash_bytes - size + 1, TOP + 1 - size, TOP):
                if 0 <= at <= TOP:
                    yield [[kind, at, 0, 0]], 0, hash_bytes


# First bad record; 4 before 26 before 1 before the walk; odd numbers past the last record.
def orders():
    unit, bad = [UNIT, 0, 0, 0], [UNIT, 0, 1, 0]
    yield from (([[9] * n], 0, 0) for n in range(4))
    yield [bad, bad], 0, 0
    yield [unit, bad, [15, 0, 0, 0]], 0, 0
    yield [unit, [COMP, 0, 2, 0], bad], 0, 0
    for program_bytes in (DOSSIER_BYTES, DOSSIER_BYTES + 1):
        yield [unit], program_bytes, 0
        yield [bad], program_bytes, 0
        yield [unit, unit], program_bytes, 0
        yield [[HIDDEN, 0, 0, 0]], program_bytes, 32
        yield [], program_bytes, 0
    for tail in ([1], [TOP, TOP], [15, 1, 2]):
        yield [unit, tail], 0, 0
        yield [bad, tail], 0, 0
        yield [[HIDDEN, 0, 0, 0], tail], 0, 32


# The largest tables, nested as deep as can be, sound and with one thing wrong.
def largest(rng):
    unit = [UNIT, 0, 0, 0]
    drops = [unit] + [[DROP, i - 1, 0, 0] for i in range(1, NODE_COUNT)]
    lefts = [unit] + [[COMP, i - 1, 0, 0] for i in range(1, NODE_COUNT)]
    rights = [unit] + [[PAIR, 0, i - 1, 0] for i in range(1, NODE_COUNT)]
    for table in (drops, lefts, rights):
        yield table, 0, b""
    yield drops[:-1] + [[DROP, NODE_COUNT - 1, 0, 0]], 0, b""
    yield [unit] + lefts[:-1], 0, b""
    hashes = rng.randbytes(1100)
    ladder = [unit]
    while len(ladder) < NODE_COUNT - 1:
        ladder += [[HIDDEN, len(ladder) // 2, 0, 0], [CASE, len(ladder) - 1, len(ladder), 0]]
    yield ladder, 0, hashes
    yield ladder + [[DISCONNECT1, len(ladder) - 1, 0, 0]], 0, hashes
    again = ladder[:-2] + [[HIDDEN, 0, 0, 0]] + ladder[-1:]
    yield again, 0, hashes


# Nodes in the order in which the left-first walk from one of them ends with them, those not reached left out.
def in_order(table, root):
    order, path = [], [root]
    while path:
        waiting = [j for j in children(table[path[-1]]) if j not in order]
        if waiting:
            path.append(waiting[0])
        else:
            order.append(path.pop())
    place = {j: k for k, j in enumerate(order)}
    moved = []
    for j in order:
        kind, a, b, c = table[j]
        moved.append([kind, place[a], place[b], c] if kind in TWO else [kind, place[a], b, c] if kind in ONE else [kind, a, b, c])
    return moved


def drawn_table(rng):
    kinds = [*TWO, *ONE, *NONE, FAIL, WORD, CASE, HIDDEN, HIDDEN]
    table = [[rng.choice([*NONE, HIDDEN]), 0, 0, 0]]
    for i in range(1, rng.randrange(2, 14)):
        kind = rng.choice(kinds)
        a = rng.randrange(i) if kind in TWO + ONE else rng.choice((0, 0, 1, 32)) if kind in STORED else 3 if kind == WORD else 0
        table.append([kind, a, rng.randrange(i) if kind in TWO else 0, 0])
    return in_order(table, len(table) - 1) if rng.randrange(5) else table


# Tables in which nearly every parent of a hidden node is a case, with a few hashes to choose from.
def drawn_cases(rng):
    table = [[UNIT, 0, 0, 0], [HIDDEN, 0, 0, 0], [CASE, 0, 1, 0]]
    for i in range(3, rng.randrange(5, 18)):
        hidden = [j for j in range(i) if table[j][0] == HIDDEN][-2:]
        shown = [j for j in range(i) if table[j][0] != HIDDEN][-3:]
        if rng.randrange(3) == 0 and table[i - 1][0] != HIDDEN:
            table.append([HIDDEN, rng.choice((0, 1, 2, 3, 40)), 0, 0])
        elif rng.randrange(4):
            pair = [rng.choice(hidden), rng.choice(shown if rng.randrange(12) else hidden)]
            rng.shuffle(pair)
            table.append([CASE, *pair, 0])
        else:
            table.append([PAIR, rng.choice(shown), rng.choice(shown), 0])
    return in_order(table, len(table) - 1)


def altered(rng, table):
    i = rng.randrange(len(table))
    table = [[*r] for r in table]
    table[i][rng.randrange(4)] = rng.choice((0, 0, 1, 1, 2, 3, i, i + 1, 13, TOP))
    return table


def drawn(rng):
    pool = [bytes(80), rng.randbytes(80), (b"\1\2" * 40), bytes(40) + rng.randbytes(40)]
    for turn in range(420):
        table = (drawn_table if turn % 2 else drawn_cases)(rng)
        yield altered(rng, table) if turn % 3 == 0 else table, rng.choice((0, 1, 2)), rng.choice(pool)


def lent(rng):
    for table, program_bytes, hash_bytes in [*broken(), *words(), *stored(), *orders()]:
        yield sum(table, []), program_bytes, bytes(hash_bytes)
    for table, program_bytes, hashes in [*largest(rng), *drawn(rng)]:
        yield [n for record in table for n in record], program_bytes, hashes


# The bits of a program, read one after the other; `node` is the place of a refusal.
class Reader:
    def __init__(self, program):
        self.bits = "".join(f"{b:08b}" for b in program)
        self.at, self.node = 0, 0

    def take(self, n):
        if self.at + n > len(self.bits):
            raise Refused(3, self.node)
        self.at += n
        return self.bits[self.at - n:self.at]

    # Ones to the first zero, and for each of them a number as long as the one before it says.
    def natural(self, bound):
        ones, value = 0, 1
        while self.take(1) == "1":
            ones += 1
        for _ in range(ones):
            if value > NATURAL_LENGTH:
                raise Refused(21, self.node)
            value = int("1" + self.take(value), 2)
        if value > bound:
            raise Refused(4, self.node)
        return value

    def octets(self, n):
        return bytes(int(self.take(8), 2) for _ in range(n))

    def closes(self):
        rest = self.bits[self.at:]
        return len(rest) < 8 and "1" not in rest


# Record i of a program, and the bytes that go to the hash store, of which so many are there already.
def read_record(reader, i, stored):
    if reader.take(1) == "1":
        if reader.take(1) == "1":
            raise Refused(5, i)
        n = reader.natural(WORD_MOST)
        reader.take(2 ** (n - 1))
        return [WORD, n, reader.at - 2 ** (n - 1), 0], b""
    code = reader.take(2)
    if code == "11":
        if reader.take(1) == "1":
            return [WITNESS, 0, 0, 0], b""
        return [HIDDEN, stored, 0, 0], reader.octets(32)
    kind = 4 * int(code, 2) + int(reader.take(2), 2)
    if kind == FAIL:
        return [FAIL, stored, 0, 0], reader.octets(64)
    distances = 2 if kind in TWO else 1 if kind in ONE else 0
    below = [i - reader.natural(i) for _ in range(distances)]
    return [kind, *below, *[0] * (3 - distances)], b""


# The table and the hash store of a program, where so many records and bytes are lent.
def decoded(program, room, hash_room):
    if len(program) > DOSSIER_BYTES:
        raise Refused(1, 0)
    reader, table, hashes = Reader(program), [], b""
    count = reader.natural(NODE_COUNT)
    if room < count:
        raise Refused(17, 3)
    for i in range(count):
        reader.node = i
        made, data = read_record(reader, i, len(hashes))
        hashes += data
        if data and hash_room < len(hashes):
            raise Refused(17, 4)
        table.append(made)
    walk(table, hashes)
    if not reader.closes():
        raise Refused(10, count)
    return table, hashes


# A program's record, with stores of so many numbers and bytes; also its answer, table and hash store.
def program_record(program, node_numbers, hash_bytes):
    answer, table, hashes = (0, 0), [], b""
    try:
        table, hashes = decoded(program, node_numbers // 4, hash_bytes)
    except Refused as why:
        answer = why.args
    values = [*answer, len(table), node_numbers, hash_bytes]
    return record(values, [program, packed(sum(table, [])), hashes]), answer, table, hashes


def same(said, found, what):
    if said != found:
        raise ValueError(f"{what}: {said}, but here {found}")


def rows(path):
    return [line.rstrip("\n").split("\t") for line in open(path) if not line.startswith("#")]


# The original's programs, in stores of just the size that a table asks, and larger and odd ones by turns.
def originals(folder):
    for turn, (group, mark, number, place, _, _, code, table, data) in enumerate(rows(folder + "/tables.tsv")):
        program = b"" if code == "-" else bytes.fromhex(code)
        more = (0, 1, 3, 4, 7)[turn % 5]
        _, answer, found, hashes = program_record(program, 4 * NODE_COUNT, DOSSIER_BYTES)
        made = program_record(program, 4 * len(found) + more if found else 40 + more, len(hashes) + more)[0]
        what = f"{group} {code}"
        if mark == "count":
            same((4, 0), answer, what)
        elif mark == "type":
            same(False, answer[0] in (3, 4, 5, 21), what)
        else:
            same(int(number), answer[0], what)
            same(place, str(answer[1]) if place != "-" else "-", what)
            if answer == (0, 0):
                same(table, " ".join("%d,%d,%d" % tuple(r[:3]) for r in found), what)
                same(data, hashes.hex() or "-", what)
        yield made


def number_list(data):
    found, at = [], 0
    while at < len(data):
        size = {254: 2, 255: 4}.get(data[at], 0)
        found.append(int.from_bytes(data[at + 1:at + 1 + size], "big") if size else data[at])
        at += 1 + size
    return found


# The records of a packed file: their numbers, and their parts.
def unpacked(path, numbers, parts):
    data, at = read_parts(path), 0
    while at < len(data):
        end = at + 4 + int.from_bytes(data[at:at + 4], "big")
        start = at + 4 + 4 * (numbers + parts)
        values = [int.from_bytes(data[k:k + 4], "big") for k in range(at + 4, start, 4)]
        places = [start + sum(values[numbers:numbers + k]) for k in range(parts + 1)]
        yield values[:numbers], [data[a:b] for a, b in zip(places, places[1:])]
        at = end


# The programs of the cases with stores, where the run comes to them.
def cases(folder):
    for values, parts in unpacked(folder + "/stores", 12, 8):
        name, dossier, _, nodes, hashes = parts[:5]
        answer, node_numbers, hash_bytes = tuple(values[:2]), *values[7:9]
        if answer[0] in (1, 2):
            continue
        size, start = (int.from_bytes(dossier[k:k + 4], "big") for k in (12, 16))
        made, found, table, data = program_record(dossier[start:start + size], node_numbers, hash_bytes)
        # 9 of equal nodes is found with the arrows, as 11 to 13 are after decoding
        equal = answer[0] == 9 and found == (0, 0)
        if not equal and (answer[0] <= 10 and answer[0] or answer[0] == 21 or answer in ((17, 3), (17, 4))):
            same(answer, found, name)
        if not equal and answer[0] not in (11, 12, 13):
            same(number_list(nodes), sum(table, []) + [0] * (node_numbers - 4 * len(table)), name)
            same(hashes, data + bytes(hash_bytes - len(data)), name)
        yield made


# Programs that the others do not have: over the limit, the most nodes, and no stores at all.
def more_programs():
    yield program_record(b"\x24" + bytes(DOSSIER_BYTES), 4, 0)[0]
    for room in (4 * NODE_COUNT, 4 * NODE_COUNT - 1):
        yield program_record(most_drops(), room, 0)[0]
    for code in ("24", "", "60", "30"):
        yield program_record(bytes.fromhex(code), 0, 0)[0]


def natural_code(n):
    return "0" if n == 1 else "1" + natural_code(n.bit_length() - 1) + f"{n:b}"[1:]


# Iden, and drop of the node before, as often as nodes allow.
def most_drops():
    bits = natural_code(NODE_COUNT) + "01000" + "001110" * (NODE_COUNT - 1)
    bits += "0" * (-len(bits) % 8)
    return bytes(int(bits[k:k + 8], 2) for k in range(0, len(bits), 8))


if __name__ == "__main__":
    original, packed_cases, out = sys.argv[1:]
    rng = random.Random(1)
    made = {"lent": [lent_record(*case) for case in lent(rng)], "programs": [*originals(original), *cases(packed_cases), *more_programs()]}
    for name, written in made.items():
        write_parts(f"{out}/{name}", written)
        print(len(written), name, sum(map(len, written)), "bytes", flush=True)
