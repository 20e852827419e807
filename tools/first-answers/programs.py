# Programs for the decoder: generated tables of all kinds, special ones for each refusal, and
# damage. Each is a pair of a group's name and bytes.

from coding import (
    CASE, COMP, DISCONNECT, DISCONNECT1, DROP, FAIL, HIDDEN, IDEN, INJL, INJR, PAIR, TAKE, UNIT,
    WITNESS, WORD, Node, natural, node_bits, pack, program, program_bits,
)
from graphs import canonical
from limits import NODE_COUNT

ONE_CHILD = [INJL, INJR, TAKE, DROP, DISCONNECT1]
TWO_CHILDREN = [COMP, CASE, PAIR, DISCONNECT]
UNIT_BITS = node_bits(0, Node(UNIT))


# A leaf of a kind.
def leaf(rng, kind):
    sizes = {WORD: 2 ** rng.below(5), HIDDEN: 256, FAIL: 512}
    return Node(kind, data=rng.bits(sizes[kind]) if kind in sizes else None)


# A node of a kind at an index, its children among the five nodes before.
def inside(rng, kind, index):
    near = max(0, index - 5)
    left, right = (near + rng.below(index - near) for _ in range(2))
    return Node(kind, left, right if kind in TWO_CHILDREN else None)


# n nodes in any order, without regard to types.
def jumbled(rng, n, leaves, insides):
    nodes = [leaf(rng, rng.pick(leaves))]
    while len(nodes) < n:
        kind = rng.pick(leaves + insides + insides)
        nodes.append(inside(rng, kind, len(nodes)) if kind in insides else leaf(rng, kind))
    return nodes


# The same in canonical order, as far as a last pair needs them.
def ordered(rng, n, leaves, insides):
    nodes = jumbled(rng, n, leaves, insides)
    nodes.append(Node(PAIR, n - 1, rng.below(n)))
    return canonical(nodes, n)


# Tables without regard to types, and some that the walk refuses.
def loose(rng):
    plain, odd = [IDEN, UNIT, WITNESS, WORD], [HIDDEN, FAIL]
    rows = [ordered(rng, 3 + k % 50, plain, ONE_CHILD + [PAIR]) for k in range(60)]
    rows += [
        ordered(rng, 3 + k % 9, plain + odd, ONE_CHILD + TWO_CHILDREN) for k in range(200)
    ]
    return rows


# Hidden nodes under every kind, on either side, twice, last, repeated.
def hidden():
    one, two = (Node(HIDDEN, data=bits * 128) for bits in ("01", "10"))
    unit, assertion = Node(UNIT), Node(CASE, 0, 1)
    tables = [
        [one],
        [unit, one],
        [one, Node(CASE, 0, 0)],
        [one, two, assertion],
        [one, one, assertion],
        [one, unit, assertion, one, Node(CASE, 2, 3)],
        [one, unit, assertion, two, Node(CASE, 2, 3)],
        [one, unit, assertion, Node(CASE, 2, 0)],
        [one, unit, assertion, Node(CASE, 0, 2)],
        [one, Node(TAKE, 0), one, Node(PAIR, 1, 2)],
    ]
    tables += [[one, Node(kind, 0)] for kind in ONE_CHILD]
    tables += [[one, unit, Node(kind, 0, 1)] for kind in TWO_CHILDREN]
    tables += [[unit, one, Node(kind, 0, 1)] for kind in TWO_CHILDREN]
    tables += [[one, two, Node(kind, 0, 1)] for kind in (COMP, PAIR, DISCONNECT)]
    return [("hidden", program(nodes)) for nodes in tables]


# Words of every small n, whole behind a node and cut; greater n without all their bits.
def words(rng):
    rows = []
    for n in range(1, 11):
        word = Node(WORD, data=rng.bits(2 ** (n - 1)))
        rows.append(program([Node(UNIT), word, Node(COMP, 0, 1)]))
        rows.append(program([word])[:-1])
    for n in (11, 16, 31, 32, 33, 34, 2**20):
        rows.append(pack(natural(1) + "10" + natural(n) + rng.bits(60)))
    return [("word", data) for data in rows]


# Naturals too long or over a bound: as count, word, distance, first and second distance.
def naturals():
    heads = [
        "",
        natural(1) + "10",
        natural(2) + UNIT_BITS + "00100",
        natural(3) + UNIT_BITS * 2 + "00010",
        natural(3) + UNIT_BITS * 2 + "00010" + natural(1),
        natural(2) + "0111" + "01011",
    ]
    tails = [
        "1" + natural(32), "1" + natural(33) + "0" * 33, natural(2**31), natural(2**32 - 1),
        natural(40), natural(3), "1" * 9,
    ]
    whole = [head + tail + end for head in heads for tail in tails for end in ("", "1" * 40)]
    return [("natural", pack(bits)) for bits in whole]


# Counts around and above the limit of the requirements, most of their nodes missing.
def counts():
    numbers = (NODE_COUNT - 1, NODE_COUNT, NODE_COUNT + 1, 2 * NODE_COUNT + 1, 2**31, 2**32 - 1)
    rests = ("", UNIT_BITS, UNIT_BITS * 8)
    return [("count", pack(natural(n) + rest)) for n in numbers for rest in rests]


# Jets first, later, cut off.
def jets():
    bits = [
        "0" + "11",
        "0" + "11" + "0" * 13,
        natural(2) + UNIT_BITS + "11",
        natural(2) + "00100" + natural(1) + "11",
        natural(3) + UNIT_BITS * 2 + "11" + "1" * 30,
        natural(4) + UNIT_BITS * 3 + "1" * 9,
        natural(6) + UNIT_BITS * 2 + "1",
    ]
    return [("jet", pack(one)) for one in bits]


# A program cut at some bytes, with a byte more, with a last bit of its padding set.
def cut_and_longer(rng, nodes):
    bits, data = program_bits(nodes), program(nodes)
    rows = [("cut", data[: rng.below(len(data))]) for _ in range(2)]
    rows.append(("longer", data + bytes([rng.below(3)])))
    if len(bits) % 8:
        spare = -len(bits) % 8
        rows.append(("padding", pack(bits + f"{1 << rng.below(spare):0{spare}b}")))
    return rows


# A program with one bit turned, and with a count that is one more or less.
def turned(rng, nodes):
    bits = program_bits(nodes)
    rows = []
    for _ in range(4):
        at = rng.below(len(bits))
        rows.append(("turned", pack(bits[:at] + "10"[int(bits[at])] + bits[at + 1 :])))
    counts = (len(nodes) + 1, len(nodes) - 1)
    return rows + [("count off", pack(program_bits(nodes, count))) for count in counts]


# A program with two children swapped, or one child moved, somewhere; its last node has a child.
def miswired(rng, nodes):
    at = rng.pick([k for k, node in enumerate(nodes) if node.left is not None])
    node = nodes[at]
    if node.right is not None and rng.below(2):
        node = node._replace(left=node.right, right=node.left)
    else:
        node = node._replace(left=rng.below(at))
    return "miswired", program(nodes[:at] + [node] + nodes[at + 1 :])


# A program whose hidden nodes all have the first one's hash.
def repeated(nodes):
    first = next(node for node in nodes if node.kind == HIDDEN)
    return "repeated", program([first if node.kind == HIDDEN else node for node in nodes])


# All damage to some tables, each of more than one node.
def damaged(rng, typed, others):
    insides = ONE_CHILD + TWO_CHILDREN
    lists = [cut_and_longer(rng, nodes) + turned(rng, nodes) for nodes in typed[:60]]
    rows = [row for list_ in lists for row in list_]
    rows += [miswired(rng, nodes) for nodes in typed + others]
    rows += [repeated(nodes) for nodes in typed + others if count_of(nodes, HIDDEN) > 1]
    jumble = [jumbled(rng, 2 + k % 20, [IDEN, UNIT, WITNESS], insides) for k in range(40)]
    return rows + [("jumbled", program(nodes)) for nodes in jumble]


# How many nodes of a kind there are.
def count_of(nodes, kind):
    return sum(node.kind == kind for node in nodes)
