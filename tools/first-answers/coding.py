# Writing only: bits into bytes, naturals, programs, dossiers, as the requirements lay them out.
# Bits are texts of 0 and 1. Nothing here reads or judges what it writes; programs that have
# to be refused are written by the same functions.

from collections import namedtuple

COMP, CASE, PAIR, DISCONNECT, INJL, INJR, TAKE, DROP = range(8)
IDEN, UNIT, FAIL, DISCONNECT1, WITNESS, HIDDEN, WORD = range(8, 15)

CODES = [
    "00000", "00001", "00010", "00011", "00100", "00101", "00110", "00111",
    "01000", "01001", "01010", "01011", "0111", "0110", "10",
]

# A node: children are indices or None, data the bits of a word, hidden or fail node,
# source and target types of a TypeTable (None where there is no typing).
Node = namedtuple("Node", "kind left right data source target", defaults=(None,) * 5)


# Bits filled into bytes from the top bit; the last byte is filled up with `filler`.
def pack(bits, filler="0"):
    bits += filler * (-len(bits) % 8)
    return bytes(int(bits[i : i + 8], 2) for i in range(0, len(bits), 8))


# All bits of some bytes.
def unpack(data):
    return "".join(f"{byte:08b}" for byte in data)


# Bytes as the oracle and the files write them.
def text(data):
    return data.hex() or "-"


# The code of a natural above 0.
def natural(n):
    if n == 1:
        return "0"
    below = f"{n:b}"[1:]
    return "1" + natural(len(below)) + below


# The bits of the node at an index.
def node_bits(index, node):
    bits = CODES[node.kind]
    if node.kind == WORD:
        bits += natural(len(node.data).bit_length())
    bits += node.data or ""
    for child in (node.left, node.right):
        bits += "" if child is None else natural(index - child)
    return bits


# The bits of a program: the count, then the nodes.
def program_bits(nodes, count=None):
    parts = [node_bits(index, node) for index, node in enumerate(nodes)]
    return natural(count or len(nodes)) + "".join(parts)


# The bytes of a program.
def program(nodes):
    return pack(program_bits(nodes))


# Big-endian bytes of some numbers.
def numbers(size, *values):
    return b"".join(value.to_bytes(size, "big") for value in values)


# Type records in bytes.
def records(table):
    return b"".join(bytes([tag]) + numbers(2, left, right) for tag, left, right in table)


# A dossier of type records, nodes, arrows (pairs of record indices), bits and hashes.
def dossier(table, nodes, arrows, witness, given, hashes):
    code = program(nodes)
    sections = [
        (len(table), records(table)),
        (len(code), code),
        (len(arrows), b"".join(numbers(2, *arrow) for arrow in arrows)),
        (len(witness), pack(witness)),
        (len(given), pack(given)),
        (len(hashes), b"".join(hashes)),
    ]
    header, place = [1], 56
    for count, data in sections:
        header += [count, place]
        place += len(data)
    return numbers(4, *header, place) + b"".join(data for _, data in sections)
