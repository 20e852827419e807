# make_known.py OUT: writes two lists into the folder OUT: `known`, the known runs of the requirements that are not proved and a unit doubled many times
# at each place of a run, and `lengths`, runs in stores of length 0 or of odd lengths. Answers, bounds and stores are written down here as the document
# says them.
import os
import sys

TOOLS = os.path.join(os.path.dirname(os.path.abspath(__file__)), "..", "..", "tools")
sys.path[:0] = [TOOLS, os.path.join(TOOLS, "first-answers")]

import limits  # noqa: E402
from coding import COMP, DISCONNECT, DROP, IDEN, INJL, PAIR, TAKE, UNIT, WITNESS, Node, dossier, natural, pack  # noqa: E402
from pack_cases import NO_BOUNDS, answer, bounds, lent, plain  # noqa: E402
from parts import short_number, write_parts  # noqa: E402

UNIT_RECORD, BIT = (0, 0, 0), (1, 0, 0)
SHORT = "00000001000000030000003800000002000000470000000200000049000000000000005100000000000000510000000000000051" \
    "00000051000000000001000000000100000001892000000000" "00000002"


# A known run: an answer line and its bounds.
def run(name, line, column, data):
    said, output = answer(line)
    return plain(name, said, bounds(column) if column else NO_BOUNDS, output, data)


# A table that doubles its last record until it has so many.
def doubled(table, count):
    table = [*table]
    while len(table) < count:
        table.append((2, len(table) - 1, len(table) - 1))
    return table


def nodes_at_unit(nodes):
    return dossier([UNIT_RECORD], nodes, [(0, 0)] * len(nodes), "", "", [])


def doubled_comps(n):
    return nodes_at_unit([Node(IDEN)] + [Node(COMP, i, i) for i in range(n)])


def nested_comps(n):
    return nodes_at_unit([Node(IDEN)] + [Node(COMP, i, 0) for i in range(n)])


# The most nodes, all but one of them below each other: chains of takes, as long as there are types for them; where they end, a witness of the largest type,
# which takes no bits, feeds the chain below.
def most_nodes():
    top = limits.TYPE_COUNT - 1
    table = [UNIT_RECORD] + [(2, k, 0) for k in range(top)]
    nodes, arrows = [Node(WITNESS), Node(IDEN)], [(0, top), (0, 0)]
    while len(nodes) < limits.NODE_COUNT:
        below, source = len(nodes) - 1, arrows[-1][0]
        nodes.append(Node(COMP, 0, below) if source == top else Node(TAKE, below))
        arrows.append((0 if source == top else source + 1, 0))
    return dossier(table, nodes, arrows, "", "", [])


def program_alone(bits):
    whole = nodes_at_unit([Node(UNIT)])
    code = pack(bits)
    numbers = [1, 1, 56, len(code), 61] + [1, 61 + len(code)] + [0, 65 + len(code)] * 3 + [65 + len(code)]
    return b"".join(n.to_bytes(4, "big") for n in numbers) + whole[56:61] + code + bytes(4)


def from_the_document():
    short = bytes.fromhex(SHORT)
    bit = Node(UNIT), Node(INJL, 0)
    if dossier([UNIT_RECORD, BIT, (1, 0, 1)], bit, [(0, 0), (0, 2)], "", "", []) != short:
        raise ValueError("the dossier of 81 bytes")
    yield run("dossier of 81 bytes", "value 1 0", "cells 2 frames 2 cost 200", short)
    yield run("count 4,096", "value 0", "cells 0 frames 5 cost 409800", most_nodes())
    for count, line in ((2049, "refused 3 0"), (4096, "refused 3 0"), (4097, "refused 4 0")):
        yield run(f"count {count:,} and no node", line, "", program_alone(natural(count)))
    for count, line in ((17, "value 0"), (18, "refused 2 17")):
        yield run(f"bit doubled to record {count - 1}", line, "", dossier(doubled([UNIT_RECORD, BIT], count), [Node(UNIT)], [(0, 0)], "", "", []))
    yield run("17 doubled comps", "value 0", "cells 0 frames 19 cost 26214300", doubled_comps(17))
    yield run("18 doubled comps", "refused 14 2", "refused 14 2", doubled_comps(18))
    yield run("1,022 nested comps", "value 0", "cells 0 frames 1024 cost 204500", nested_comps(1022))
    yield run("1,023 nested comps", "refused 14 1", "refused 14 1", nested_comps(1023))


# A unit doubled through all records, or through all that the other types of the program leave.
def unit_doubled():
    table, top = doubled([UNIT_RECORD], limits.TYPE_COUNT), limits.TYPE_COUNT - 1
    no_bits = "cells 0 frames 2 cost 100"
    for name, node, source, target in (("iden", Node(IDEN), top, top), ("input", Node(UNIT), top, 0), ("witness and output", Node(WITNESS), 0, top)):
        yield run("unit doubled: " + name, "value 0", no_bits, dossier(table, [node], [(source, target)], "", "", []))
    comp = [Node(WITNESS), Node(UNIT), Node(COMP, 0, 1)]
    yield run("unit doubled: middle of a comp", "value 0", "cells 0 frames 3 cost 300", dossier(table, comp, [(0, top), (top, 0), (0, 0)], "", "", []))
    halves = [Node(IDEN), Node(TAKE, 0), Node(DROP, 0), Node(PAIR, 1, 2)]
    arrows = [(top - 1, top - 1), (top, top - 1), (top, top - 1), (top, top)]
    yield run("unit doubled: parts of a pair", "value 0", "cells 0 frames 2 cost 500", dossier(table, halves, arrows, "", "", []))
    table = doubled(doubled([UNIT_RECORD, BIT], 10) + [(2, 0, 0)], 1022)
    top = 1021
    table += [(2, 9, top), (2, top, top)]
    disconnect = [Node(IDEN), Node(DROP, 0), Node(PAIR, 1, 1), Node(DISCONNECT, 2, 0)]
    arrows = [(top, top), (1022, top), (1022, 1023), (top, 1023)]
    yield run("unit doubled: parts of a disconnect", "value 0", "cells 256 frames 4 cost 1212", dossier(table, disconnect, arrows, "", "", [bytes(range(32))]))


# A unit's dossier in small stores: node numbers and frame numbers lent, answer, and what both stores hold afterwards, old numbers being all ones.
def short_stores():
    old = (1 << 32) - 1
    unit, none = [9, 0, 0, 0], [0, 0, 0, 0]
    rows = [
        (0, 0, "refused 17 3", [], []),
        (3, 6, "refused 17 3", none[:3], [old] * 6),
        (4, 6, "value 0", unit, [0] * 6),
        (7, 8, "value 0", unit + none[:3], [0] * 6 + [old] * 2),
        (5, 5, "refused 17 1", unit + none[:1], [old] * 5),
        (6, 0, "refused 17 1", unit + none[:2], []),
        (8, 7, "value 0", unit + none, [0] * 6 + [old]),
    ]
    for node_numbers, frame_numbers, line, nodes, frames in rows:
        stores = [b"".join(map(short_number, nodes)), b"", b"", b"".join(map(short_number, frames)), b""]
        name = f"unit in {node_numbers} and {frame_numbers} numbers"
        yield lent(name, answer(line)[0], 255, [node_numbers, 0, 0, frame_numbers, 0], b"", nodes_at_unit([Node(UNIT)]), stores)


if __name__ == "__main__":
    for name, made in (("known", [*from_the_document(), *unit_doubled()]), ("lengths", [*short_stores()])):
        write_parts(f"{sys.argv[1]}/{name}", made)
        print(len(made), name, sum(map(len, made)), "bytes")
