# Whole dossiers: well-typed programs with an input, witness bits and hashes, and what the
# original says about them. Shared by bounds.tsv and outputs.tsv.

from collections import namedtuple

import coding
from asking import number
from coding import DISCONNECT, WITNESS, text
from graphs import Graph, Grower, canonical
from limits import TYPE_WIDTH
from type_table import TypeTable, UNIT_TYPE, records_for

# A program with its types and the compact bits of its input.
Typed = namedtuple("Typed", "name types nodes given")

# A dossier with the type records, the last node's arrow in them, and the witness nodes' number.
Whole = namedtuple("Whole", "name data table source target witnesses")

WEIGHTS = {
    "to_iden": 6, "to_unit": 6, "by_comp": 8, "by_take": 6, "by_drop": 6, "by_case": 10,
    "by_assertion": 3, "by_witness": 2, "by_fail": 1, "by_disconnect": 2,
}


# Small types with and without padding, some of them sources of a case.
def small_types(types):
    bit, two = types.bit, types.power(1)
    maybe = types.sum(UNIT_TYPE, bit)
    uneven = types.sum(two, bit)
    return [
        UNIT_TYPE, bit, two, maybe, uneven, types.power(2), types.product(bit, UNIT_TYPE),
        types.product(maybe, bit), types.product(uneven, two), types.product(UNIT_TYPE, maybe),
        types.product(bit, maybe), types.product(types.sum(types.power(2), UNIT_TYPE), bit),
        types.product(bit, bit), types.sum(uneven, UNIT_TYPE),
    ]


# Small types and wider ones.
def wide_types(types):
    byte, long = types.power(3), types.power(6)
    maybe = types.sum(UNIT_TYPE, byte)
    return small_types(types) + [
        byte, long, maybe, types.product(maybe, long), types.product(byte, maybe),
        types.product(types.sum(long, byte), maybe), types.sum(types.power(7), types.bit),
    ]


# A program drawn at random, of `low` to `high` nodes.
def drawn(name, rng, pool_of, depth, low, high, weights=WEIGHTS):
    while True:
        types = TypeTable()
        pool = pool_of(types)
        graph = Grower(types, rng, pool, weights)
        source, target = (types.draw(rng, 2, pool) for _ in range(2))
        root = graph.grow(source, target, depth)
        nodes = canonical(graph.nodes, root)
        if low <= len(nodes) <= high:
            return Typed(name, types, nodes, types.value(source, rng))


# A program put together by hand: its last node and the compact bits of its input.
def made(name, graph, root, given=""):
    return Typed(name, graph.types, canonical(graph.nodes, root), given)


# Known runs of the requirements.
def known():
    rows = []
    graph = Graph(TypeTable())
    bit, unit, iden = graph.types.bit, graph.unit(), graph.iden(UNIT_TYPE)
    rows.append(made("unit", graph, unit))
    rows += [made("iden on a bit", graph, graph.iden(bit), given) for given in "01"]
    rows.append(made("comp of unit and iden", graph, graph.comp(unit, iden)))
    rows.append(made("injl of unit", graph, graph.injl(unit, bit)))
    return rows


# The dossier of a program; its hashes are the original's roots of the right children.
def assembled(typed, roots, rng):
    types, nodes = typed.types, typed.nodes
    table, index = records_for(types, [t for node in nodes for t in (node.source, node.target)])
    arrows = [(index[node.source], index[node.target]) for node in nodes]
    witness = "".join(types.value(node.target, rng) for node in nodes if node.kind == WITNESS)
    hashes = [bytes.fromhex(roots[node.right]) for node in nodes if node.kind == DISCONNECT]
    data = coding.dossier(table, nodes, arrows, witness, typed.given, hashes)
    witnesses = sum(node.kind == WITNESS for node in nodes)
    return Whole(typed.name, data, table, *arrows[-1], witnesses)


# The dossiers of some programs.
def assemble(oracle, programs, rng):
    answers = oracle.ask([f"roots {text(coding.program(typed.nodes))}" for typed in programs])
    for answer in answers:
        assert answer.startswith("ok "), answer
    return [
        assembled(typed, answer.split()[1:], rng) for typed, answer in zip(programs, answers)
    ]


# The original's widths of source and target, of each dossier.
def widths(oracle, wholes):
    zeros = text(bytes(TYPE_WIDTH // 8))
    asked = [
        f"value {text(coding.records(whole.table))} {side} {TYPE_WIDTH} {zeros}"
        for whole in wholes
        for side in (whole.source, whole.target)
    ]
    found = [number(answer, "width") for answer in oracle.ask(asked)]
    return list(zip(found[::2], found[1::2]))


# What the original answers each dossier, cells beforehand as given for each (zeros if none).
def judged(oracle, wholes, olds=None):
    olds = olds or [""] * len(wholes)
    asked = [f"dossier {text(whole.data)} {old}".rstrip() for whole, old in zip(wholes, olds)]
    answers = oracle.ask(asked)
    for whole, answer in zip(wholes, answers):
        fine = answer.startswith(("value ", "refused 18 ", "refused 19 "))
        assert fine, f"{whole.name}: {answer}"
    return answers
