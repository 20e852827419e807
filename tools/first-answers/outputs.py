# outputs.tsv: what the original's machine does with whole dossiers: output or refusal, and the
# cells it leaves where they held zeros or ones before.

from asking import field, number
from coding import text
from dossiers import WEIGHTS, assemble, drawn, judged, known, made, small_types, wide_types
from graphs import Graph
from type_table import TypeTable, UNIT_TYPE

MOST_CELL_BYTES = 40
ASSERTING = WEIGHTS | {"by_assertion": 20, "by_disconnect": 0}
COLUMNS = "name\tanswer\tvisits\tcells from zeros\tcells from ones\tdossier"
NOTES = [
    "answer: as the requirements print it; a refusal's number is the original's, its place the",
    "driver's.",
    "visits: as the original reports them, so without the one that ends in 18 or 19.",
    "cells: hex of all the machine's cells after the run, where they held zeros (or ones) before;",
    "- for no cells at all, * where they are more than 40 bytes and left out.",
    "No two nodes of a program are equal in kind, children, bits and arrow, but witness nodes and",
    "disconnects may be.",
]


# case and both assertions, on an input for the left and one for the right; the parts of the
# choice have unlike widths.
def choices():
    graph = Graph(TypeTable())
    types = graph.types
    left, right, rest = types.power(1), types.bit, types.sum(UNIT_TYPE, types.bit)
    source = types.product(types.sum(left, right), rest)
    bit = graph.take(graph.iden(right), rest)
    first = graph.injl(graph.take(graph.iden(left), rest), types.power(2))
    second = graph.injl(graph.pair(bit, bit), types.power(2))
    hidden = graph.hidden("0011" * 64)
    roots = [
        ("case", graph.case(source, first, second)),
        ("assertl", graph.case(source, first, hidden)),
        ("assertr", graph.case(source, hidden, second)),
    ]
    inputs = [("left", "010" + "11"), ("right", "11" + "0")]
    return [
        made(f"{name} {side}", graph, root, given) for name, root in roots for side, given in inputs
    ]


# One program for each other kind, that kind last.
def kinds():
    graph = Graph(TypeTable())
    types = graph.types
    bit, nibble, maybe = types.bit, types.power(2), types.sum(UNIT_TYPE, types.bit)
    iden = graph.iden(maybe)
    both = graph.pair(iden, graph.unit(maybe))
    handed = graph.iden(types.product(types.power(8), bit))
    padded = types.product(maybe, types.sum(types.power(3), bit))
    roots = [
        ("iden", iden, "11"),
        ("iden with padding", iden, "0"),
        ("unit", graph.unit(maybe), "10"),
        ("injl", graph.injl(iden, nibble), "10"),
        ("injr", graph.injr(iden, nibble), "0"),
        ("take", graph.take(iden, bit), "110"),
        ("drop", graph.drop(iden, bit), "010"),
        ("pair", both, "11"),
        ("comp", graph.comp(both, graph.take(iden, UNIT_TYPE)), "10"),
        ("comp of width 0", graph.comp(graph.unit(bit), graph.iden(UNIT_TYPE)), "1"),
        ("witness", graph.witness(bit, padded), "1"),
        ("disconnect", graph.disconnect(handed, graph.unit(bit)), "1"),
        ("fail", graph.fail(bit, maybe, "01" * 256), "0"),
    ]
    digits = "1101001010010110" * 4
    roots += [(f"word {n + 1}", graph.word(digits[: 2**n]), "") for n in range(7)]
    return [made(name, graph, root, given) for name, root, given in roots]


# A frame pushed over cells that an earlier one left: its padding shows them, iden copies them.
def reused(width):
    graph = Graph(TypeTable())
    types = graph.types
    plain, other = types.of_width(width), types.of_width(width - 1)
    first = graph.comp(graph.iden(plain), graph.unit(plain))
    start = graph.injl(graph.unit(plain), other)
    second = graph.comp(start, graph.iden(types.sum(UNIT_TYPE, other)))
    given = ("10" * width)[:width]
    return [
        made(f"frame used again {width}", graph, graph.pair(first, second), given),
        made(f"frame used first {width}", graph, graph.pair(second, first), given),
    ]


# Left before right: which of two refusals comes, and what is written before it.
def stops():
    graph = Graph(TypeTable())
    types = graph.types
    maybe = types.sum(UNIT_TYPE, types.bit)
    source = types.product(types.bit, UNIT_TYPE)
    branch = types.product(UNIT_TYPE, UNIT_TYPE)
    fail, other = (graph.fail(source, maybe, bit * 512) for bit in "10")
    value = graph.injr(graph.take(graph.iden(types.bit), UNIT_TYPE), UNIT_TYPE)
    pruned = graph.case(source, graph.hidden("1" * 256), graph.fail(branch, maybe, "10" * 256))
    first = graph.take(graph.iden(maybe), maybe)
    roots = [
        ("fail before fail", graph.pair(fail, other)),
        ("fail after a value", graph.pair(value, fail)),
        ("fail before a pruned branch", graph.pair(fail, pruned)),
        ("a pruned branch before fail", graph.pair(pruned, fail)),
        ("fail in the frame of comp", graph.comp(graph.pair(value, fail), first)),
        ("a pruned branch on the right", graph.pair(value, graph.pair(value, pruned))),
    ]
    return [made(name, graph, root, "0") for name, root in roots]


# What is drawn: name, types, depth, most nodes, weights, draws, quotas for value, 18 and 19.
DRAWS = [
    ("random", small_types, 4, 22, WEIGHTS, 200, (110, 16, 8)),
    ("wide", wide_types, 3, 16, WEIGHTS, 120, (36, 5, 3)),
    ("assertions", small_types, 4, 16, ASSERTING, 120, (20, 2, 16)),
]


# Programs drawn at random, each outcome up to its quota.
def random_ones(oracle, rng):
    kept = []
    for name, types, depth, most, weights, count, quota in DRAWS:
        programs = [
            drawn(f"{name} {k}", rng, types, depth, 4, most, weights) for k in range(count)
        ]
        wholes = assemble(oracle, programs, rng)
        kept += chosen(wholes, judged(oracle, wholes), list(quota))
    return kept


# The dossiers of two or more visits, until the quota of their outcome is used up.
def chosen(wholes, answers, left):
    kept = []
    for whole, answer in zip(wholes, answers):
        outcome = ("value", "refused 18", "refused 19").index(ending(answer))
        if number(answer, "visits") >= 2 and left[outcome]:
            left[outcome] -= 1
            kept.append(whole)
    return kept


# How a run ended: value, refused 18 or refused 19.
def ending(answer):
    words = answer.split()
    return "value" if words[0] == "value" else " ".join(words[:2])


# The cells column.
def cells(answer):
    held = field(answer, "cells")
    return "*" if len(held) > 2 * MOST_CELL_BYTES else held or "-"


# One row of a dossier and its answers from old zeros and old ones.
def row(whole, zero, one):
    assert zero.split(" cells=")[0] == one.split(" cells=")[0], "old cells show in an answer"
    answer = zero.split(" extra_cells=")[0]
    return whole.name, answer, number(zero, "visits"), cells(zero), cells(one), text(whole.data)


# All rows.
def rows(oracle, rng):
    programs = known() + kinds() + choices() + stops()
    programs += [row for width in (2, 5, 9, 20) for row in reused(width)]
    wholes = assemble(oracle, programs, rng) + random_ones(oracle, rng)
    zeros = judged(oracle, wholes)
    ones = judged(oracle, wholes, ["f" * len(field(answer, "cells")) for answer in zeros])
    return [row(*entry) for entry in zip(wholes, zeros, ones)]
