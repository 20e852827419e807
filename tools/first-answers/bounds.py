# bounds.tsv: the original's NodeBounds of whole dossiers, drawn at random and made for the
# edges of the requirements' limits.

from asking import field, number
from coding import FAIL, WITNESS, text
from dossiers import assemble, drawn, judged, known, made, small_types, wide_types, widths
from graphs import Graph
from limits import CELL_COUNT, COST_LIMIT, FRAME_COUNT, TYPE_WIDTH
from type_table import TypeTable, UNIT_TYPE

COLUMNS = "name\tcells\tframes\tcost\textra cells\textra frames\twitness nodes\tcells less witnesses\tdossier"
NOTES = [
    "NodeBounds of the last node, as the original gives it: extra cells, extra frames, cost.",
    "cells: source width + target width + extra cells, the widths being the original's.",
    "frames: extra frames + 2. The original's cost stops at 4294967295.",
    "witness nodes: how many; the original counts their widths among the extra cells.",
    "cells less witnesses: the original's cells of the same program with fail nodes for its",
    "witness nodes, since its row for a fail has no cells. Frames are the same. These are the",
    f"cells of a run here: above {CELL_COUNT} they are refused as 14 at 0, else frames above {FRAME_COUNT} as 14",
    f"at 1, else cost above {COST_LIMIT} as 14 at 2.",
    "No two nodes of a program are equal in kind, children, bits and arrow, but witness nodes and",
    "disconnects may be.",
]


# iden at a type, then comp of the last node with itself, k times.
def doubled(graph, type_, k):
    at = graph.iden(type_)
    for _ in range(k):
        at = graph.comp(at, at)
    return at


# Doubled comps at width 0.
def doubling(k):
    graph = Graph(TypeTable())
    return made(f"doubled {k}", graph, doubled(graph, UNIT_TYPE, k))


# A run that fails before doubled comps whose cost could not be run.
def failing(k):
    graph = Graph(TypeTable())
    start = graph.fail(UNIT_TYPE, UNIT_TYPE, "0110" * 128)
    return made(f"fail before doubled {k}", graph, graph.comp(start, doubled(graph, UNIT_TYPE, k)))


# comp of the last node with node 0 on the right, some times over.
def nesting(depth, width):
    graph = Graph(TypeTable())
    first = at = graph.iden(graph.types.of_width(width) if width else UNIT_TYPE)
    for _ in range(depth):
        at = graph.comp(at, first)
    return made(f"nested {depth}, width {width}", graph, at, "1" * width)


# A chain of comps through a type of the largest width, and a target of some width.
def wide_chain(depth, target_width):
    graph = Graph(TypeTable())
    types = graph.types
    wide = types.padded(TYPE_WIDTH)
    at = graph.injl(graph.unit(), types.parts[wide][2])
    for _ in range(depth - 1):
        at = graph.comp(at, graph.iden(wide))
    last = graph.unit(wide)
    if target_width:
        last = graph.injl(last, types.parts[types.padded(target_width)][2])
    return made(f"{depth} wide frames, target {target_width}", graph, graph.comp(at, last))


# A program from unit to unit of just the given cost: doubled parts, and a frame of the width
# that is still missing.
def costing(total):
    graph = Graph(TypeTable())
    parts, left = [], total
    for k in range(17, -1, -1):
        price = 100 * (2 ** (k + 1) - 1) + 100
        while left - price >= 401 and left > 30000:
            parts.append(doubled(graph, UNIT_TYPE, k))
            left -= price
    wide = graph.types.padded(left - 400)
    start = graph.injl(graph.unit(), graph.types.parts[wide][2])
    at = graph.comp(start, graph.unit(wide))
    for part in parts:
        at = graph.comp(part, at)
    return made(f"cost {total}", graph, at)


# Witness nodes of some width, alone, under pair and under comp.
def witnesses(width):
    graph = Graph(TypeTable())
    types = graph.types
    type_ = types.padded(width) if width else UNIT_TYPE
    one = graph.witness(types.bit, type_)
    two = graph.pair(one, graph.witness(types.bit, types.bit))
    last = graph.comp(two, graph.take(graph.iden(type_), types.bit))
    return [made(f"witness of width {width}", graph, root, "0") for root in (one, two, last)]


# Disconnects whose right children are disconnects.
def right_disconnects(depth):
    graph = Graph(TypeTable())
    types = graph.types
    handed = types.product(types.power(8), types.bit)
    at = graph.iden(types.bit)
    for _ in range(depth):
        at = graph.disconnect(graph.iden(handed), at)
    return made(f"disconnect on the right {depth}", graph, at, "1")


# Disconnects whose left children are disconnects.
def left_disconnects(depth):
    graph = Graph(TypeTable())
    source = graph.types.bit
    for _ in range(depth):
        source = graph.types.product(graph.types.power(8), source)
    at = graph.pair(graph.unit(source), graph.unit(source))
    for _ in range(depth):
        at = graph.disconnect(at, graph.unit())
    return made(f"disconnect on the left {depth}", graph, at, "0")


# All programs made for a purpose.
def purposes():
    rows = known() + [doubling(k) for k in (1, 2, 3, 7, 12, 16, 17, 18)]
    rows += [failing(k) for k in (24, 25, 40)]
    rows += [nesting(*size) for size in ((1, 1), (5, 1), (30, 3), (100, 0), (400, 0))]
    rows += [wide_chain(*size) for size in ((3, 0), (8, 0), (8, 1), (9, 0))]
    rows += [costing(COST_LIMIT + step) for step in (-1, 0, 1)]
    rows += [row for width in (0, 1, 9, 100, 1000) for row in witnesses(width)]
    rows += [right_disconnects(depth) for depth in (1, 2, 3, 4)]
    return rows + [left_disconnects(depth) for depth in (1, 2, 3, 4)]


# Programs drawn at random.
def random_ones(rng):
    rows = [drawn(f"random {k}", rng, small_types, 5, 8, 60) for k in range(80)]
    return rows + [drawn(f"random wide {k}", rng, wide_types, 4, 5, 40) for k in range(50)]


# The same program with fail nodes for its witness nodes, no two of them equal.
def without_witnesses(typed):
    nodes = [
        node._replace(kind=FAIL, data=f"{at:0512b}") if node.kind == WITNESS else node
        for at, node in enumerate(typed.nodes)
    ]
    return typed._replace(nodes=nodes)


# One row of a dossier, its answer, the answer to it without witnesses, and its widths.
def row(whole, answer, bare, source, target):
    extra = number(answer, "extra_cells")
    frames = number(answer, "extra_frames")
    less = number(bare, "extra_cells")
    assert number(bare, "extra_frames") == frames, "a witness has no frame"
    assert less <= extra and (whole.witnesses or less == extra), "a fail node has no cells"
    cells = source + target + extra
    held = len(field(answer, "cells")) // 2
    assert held == (cells + 7) // 8, "the machine's cells are others than its bounds say"
    cost = number(answer, "cost")
    numbers = cells, frames + 2, cost, extra, frames, whole.witnesses, source + target + less
    return whole.name, *numbers, text(whole.data)


# All rows.
def rows(oracle, rng):
    programs = purposes() + random_ones(rng)
    wholes = assemble(oracle, programs, rng)
    answers = judged(oracle, wholes)
    sizes = widths(oracle, wholes)
    bare = judged(oracle, assemble(oracle, list(map(without_witnesses, programs)), rng))
    asked = zip(wholes, answers, bare, sizes)
    return [row(whole, answer, other, *size) for whole, answer, other, size in asked]
