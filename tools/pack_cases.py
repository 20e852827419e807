# Packs dossiers with known answers for crate replay_test. vectors/cases/README.md says what stands in a record. The same bytes come out each time.
#
#   pack_cases.py                        all test data of the crate, from vectors/cases, vectors/original and its make_known.py
#   pack_cases.py cases CASES OUT        edges.tsv, random.tsv and stores.tsv of the folder CASES, packed into the folder OUT
#   pack_cases.py original ORIGINAL OUT  bounds.tsv and outputs.tsv of the folder vectors/original
#
# A table may be compressed (edges.tsv.xz).
import lzma
import os
import subprocess
import sys

import limits
from limits import LARGEST
from parts import record, short_number, write_parts

NOT_TOLD = 255
NO_ANSWER, NO_BOUNDS = [NOT_TOLD, 0], [NOT_TOLD, 0, 0, 0]
OLD, NO_STORES = 165, [b""] * 5
LIMITS = (limits.CELL_COUNT, limits.FRAME_COUNT, limits.COST_LIMIT)


def rows(path):
    opened = open(path, encoding="utf8") if os.path.isfile(path) else lzma.open(path + ".xz", "rt", encoding="utf8")
    with opened as table:
        return [line.rstrip("\n").split("\t") for line in table if not line.startswith("#")]


def from_hex(text):
    return b"" if text in ("", "-") else bytes.fromhex(text)


# A store of numbers, 8 hex digits each.
def number_list(text):
    data = from_hex(text)
    return b"".join(short_number(int.from_bytes(data[i:i + 4], "big")) for i in range(0, len(data), 4))


def packed_bits(bits):
    bits += "0" * (-len(bits) % 8)
    return bytes(int(bits[i:i + 8], 2) for i in range(0, len(bits), 8))


# The two numbers of an answer line, and its output.
def answer(line):
    word, *rest = line.split()
    if word == "refused":
        return [int(rest[0]), int(rest[1])], b""
    return [0, int(rest[0])], packed_bits("".join(rest[1:]))


# The four numbers of a column of bounds.
def bounds(column):
    words = column.split()
    if words[0] == "refused":
        return [int(words[1]), int(words[2]), 0, 0]
    return [0, int(words[1]), int(words[3]), int(words[5])]


# A case with its answer and bounds, in the largest stores.
def plain(name, said, bound, output, dossier):
    return record(said + bound + [OLD] + LARGEST, [name.encode(), dossier, output] + NO_STORES)


# A case in lent stores: their old contents, their sizes and what is told of them afterwards.
def lent(name, said, fill, sizes, output, dossier, stores):
    return record(said + NO_BOUNDS + [fill] + sizes, [name.encode(), dossier, output] + stores)


def edge(row):
    name, line, column, dossier = row
    said, output = answer(line)
    bound = bounds(column)
    if bound[0] and bound[:2] != said:
        raise ValueError(name + ": a refusal up to 14 is the answer, too")
    return [plain(name, said, bound, output, from_hex(dossier))]


def with_stores(row):
    name, sizes, line, nodes, hashes, cells, frames, left, dossier = row
    node_records, hash_bytes, cell_bytes, frame_records, answer_bytes, fill = map(int, sizes.split())
    said, output = answer(line)
    stores = [number_list(nodes), from_hex(hashes), from_hex(cells), number_list(frames), from_hex(left)]
    lent_sizes = [limits.NODE_NUMBERS * node_records, hash_bytes, cell_bytes, limits.FRAME_NUMBERS * frame_records, answer_bytes]
    return [lent(name, said, fill, lent_sizes, output, from_hex(dossier), stores)]


# A run of the original, once from zeros and once from ones where it tells the cells.
def output(row):
    name, line, _, zeros, ones, dossier = row
    said, bits = answer(line)
    if zeros == "*":
        return [lent(name, said, OLD, LARGEST, bits, from_hex(dossier), NO_STORES)]
    made = []
    for fill, cells in ((0, from_hex(zeros)), (255, from_hex(ones))):
        sizes = LARGEST[:2] + [len(cells)] + LARGEST[3:]
        made.append(lent(name, said, fill, sizes, bits, from_hex(dossier), [b"", b"", cells, b"", b""]))
    return made


# The original's bounds of a dossier, or the first limit that one of them is over. Its column `cells` counts a witness's width;
# here a witness takes no cells (docs/DIFFERENCES.md), so the cells are those of its column `cells less witnesses`.
def bound(row):
    name, _, frames, cost, _, _, _, cells, dossier = row
    found = [int(cells), int(frames), int(cost)]
    over = [place for place in range(3) if found[place] > LIMITS[place]]
    if over:
        return [plain(name, [14, over[0]], [14, over[0], 0, 0], b"", from_hex(dossier))]
    return [plain(name, NO_ANSWER, [0] + found, b"", from_hex(dossier))]


FILES = {
    "cases": (("edges", edge), ("random", edge), ("stores", with_stores)),
    "original": (("bounds", bound), ("outputs", output)),
}


def main(kind, source, out):
    for name, packed in FILES[kind]:
        made = [one for row in rows(f"{source}/{name}.tsv") for one in packed(row)]
        write_parts(f"{out}/{name}", made)
        print(len(made), name, sum(map(len, made)), "bytes")


def everything():
    root = os.path.dirname(os.path.dirname(os.path.abspath(__file__)))
    crate = f"{root}/crates/replay_test"
    main("cases", f"{root}/vectors/cases", f"{crate}/data")
    main("original", f"{root}/vectors/original", f"{crate}/data")
    subprocess.run([sys.executable, f"{crate}/make_known.py", f"{crate}/data"], check=True)


if __name__ == "__main__":
    main(*sys.argv[1:]) if sys.argv[1:] else everything()
