# tables.tsv: the original's decoder on programs whole and damaged: the table it reads, or the
# kind of its error and, for errors while nodes are read, the node.

import programs
from asking import number
from coding import FAIL, HIDDEN, WORD, natural, numbers, pack, program, text, unpack
from dossiers import drawn, small_types
from limits import NODE_COUNT

COLUMNS = "group\tmark\tanswer\tplace\terror\tbits\tprogram\ttable\thashes"
NOTES = [
    "decode_expression of the original, then close. The mark says how to compare a row:",
    "  all    answer; place where it is given; table and hashes where the answer is 0.",
    "  jet    as all, but the shim's empty jet family gives the 5; the crate would read on.",
    "  type   the original met a type error in its walk, where the requirements have none: all that is",
    "         known of the requirements' answer is that it is not 3, 4, 5 or 21.",
    f"  count  the count is above {NODE_COUNT}, which the original allows. By their own limit the requirements",
    "         refuse it with 4 at place 0.",
    "answer: 0 accepted, else the requirements' number for the original's error; - for a type error.",
    "place: of 3, 4, 5 and 21; - elsewhere. error: the original's name for it. bits: read at the end.",
    "program: hex, - for none. table: kind,number,number of each node's record, blanks between:",
    "children; a word's n and first bit position; a hash position. A record's fourth number is 0.",
    "hashes: the hash store in hex, - for none.",
]


# Answers of `decode` and `place` for some programs.
def asked(oracle, found):
    answers = oracle.ask([f"decode {text(data)}" for data in found])
    places = oracle.ask([f"place {text(data)}" for data in found])
    return list(zip(answers, places))


# All two-byte programs that are accepted; the first and the last of each kind of refusal.
def two_bytes(oracle):
    every = [numbers(2, n) for n in range(65536)]
    kept, refusals = [], {}
    for data, (answer, place) in zip(every, asked(oracle, every)):
        if answer.startswith("ok"):
            kept.append(data)
        else:
            refusals.setdefault(answer + place, []).append(data)
    kept += [data for alike in refusals.values() for data in (alike[0], alike[-1])]
    return [("two bytes", data) for data in sorted(set(kept))]


# Programs until the quota of their group and answer is used up; each program once.
def chosen(oracle, candidates, quota):
    answers = asked(oracle, [data for _, data in candidates])
    used, kept = {}, []
    for entry, (answer, _) in zip(candidates, answers):
        sort = "ok" if answer.startswith("ok") else answer.split(" bits=")[0]
        count = used.get((entry[0], sort), 0)
        if count < quota and entry not in kept:
            used[entry[0], sort] = count + 1
            kept.append(entry)
    return kept


# Generated programs and damaged ones.
def generated(oracle, rng):
    typed = [drawn("", rng, small_types, 3 + k % 4, 2, 60).nodes for k in range(100)]
    typed += [drawn("", rng, small_types, 6, 45, 60).nodes for _ in range(12)]
    others = programs.loose(rng)
    damage = programs.damaged(rng, typed, others)
    kept = [("typed", program(nodes)) for nodes in typed]
    kept += chosen(oracle, [("loose", program(nodes)) for nodes in others], 16)
    return kept + chosen(oracle, damage, 8)


# The position of a word's first bit: the bits that the original reads up to and with its node,
# less the word's own. It is asked for a program that ends with that node.
def word_position(oracle, data, index, word):
    bits = unpack(data)
    count_bits = number(oracle.ask([f"nat - {text(data)}"])[0], "bits")
    count = natural(index + 1)
    answer = oracle.ask([f"decode {text(pack(count + bits[count_bits:]))}"])[0]
    place = number(answer, "bits") - len(count) + count_bits - len(word)
    assert bits[place : place + len(word)] == word, "not the word's bits"
    return place


# The requirements' records and hash store of an accepted program.
def table(oracle, data, answer):
    records, store = [], ""
    for index, entry in enumerate(answer.split()[3:]):
        kind, *rest = entry.split(":")
        if int(kind) == WORD:
            rest = [rest[0], word_position(oracle, data, index, rest[1])]
        elif int(kind) in (HIDDEN, FAIL):
            rest, store = [len(store) // 2], store + rest[0]
        first, second = [*rest, 0, 0][:2]
        records.append(f"{kind},{first},{second}")
    return " ".join(records), store or "-"


# The mark of a refused program.
def mark(oracle, data, no):
    if no == "0":
        return "type"
    count = oracle.ask([f"nat - {text(data)}"])[0].split()
    if count[0] == "ok" and int(count[1]) > NODE_COUNT:
        return "count"
    return "jet" if no == "5" else "all"


# One row.
def row(oracle, group, data, answer, place):
    bits = number(answer, "bits")
    if answer.startswith("ok"):
        return group, "all", 0, "-", "-", bits, text(data), *table(oracle, data, answer)
    no, error = answer.split()[1:3]
    where = "-" if place == "none" else place.split()[1]
    shown = "-" if no == "0" else no
    return group, mark(oracle, data, no), shown, where, error, bits, text(data), "-", "-"


# Each program once, in the group that has it first.
def once(found):
    groups = {}
    for group, data in found:
        groups.setdefault(data, group)
    return [(group, data) for data, group in groups.items()]


# All rows.
def rows(oracle, rng):
    found = [("empty", b"")] + [("one byte", bytes([n])) for n in range(256)]
    found += two_bytes(oracle) + programs.hidden() + programs.words(rng) + programs.jets()
    found += programs.counts() + chosen(oracle, programs.naturals(), 14) + generated(oracle, rng)
    found = once(found)
    answers = asked(oracle, [data for _, data in found])
    return [row(oracle, *entry, *answer) for entry, answer in zip(found, answers)]
