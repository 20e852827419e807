#!/usr/bin/env python3
"""Writes dossier files from readable text.

    python3 tools/assemble.py FILE.txt ..            writes FILE.dossier beside each FILE.txt
    python3 tools/assemble.py --check FILE.txt ..    writes nothing: each FILE.dossier has to hold what its text says, and where
                                                     crates/drevaloci/out/drevaloci is built it has to print the line after `prints`

A text has one thing a line; `#` starts a comment. Indices count from 0 and are there for the reader: a wrong one is an error.

    type 0 = unit                    type 1 = 0 + 0                  type 2 = 1 x 0
    node 0 = unit : 0 -> 0           node 1 = injl 0 : 0 -> 1        node 2 = pair 0 1 : 0 -> 2
    node 3 = word 0110 : 0 -> 4      node 4 = hidden 5A*32 : 0 -> 0  node 5 = fail 00*64 : 0 -> 0
    witness = 1 01                   input = 1                       hash 0 = 3C*32
    prints value 0

After the colon stands a node's arrow, source -> target, as indices of types. Children are indices of nodes. Bits may have spaces between
them, and a word's bits are 1, 2, 4, 8 and so on of them. Bytes are hex digits, or one byte and how often it stands.
The assembler judges nothing else: a text may well say a dossier that is to be refused.
"""
import os
import re
import subprocess
import sys

TAGS = {"+": 1, "x": 2}
# The bits that start a node, and how many children follow.
KINDS = {
    "comp": ("00000", 2), "case": ("00001", 2), "pair": ("00010", 2), "disconnect": ("00011", 2),
    "injl": ("00100", 1), "injr": ("00101", 1), "take": ("00110", 1), "drop": ("00111", 1),
    "iden": ("01000", 0), "unit": ("01001", 0), "fail": ("01010", 0), "disconnect1": ("01011", 1),
    "hidden": ("0110", 0), "witness": ("0111", 0), "word": ("10", 0),
}
LINE = re.compile(r"(type|node|witness|input|hash)\s*(\d*)\s*=\s*(.*)")


def natural(n):
    """The code of a natural from 1 on, as text of bits."""
    if n == 1:
        return "0"
    low = bin(n)[3:]
    return "1" + natural(len(low)) + low


def octets(text):
    """Hex digits, or a byte and how often it stands."""
    byte, _, times = text.replace(" ", "").partition("*")
    return bytes.fromhex(byte) * int(times or 1)


def packed(bits):
    """Bits into bytes, from the top bit on, the last byte filled with zeros."""
    return bytes(int(bits[k:k + 8].ljust(8, "0"), 2) for k in range(0, len(bits), 8))


def type_record(text):
    if text == "unit":
        return bytes(5)
    left, sign, right = text.split()
    return bytes([TAGS[sign]]) + int(left).to_bytes(2, "big") + int(right).to_bytes(2, "big")


def node_bits(i, kind, rest):
    """The code of node i."""
    start, children = KINDS[kind]
    if kind == "word":
        bits = "".join(rest)
        return start + natural(len(bits).bit_length()) + bits
    if kind in ("hidden", "fail"):
        return start + "".join(f"{b:08b}" for b in octets("".join(rest)))
    if len(rest) != children:
        raise ValueError(f"{kind} has {children} children")
    return start + "".join(natural(i - int(child)) for child in rest)


def node(i, text):
    """The code of node i and its arrow."""
    what, _, arrow = text.partition(":")
    source, sign, target = arrow.split()
    if sign != "->":
        raise ValueError("an arrow is SOURCE -> TARGET")
    kind, *rest = what.split()
    return node_bits(i, kind, rest), int(source).to_bytes(2, "big") + int(target).to_bytes(2, "big")


def parts(text):
    """The lines of a text, sorted by what they say, and the line that is to be printed."""
    found = {"type": [], "node": [], "witness": [], "input": [], "hash": []}
    prints = None
    for line in text.splitlines():
        line = line.partition("#")[0].strip()
        if line.startswith("prints "):
            prints = line[len("prints "):].strip()
        elif line:
            word, index, said = LINE.fullmatch(line).groups()
            if index and int(index) != len(found[word]):
                raise ValueError(f"{word} {index} stands in the place of {word} {len(found[word])}")
            found[word].append(said.strip())
    return found, prints


def dossier(found):
    """The bytes of a dossier: 14 numbers, then the six sections."""
    nodes = [node(i, said) for i, said in enumerate(found["node"])]
    program = packed(natural(len(nodes)) + "".join(bits for bits, _ in nodes))
    witness, given = ("".join(found[word]).replace(" ", "") for word in ("witness", "input"))
    sections = [
        (len(found["type"]), b"".join(map(type_record, found["type"]))),
        (len(program), program),
        (len(nodes), b"".join(arrow for _, arrow in nodes)),
        (len(witness), packed(witness)),
        (len(given), packed(given)),
        (len(found["hash"]), b"".join(map(octets, found["hash"]))),
    ]
    numbers, at = [1], 56
    for count, data in sections:
        numbers += [count, at]
        at += len(data)
    return b"".join(n.to_bytes(4, "big") for n in numbers + [at]) + b"".join(data for _, data in sections)


def faults(path, data, prints):
    """What is wrong with the file beside a text."""
    binary = os.path.splitext(path)[0] + ".dossier"
    with open(binary, "rb") as file:
        if file.read() != data:
            yield f"{binary} is not what {path} says"
    program = os.path.join(os.path.dirname(__file__), "..", "crates", "drevaloci", "out", "drevaloci")
    if os.path.exists(program) and prints is not None:
        line = subprocess.run([program], input=data, capture_output=True).stdout.decode()
        if line != prints + "\n":
            yield f"{binary} prints {line!r}, not {prints!r}"


def main(arguments):
    checking = arguments[:1] == ["--check"]
    paths = arguments[1:] if checking else arguments
    if not paths:
        sys.exit(__doc__)
    wrong = 0
    for path in paths:
        with open(path) as file:
            found, prints = parts(file.read())
        data = dossier(found)
        if not checking:
            with open(os.path.splitext(path)[0] + ".dossier", "wb") as file:
                file.write(data)
            continue
        for fault in faults(path, data, prints):
            print(fault)
            wrong += 1
    if checking:
        print(f"{len(paths)} texts, {wrong} wrong")
    sys.exit(1 if wrong else 0)


main(sys.argv[1:])
