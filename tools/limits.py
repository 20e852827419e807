#!/usr/bin/env python3
"""The limits of crates/limits for everything that is not Rattle.

    python3 tools/limits.py            writes the two files for C and Rust, bindings/drevaloci_limits.h and bindings/rust/src/limits.rs
    python3 tools/limits.py --check    exits 1 if one of them is not what would be written

Another script names a limit as `limits.NODE_COUNT` after `import limits`, and the five store sizes as `limits.LARGEST`.
"""
import os
import re
import sys

ROOT = os.path.dirname(os.path.dirname(os.path.abspath(__file__)))
SOURCE = "crates/limits/src/lib.rt"
CONSTANT = re.compile(r"^pub const (\w+): \w+ = ([0-9_]+);", re.M)


def held(path):
    with open(os.path.join(ROOT, path), encoding="utf8") as file:
        return file.read()


LIMITS = {name: int(number.replace("_", "")) for name, number in CONSTANT.findall(held(SOURCE))}
globals().update(LIMITS)

# For C and Rust: a name, the expression in limits' own names, and what it is.
SIZES = [
    ("DOSSIER_BYTES", "{DOSSIER_BYTES}", "Bytes of the largest dossier."),
    ("NODE_RECORD", "{NODE_NUMBERS}", "Numbers of a node's record."),
    ("FRAME_RECORD", "{FRAME_NUMBERS}", "Numbers of a frame's record."),
    ("NODE_NUMBERS", "{NODE_NUMBERS} * {NODE_COUNT}", "Numbers of a node store that is enough for every dossier."),
    ("HASH_BYTES", "{DOSSIER_BYTES}", "Bytes of a hash store that is enough for every dossier."),
    ("CELL_BYTES", "{CELL_COUNT} / 8", "Bytes of a cell store that is enough for every dossier."),
    ("FRAME_NUMBERS", "{FRAME_NUMBERS} * {FRAME_COUNT}", "Numbers of a frame store that is enough for every dossier."),
    ("ANSWER_BYTES", "{TYPE_WIDTH} / 8", "Bytes of an answer store that is enough for every dossier."),
]
# The most of each store that a run may ask: node numbers, hash bytes, cell bytes, frame numbers, answer bytes.
LARGEST = [eval(value.format(**LIMITS).replace("/", "//")) for _, value, _ in SIZES[3:]]


def header():
    lines = ["/* Sizes for callers of drevaloci.h. Written by tools/limits.py from crates/limits. */"]
    lines += ["#ifndef DREVALOCI_LIMITS_H", "#define DREVALOCI_LIMITS_H"]
    for name, value, says in SIZES:
        lines += ["", f"/* {says} */", f"#define DREVALOCI_{name} ({value.format(**LIMITS)})"]
    return "\n".join(lines + ["", "#endif"]) + "\n"


def module():
    lines = ["//! Sizes for callers of this crate. Written by tools/limits.py from crates/limits."]
    for name, value, says in SIZES:
        lines += ["", f"/// {says}", f"pub const {name}: usize = {value.format(**LIMITS)};"]
    return "\n".join(lines) + "\n"


FILES = {"bindings/drevaloci_limits.h": header, "bindings/rust/src/limits.rs": module}


def main():
    check = sys.argv[1:] == ["--check"]
    stale = []
    for path, text in FILES.items():
        if check:
            stale += [path] if not os.path.isfile(os.path.join(ROOT, path)) or held(path) != text() else []
            continue
        with open(os.path.join(ROOT, path), "w", encoding="utf8") as file:
            file.write(text())
    for path in stale:
        print(f"{path} is not what tools/limits.py writes")
    sys.exit(1 if stale else 0)


if __name__ == "__main__":
    main()
