#!/usr/bin/env python3
"""Writes the longest hexadecimal numbers of the computed rows in parts, since a number cannot go over a line's end.

    python3 break_numerals.py [--at ROOT] [--over COLUMNS]

In the files of crates/scope/specs that use Rows, a number of more than COLUMNS columns (default 280) becomes `joined (joined 0x.. k 0x..) k 0x..`,
cut where it has a `_`. `joined` is added to Rows.antt where it is not yet, and to the `use` line. Run break_lines.py after it, and prove scope.
"""
import argparse
import glob
import os
import re

PART = 120
DEFINED = """-- a long number in two parts, the second of k bytes
abbrev pub joined : (high k low : ℕ) → ℕ
joined high k low = high * 256 ^ k + low

"""
BEFORE = "-- the stores that are lent"


def parts(number):
    """The number's digits, cut at its `_` into parts of at most PART columns and of whole bytes."""
    out = []
    for group in number[2:].split("_"):
        if out and len(out[-1]) + 1 + len(group) <= PART:
            out[-1] += "_" + group
        else:
            out.append(group)
    return out


def joined(match):
    number = match.group(0)
    if len(number) <= OVER:
        return number
    first, *rest = parts(number)
    term = "0x" + first
    for part in rest:
        digits = len(part.replace("_", ""))
        if digits % 2:
            raise SystemExit("a part of half a byte")
        term = f"joined {term} {digits // 2} 0x{part}" if term.startswith("0x") else f"joined ({term}) {digits // 2} 0x{part}"
    whole = int(first.replace("_", ""), 16)
    for part in rest:
        digits = part.replace("_", "")
        whole = whole * 256 ** (len(digits) // 2) + int(digits, 16)
    if whole != int(number[2:].replace("_", ""), 16):
        raise SystemExit("the parts do not make the number")
    return f"({term})"


parser = argparse.ArgumentParser()
parser.add_argument("--at", default=".")
parser.add_argument("--over", type=int, default=280)
asked = parser.parse_args()
OVER = asked.over
folder = os.path.join(asked.at, "crates", "scope", "specs")
rows = os.path.join(folder, "Rows.antt")
for path in sorted(glob.glob(os.path.join(folder, "*.antt"))):
    text = open(path, encoding="utf8").read()
    use = re.search(r"^use Rattle·scope·specs\.specs\.Rows\.\{([^}]*)\}", text, re.M)
    new = re.sub(r"\b0x[0-9a-f_]+", joined, text)
    if new == text or not use:
        continue
    if "joined" not in use.group(1).split(", "):
        new = new.replace(use.group(0), use.group(0).replace("lent,", "lent, joined,", 1) if "lent," in use.group(0) else use.group(0)[:-1] + ", joined}", 1)
    open(path, "w", encoding="utf8").write(new)
    held = open(rows, encoding="utf8").read()
    if "joined :" not in held:
        if BEFORE not in held:
            raise SystemExit("Rows.antt has no place for `joined`")
        held = held.replace(BEFORE, DEFINED + BEFORE, 1)
        held = re.sub(r"^use Prim\.Native\.Nat\.\{([^}]*)\}", lambda m: m.group(0) if "_+_" in m.group(1) else m.group(0).replace("suc,", "suc, _+_,", 1), held, count=1, flags=re.M)
        open(rows, "w", encoding="utf8").write(held)
    print(f"{os.path.relpath(path, asked.at)}: numbers in parts")
