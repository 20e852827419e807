#!/usr/bin/env python3
"""Names what a long clause of a proof says of an earlier state, once, by `let`.

    python3 name_states.py [--at ROOT] [--over COLUMNS] [FILE...]

A clause `name .. c .. = body` of which a line has more than COLUMNS columns (default 300) gets, at the head of its body,
    let start = c .before .. in                for the state whose arguments or condition it names,
    let NAME-call = c .before .. .NAME in      for a call of which it names what it told,
    let NAME-found = c .before .. .NAME in     for a test or a match,
and names these where it repeated the way there. A way is named where it is long (8 steps) or is gone more than once (3 steps). A clause that
binds one of the names, or binds the state's name again, keeps the way. Run break_lines.py after it, and prove the crate: the terms are no longer
the same text.
"""
import argparse
import glob
import os
import re
import sys

HEAD = re.compile(r"^( *)([^\s:=(){}]+)((?: [^\s:=(){}]+)*) =( .*)?$")
WAY = re.compile(r"(?<![^\s(])c((?: \.before)+) \.([^\s(){},;.]+)")
KEPT = re.compile(r"let [^\s:]+ =\s+c(?: \.[^\s(){},;.]+)+\s+in\b")
CALLS = ("result", "ensures", "last", "kept", "requires")


def named(body):
    """The body with its long ways named, and the lets that name them, nearest last. A way that a `let` names already is left alone."""
    gone, told = {}, {}
    kept = [m.span() for m in KEPT.finditer(body)]
    ways = [m for m in WAY.finditer(body) if m.group(2) != "before" and not any(a < m.start() < b for a, b in kept)]
    for m in ways:
        steps, field = m.group(1).count(".before"), m.group(2)
        if field in ("args", "pre", "loop"):
            continue
        gone.setdefault((steps, field), []).append(m)
        after = re.match(r" \.([\w-]+)", body[m.end():])
        told.setdefault((steps, field), set()).add(after.group(1) if after else "")
    starts = {}
    for m in ways:
        if m.group(2) in ("args", "pre"):
            starts.setdefault(m.group(1).count(".before"), []).append(m)
    lets, new = [], {}
    bound = set(re.findall(r"(?:let|λ) \(?([^\s:)]+)", body)) | set(re.findall(r"[^\s(){},;]+", body))
    if len(starts) == 1 and "start" not in bound:
        (steps, uses), = starts.items()
        if steps >= 8 or (steps >= 3 and len(uses) > 1):
            lets.append((steps, f"let start = c{' .before' * steps} in"))
            new[steps] = "start"
    taken = {}
    for (steps, field), uses in sorted(gone.items(), key=lambda x: -x[0][0]):
        if not (steps >= 8 or (steps >= 3 and len(uses) > 1)):
            continue
        name = field + ("-call" if told[steps, field] & set(CALLS) else "-found")
        if name in bound or name in taken:
            continue
        taken[name] = (steps, field)
        lets.append((steps, f"let {name} = c{' .before' * steps} .{field} in"))

    def put(m):
        steps, field = m.group(1).count(".before"), m.group(2)
        if any(a < m.start() < b for a, b in kept):
            return m.group(0)
        if field in ("args", "pre") and steps in new:
            return f"start .{field}"
        for name, way in taken.items():
            if way == (steps, field):
                return name
        return m.group(0)

    body = WAY.sub(put, body)
    return body, [line for _, line in sorted(lets, key=lambda x: -x[0])]


def rewritten(text, most):
    lines, out, n, count = text.split("\n"), [], 0, 0
    while n < len(lines):
        head = HEAD.match(lines[n])
        if not head or "c" not in head.group(3).split():
            out.append(lines[n])
            n += 1
            continue
        margin, end = len(head.group(1)), n + 1
        while end < len(lines) and lines[end].strip() and len(lines[end]) - len(lines[end].lstrip()) > margin and not lines[end].strip().startswith("where"):
            end += 1
        # A closing bracket at the clause's own column belongs to it.
        while end < len(lines) and re.match(r" {%d}[)}\]]" % margin, lines[end]):
            end += 1
            while end < len(lines) and lines[end].strip() and len(lines[end]) - len(lines[end].lstrip()) > margin:
                end += 1
        part = lines[n:end]
        first = (head.group(4) or "").strip()
        body = "\n".join(([first] if first else []) + part[1:])
        if max(map(len, part)) <= most or "--" in body or re.search(r"λ \(?c[ .:]|let c ", body):
            out += part
            n = end
            continue
        # A way that goes over a line's end is one way.
        flat = re.sub(r"\n *(?=\.[a-z])", " ", body)
        after, lets = named(flat)
        if not lets:
            out += part
        else:
            count += 1
            pad = " " * (margin + 4)
            out.append(lines[n][:lines[n].index(" =") + 2] if not first else lines[n][:len(lines[n]) - len(first) - 1].rstrip())
            out += [pad + line for line in lets]
            out += [pad + after if first else after] if first else after.split("\n")
        n = end
    return "\n".join(out), count


def main():
    parser = argparse.ArgumentParser()
    parser.add_argument("--at", default=".")
    parser.add_argument("--over", type=int, default=300)
    parser.add_argument("files", nargs="*")
    asked = parser.parse_args()
    root = os.path.abspath(asked.at)
    paths = [os.path.join(root, f) for f in asked.files] or sorted(glob.glob(os.path.join(root, "crates", "*", "proofs", "**", "Proof.antt"), recursive=True))
    for path in paths:
        with open(path, encoding="utf8") as file:
            text = file.read()
        new, count = rewritten(text, asked.over)
        if new != text:
            with open(path, "w", encoding="utf8") as file:
                file.write(new)
            print(f"{os.path.relpath(path, root)}: {count} clauses")


main()
