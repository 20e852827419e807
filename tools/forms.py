#!/usr/bin/env python3
"""Counts the places in crates/*/src that could have a plainer form of the language.

    python3 tools/forms.py [POINT]        from the repository's root; with a point's number its places are listed

1  enums of two cases (shapes of Option and Result), structs with a verdict beside what it judges, lines that test a kind or a tag by its number (a match over the enum `Kind` or `Tag` is none)
2  functions with the same body but for types, numbers and constants
3  loops that are no `for`
4  functions that compare, convert or print by hand
5  facts in the contracts of three functions or more, and parameters that travel together
6  local arrays with a count beside, and parallel arrays in one struct
7  parameters of type bool that pick a step, and matches on a number that picks one
8  files of answers and of invariants, and their lines
docs/DESIGN-PASS.md says what was found and what became of it.
"""
import glob
import re
import sys

PARAMS = (("types", "widths", "next"), ("types", "nodes", "arrows", "program", "hashes"), ("cells", "frames", "h"), ("nodes", "hashes"), ("naturals", "program"))
BY_HAND = re.compile(r"^(?:pub )?fn (same|larger|index|place|wide|digit|spell|\w*refusal_of|\w*_refusal|answer_of|without_count|refused|no_run|undecoded|finished|settled|stopped|begun|unread|fault_number|sized|sizes_of|print_\w+|fault_code|answer_code|answer_told)\b")
HEAD = re.compile(r"^( *)(?:pub(?:\(crate\))? )?(?:extern \"C\" )?fn (\w+)")
FACTS = re.compile(r"(Shown types\.now|ShownIn|TypesShown|naturals\.now ≡ natural_entries|Within cells|Within nodes|length \(node_records (?:tables\.now\.)?nodes\.now\) ≤ node_count|offset < 8)")


def sources():
    for path in sorted(glob.glob("crates/*/src/*.rt")):
        with open(path) as file:
            yield path, file.read()


def places(pattern, flags=re.M):
    """Each line that a pattern is found in."""
    return ["%s:%d: %s" % (path, text.count("\n", 0, found.start()) + 1, found.group(0).strip().split("\n")[0])
            for path, text in sources() for found in re.finditer(pattern, text, flags)]


def parted(head):
    """A function's list of parameters, and what stands after it."""
    start = head.index("(", head.index("fn "))
    depth = 0
    for k in range(start, len(head)):
        depth += (head[k] == "(") - (head[k] == ")")
        if depth == 0:
            return head[start:k], head[k + 1:]
    return head, ""


def functions():
    """Each function: its place, its name, its parameters, its contract and its body."""
    for path, text in sources():
        lines = text.split("\n")
        for first, line in enumerate(lines):
            found = HEAD.match(line)
            if not found:
                continue
            close = found.group(1) + "}"
            opens = next(k for k in range(first, len(lines)) if lines[k] == found.group(1) + "{" or lines[k].endswith(" {"))
            ends = next(k for k in range(opens, len(lines)) if lines[k] == close)
            head = "\n".join(lines[first:opens + 1])
            params, contract = parted(head)
            yield "%s:%d" % (path, first + 1), found.group(2), params, contract, "\n".join(lines[opens + 1:ends])


def enums():
    out = []
    for path, text in sources():
        for found in re.finditer(r"enum (\w+) \{\n(.*?)^\}", text, re.M | re.S):
            cases = [line.strip() for line in found.group(2).split("\n") if re.match(r"    [A-Z]", line)]
            if len(cases) == 2:
                out.append("%s: enum %s { %s }" % (path, found.group(1), " ".join(cases)))
    return out


def twins():
    """Functions whose bodies are the same, once types, numbers, constants and the names of parameters and locals are left out."""
    bodies = {}
    for place, name, params, _, body in functions():
        plain = re.sub(r"//.*", "", body)
        own = re.findall(r"(\w+): ", params) + re.findall(r"let (?:mut )?(\w+)", plain)
        plain = re.sub(r"\b(u8|u16|u32|u64|usize)\b|\b\d[\d_]*\b|\b[A-Z][A-Z_0-9]+\b", "#", plain)
        order = []
        for word in re.findall(r"\w+", plain):
            if word in own and word not in order:
                order.append(word)
        tokens = [("$%d" % order.index(word) if word in order else word) for word in re.findall(r"\w+|[^\s\w]", plain)]
        if len(tokens) >= 12:
            bodies.setdefault(" ".join(tokens), []).append("%s %s" % (place, name))
    return [" = ".join(names) for names in bodies.values() if len(names) > 1]


def facts():
    met = {}
    for place, name, _, contract, _ in functions():
        for fact in set(FACTS.findall(contract)):
            met.setdefault(fact, []).append("%s %s" % (place, name))
    return ["%s: %s" % (fact, where) for fact, all_places in met.items() if len(all_places) >= 3 for where in all_places]


def groups():
    out = []
    for place, name, params, _, _ in functions():
        names = re.findall(r"(\w+):", params)
        for group in PARAMS:
            if all(word in names for word in group):
                out.append("%s %s: %s" % (place, name, ", ".join(group)))
    return out


def proofs():
    files = [path for path in glob.glob("crates/*/proofs/**/*.antt", recursive=True) if path.endswith(("Answers.antt", "Invariants.antt")) and path.count("/") > 3]
    return files, sum(len(open(path).read().split("\n")) for path in files)


def main():
    files, lines = proofs()
    points = [
        ("1 enums of two cases", enums()),
        ("1 a verdict beside what it judges", places(r"^    (?:pub )?answer: (?!&|usize).*")),
        ("1 a kind or a tag by its number", places(r"^.*\b(?:kind|tag)\b \S?[=<>!]=? .*|^.*[<>=]=? (?:\w+\.)?(?:kind|tag)\b.*|^.*match (?:kind|tag)\b.*\n(?!\s*\(?(?:Kind|Tag)::).*|^pub const (?:COMP|CASE|PAIR|DISCONNECT1?|INJL|INJR|TAKE|DROP|IDEN|UNIT|FAIL|WITNESS|HIDDEN|WORD|NO_KIND): .*")),
        ("2 the same body twice", twins()),
        ("3 loops that are no `for`", places(r"^ *(?:while|loop)\b.*")),
        ("4 by hand", [p for p in places(r"^(?:pub )?fn \w+.*") if BY_HAND.match(p.split(": ", 1)[1])]),
        ("5 a fact in three contracts", facts()),
        ("5 parameters that travel together", groups()),
        ("6 arrays with a count, parallel arrays", places(r"^ *let mut \w+ = \[0u?\d*; .*|^    pub (?:widths|next|positions): \[.*")),
        ("7 a flag or a number that picks a step", places(r"^.*\b(?:lent|tables|odd|more): bool.*|^.*match packed::number.*")),
    ]
    for title, found in points:
        print("%4d  %s" % (len(found), title))
        if sys.argv[1:] and title.startswith(sys.argv[1]):
            print("\n".join("      " + place for place in found))
    print("%4d  8 files of answers and invariants, %d lines" % (len(files), lines))


if __name__ == "__main__":
    main()
