#!/usr/bin/env python3
"""Breaks the long lines of code and proof of a tree, and changes nothing else.

    python3 break_lines.py [--at ROOT] [--check] [FILE...]

    --at ROOT    the root of the repository (the folder that holds crates/; default: the current folder)
    --check      writes nothing; says what it would do and exits 1 if there is something to do
    FILE...      only these files (paths under ROOT); default: every crates/**/*.antt and *.rt

A line over LONG columns is broken at spaces, so that its parts have at most AIM columns. `use` lines are left alone, and so is what
stands in a string. A comment over LONG columns is wrapped as comment. After that the formatter (`rattle fmt --write`) lays out the files that
changed. A file is written back only if
  - its text without white space is the same as before (but for the separator after the last part of a list and the bar before the first arm
    of an `elim`, which the formatter puts where a list goes over several lines), and
  - every must-fail edit of its crate that could be applied before can be applied now, with the same result but for white space.
A place inside the `old:` text of a must-fail edit is never broken.
"""
import argparse
import glob
import os
import re
import shutil
import subprocess
import sys
import tempfile

LONG, AIM, MOST = 160, 140, 300
RATTLE = os.environ.get("RATTLE", "/opt/rattle/bin/rattle")
USE = re.compile(r"\s*(ghost )?(pub )?use ")
COMMENT = re.compile(r"(\s*)(--|//+!?) ?(.*)$")
CLAUSE = re.compile(r"\s*(requires|ensures|invariant|decreases|assert|proof|ghost)\b")
OPEN, CLOSE = "({", ")}"
NEVER = 10 ** 6

# What a line would rather begin with (how bad it is to break before it).
BEFORE = {"∙": 0, "→": 1, "↔": 1, "≡": 2, "×": 2, ">>=": 2, "∷": 3, "++": 4, "≤": 4, "<": 5, "+": 7, "*": 9, "-": 9, "/": 9, "⊛": 3, "⊎": 3}
# What a line may well end with (how bad it is to break after it).
AFTER = {"=": 0, "in": 0, "$": 0, "∵": 1, "↦": 1, "⌜": 6, ":": 12}
# What no line may begin with, or end with.
STUCK_TO_BEFORE = {"=", "in", "where", "↦", "[", "]", "|", "⌝", "}", "$", "∵", ":", "!", "⌝)"}
STUCK_TO_AFTER = {"let", "λ", "∀", "|", "elim", "{", "[", "pub", "unfoldable", "abbrev", "record", "data", "module", "at", "by", "as", "using", "open", "¬", "ensures", "requires"}


def words_of(line, start):
    """The words of a line from a column on: the columns, the depth in brackets before and after, the word, and where the bracket
    that the word stands in was opened."""
    words, depth, at, n, opened = [], 0, start, len(line), []
    while at < n:
        if line[at] == " ":
            at += 1
            continue
        begin, before, within = at, depth, opened[-1] if opened else -1
        while at < n and line[at] != " ":
            char = line[at]
            if char == '"':
                end = at + 1
                while end < n and line[end] != '"':
                    end += 2 if line[end] == "\\" else 1
                at = min(end + 1, n)
                continue
            if char == "«":
                end = line.find("»", at)
                at = end + 1 if end >= 0 else n
                continue
            if char == "⟦":
                end = line.find("⟧", at)
                at = end + 1 if end >= 0 else n
                continue
            if char in OPEN:
                opened.append(at)
            elif char in CLOSE and opened:
                opened.pop()
            depth += (char in OPEN) - (char in CLOSE)
            at += 1
        word = line[begin:at]
        if word == "[":
            depth += 1
        elif word == "]" or re.match(r"\][)}]*$", word):
            depth -= 1
        words.append((begin, at, before, depth, word, within))
    return words


def groups_of(line, start):
    """The brackets of a line that hold a list, by commas, semicolons or bars: (open, close, separators), in columns."""
    stack, found, at, n = [], [], start, len(line)
    while at < n:
        char = line[at]
        if char == '"':
            at += 1
            while at < n and line[at] != '"':
                at += 2 if line[at] == "\\" else 1
        elif char == "«":
            at = line.find("»", at) if "»" in line[at:] else n
        elif char == "⟦":
            at = line.find("⟧", at) if "⟧" in line[at:] else n
        elif char in OPEN or (char == "[" and line[at - 1:at + 2] == " [ "):
            stack.append((at, []))
        elif char in CLOSE or (char == "]" and line[at - 1] == " "):
            if stack:
                begin, marks = stack.pop()
                found.append((begin, at, marks))
        elif char in ",;" and stack:
            stack[-1][1].append(at + 1)
        elif char == "|" and stack and line[stack[-1][0]] == "[" and line[at - 1:at + 2] == " | ":
            stack[-1][1].append(at)
        at += 1
    return [(a, b, marks) for a, b, marks in found if marks]


def operator(word):
    return word in BEFORE or word in AFTER or word in STUCK_TO_AFTER or word in (":", "!", ",", "|")


def badness(words, k, low, clause):
    """How bad it is to break before word k; less than nothing where a break is wanted."""
    depth, word, before = words[k][2], words[k][4], words[k - 1][4]
    bare = word.lstrip("(")
    deep = depth - low
    if word in STUCK_TO_BEFORE or before in STUCK_TO_AFTER or re.match(r"λ\S", before) and not before.endswith("."):
        return NEVER
    if before.endswith("λ") or before.endswith("(") or bare == "":
        return NEVER
    if deep == 0 and before == "=":
        return -11 if clause else -2
    if deep == 0 and word == "∙" and clause:
        return -11
    if word in BEFORE:
        kind = BEFORE[word]
    elif before in AFTER:
        kind = AFTER[before]
    elif before in BEFORE:
        return 60 + 12 * deep
    elif before.endswith(".") and any(w[4].lstrip("(") in ("λ", "∀") or w[4].lstrip("(").startswith("λ") for w in words[max(0, k - 8):k]):
        kind = 3
    elif word.startswith(".") and len(word) > 1:
        kind = 45
    elif word.startswith("("):
        kind = 5
    elif word.startswith("{"):
        kind = 8
    else:
        kind = 9
    if kind in (5, 8, 9) and (k == 1 or operator(words[k - 2][4]) or words[k - 1][4].startswith("(")):
        kind += 4
    if kind in (5, 8, 9, 13) and before == "!":
        kind += 10
    return kind + 12 * deep


def over(length):
    return 0 if length <= AIM else 2 * (length - AIM) if length <= LONG else 1000 + 20 * (length - LONG)


def filled(line, begin, end, indent, first_indent, kept, clause):
    """Breaks line[begin:end] into lines; all but the first stand at `indent`."""
    words = [w for w in words_of(line, begin) if w[0] < end]
    if not words:
        return [""]
    low = min(min(w[2], w[3]) for w in words)
    low = min(low, 0)
    count = len(words)
    best, back = [0] + [None] * count, [0] * (count + 1)
    for k in range(1, count + 1):
        for j in range(k - 1, -1, -1):
            if best[j] is None:
                continue
            margin = first_indent if j == 0 else indent
            length = margin + min(words[k - 1][1], end) - words[j][0]
            cost = best[j] + 10 + over(length)
            if k < count and words[k][5] > words[j][0]:
                cost += 15
            if j > 0:
                at = words[j][0]
                held = any(a < at < b for a, b in kept)
                cost += NEVER if held else badness(words, j, low, clause)
            if best[k] is None or cost < best[k]:
                best[k], back[k] = cost, j
            if length > 2 * MOST and j < k - 1:
                break
    cuts, k = [], count
    while k > 0:
        cuts.append((back[k], k))
        k = back[k]
    return [line[words[j][0]:min(words[k - 1][1], end)] for j, k in reversed(cuts)]


def broken(line, kept):
    """The lines that a long line of code becomes."""
    margin = len(line) - len(line.lstrip(" "))
    text = line.rstrip()
    if len(text) <= MOST and margin + 4 + max(len(word) for word in text.split()) > LONG:
        return [line]
    first = text.split()[0]
    clause = first != "let"
    lists = groups_of(text, margin)

    def wide(group):
        return group[1] - group[0] + 1 > AIM - margin - 16

    # The lists that go over several lines: those too wide for one, unless a must-fail edit stands in them.
    spread = [g for g in lists if wide(g) and not any(a < m < b for m in g[2] for a, b in kept)]
    # What may not be broken: the other lists.
    whole = [(a, b + 1) for a, b, _ in lists if (a, b) not in [(s[0], s[1]) for s in spread]]
    cuts = {}
    for a, b, marks in spread:
        cuts[a + 1] = 2
        for mark in marks:
            cuts[mark] = 0
        cuts[b] = -2
    out, indent, at, begun = [], margin + 4, margin, False
    for cut in sorted(cuts) + [len(text)]:
        part = filled(text, at, cut, indent + (4 if begun else 0), indent if begun else margin, kept + whole, clause and not begun)
        for n, piece in enumerate(part):
            if piece:
                out.append(" " * (margin if not out else indent + (4 if n and begun else 0)) + piece)
        indent += cuts.get(cut, 0)
        at, begun = cut, True
    return out


def wrapped(lines, n):
    """A comment that begins at a long line n, as lines of at most AIM columns, and the line after it."""
    margin, mark, text = COMMENT.match(lines[n]).groups()
    end = n + 1
    while end < len(lines) and not re.search(r"[.:;]$", text.rstrip()):
        more = COMMENT.match(lines[end])
        if not more or more.group(1) != margin or more.group(2) != mark or not more.group(3) or re.match(r"\s|[-*] ", more.group(3)):
            break
        text += " " + more.group(3)
        end += 1
    out, now = [], ""
    for word in text.split():
        if now and len(margin) + len(mark) + 1 + len(now) + 1 + len(word) > AIM:
            out.append(f"{margin}{mark} {now}")
            now = ""
        now = f"{now} {word}".strip()
    return out + [f"{margin}{mark} {now}"], end


def in_clauses(lines):
    """Which lines of a .rt file stand in antt's text: in the braces of a clause."""
    marks, depth = [False] * len(lines), 0
    for n, line in enumerate(lines):
        if depth == 0 and not CLAUSE.match(line):
            continue
        marks[n] = True
        depth += line.count("{") - line.count("}")
        if depth < 0:
            depth = 0
    return marks


def one_pass(path, text, olds):
    """The text with its long lines broken, not yet laid out."""
    lines = text.split("\n")
    proved = [True] * len(lines) if path.endswith(".antt") else in_clauses(lines)
    out, n = [], 0
    inside = False
    while n < len(lines):
        line = lines[n]
        if "{-" in line:
            inside = True
        if inside:
            inside = "-}" not in line
            out.append(line)
            n += 1
            continue
        if len(line) <= LONG or USE.match(line):
            out.append(line)
            n += 1
        elif COMMENT.match(line):
            more, n = wrapped(lines, n)
            out += more
        elif not proved[n] or " -- " in line:
            out.append(line)
            n += 1
        else:
            kept = []
            for old in olds:
                at = line.find(old)
                while at >= 0:
                    kept.append((at, at + len(old)))
                    at = line.find(old, at + 1)
            out += broken(line, kept)
            n += 1
    return "\n".join(out)


def bare(text):
    """The text without white space, and without what the formatter adds to a list that goes over several lines."""
    text = re.sub(r"^\s*(--|//+!?)", "", text, flags=re.M)
    text = re.sub(r"\s+", "", text)
    return re.sub(r"[,;](?=[)}\]])", "", text).replace("[|", "[")


def read(path):
    with open(path, encoding="utf8") as file:
        return file.read()


def pairs_of(edit):
    """The (file, old, new) of a must-fail edit, as rt reads them."""
    found, name, old = [], "", ""
    for line in read(edit).split("\n"):
        if line.startswith("file: "):
            name = line[6:]
        elif line.startswith("old: "):
            old = line[5:]
        elif line.startswith("new:"):
            new = line[4:]
            found.append((name, old, new[1:] if new.startswith(" ") else new))
            old = ""
    return found


def applied(crate, edit, texts):
    """What an edit makes of the files that it names, or None if it cannot be applied."""
    held = {}
    for name, old, new in pairs_of(edit):
        path = os.path.join(crate, name)
        now = held.get(path, texts.get(path))
        if now is None:
            if not os.path.isfile(path):
                return None
            now = read(path)
        if not old or now.count(old) != 1:
            return None
        held[path] = now.replace(old, new)
    return held


def crate_of(path):
    parts = path.split(os.sep)
    return os.sep.join(parts[:parts.index("crates") + 2])


def formatted(texts):
    """The texts as the formatter lays them out; one that it cannot parse is left out, with what it said."""
    folder, out, said = tempfile.mkdtemp(), {}, {}
    try:
        names = {}
        for k, (path, text) in enumerate(texts.items()):
            name = os.path.join(folder, str(k), os.path.basename(path))
            os.makedirs(os.path.dirname(name))
            with open(name, "w", encoding="utf8") as file:
                file.write(text)
            names[path] = name
        if subprocess.run([RATTLE, "fmt", "--write", *names.values()], capture_output=True).returncode == 0:
            return {path: read(name) for path, name in names.items()}, {}
        for path, name in names.items():
            done = subprocess.run([RATTLE, "fmt", "--write", name], capture_output=True, text=True)
            if done.returncode:
                said[path] = (done.stdout + done.stderr).strip().replace(name, path)
            else:
                out[path] = read(name)
    finally:
        shutil.rmtree(folder)
    return out, said


def long_lines(text):
    return [len(line) for line in text.split("\n") if len(line) > LONG and not USE.match(line)]


def main():
    parser = argparse.ArgumentParser()
    parser.add_argument("--at", default=".")
    parser.add_argument("--check", action="store_true")
    parser.add_argument("files", nargs="*")
    asked = parser.parse_args()
    root = os.path.abspath(asked.at)
    paths = [os.path.join(root, f) for f in asked.files] or sorted(
        p for e in ("antt", "rt") for p in glob.glob(os.path.join(root, "crates", "**", "*." + e), recursive=True))
    edits, olds = {}, {}
    for edit in sorted(glob.glob(os.path.join(root, "crates", "*", "must-fail", "*.edit"))):
        crate = os.path.dirname(os.path.dirname(edit))
        edits.setdefault(crate, []).append(edit)
        for name, old, _ in pairs_of(edit):
            if old:
                olds.setdefault(os.path.join(crate, name), []).append(old)
    before = {p: read(p) for p in paths}
    now, faults = {}, []
    todo = {p: t for p, t in before.items() if long_lines(t)}
    for _ in range(4):
        tried = {p: one_pass(p, t, olds.get(p, [])) for p, t in todo.items()}
        tried = {p: t for p, t in tried.items() if t != todo[p]}
        if not tried:
            break
        laid, said = formatted(tried)
        faults += [f"{p}: left as it was after: {s}" for p, s in said.items()]
        now.update(laid)
        todo = {p: t for p, t in laid.items() if long_lines(t)}
    for path in list(now):
        if bare(now[path]) != bare(before[path]):
            faults.append(f"{path}: left as it was: the text would not be the same")
            del now[path]
    for crate, held in edits.items():
        for edit in held:
            was = applied(crate, edit, before)
            if was is None:
                faults.append(f"{edit}: cannot be applied today")
                continue
            after = applied(crate, edit, now)
            if after is None or any(bare(after[p]) != bare(was[p]) for p in was):
                for path in was:
                    if path in now:
                        faults.append(f"{path}: left as it was: {os.path.basename(edit)} could not be applied")
                        del now[path]
    changed = {p: t for p, t in now.items() if t != before[p]}
    if not asked.check:
        for path, text in changed.items():
            with open(path, "w", encoding="utf8") as file:
                file.write(text)
    rest = [(len(line), p, n) for p in paths for n, line in enumerate(now.get(p, before[p]).split("\n"), 1) if len(line) > LONG and not USE.match(line)]
    for length, path, n in sorted(rest, reverse=True):
        print(f"still long: {os.path.relpath(path, root)}:{n}: {length} columns")
    was = sum(len(long_lines(t)) for t in before.values())
    print("\n".join(f.replace(root + os.sep, "") for f in faults))
    print(f"{len(changed)} files {'to change' if asked.check else 'changed'}; lines over {LONG} columns: {was} before, {len(rest)} now; {len(faults)} files or edits with a fault")
    sys.exit(1 if faults or (asked.check and changed) else 0)


main()
