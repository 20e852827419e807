#!/usr/bin/env python3
"""Sets the public calls, the definitions and the laws of an older tree beside those of this one, for docs/DESIGN-PASS.md.

    git worktree add ../older COMMIT
    python3 tools/beside.py ../older        from the repository's root; prints the last parts of the page

Definitions are compared whole, laws by their statements. What differs by the names of the types alone is listed by name.
"""
import glob
import os
import re
import sys

CALL = re.compile(r'^( *)((?:pub(?:\(crate\))? )?(?:extern "C" )?)fn (\w+)')
LEADS = r"^((?:pattern |unfoldable |abbrev |axiom |pub )*)"
RECORD = re.compile(LEADS + r"(record |data )([^\s:({]+)")
NAMED = re.compile(LEADS + r"([^\s:({]+)\s*(?:\{[^}]*\}\s*)?:\s")
WHOLE = ("abbrev", "unfoldable", "record", "data")
# the types of the older tree, and what stands in their place
TYPES = {
    "Checked": "Result (Unit {0}) Refusal", "Answer": "Result ℕ Refusal", "CodeRead": "Option (ℕ × ℕ)", "WindowRead": "Option ℕ",
    "NaturalRead": "Result (ℕ × ℕ) NaturalFault", "BytesRead": "Result ℕ BytesFault", "Part": "Option (ℕ × ℕ)", "Begins": "Option (ℕ × ℕ)",
    "TypeAnswer": "Result ℕ Refusal", "Judged": "Option ℕ", "ValueRead": "Option ℕ", "ValueWritten": "Option ℕ", "Walked": "Result ℕ Refusal",
    "HeadRead": "Result (NodeHead × ℕ) Refusal", "NumberRead": "Result (ℕ × ℕ) Refusal", "TableRead": "Option (ℕ × ℕ)",
    "Progressed": "Result Progress Refusal", "Decoded": "Result Sizes Refusal", "BoundsAnswer": "Result Totals Refusal",
    "Ran": "Result Heights Stopped", "WitnessTable": "Result (List ℕ) Refusal"}
CASES = {
    "Passed": "Ok", "Refused": "Err", "Value": "Ok", "Next": "Some", "Bits": "Some", "Short": "None", "Records": "Ok", "Width": "Some", "Broken": "None",
    "Done": "Ok", "Table": "Ok", "Fault": "Err", "Read": "Some", "Ended": "None", "Longer": "None", "Number": "Some", "Cut": "None", "Natural": "Some",
    "Stopped": "Err", "NoRoom": "None"}


def flat(text):
    return re.sub(r"\s+", " ", text).strip()


def calls(root):
    """Each function of the libraries: what stands before `fn`, its signature, its clauses."""
    out = {}
    for path in sorted(glob.glob(root + "/crates/*/src/*.rt")):
        crate, module = path.split("/")[-3], os.path.basename(path)[:-3]
        lines, owner = open(path).read().split("\n"), ""
        for first, line in enumerate(lines if module != "main" else []):
            block = re.match(r"^impl(?:<[^>]*>)? (?:(\w+)[^ ]* for )?(\w+)", line)
            owner = block.group(2) + "::" if block else "" if line.startswith("}") else owner
            found = CALL.match(line)
            if found:
                last = next(k for k in range(first, len(lines)) if lines[k] == found.group(1) + "{" or lines[k].endswith(" {"))
                head = re.sub(r"\{$", "", "\n".join(lines[first:last + 1]).strip())
                signature, *clauses = re.split(r"\n\s*(?=(?:requires|ensures)\b)", head)
                signature = re.sub(r'^(pub(\(crate\))? )?(extern "C" )?fn ', "", flat(signature)).replace("( ", "(").replace(", )", ")")
                name = crate + "::" + ("" if module == "lib" else module + "::") + owner + found.group(3)
                out[name] = found.group(2).strip(), signature, flat(" ".join(clauses))
    return out


def declared(path):
    """Each definition and law of a file: its leading words and its text."""
    out, current, depth = {}, None, 0
    for line in open(path):
        text = line.strip()
        if not text or text.startswith(("--", "use ", "pub use ")):
            continue
        indent = len(line) - len(line.lstrip())
        if text.startswith("module _"):
            current = None
            continue
        record, named = RECORD.match(text), NAMED.match(text + " ")
        if record:
            current, depth = record.group(3), indent
            out[current] = [record.group(1) + record.group(2), text]
        elif named and not text.startswith(("let ", "go", "|", "where")) and (current is None or indent <= depth):
            current, depth = named.group(2), indent
            out[current] = [named.group(1), text]
        elif current:
            out[current][1] += " " + text
    return out


def statement(name, text):
    """A law's text up to its proof."""
    rest = text[len(name) + 1:]
    proof = re.search(r"(?:^|\s)(unfolding [^=]*?\s)?" + re.escape(name) + r"(?:\s+[^:=]*?)?\s=\s", rest) if name[0].isalnum() else None
    return text[:len(name) + 1 + proof.start()] if proof else text


def texts(root):
    """Each definition whole, and each law's statement, by file and name."""
    out = {}
    for path in glob.glob(root + "/crates/*/specs/**/*.antt", recursive=True) + glob.glob(root + "/crates/*/proofs/*.antt"):
        if "/out/" in path or os.path.basename(path) == "Lib.antt":
            continue
        for name, (leads, text) in declared(path).items():
            whole = "/specs/" in path and any(word in leads for word in WHOLE)
            out[os.path.relpath(path, root + "/crates"), name] = flat(text if whole else statement(name, text))
    return out


def by_types(text):
    """A text with the older types and cases as the new ones are written."""
    text = re.sub(r"\b(?:%s)\.(\w+)" % "|".join(TYPES), r"\1", text)
    for old, new in list(TYPES.items()) + list(CASES.items()):
        text = re.sub(r"\b%s\b(?!\.)" % old, new, text)
    return re.sub(r"[()\s,]", "", re.sub(r"Ok (?:tt|x|y)\b", "Ok", text))


def print_calls(old, new):
    print("### Public calls\n\nClauses stand word for word as they were where none is shown.\n")
    for name in sorted(set(old) | set(new)):
        was, now = old.get(name), new.get(name)
        if was == now or not any(call and call[0].startswith("pub") and "crate" not in call[0] for call in (was, now)):
            continue
        if not (was and now):
            print("- `%s` %s `%s` `%s`." % ((name, "went. It was") + was[1:] if was else (name, "is new:") + now[1:]))
            continue
        print("- `%s`" % name)
        for part, word in ((1, ""), (2, " clause")):
            if was[part] != now[part]:
                print("  - old%s `%s`\n  - new%s `%s`" % (word, was[part], word, now[part]))


def print_names(title, keys):
    files = {}
    for path, name in sorted(keys):
        files.setdefault(path, []).append("`%s`" % name)
    print("\n### %s\n" % title)
    for path, names in files.items():
        print("- `%s`: %s." % (path, ", ".join(names)))


def main():
    older = sys.argv[1].rstrip("/")
    print_calls(calls(older), calls("."))
    old, new = texts(older), texts(".")
    changed = [key for key in sorted(old) if key in new and old[key] != new[key]]
    print_names("Definitions and laws that differ by the table of types alone", [key for key in changed if by_types(old[key]) == by_types(new[key])])
    print("\n### Definitions and laws that differ by more\n")
    for path, name in changed:
        if by_types(old[path, name]) != by_types(new[path, name]):
            print("- `%s`, `%s`\n  - old `%s`\n  - new `%s`" % (path, name, old[path, name], new[path, name]))
    print_names("Definitions and laws that are gone", set(old) - set(new))
    print_names("New definitions and laws", set(new) - set(old))


if __name__ == "__main__":
    main()
