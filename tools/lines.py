#!/usr/bin/env python3
"""Looks at the length of lines.

    python3 tools/lines.py           says which lines are too long; exits 1 if there are some
    python3 tools/lines.py --wrap    wraps the prose of every page first

Prose has at most 110 columns; tables, headings and examples are left as they are. A line of code or proof has at most 300, and fewer
than 500 lines of the repository have more than 160; `use` lines are not looked at, since the formatter breaks them one name a line.
"""
import re
import subprocess
import sys
import textwrap

PROSE, MOST, LONG, FEW = 110, 300, 160, 500
ITEM = re.compile(r"^(\s*)([-*]|\d+\.) ")
KEPT = re.compile(r"^(#|\||    |```|<)")


def tracked(*patterns):
    listed = subprocess.run(["git", "ls-files", *patterns], capture_output=True, text=True, check=True)
    return [path for path in listed.stdout.split("\n") if path and not path.startswith("docs/src/")]


def text(path):
    with open(path, encoding="utf8") as file:
        return file.read()


def filled(lines):
    """A paragraph or an item of a list, as lines of at most PROSE columns."""
    item = ITEM.match(lines[0])
    first = item.group(0) if item else re.match(r"\s*", lines[0]).group(0)
    words = " ".join([lines[0][len(first):]] + [line.strip() for line in lines[1:]])
    rest = " " * len(first)
    return textwrap.wrap(words, PROSE, initial_indent=first, subsequent_indent=rest, break_long_words=False, break_on_hyphens=False)


def wrapped(page):
    """The page with its prose wrapped. A paragraph is wrapped anew only where one of its lines is too long."""
    out, part, fenced = [], [], False

    def close():
        if part:
            out.extend(filled(part) if any(len(line) > PROSE for line in part) else part)
            part.clear()

    for line in page.split("\n"):
        inside = bool(part) and not ITEM.match(line)
        fence = line.lstrip().startswith("```")
        kept = fenced or fence or not line.strip() or (KEPT.match(line) and not (inside and ITEM.match(part[0]) and line.startswith("    ")))
        fenced = fenced != fence
        if kept:
            close()
            out.append(line)
            continue
        if ITEM.match(line) or line.startswith("**"):
            close()
        part.append(line)
    close()
    return "\n".join(out)


def long_prose(path):
    fenced = False
    for number, line in enumerate(text(path).split("\n"), 1):
        fenced = fenced != line.lstrip().startswith("```")
        if len(line) > PROSE and not fenced and not KEPT.match(line):
            yield f"{path}:{number}: {len(line)} columns of prose"


def main():
    pages = tracked("*.md")
    if sys.argv[1:] == ["--wrap"]:
        for path in pages:
            page = text(path)
            if wrapped(page) != page:
                with open(path, "w", encoding="utf8") as file:
                    file.write(wrapped(page))
    faults = [fault for path in pages for fault in long_prose(path)]
    longer = 0
    for path in tracked("*.rt", "*.antt"):
        for number, line in enumerate(text(path).split("\n"), 1):
            if re.match(r"\s*(ghost )?(pub )?use ", line):
                continue
            longer += len(line) > LONG
            if len(line) > MOST:
                faults.append(f"{path}:{number}: {len(line)} columns")
    if longer >= FEW:
        faults.append(f"{longer} lines of code and proof have more than {LONG} columns")
    print("\n".join(faults + [f"{longer} lines over {LONG} columns, {len(faults)} faults"]))
    sys.exit(1 if faults else 0)


main()
