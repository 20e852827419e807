#!/usr/bin/env python3
"""Holds docs/REFUSALS.md against the repository.

    python3 tools/refusals.py        from the repository's root

Every name between backticks in its table has to exist:
  scope/Header.checkHeader    a definition or a table of rows in crates/scope/specs/Header.antt or proofs/Header.antt
  header::check_header        a function of crates/header/src
  scope!place_01_size         a wrong program, crates/scope/must-fail/place_01_size.edit
  replay_test                 a program, crates/replay_test/src/main.rt
Every number of crates/refusal has a row, and every row a number. Exits 1 if something is missing.
"""
import glob
import os
import re
import sys

PAGE = "docs/REFUSALS.md"
NUMBERS = "crates/refusal/specs/Numbers.antt"
TOKEN = re.compile(r"`([^`]+)`")


def text(path):
    with open(path, encoding="utf8") as file:
        return file.read()


def defined(token):
    """Whether crate/File.name is declared in one of the crate's files of that name."""
    crate, rest = token.split("/", 1)
    file, name = rest.split(".", 1)
    paths = [f"crates/{crate}/{folder}/{file}.antt" for folder in ("specs", "proofs")]
    line = re.compile(rf"^\s*(?:unfoldable |abbrev |pub )*(?:record |data )?{re.escape(name)} :", re.M)
    return any(os.path.isfile(path) and line.search(text(path)) for path in paths)


def function(token):
    """Whether crate::name is a function of the crate."""
    crate, name = token.split("::")[0], token.split("::")[-1]
    return any(re.search(rf"\bfn {name}\b", text(path)) for path in glob.glob(f"crates/{crate}/src/**/*.rt", recursive=True))


def wrong_program(token):
    crate, name = token.split("!")
    return os.path.isfile(f"crates/{crate}/must-fail/{name}.edit")


def exists(token):
    if "!" in token:
        return wrong_program(token)
    if "::" in token:
        return function(token)
    if "/" in token:
        return defined(token)
    return os.path.isfile(f"crates/{token}/src/main.rt")


def main():
    rows = [line for line in text(PAGE).splitlines() if re.match(r"\| \d", line)]
    faults = [f"there is no {token}" for row in rows for token in TOKEN.findall(row) if not exists(token)]
    known = set(re.findall(r"^number_of \(.*\) = (\d+)", text(NUMBERS), re.M))
    told = {re.match(r"\| (\d+)", row).group(1) for row in rows}
    faults += [f"no row for {number}" for number in sorted(known - told, key=int)]
    faults += [f"a row for {number}, which is no refusal" for number in sorted(told - known, key=int)]
    print("\n".join(faults + [f"{len(rows)} rows, {len(faults)} faults"]))
    sys.exit(1 if faults else 0)


main()
