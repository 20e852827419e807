#!/usr/bin/env python3
"""Tries wrong definitions, each with one edit, on the crate that they stand in, and lists those that it does not refuse.

    python3 tools/mutate.py list [WHAT ..]            prints the edits with their numbers
    python3 tools/mutate.py try [WHAT ..] [OPTIONS]   tries them, and prints figures for each file and what passes

WHAT is a crate (`report`, `scope`), a file (`scope/Walk`), or one edit by its number (`scope/Walk:12`); all of both crates if left out.
    --each N       at most N edits of one kind in one file, drawn at random
    --seed S       another draw (default 1)
    --beside       try them on the rows beside them alone, where there are any: what passes may still be refused elsewhere
    --show         print the outcome of every edit, not only of those that pass

Not part of the gate. tools/edits.py makes the edits. One check tries many: each edit has its own copy of the file that it changes and of the files between
that one and some computed rows. It is tried on the nearest rows first, last on all that rest on the file. Its outcome is one of
    refused         every definition still stands, and a theorem of the crate, most often a table of computed rows, no longer does
    no definition   the edited text does not parse, or it or a definition that uses it has no type: such an edit counts for nothing
    unclear         the check could not tell, or a theorem fails by something other than what it states
    PASSES          the crate is still proved: a row is missing, or the edit means the same
"""
import argparse
import os
import random
import re
import shutil
import subprocess
import tempfile
from collections import Counter

from edits import Known, edits

CRATES = ["report", "scope"]
# files of computed rows and of what they are written with; all others hold definitions
ROWS = re.compile(r"(Rows|Lines|Shorthand|Assembled|Known|BoundsTable|Dossiers)$")
# how many edits one check tries, and how many characters of copies it reads
BATCH, BATCH_TEXT = 60, 1000000
# how many tables of rows an edit is tried on before all that rests on its file
BESIDE = 3
ERROR = re.compile(r"specs/(\w+?)Edit(\d+)\.antt:\d+:\d+: error: (?:`([^`]*)`: )?(.*)")
# what the prover says where a theorem's two sides, or what it has and what it states, are not the same
MISMATCH = re.compile(r"two types|two indices|expected type|lands at index|is checked against|components but its type")


def read(path):
    with open(path, encoding="utf8") as file:
        return file.read()


def write(path, text):
    with open(path, "w", encoding="utf8") as file:
        file.write(text)


def short(text):
    text = " ".join(text.split())
    return text if len(text) < 90 else text[:60] + " .. " + text[-25:]


# ---- the files of a crate

class Files:
    """The files of a crate's specs: what each imports, its theorems, and which are tables of computed rows."""

    def __init__(self, root, crate):
        folder = os.path.join(root, "crates", crate, "specs")
        self.crate, self.texts = crate, {name[:-5]: read(os.path.join(folder, name)) for name in sorted(os.listdir(folder)) if name != "Lib.antt"}
        self.own = re.compile(r"(Rattle\.%s\.specs\.)(\w+)" % crate)
        self.uses = {name: {m[1] for m in self.own.findall(text)} for name, text in self.texts.items()}
        self.theorems = {name: theorems(text) for name, text in self.texts.items()}
        self.rows = {name for name in self.texts if ROWS.search(name)}
        self.tables = {name for name in self.rows if self.theorems[name]}

    def users(self, name):
        """The files that import a file."""
        return {other for other, used in self.uses.items() if name in used}

    def needs(self, names):
        """The files with all that they import."""
        found, todo = set(), list(names)
        while todo:
            name = todo.pop()
            if name not in found:
                found.add(name)
                todo += self.uses[name]
        return found

    def between(self, name, ends):
        """The files by which these rest on a file, both ends among them."""
        return {n for n in self.needs(ends) if name in self.needs([n])}

    def stages(self, name):
        """What an edit of a file is tried on, in turn: a few tables of rows beside it, first the one that names most of it for the text that is copied;
        then all that rests on it."""
        def worth(row):
            return self.named(row, name) / sum(len(self.texts[n]) for n in self.between(name, [row]))
        beside = sorted(self.users(name) & self.tables, key=worth, reverse=True)[:BESIDE]
        every = self.between(name, [n for n in self.texts if name in self.needs([n])])
        return [names for names in (self.between(name, [row]) for row in beside) if names != every] + [every]

    def named(self, row, name):
        """How many names of a file another one imports."""
        return sum(len(found.split(",")) for found in re.findall(r"^use Rattle\.%s\.specs\.%s\.\{([^}]*)\}" % (self.crate, name), self.texts[row], re.M))


def theorems(text):
    """The names of a file that are stated and proved: no definitions, and nothing within a data type or a record."""
    found, block = set(), False
    for line in text.split("\n"):
        if line[:1].strip():
            block = re.match(r"(pub )?(data|record) ", line) is not None
        m = re.match(r" *(?:pub )?([^\s:]+) : ", line)
        if m and not block and not line.strip().startswith("--"):
            found.add(m.group(1))
    return found - set(re.findall(r"^ *(?:unfoldable|abbrev) (?:pub )?(\S+) : ", text, re.M))


# ---- trying edits

def checked(root, crate):
    """A check of a crate, which has ended."""
    return subprocess.run(["rt", "check", "--jobs", "1"], cwd=os.path.join(root, "crates", crate), capture_output=True, text=True)


class Bench:
    """A small repository with a crate and the proved libraries below it, in which edits are tried."""

    def __init__(self, root, files):
        os.makedirs(os.path.join(root, "target"), exist_ok=True)
        self.files, self.root = files, tempfile.mkdtemp(prefix="mutate-", dir=os.path.join(root, "target"))
        lines = needed(root, files.crate)
        write(os.path.join(self.root, "crates.txt"), "\n".join(lines.values()) + "\n")
        for name in lines:  # each with what its check kept in out/
            shutil.copytree(os.path.join(root, "crates", name), os.path.join(self.root, "crates", name))
        self.specs = os.path.join(self.root, "crates", files.crate, "specs")

    def copies(self, number, edit, names):
        """The copies of files for one edit, which import one another."""
        for name in names:
            text = edit.text if name == edit.name else self.files.texts[name]
            yield "%sEdit%d" % (name, number), self.files.own.sub(lambda m: m.group() + ("Edit%d" % number if m.group(2) in names else ""), text)

    def check(self, batch):
        """What the check of many edits says: its status, and its errors by the number of the edit, as (file, declaration, message)."""
        shutil.rmtree(self.specs)
        os.makedirs(self.specs)
        written = {}
        for number, (edit, names) in enumerate(batch):
            written.update(self.copies(number, edit, names))
            written.update((n, self.files.texts[n]) for n in self.files.needs(names) - names)
        for name, text in written.items():
            write(os.path.join(self.specs, name + ".antt"), text)
        write(os.path.join(self.specs, "Lib.antt"), "".join("pub mod %s\n" % name for name in sorted(written)))
        done = checked(self.root, self.files.crate)
        found = [[] for _ in batch]
        for name, number, declared, message in ERROR.findall(done.stdout + done.stderr):
            found[int(number)].append((name, declared, message))
        return done.returncode, found

    def judge(self, errors):
        """The outcome that errors mean, and the first that says so."""
        for name, declared, message in errors:
            if declared not in self.files.theorems[name]:
                return "no definition", "%s.%s: %s" % (name, declared, short(message))
        for name, declared, message in errors:
            if MISMATCH.search(message):
                return "refused", "%s.%s" % (name, declared)
        for name, declared, message in errors:
            return "unclear", "%s.%s: %s" % (name, declared, short(message))
        return "PASSES", ""

    def attempt(self, batch):
        """Tries edits in one check, or in smaller ones where that check ends without a verdict; the outcome of each."""
        status, found = self.check(batch)
        if status in (0, 1) and (status == 0 or any(found)):
            return [self.judge(errors) for errors in found]
        if len(batch) == 1:
            return [("unclear", "the check ended with %d" % status)]
        middle = len(batch) // 2
        return self.attempt(batch[:middle]) + self.attempt(batch[middle:])

    def attempt_all(self, chosen, beside, show):
        """Tries edits stage by stage, each until it is refused."""
        stages = {name: self.files.stages(name) for name in {edit.name for edit in chosen}}
        if beside:
            stages = {name: names[:-1] or names for name, names in stages.items()}
        stage, todo = 0, chosen
        while todo:
            for batch in batches([(edit, stages[edit.name][stage]) for edit in todo], self.files):
                for (edit, _), (edit.outcome, edit.where) in zip(batch, self.attempt(batch)):
                    edit.settled = edit.outcome != "PASSES" or stage + 1 == len(stages[edit.name])
                    if show and edit.settled:
                        print(edit.outcome, edit.words, "(%s)" % edit.where if edit.where else "", flush=True)
            stage += 1
            todo = [edit for edit in todo if not edit.settled]


def batches(tries, files):
    """Edits in groups that one check can try."""
    batch, size = [], 0
    for edit, names in tries:
        more = sum(len(files.texts[n]) for n in names)
        if batch and (len(batch) == BATCH or size + more > BATCH_TEXT):
            yield batch
            batch, size = [], 0
        batch.append((edit, names))
        size += more
    if batch:
        yield batch


def needed(root, crate):
    """The lines of crates.txt for a crate and all that it rests on, as they stand there."""
    lines = {}
    for line in read(os.path.join(root, "crates.txt")).split("\n"):
        m = re.match(r"(\w+):", line)
        if m:
            lines[m.group(1)] = line
    reached, todo = {}, [crate]
    while todo:
        name = todo.pop()
        if name in lines and name not in reached:
            reached[name] = lines[name]
            todo += lines[name].split()[1:]
    return reached


# ---- what is tried

class Edit:
    """An edit: the file, the kind, how it reads, and the file's text with it."""

    def __init__(self, crate, name, number, made):
        declared, line, self.kind, old, new, self.text = made
        self.crate, self.name, self.label, self.outcome = crate, name, "%s/%s" % (crate, name), ""
        self.words = "%s:%d %s line %d, %s: `%s` becomes `%s`" % (self.label, number, declared, line, self.kind, short(old), short(new))
        self.asked = {crate, self.label, "%s:%d" % (self.label, number)}


def gather(crates, what):
    """The edits that were asked for."""
    texts = {(files.crate, name): text for files in crates.values() for name, text in files.texts.items() if name not in files.rows}
    known = Known(texts)
    for (crate, name), text in texts.items():
        for number, made in enumerate(edits(text, "Rattle.%s.specs.%s" % (crate, name), known)):
            edit = Edit(crate, name, number, made)
            if not what or edit.asked & set(what):
                yield edit


def drawn(chosen, each, seed):
    """At most so many edits of one kind in one file."""
    groups = {}
    for edit in chosen:
        groups.setdefault((edit.label, edit.kind), []).append(edit)
    chance = random.Random(seed)
    kept = [edit for group in groups.values() for edit in (group if len(group) <= each else chance.sample(group, each))]
    return [edit for edit in chosen if edit in kept]


def figures(chosen):
    """A line for each file, what passes under it, and the sums."""
    def line(label, edits_):
        tally = Counter(edit.outcome for edit in edits_)
        print("%-18s %4d wrong definitions: %4d refused, %2d pass; %d unclear, %d edits were no definitions" % (
            label, tally["refused"] + tally["PASSES"], tally["refused"], tally["PASSES"], tally["unclear"], tally["no definition"]))
    for label in dict.fromkeys(edit.label for edit in chosen):
        line(label, [edit for edit in chosen if edit.label == label])
        for edit in chosen:
            if edit.label == label and edit.outcome == "PASSES":
                print("    PASSES", edit.words)
    line("all", chosen)


def main():
    parser = argparse.ArgumentParser(description=__doc__, formatter_class=argparse.RawDescriptionHelpFormatter)
    parser.add_argument("verb", choices=["list", "try"])
    parser.add_argument("what", nargs="*")
    parser.add_argument("--each", type=int)
    parser.add_argument("--seed", type=int, default=1)
    parser.add_argument("--beside", action="store_true")
    parser.add_argument("--show", action="store_true")
    options = parser.parse_args()
    root = os.path.dirname(os.path.dirname(os.path.abspath(__file__)))
    crates = {crate: Files(root, crate) for crate in CRATES}
    chosen = list(gather(crates, options.what))
    if options.each is not None:
        chosen = drawn(chosen, options.each, options.seed)
    if options.verb == "list":
        for edit in chosen:
            print(edit.words)
        print("%d edits" % len(chosen))
        return
    names = [crate for crate in CRATES if any(edit.crate == crate for edit in chosen)]
    for crate in names:
        done = checked(root, crate)
        if done.returncode != 0:
            raise SystemExit(done.stdout + done.stderr)
    for crate in names:
        bench = Bench(root, crates[crate])
        try:
            bench.attempt_all([edit for edit in chosen if edit.crate == crate], options.beside, options.show)
        finally:
            shutil.rmtree(bench.root, ignore_errors=True)
    figures(chosen)


if __name__ == "__main__":
    main()
