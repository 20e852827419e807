#!/usr/bin/env python3
"""Brings the repository's own names to the spelling of today's Rattle, in one run over crates/.

usage: python3 tools/respell.py [--map FILE] [--no-fmt]     at the top of the repository

The kit's port.py turns the kit's names and some of ours. This script turns the rest of ours, before anything is proved, so that no name
has to be turned again later (a rename proves everything again). It goes by spelling and by import, proves nothing, and computes its map
from the tree, so it can run on any commit that port.py has turned; a second run changes nothing.

 camel  a value, field, constructor or local name in camel case gets snake case, wherever it stands: streamOf -> stream_of
 case   an antt constructor in upper camel case gets snake case, where its file declares it or imports it: CompLeft -> comp_left
 dash   a name with dashes that specs/ or a file right in proofs/ declares keeps a dash only where it joins two names that its own
        statement has (length-up_from), and gets `_` elsewhere (copy_turn). It turns where it is declared, imported, or reached
        through a module
 field  the same for the field of a record, unless Rust has the name too: then a `.` may lead to what Rattle makes of it
 lem    a lemma that would have the name of a definition gets `_lem`
 prime  the prime is an apostrophe; a constructor's middle dot goes

What Rattle makes keeps its name, and so do Rust's names, strings and the local names of proofs/FUNCTION/. --map writes the table, old and
new, with the rule and the number of places. Lines that begin 'clash:' say which names would fall together in a file.
"""

import collections
import os
import re
import subprocess
import sys

NAME = r"[^\s(){}\[\].;,@\"«»`|]+"
TOKEN = re.compile(NAME)
CAMEL = re.compile(r"(?<![A-Za-z0-9'])[a-z][a-z0-9]*[A-Z]")
RUN = re.compile(r"(?<![A-Za-z0-9'])[a-z][A-Za-z0-9]*")
HUMP = re.compile(r"(?<=[a-z0-9])([A-Z])")
QUIET = re.compile(r'"(?:[^"\\\n]|\\.)*"|(?<![^\s(){}.;,@"«»])--[^\n]*|//[^\n]*')
SPAN = re.compile(r"`[^`\n]+`")
PROSE = re.compile(r"[\w'′\-]+")
SIG = re.compile(rf"^( *)((?:(?:pub|abbrev|unfoldable) )*)({NAME}(?: {NAME})*?)((?: \{{[^{{}}\n]*\}})*) : (.*)$")
HOLDER = re.compile(rf"^( *)(?:pub )?(data|record) ({NAME})")
USE = re.compile(rf"\buse ([^\s;{{]+?)(?:\.\{{([^}}]*)\}}|\s+as ({NAME})|(?=[\s;]|$))")
KEYWORDS = ("--", "use ", "module ", "let ", "in ", "record ", "data ", "pub record ", "pub data ", "open ", "mod ", "pub mod ")
FACT = re.compile(r"≡|≤|<|×|⊎|⊥|↔|→|^[A-Z]\w* \S")  # a result that is a statement; of types, only these take arguments:
DATA = re.compile(r"^(?:List|Check|Out|Type) [^≡≤<×⊎↔→]*$")
BOUND = re.compile(r"[({]([^(){}:]+) :")
# How an operator's name is written in a lemma's.
SIGNS = {"add": "+", "sub": "-", "mul": "*", "div": "/", "mod": "%", "pow": "^", "append": "++", "nil": "[]", "cons": "∷", "bind": ">>=", "empty": "[]"}

# Names that the rules alone would make fall together, by module, each with its reason.
PICKED = {
    # a law of passOn that states it by `Rule`
    ("Rattle.layout.specs.Children", "pass_on"): "pass_on_lem",
    # a law of walkMake, which the file imports as plainMake
    ("Rattle.exactness.specs.Canonical", "plain-make"): "plain_make_lem",
}
# Fields that are facts of a definition of their name, in a file that has both.
FIELDS = {"nodes-left": "nodes_left_lem", "hashes-left": "hashes_left_lem", "hashes-short": "hashes_short_lem"}
# Data whose constructors in snake case would be the words that they speak of (nodes, outcomes, readings): they begin with `of_`,
# as the repository's own of_unit, of_sum and of_product.
OF = {
    "Rattle.exactness.specs.Equal", "Rattle.exactness.specs.Hidden", "Rattle.exactness.specs.NodeTyping", "Rattle.exactness.specs.Values",
    "Rattle.exactness.specs.Walk", "Rattle.report.specs.Typing", "Rattle.theory.specs.Correct", "Rattle.theory.specs.Meets",
    "Rattle.theory.specs.NodeEnds",
}


def snake(name):
    return HUMP.sub(lambda m: "_" + m[1].lower(), name[0].lower() + name[1:])


def camel_turned(token):
    """The token with each camel-case part in snake case; upper camel parts, as the C of AllC, stay."""
    if token[:1].isdigit() or not CAMEL.search(token):
        return token
    return RUN.sub(lambda m: snake(m[0]), token)


def read(path):
    with open(path, encoding="utf-8") as f:
        return f.read()


def module_of(path):
    """crates/c/specs/A/B.antt -> Rattle.c.specs.A.B"""
    parts = path[: -len(".antt")].split(os.sep)[1:]
    return "Rattle." + ".".join(parts[:-1] if parts[-1] == "Lib" else parts)


def is_ours_to_turn(path):
    """specs/ at any depth, and files right in proofs/; what lies in proofs/FUNCTION/ mirrors names that Rattle makes."""
    parts = path.split(os.sep)
    return path.endswith(".antt") and (parts[2] == "specs" or parts[2] == "proofs" and len(parts) == 4)


def result_of(text):
    depth = last = 0
    for i, ch in enumerate(text):
        depth += (ch in "({") - (ch in ")}")
        if ch == "→" and depth == 0:
            last = i + 1
    return text[last:].strip()


def signatures(text):
    """Yields (names, what they are stated by, holder); holder is 'data' or 'record' and its name right inside one, else None."""
    lines, holder = text.split("\n"), None
    for i, line in enumerate(lines):
        indent = len(line) - len(line.lstrip())
        if line.strip() and holder and indent <= holder[0]:
            holder = None
        h = HOLDER.match(line)
        if h:
            holder = (indent, h[2], h[3])
            yield [h[3]], "Type 0", None
            continue
        m = SIG.match(line)
        if not m or line.lstrip().startswith(KEYWORDS):
            continue
        body = m[5]
        for more in lines[i + 1 :]:
            if not more.strip() or len(more) - len(more.lstrip()) <= indent or more.lstrip().startswith("--"):
                break
            body += " " + more.strip()
        yield m[3].split(), m[4] + body, holder and holder[1:]


def is_fact(stated):
    result = result_of(stated)
    return bool(FACT.search(result)) and not DATA.match(result)


def words_of(stated, bound):
    """The names that a statement has, beside its own variables and those of the file's modules."""
    own = {v for group in BOUND.findall(stated) for v in group.split()}
    return {camel_turned(w) for w in TOKEN.findall(stated)} - own - bound


class Tree:
    """What the repository declares."""

    def __init__(self, root):
        self.paths = [p for p in walk(root) if p.endswith((".antt", ".rt", ".edit"))]
        self.texts = {p: read(os.path.join(root, p)) for p in self.paths}
        self.facts = collections.defaultdict(dict)  # by module: whether what it declares is a fact
        self.makers = collections.defaultdict(dict)  # by module: upper-case constructors, with their types
        self.said = collections.defaultdict(list)  # of each name, the names in its statements
        self.fields, self.local, self.rust = set(), collections.defaultdict(set), set()
        for p in self.paths:
            if p.endswith(".antt"):
                self.note(p, self.texts[p])
            elif p.endswith(".rt"):
                self.rust |= set(re.findall(r"\w+", re.sub(r"ghost\s+use\b[^;]*;|//[^\n]*", "", self.texts[p])))

    def note(self, path, text):
        module, ours = module_of(path), is_ours_to_turn(path)
        bound = {v for line in re.findall(r"(?m)^ *module _ .*(?:\n +\(.*)*", text) for group in BOUND.findall(line) for v in group.split()}
        for names, stated, holder in signatures(text):
            for n in names:
                if not ours and holder is None:
                    self.local[path].add(n)
                elif holder and holder[0] == "data" and n[0].isupper():
                    self.makers[module][n] = holder[1]
                elif holder and holder[0] == "record":
                    self.fields.add(n)
                elif ours:
                    self.facts[module][n] = is_fact(stated)
                if "-" in n:
                    self.said[n].append(words_of(stated, bound))


def walk(root):
    for folder, dirs, files in os.walk(os.path.join(root, "crates")):
        dirs[:] = sorted(d for d in dirs if d not in ("out", "data"))
        for f in sorted(files):
            yield os.path.relpath(os.path.join(folder, f), root)


class Speller:
    """The new name of each old one."""

    def __init__(self, tree):
        self.tree, self.known = tree, {}
        self.defs = collections.defaultdict(set)  # of each new name of a definition, its old ones
        for names in tree.facts.values():
            for n in (n for n, fact in names.items() if not fact):
                self.defs[self.dashes(n)].add(n)
        for n in tree.fields:
            self.defs[camel_turned(n)] |= {n} if camel_turned(n) != n else set()
        for module, names in tree.makers.items():
            for n in names:
                self.defs[self.maker(module, n)].add(n)
        self.by_type = {(data, n): (self.maker(m, n), "case") for m, names in tree.makers.items() for n, data in names.items()}
        dashed = {n: FIELDS.get(n) or self.dashes(n) for n in tree.fields if "-" in n}
        self.kept = sorted(n for n, new in dashed.items() if new != n and n.replace("-", "_") in tree.rust)
        self.fields = {n: (new, "field") for n, new in dashed.items() if new != n and n not in self.kept}

    def joins(self, name, before, after):
        """Whether some statement of the name has a name that ends what stands before the dash, and one that begins what follows."""
        one, two = before.split("_"), after.split("_")
        ends = {"_".join(one[i:]) for i in range(len(one))}
        begins = {"_".join(two[: i + 1]) for i in range(len(two))}
        have = lambda runs, said: any(r in said or SIGNS.get(r) in said for r in runs)
        return any(have(ends, said) and have(begins, said) for said in self.tree.said[name])

    def dashes(self, name):
        turned = camel_turned(name)
        if not re.search(r"\w-\w", turned):
            return turned
        parts = turned.split("-")
        out = parts[0]
        for a, b in zip(parts, parts[1:]):
            out += ("-" if not a or not b or self.joins(name, a, b) else "_") + b
        return out

    def lemma(self, module, name, fact):
        """The new name of what a module declares, and the rule."""
        if PICKED.get((module, name), name) not in self.tree.facts[module]:  # once it is so declared, the old name is another's
            return PICKED[(module, name)], "lem"
        new = self.dashes(name)
        if fact and self.defs.get(new, set()) - {name}:
            return new + "_lem", "lem"
        return new, "dash" if new != camel_turned(name) else "camel"

    def maker(self, module, name):
        new = snake(name).replace("·", "")
        return "of_" + new if module in OF else new

    def of_module(self, module):
        if module not in self.known:
            self.known[module] = self.turned_in(module)
        return self.known[module]

    def turned_in(self, module):
        out = {n: self.lemma(module, n, fact) for n, fact in self.tree.facts.get(module, {}).items()}
        out.update({n: (self.maker(module, n), "case") for n in self.tree.makers.get(module, ())})
        return {n: it for n, it in out.items() if it[0] != n}


class File:
    """The names of one file, and its text turned."""

    def __init__(self, speller, path, text):
        self.s, self.path, self.text = speller, path, text
        self.count, self.bare = collections.Counter(), collections.defaultdict(set)
        self.names, self.heads = dict(speller.fields), {}
        if path.endswith(".antt"):
            for n in speller.tree.local[path]:
                self.names.pop(n, None)
            self.names.update(speller.of_module(module_of(path)))
        for where, items, alias in USE.findall(text):
            known = speller.of_module(where)
            for item in items.split(","):
                old = item.split()[0] if item.split() else ""
                if old in known:
                    self.names[old] = known[old]
            if not items:
                self.heads[alias or where.split(".")[-1]] = known

    def token(self, text, m):
        tok = m[0]
        head = re.search(r"([^\s(){}\[\];,@\"«»`|]*)\.$", text[max(0, m.start() - 120) : m.start()])
        new = rule = None
        if head is None:
            new, rule = self.names.get(tok, (None, None))
        else:
            new, rule = self.dotted(head[1], tok)
        if new is None:
            new, rule = camel_turned(tok), "camel"
        new = new.replace("′", "'")
        if head is None:
            self.bare[new].add(tok)
        if new != tok:
            self.count[(tok, new, rule)] += 1
        return new

    def dotted(self, head, tok):
        """A name behind a dot: of a module, of a data type, or a field."""
        known = self.heads.get(head) or (self.s.of_module(head) if head.startswith("Rattle.") else {})
        if tok in known:
            return known[tok]
        if head.split(".")[-1][:1].isupper() and tok in self.names and self.names[tok][1] == "case":
            return self.names[tok]
        if head.split(".")[-1][:1].isupper() and tok[0].isupper():
            return self.s.by_type.get((head.split(".")[-1], tok), (None, None))
        return self.s.fields.get(tok, (None, None)) if "-" in tok else (None, None)

    def prose(self, text):
        span = lambda m: TOKEN.sub(lambda t: self.token(m[0], t), m[0])
        text = SPAN.sub(span, text)
        return PROSE.sub(lambda m: camel_turned(m[0]), text)

    def turn(self, text):
        out, at = [], 0
        for m in QUIET.finditer(text):
            out.append(self.code(text[at : m.start()]))
            out.append(m[0] if m[0].startswith('"') else self.prose(m[0]))
            at = m.end()
        return "".join(out) + self.code(text[at:])

    def code(self, text):
        return TOKEN.sub(lambda m: self.token(text, m), text)


def turn_edit(text, files):
    """An edit's lines, each as the file that it names; a comment's names in camel case."""
    out, file = [], None
    for line in text.split("\n"):
        if line.startswith("file: "):
            file = files(line[len("file: ") :].strip())
        key = re.match(r"(old|new): ?", line)
        if line.startswith("#") or not key or file is None:
            out.append(PROSE.sub(lambda m: camel_turned(m[0]), line) if line.startswith("#") else line)
        else:
            out.append(key[0] + file.turn(line[key.end() :]))
    return "\n".join(out)


def clashes(file):
    """Names that stand apart in the file now and would be one afterwards. No clause can name a Rust function."""
    fns = set(re.findall(r"\bfn (\w+)", file.text)) if file.path.endswith(".rt") else ()
    return [(new, sorted(olds)) for new, olds in sorted(file.bare.items()) if len(olds) > 1 and new not in fns]


def turned(tree, speller):
    """Yields each path, its text turned, the places counted, and the clashes."""
    for path, text in tree.texts.items():
        if path.endswith(".edit"):
            crate = os.path.join(*path.split(os.sep)[:2])
            named = lambda p: os.path.join(crate, p)
            files = lambda p: File(speller, named(p), tree.texts[named(p)]) if named(p) in tree.texts else None
            yield path, turn_edit(text, files), {}, []
        else:
            file = File(speller, path, text)
            yield path, file.turn(text), file.count, clashes(file)


def lay_out(root):
    """rt fmt in each crate: the names have other lengths."""
    for crate in sorted(os.listdir(os.path.join(root, "crates"))):
        where = os.path.join(root, "crates", crate)
        if os.path.isdir(os.path.join(where, "src")):
            done = subprocess.run(["rt", "fmt"], cwd=where, stdout=subprocess.PIPE, stderr=subprocess.STDOUT, text=True)
            if done.returncode:
                print(f"fmt: {crate}: {done.stdout.strip()[-300:]}")


def report(count, met, speller, table):
    rows = sorted((old, new, rule, n) for (old, new, rule), n in count.items())
    for rule in sorted({r[2] for r in rows}):
        mine = [r for r in rows if r[2] == rule]
        print(f"{rule}: {len(mine)} names, {sum(r[3] for r in mine)} places")
    for path, new, olds in met:
        print(f"clash: {path}: {' and '.join(olds)} would both be {new}")
    for field in speller.kept:
        print(f"left: the field {field}, since Rust has the name too")
    if table:
        with open(table, "w", encoding="utf-8") as f:
            f.write("".join("\t".join(map(str, r)) + "\n" for r in rows))


def main(argv):
    root = os.getcwd()
    if not os.path.isdir(os.path.join(root, "crates")):
        print(__doc__)
        return 2
    tree = Tree(root)
    speller = Speller(tree)
    count, met = collections.Counter(), []
    for path, new, places, fallen in list(turned(tree, speller)):
        count.update(places)
        met += [(path, *c) for c in fallen]
        if new != tree.texts[path]:
            with open(os.path.join(root, path), "w", encoding="utf-8") as f:
                f.write(new)
    report(count, met, speller, argv[argv.index("--map") + 1] if "--map" in argv else None)
    if "--no-fmt" not in argv:
        lay_out(root)
    return 0


if __name__ == "__main__":
    raise SystemExit(main(sys.argv[1:]))
