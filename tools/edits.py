"""Wrong definitions, made from right ones by rule: what tools/mutate.py tries.

`edits` gives every edit of a file of definitions. An edit changes one place on the right side of a clause, or in a rule of a data type; the functions under
"the kinds of edits" say which. Types are compared by their text alone, so most edits are definitions, and some are not.
"""
import re

# sides that may be changed about, and tests that all have to hold, in any order
EITHER_WAY = {"max", "min", "eqb", "same", "+", "*", "pair_row", "case_row", "comp_row"}
ALL_HOLD = {"every", "none_hidden"}
LIBRARY_PAIRS = {"leb": "ltb", "ltb": "leb", "take": "drop", "drop": "take", "take_l": "drop", "drop_l": "take"}
TOKEN = re.compile(r"--[^\n]*|[(){};]|[^\s(){};]+")
SIGNATURE = re.compile(r"(\s*)(?:(?:unfoldable|abbrev|pub) )*([^\s:]+) : (.*)$")
# what opens a block whose lines are items of their own: a section, a data type of rules
SECTION = re.compile(r"module _ |pub data \S+ : .*→")
INFIX = {"+", "-", "*", "/", "%", "^", "&", "++", "∷", ">>="}
BREAKS = {"=", "↦", "|", "←", "→", "in", "let", "do", "elim", "record", ";", ":"}


# ---- reading the definitions

class Node:
    """A token, or a group of nodes between brackets, with its place in the text."""

    def __init__(self, start, end, line, token, parts=None):
        self.start, self.end, self.line, self.token, self.parts = start, end, line, token, parts

    def plain(self):
        """It is a token."""
        return self.parts is None


def tree(text, start, end):
    """The nodes of a stretch of text."""
    stack, opened = [[]], []
    for m in TOKEN.finditer(text, start, end):
        token, line = m.group(), text.count("\n", 0, m.start())
        if token.startswith("--"):
            continue
        if token in ("(", "{", "["):
            opened.append((token, m.start(), line))
            stack.append([])
        elif token in (")", "}", "]"):
            parts = stack.pop()
            kind, at, first = opened.pop()
            stack[-1].append(Node(at, m.end(), first, kind, parts))
        else:
            stack[-1].append(Node(m.start(), m.end(), line, token))
    return stack[0]


def types(text):
    """The types of the explicit arguments that a signature asks for, with their names where it gives them, and the type of the answer."""
    parts, part, depth = [], "", 0
    for c in text:
        depth += c in "({"
        depth -= c in ")}"
        if c == "→" and depth == 0:
            parts.append(part.strip())
            part = ""
        else:
            part += c
    found = []
    for p in parts:
        for name, type_ in arguments(p):
            found.append((name, type_))
    return found, part.strip()


def arguments(part):
    """What one part of a signature asks for: binders in brackets, one after the other, or a bare type."""
    found = []
    rest = part
    while rest:
        m = re.match(r"([({])([^():{}]*?) : ([^(){}]*(?:\([^()]*\)[^(){}]*)*)[)}]\s*", rest)
        if not m:
            return found + [(None, rest)]
        if m.group(1) == "(":
            found += [(name, m.group(3).strip()) for name in m.group(2).split()]
        rest = rest[m.end():]
    return found


def imported(text):
    """The module that each name of a file comes from, by its `use` lines."""
    found = {}
    for m in re.finditer(r"^use (\S+)\.\{([^}]*)\}", text, re.M):
        for item in m.group(2).split(","):
            found[item.split(" as ")[-1].strip()] = m.group(1)
    return found


class Known:
    """What the two crates declare: the arguments of functions and constructors, fields of one type, constructors of one line, functions of one type,
    and what computes only where it is unfolded."""

    def __init__(self, texts):
        self.arguments, self.fields, self.families, self.functions = {}, {}, {"true": ["false"], "false": ["true"]}, {}
        self.unfoldable = {name for text in texts.values() for name in re.findall(r"^ *unfoldable (?:pub )?(\S+) :", text, re.M)}
        self.bodies = {}
        for (crate, name), text in texts.items():
            self.read("Rattle.%s.specs.%s" % (crate, name), text)
            for indent, word, start, end in items(text):
                self.bodies[word] = self.bodies.get(word, "") + text[start + indent + len(word):end]

    def read(self, name, text):
        """Takes in what one file declares."""
        block, record, fields, section = None, None, [], []
        for line in text.split("\n"):
            indent = len(line) - len(line.lstrip())
            if line.strip() and indent == 0:
                m = re.match(r"(?:pub )?(data|record) (\S+)", line)
                block, record, fields, section = (m.group(1) if m else None), (m.group(2) if m else None), [], []
                if line.startswith("module _ "):
                    section = arguments(line[len("module _ "):line.rindex(" where")])
                    continue
            m = SIGNATURE.match(line)
            if not m or line.strip().startswith("--"):
                m = block == "data" and re.match(r"(  )([^:(){}]+) : (.*)$", line)
                if not m:
                    continue
            if block == "record" and indent:
                fields.append((m.group(2), m.group(3)))
                self.fields[record] = fields
            elif block == "data" and indent:
                names = re.match(r"  ([^:(){}]+?) : ", line).group(1).split()
                asked = [t for _, t in types(m.group(3).split(" -- ")[0])[0]]
                for one in names:
                    self.arguments.setdefault(one, asked)
                    self.families.setdefault(one, []).extend(n for n in names if n != one)
            elif block is None:
                asked, answer = types(m.group(3))
                self.arguments.setdefault(m.group(2), [t for _, t in asked])
                same = (name, tuple(t for _, t in section), tuple(t for _, t in asked), answer)
                self.functions.setdefault(same, []).append(m.group(2))

    def siblings(self, name, module):
        """The next function of the module with the same type and with other clauses."""
        for (home, *_), names in self.functions.items():
            if home == module and name in names:
                after = names[names.index(name) + 1:] + names[:names.index(name)]
                yield from [other for other in after if self.bodies.get(other) != self.bodies.get(name)][:1]


class Clause:
    """A clause of a definition: where its right side stands, the types of the variables in scope, and where its signature stands, or the line after that which
    lists what it unfolds."""

    def __init__(self, text, module, name, body, end, scope, answer, above=None, rule=False):
        self.text, self.module, self.name, self.body, self.end, self.scope = text, module, name, body, end, scope
        self.answer, self.above, self.rule = answer, above, rule
        self.nodes, self.imports = tree(text, body, end), imported(text)

    def cut(self, nodes):
        """The text of neighbouring nodes."""
        return self.text[nodes[0].start:nodes[-1].end]

    def edit(self, kind, start, end, new, unfold=None):
        """The edit as (name of what is edited, line, kind, old, new, the whole text with it). What it names anew is unfolded, so that it computes."""
        text = self.text[:start] + new + self.text[end:]
        if unfold:
            line = self.text[self.above[0]:self.above[1]]
            indent = line[:len(line) - len(line.lstrip())]
            more = "\n%sunfolding %s" % (indent, unfold) if line.split()[0] != "unfolding" else " " + unfold if unfold not in line.split() else ""
            text = text[:self.above[1]] + more + text[self.above[1]:]
        return self.name, self.text.count("\n", 0, start) + 1, kind, self.text[start:end], new, text

    def swap(self, kind, a, b):
        """Two stretches of nodes changed about."""
        return self.edit(kind, a[0].start, b[-1].end, self.cut(b) + self.text[a[-1].end:b[0].start] + self.cut(a))

    def levels(self, nodes=None, head=None):
        """Each sequence of nodes at one level, with the function that it is an argument of."""
        nodes = self.nodes if nodes is None else nodes
        yield nodes, head
        for at, node in enumerate(nodes):
            if not node.plain():
                first = at
                while first > 0 and nodes[first - 1].line == node.line and not self.divides(nodes[first - 1]):
                    first -= 1
                yield from self.levels(node.parts, nodes[first].token if first < at else None)

    @staticmethod
    def divides(node):
        """An operator, a keyword, or the end of a λ's variables: what stands on its two sides are no function and argument."""
        return node.plain() and (node.token in INFIX or node.token in BREAKS or node.token.startswith("λ") or re.search(r"[^.]\.$", node.token) is not None)

    def tokens(self):
        """The tokens, but for the patterns of an `elim`'s cases and for what stands before `=` or `←`."""
        for nodes, _ in self.levels():
            pattern = any(node.plain() and node.token == "↦" for node in nodes)
            for node, after in zip(nodes, nodes[1:] + [None]):
                if node.plain() and node.token in ("↦", "|"):
                    pattern = node.token == "|"
                elif node.plain() and not pattern and not (after is not None and after.plain() and after.token in ("=", "←")):
                    yield node

    def runs(self):
        """Applications: stretches that no operator, keyword or line's end divides."""
        for nodes, _ in self.levels():
            run = []
            for node in nodes + [None]:
                stop = node is None or self.divides(node)
                if stop or (run and node.line != run[-1].line):
                    if run:
                        yield run
                    run = []
                if not stop:
                    run.append(node)

    def chains(self, operator):
        """The operands of each chain of one operator, with the function that the chain is an argument of; `∷` binds more closely than `++`."""
        for nodes, head in self.levels():
            chain, part = [], []
            for node in nodes + [None]:
                if node is not None and node.plain() and node.token == operator:
                    chain.append(part)
                    part = []
                elif node is None or (self.divides(node) and (node.token, operator) != ("∷", "++")):
                    chain.append(part)
                    if len(chain) > 1 and all(chain) and not (node is not None and node.token == "↦"):
                        yield chain, head
                    chain, part = [], []
                else:
                    part.append(node)


def bound(patterns, asked, known):
    """The types of the variables that patterns bind."""
    scope = {}
    for node, type_ in zip(patterns, asked):
        if node.plain():
            if not re.match(r"[a-zA-Z][\w']*$", node.token) or node.token in ("zero", "suc") or node.token in known.families:
                continue
            scope[node.token] = type_
        elif node.parts:
            head = node.parts[0]
            if len(node.parts) == 3 and node.parts[1].token == "∷":
                inner = re.sub(r"^List ", "", type_)
                scope.update(bound([head, node.parts[2]], [inner.strip("()"), type_], known))
            elif len(node.parts) == 3 and node.parts[1].plain() and node.parts[1].token == "&":
                scope.update(bound([head, node.parts[2]], ["Val", "Val"], known))
            elif head.plain() and head.token == "suc":
                scope.update(bound(node.parts[1:], ["ℕ"], known))
            elif head.plain():
                scope.update(bound(node.parts[1:], known.arguments.get(head.token.split(".")[-1], []), known))
    return scope


def items(text):
    """The items of a file: their indentation, their first word, and where they start and end. What is indented below an item belongs to it, but for
    sections and rules."""
    lines = text.split("\n")
    starts = [0]
    for line in lines:
        starts.append(starts[-1] + len(line) + 1)
    at = 0
    while at < len(lines):
        line, end = lines[at], at + 1
        indent = len(line) - len(line.lstrip())
        while line.strip() and end < len(lines) and not SECTION.match(line) and lines[end].strip() and (
                len(lines[end]) - len(lines[end].lstrip()) > indent or lines[end].strip()[0] in "])}"):
            end += 1
        if line.strip() and not line.strip().startswith("--"):
            yield indent, line.split()[0], starts[at], starts[end] - 1
        at = end


def rule(text, module, data, start, end):
    """A rule of a data type that relates things, as a clause: its binders are the variables in scope."""
    body = start + text[start:end].index(" : ") + 3
    scope = {}
    for m in re.finditer(r"[{(]([^(){}:]*) : ([^(){}]*)[)}]", text[body:end]):
        scope.update((name, m.group(2)) for name in m.group(1).split())
    return Clause(text, module, data, body, end, scope, "", rule=True)


def clauses(text, module, known):
    """The clauses of a file's definitions, not of its theorems, and the rules of its data types that relate things."""
    declared, section, data, above = {}, [], None, None
    for indent, word, start, end in items(text):
        item = text[start:end]
        if indent == 0:
            section, data = [], re.match(r"pub data (\S+) : .*→", item)
        signature = SIGNATURE.match(" ".join(item.split("\n")))
        equals = re.search(r"(?<=\s)=(?=\s|$)", item)
        if item.startswith("module _ "):
            section = arguments(item[len("module _ "):item.rindex(" where")])
        elif data and indent == 2 and " : " in item:
            yield rule(text, module, data.group(1), start, end)
        elif word == "unfolding":
            above = start, end
        elif word in declared and declared[word][0] == indent and equals:
            asked, answer = declared[word][1:]
            scope = dict(section)
            scope.update(bound(tree(text, start + indent + len(word), start + equals.start()), [t for _, t in asked], known))
            yield Clause(text, module, word, start + equals.end(), end, scope, answer, above)
        elif signature and word in ("unfoldable", "abbrev"):
            declared[signature.group(2)] = (indent, *types(re.sub(r"\s+", " ", signature.group(3)).strip()))
            above = start, end


# ---- the kinds of edits

def listed(c, known):
    """An element of a list left out; two neighbours changed about, but for tests that all have to hold."""
    for chain, head in c.chains("∷"):
        for k in range(len(chain) - 1):
            yield c.edit("a test left out" if head in ALL_HOLD else "an element left out", chain[k][0].start, chain[k + 1][0].start, "")
        for a, b in zip(chain[:-1], chain[1:-1]):
            if head not in ALL_HOLD and c.cut(a) != c.cut(b):
                yield c.swap("neighbours changed about", a, b)


def reckoned(c, known):
    """An operand left out; the two of an operator that tells them apart changed about."""
    for operator in ("+", "-", "*", "/", "%", "^", "&", "++"):
        for chain, _ in c.chains(operator):
            for a, b in zip(chain, chain[1:]):
                yield c.edit("an operand left out", a[-1].end, b[-1].end, "")
                if operator in ("+", "*", "++", "&"):
                    yield c.edit("an operand left out", a[0].start, b[0].start, "")
                if operator in ("-", "^", "++", "&"):
                    yield c.swap("operands changed about", a, b)


def applied(c, known):
    """Two neighbouring arguments of one type changed about; a `not` left out."""
    for run in c.runs():
        head, args = run[0], run[1:]
        if not head.plain():
            continue
        if head.token == "not" and len(args) == 1:
            yield c.edit("a test turned", head.start, args[0].start, "")
        name = head.token.split(".")[-1]
        asked = ["ℕ", "ℕ"] if name in ("leb", "ltb") else known.arguments.get(name, [])
        asked = asked[len(asked) - len(args):] if len(args) <= len(asked) else []
        for (a, s), (b, t) in zip(zip(args, asked), list(zip(args, asked))[1:]):
            if s == t and head.token not in EITHER_WAY and c.cut([a]) != c.cut([b]):
                yield c.swap("arguments changed about", [a], [b])


def compared(c, known):
    """Equal loosened to either side (but for "not above 0", which means 0); the sum for the larger of two numbers."""
    for run in c.runs():
        head, args = run[0], run[1:]
        if head.plain() and len(args) == 2 and head.token in ("eqb", "max"):
            a, b = c.cut(args[:1]), c.cut(args[1:])
            if head.token == "eqb":
                if b != "0":
                    yield c.edit("not above, for equal", head.start, args[1].end, "lib.Dec.leb %s %s" % (a, b))
                yield c.edit("not below, for equal", head.start, args[1].end, "lib.Dec.leb %s %s" % (b, a))
            else:
                yield c.edit("the sum, for the larger", head.start, args[1].end, "(%s + %s)" % (a, b))


def branched(c, known):
    """The other branch: the answers of two neighbouring cases changed about."""
    for nodes, _ in c.levels():
        cases, part, inside = [], [], False
        for node in nodes + [None]:
            if node is None or (node.plain() and node.token == "|"):
                if inside and part:
                    cases.append(part)
                part, inside = [], False
            elif node.plain() and node.token == "↦" and not inside:
                part, inside = [], True
            else:
                part.append(node)
        for a, b in zip(cases, cases[1:]):
            if c.cut(a) != c.cut(b):
                yield c.swap("the other branch", a, b)


def counted(c, known):
    """One more: of a number, a limit, a definition's answer; a `suc` left out."""
    successor = re.search(r"\bsuc\b", c.text.split("\n\n")[0]) is not None
    for node in c.tokens():
        if re.fullmatch(r"\d+|0x[0-9a-fA-F_]+", node.token):
            yield c.edit("one more", node.start, node.end, str(int(node.token.replace("_", ""), 0) + 1))
        if c.imports.get(node.token, "").startswith("Rattle.limits.") and successor:
            yield c.edit("one more", node.start, node.end, "(suc %s)" % node.token)
    for run in c.runs():
        if run[0].token == "suc" and len(run) == 2:
            yield c.edit("one less", run[0].start, run[1].start, "")
    body = c.text[c.body:c.end].strip()
    if c.answer == "ℕ" and successor and "\n" not in body and not re.fullmatch(r"\d+", body):
        yield c.edit("an answer one more", c.body, c.end, " suc (%s)" % body)


def replaced(c, known):
    """Another function, field or constructor of the same type, another variable of the same type."""
    for node in c.tokens():
        stem = node.token[: len(node.token) - len(node.token.split(".")[-1])]
        name = node.token[len(stem):]
        # a variable, alone or with a field after it
        variable = node.token if node.token in c.scope else stem[:-1]
        if variable in c.scope:
            others = [v for v, t in c.scope.items() if t == c.scope[variable]]
            if len(others) > 1:
                yield c.edit("another name", node.start, node.start + len(variable), others[(others.index(variable) + 1) % len(others)])
        if node.token in c.scope:
            continue
        if stem == "." or stem[:-1] in c.scope:
            for record, fields in known.fields.items():
                alike = [f for f, t in fields if t == dict(fields).get(name)]
                if len(alike) > 1 and (record in c.imports or re.search(r"^pub record %s " % record, c.text, re.M)):
                    yield c.edit("another field", node.end - len(name) - 1, node.end, "." + alike[(alike.index(name) + 1) % len(alike)])
            continue
        home = c.imports.get(name, c.module)
        if home.startswith("Rattle.std.") and name in LIBRARY_PAIRS:
            yield c.edit("another function", node.start, node.end, "%s.%s" % (home, LIBRARY_PAIRS[name]))
            continue
        for other in known.families.get(name, [])[:1]:
            yield c.edit("another constructor", node.start, node.end, stem + other)
        for other in known.siblings(name, home):
            written = other if home == c.module or c.imports.get(other) == home else "%s.%s" % (home, other)
            yield c.edit("another function", node.start, node.end, written, written if other in known.unfoldable else None)


def stepped(c, known):
    """A step of a `do` block left out; two neighbouring steps changed about."""
    for m in re.finditer(r"\bdo *\n", c.text[c.body:c.end]):
        at, steps = c.body + m.end(), []
        while at < c.end:
            stop = c.text.find("\n", at, c.end)
            stop = c.end if stop < 0 else stop
            line = c.text[at:stop]
            indent = len(line) - len(line.lstrip())
            if steps and indent < steps[0][2]:
                break
            if steps and indent > steps[0][2]:
                steps[-1] = (steps[-1][0], stop, steps[-1][2])
            else:
                steps.append((at, stop, indent))
            at = stop + 1
        for (start, _, _), (after, _, _) in zip(steps, steps[1:]):
            yield c.edit("a step left out", start, after, "")
        for (a, b, _), (d, e, _) in zip(steps, steps[1:]):
            if "←" in c.text[d:e]:
                yield c.edit("steps changed about", a, e, c.text[d:e] + "\n" + c.text[a:b])


def premised(c, known):
    """A premise of a rule that asks for nothing; its place stays, so that theorems which use the rule still fit it."""
    parts = [[]]
    for node in c.nodes if c.rule else []:
        if node.plain() and node.token == "→":
            parts.append([])
        else:
            parts[-1].append(node)
    for part in parts[:-1]:
        if part[0].token not in ("{", "("):
            yield c.edit("a premise that asks for nothing", part[0].start, part[-1].end, "Unit {0}")


def answered(c, known, others):
    """The next clause's answer, where all its names stand for things of the same type here."""
    for other in others:
        taken = c.text[other.body:other.end]
        used = [v for v in re.findall(r"[^\s(){};]+", taken) if v in other.scope]
        if taken != c.text[c.body:c.end] and all(c.scope.get(v) == other.scope[v] for v in used):
            yield c.edit("another clause's answer", c.body, c.end, taken)
            return


KINDS = [listed, reckoned, applied, compared, branched, counted, replaced, stepped, premised]


def edits(text, module, known):
    """Every edit of a file, each once."""
    seen = {text}
    found = list(clauses(text, module, known))
    for k, c in enumerate(found):
        others = [o for o in found[k + 1:] + found[:k] if o.name == c.name and not c.rule]
        for made in [kind(c, known) for kind in KINDS] + [answered(c, known, others)]:
            for edit in made:
                if edit[-1] not in seen:
                    seen.add(edit[-1])
                    yield edit
