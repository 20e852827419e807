# Programs as graphs. `Graph` puts nodes together with their arrows and makes equal ones one;
# `Grower` draws well-typed programs of all kinds for a given arrow; `canonical` numbers the
# nodes that the last one needs, left first.

from coding import (
    CASE, COMP, DISCONNECT, DROP, FAIL, HIDDEN, IDEN, INJL, INJR, PAIR, TAKE, UNIT, WITNESS,
    WORD, Node,
)
from type_table import UNIT_TYPE


# The nodes below and including `root`, in the order of the left-first walk.
def canonical(nodes, root):
    place, out = {}, []
    stack = [(root, False)]
    while stack:
        at, ready = stack.pop()
        node = nodes[at]
        children = [child for child in (node.left, node.right) if child is not None]
        if at in place:
            continue
        if ready:
            place[at] = len(out)
            out.append(node._replace(left=place.get(node.left), right=place.get(node.right)))
        else:
            stack.append((at, True))
            stack += [(child, False) for child in reversed(children)]
    return out


class Graph:
    def __init__(self, types):
        self.types = types
        self.nodes = []
        self.same = {}
        self.by_arrow = {}
        self.worded = set()

    # The number of a node; an equal one that stands already, but for witness and disconnect.
    def add(self, kind, source, target, left=None, right=None, data=None):
        node = Node(kind, left, right, data, source, target)
        if kind not in (WITNESS, DISCONNECT) and node in self.same:
            return self.same[node]
        at = len(self.nodes)
        self.nodes.append(node)
        self.same[node] = at
        if kind != HIDDEN:
            self.by_arrow.setdefault((source, target), []).append(at)
        if kind == WORD or left in self.worded or right in self.worded:
            self.worded.add(at)
        return at

    def arrow(self, at):
        return self.nodes[at].source, self.nodes[at].target

    def unit(self, source=UNIT_TYPE):
        return self.add(UNIT, source, UNIT_TYPE)

    def iden(self, type_):
        return self.add(IDEN, type_, type_)

    def word(self, data):
        return self.add(WORD, UNIT_TYPE, self.types.power(len(data).bit_length() - 1), data=data)

    def witness(self, source, target):
        return self.add(WITNESS, source, target)

    def fail(self, source, target, data):
        return self.add(FAIL, source, target, data=data)

    def hidden(self, data):
        return self.add(HIDDEN, UNIT_TYPE, UNIT_TYPE, data=data)

    def injl(self, child, other):
        source, target = self.arrow(child)
        return self.add(INJL, source, self.types.sum(target, other), child)

    def injr(self, child, other):
        source, target = self.arrow(child)
        return self.add(INJR, source, self.types.sum(other, target), child)

    def take(self, child, other):
        source, target = self.arrow(child)
        return self.add(TAKE, self.types.product(source, other), target, child)

    def drop(self, child, other):
        source, target = self.arrow(child)
        return self.add(DROP, self.types.product(other, source), target, child)

    def pair(self, left, right):
        (source, first), (_, second) = self.arrow(left), self.arrow(right)
        return self.add(PAIR, source, self.types.product(first, second), left, right)

    def comp(self, left, right):
        return self.add(COMP, self.arrow(left)[0], self.arrow(right)[1], left, right)

    # A case, or an assertion where a child is hidden; its source is given.
    def case(self, source, left, right):
        shown = right if self.nodes[left].kind == HIDDEN else left
        return self.add(CASE, source, self.arrow(shown)[1], left, right)

    # A disconnect, its source read off the left child's.
    def disconnect(self, left, right):
        source, target = self.arrow(left)
        first = self.types.parts[target][1]
        whole = self.types.product(first, self.arrow(right)[1])
        return self.add(DISCONNECT, self.types.parts[source][2], whole, left, right)


class Grower(Graph):
    def __init__(self, types, rng, pool, weights):
        super().__init__(types)
        self.rng = rng
        self.pool = pool
        self.weights = weights
        self.wordless = 0

    # A node of the arrow, drawn from what stands already or made.
    def grow(self, source, target, depth):
        known = self.by_arrow.get((source, target), [])
        if self.wordless:
            known = [at for at in known if at not in self.worded]
        if known and self.rng.below(3) == 0:
            return self.rng.pick(known)
        rules = self.closing(source, target)
        if depth > 0 or not rules:
            rules = rules + self.opening(source, target)
        drawn = [(self.weights.get(rule.__name__, 4), rule) for rule in rules]
        return self.rng.weighted(drawn)(source, target, depth - 1)

    # The rules that make the target smaller or end here.
    def closing(self, source, target):
        tag = self.types.parts[target][0]
        rules = [self.to_left, self.to_right] if tag == 1 else []
        if tag == 2:
            rules.append(self.to_pair)
        if source == target:
            rules.append(self.to_iden)
        if target == UNIT_TYPE:
            rules.append(self.to_unit)
        if source == UNIT_TYPE and self.types.exponent(target) is not None and not self.wordless:
            rules.append(self.to_word)
        return rules

    # The rules that may go on for ever.
    def opening(self, source, target):
        rules = [self.by_comp, self.by_witness, self.by_fail]
        tag, left, _ = self.types.parts[source]
        if tag == 2:
            rules += [self.by_take, self.by_drop]
        if tag == 2 and self.types.parts[left][0] == 1:
            rules += [self.by_case, self.by_assertion]
        if self.types.parts[target][0] == 2:
            rules.append(self.by_disconnect)
        return rules

    def to_left(self, source, target, depth):
        _, left, right = self.types.parts[target]
        return self.injl(self.grow(source, left, depth), right)

    def to_right(self, source, target, depth):
        _, left, right = self.types.parts[target]
        return self.injr(self.grow(source, right, depth), left)

    def to_pair(self, source, target, depth):
        _, left, right = self.types.parts[target]
        return self.pair(self.grow(source, left, depth), self.grow(source, right, depth))

    def to_iden(self, source, target, depth):
        return self.iden(source)

    def to_unit(self, source, target, depth):
        return self.unit(source)

    def to_word(self, source, target, depth):
        return self.word(self.rng.bits(self.types.widths[target]))

    def by_take(self, source, target, depth):
        _, left, right = self.types.parts[source]
        return self.take(self.grow(left, target, depth), right)

    def by_drop(self, source, target, depth):
        _, left, right = self.types.parts[source]
        return self.drop(self.grow(right, target, depth), left)

    def by_comp(self, source, target, depth):
        middle = self.rng.pick(self.pool)
        return self.comp(self.grow(source, middle, depth), self.grow(middle, target, depth))

    def by_witness(self, source, target, depth):
        return self.witness(source, target)

    def by_fail(self, source, target, depth):
        return self.fail(source, target, self.rng.bits(512))

    # The sources of the two branches of a case.
    def branches(self, source):
        _, choice, rest = self.types.parts[source]
        _, left, right = self.types.parts[choice]
        return self.types.product(left, rest), self.types.product(right, rest)

    def by_case(self, source, target, depth):
        first, second = self.branches(source)
        left = self.grow(first, target, depth)
        return self.case(source, left, self.grow(second, target, depth))

    def by_assertion(self, source, target, depth):
        first, second = self.branches(source)
        hidden = [at for at, node in enumerate(self.nodes) if node.kind == HIDDEN]
        if not hidden or self.rng.below(2):
            hidden = [self.hidden(self.rng.bits(256))]
        if self.rng.below(2):
            return self.case(source, self.grow(first, target, depth), self.rng.pick(hidden))
        return self.case(source, self.rng.pick(hidden), self.grow(second, target, depth))

    # A disconnect; its right child has no words below it.
    def by_disconnect(self, source, target, depth):
        _, first, last = self.types.parts[target]
        handed = self.rng.pick(self.pool)
        entry = self.types.product(self.types.power(8), source)
        left = self.grow(entry, self.types.product(first, handed), depth)
        self.wordless += 1
        right = self.grow(handed, last, depth)
        self.wordless -= 1
        return self.disconnect(left, right)
