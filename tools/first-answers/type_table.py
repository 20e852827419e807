# Types as numbers: 0 is unit, every other one a sum or product of earlier ones, equal types
# being one number. From these the type records of a dossier are taken.

UNIT_TYPE = 0


class TypeTable:
    def __init__(self):
        self.parts = [(0, 0, 0)]
        self.widths = [0]
        self.known = {(0, 0, 0): 0}
        self.bit = self.sum(UNIT_TYPE, UNIT_TYPE)

    # The number of a record of tag and parts.
    def put(self, record, width):
        if record not in self.known:
            self.known[record] = len(self.parts)
            self.parts.append(record)
            self.widths.append(width)
        return self.known[record]

    def sum(self, left, right):
        return self.put((1, left, right), 1 + max(self.widths[left], self.widths[right]))

    def product(self, left, right):
        return self.put((2, left, right), self.widths[left] + self.widths[right])

    # 2^(2^n), built from bits.
    def power(self, n):
        if n == 0:
            return self.bit
        half = self.power(n - 1)
        return self.product(half, half)

    # n where a type is 2^(2^n), else None.
    def exponent(self, number):
        width = self.widths[number]
        n = width.bit_length() - 1
        return n if width and self.power(n) == number else None

    # A type without padding of a given width above 0.
    def of_width(self, width):
        powers = [self.power(n) for n in range(16) if width >> n & 1]
        whole = powers[0]
        for power in powers[1:]:
            whole = self.product(power, whole)
        return whole

    # A type of a given width above 0 that has values of one compact bit.
    def padded(self, width):
        return self.sum(UNIT_TYPE, UNIT_TYPE if width == 1 else self.of_width(width - 1))

    # Compact bits of some value.
    def value(self, number, rng):
        tag, left, right = self.parts[number]
        if self.widths[number] == 0:
            return ""
        if tag == 1:
            side = rng.below(2)
            return str(side) + self.value((left, right)[side], rng)
        return self.value(left, rng) + self.value(right, rng)

    # A type at random, parts first drawn from `pool`.
    def draw(self, rng, depth, pool):
        if depth == 0 or rng.below(4) == 0:
            return rng.pick(pool)
        left = self.draw(rng, depth - 1, pool)
        right = self.draw(rng, depth - 1, pool)
        return rng.pick([self.sum, self.product])(left, right)


# The records that some types need, unit first and parts before wholes, and their indices.
def records_for(types, wanted):
    table, index = [(0, 0, 0)], {UNIT_TYPE: 0}

    def put(number):
        if number not in index:
            tag, left, right = types.parts[number]
            record = (tag, put(left), put(right))
            index[number] = len(table)
            table.append(record)
        return index[number]

    for number in wanted:
        put(number)
    return table, index
