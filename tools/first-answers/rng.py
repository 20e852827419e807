# Numbers that are the same on every machine (xorshift64*), so that a seed gives the same
# questions under any Python.

MASK = (1 << 64) - 1


class Rng:
    def __init__(self, seed):
        self.state = (seed * 0x9E3779B97F4A7C15 | 1) & MASK

    # The next 64 bits.
    def next(self):
        x = self.state
        x ^= x >> 12
        x = (x ^ x << 25) & MASK
        self.state = x ^ x >> 27
        return self.state * 0x2545F4914F6CDD1D & MASK

    # A number from 0 to n - 1.
    def below(self, n):
        return (self.next() >> 33) % n

    # One of a list.
    def pick(self, items):
        return items[self.below(len(items))]

    # One of a list of (weight, item).
    def weighted(self, pairs):
        at = self.below(sum(weight for weight, _ in pairs))
        for weight, item in pairs:
            if at < weight:
                return item
            at -= weight

    # A text of n bits.
    def bits(self, n):
        return "".join("01"[self.below(2)] for _ in range(n))
