#!/usr/bin/env python3
"""Counts instructions of the lines of the machine, original and library, under qemu-user.

    count.py EMULATOR PLUGIN BENCH NM [LINE ...]

A call's count is that of two calls less that of one, so that what comes before the first call falls out. Prints a table of
counts, and below it which functions of the library a run spends them in.
"""
import bisect
import collections
import os
import subprocess
import sys
import tempfile

# Where qemu-user puts a position-independent program for x86-64.
BASE = 0x4000000000
ORIGINAL_RUN, ORIGINAL_WHOLE = "original, input to output bits", "original, whole"
LIBRARY_TABLES, LIBRARY_CHECKS, LIBRARY_WHOLE = "library, on tables", "library, checks of tables alone", "library, whole"
SHOWN = 4


def symbols(bench, nm):
    """Addresses and names of the program's functions, in order."""
    out = subprocess.run([nm, "-C", "-n", bench], capture_output=True, text=True, check=True).stdout
    words = [line.split(" ", 2) for line in out.splitlines()]
    found = [(int(w[0], 16), w[2]) for w in words if len(w) == 3 and w[0] and w[1] in "tTwW"]
    return [at for at, _ in found], [name for _, name in found]


class Counter:
    def __init__(self, emulator, plugin, bench, nm):
        self.emulator, self.plugin, self.bench = emulator, plugin, bench
        self.starts, self.names = symbols(bench, nm)

    def calls(self, count, rival, line):
        """Instructions by function of so many calls, all that comes before them included."""
        with tempfile.NamedTemporaryFile() as file:
            subprocess.run(
                [self.emulator, "-plugin", self.plugin, self.bench, "--calls", str(count), rival, line],
                env={**os.environ, "COUNT_FILE": file.name},
                check=True,
            )
            counts = collections.Counter()
            for row in open(file.name):
                address, instructions, times = row.split()
                counts[self.function(int(address, 16) - BASE)] += int(instructions) * int(times)
        return counts

    def function(self, at):
        """The function at a place of the program; the C library stands outside it."""
        if 0 <= at < self.starts[-1] + 4096:
            return self.names[bisect.bisect_right(self.starts, at) - 1]
        return "the C library"

    def call(self, rival, line):
        """Instructions by function of one call."""
        two = self.calls(2, rival, line)
        two.subtract(self.calls(1, rival, line))
        return two

    def machine(self, line):
        """Instructions by function of the library's run without the checks of the tables."""
        run = self.call(LIBRARY_TABLES, line)
        run.subtract(self.call(LIBRARY_CHECKS, line))
        return run


def thousands(counts):
    return f"{round(sum(counts.values()) / 1000):,}"


def ratio(ours, theirs):
    """Ours by theirs; none where the checks alone take more than the run with them, as on a run of a few nodes."""
    return f"{sum(ours.values()) / sum(theirs.values()):.2f}" if sum(ours.values()) > 0 else "-"


def most(counts):
    """The functions that take most, with their share."""
    total = sum(counts.values())
    rows = [(n, name) for name, n in counts.items() if 20 * n > total]
    return ", ".join(f"`{name}` {round(100 * n / total)}%" for n, name in sorted(rows, reverse=True)[:SHOWN])


def main():
    counter = Counter(*sys.argv[1:5])
    lines = subprocess.run([counter.emulator, counter.bench, "--lines"], capture_output=True, text=True, check=True)
    print("| input | original, run | here, run | ratio | original, whole | here, whole | ratio | what dominates here, whole |")
    print("|---|---|---|---|---|---|---|---|")
    for line in sys.argv[5:] or lines.stdout.splitlines():
        theirs, ours = counter.call(ORIGINAL_RUN, line), counter.machine(line)
        whole, here = counter.call(ORIGINAL_WHOLE, line), counter.call(LIBRARY_WHOLE, line)
        cells = [line, thousands(theirs), thousands(ours), ratio(ours, theirs), thousands(whole), thousands(here), ratio(here, whole)]
        print("| " + " | ".join(cells + [most(here)]) + " |", flush=True)


if __name__ == "__main__":
    main()
