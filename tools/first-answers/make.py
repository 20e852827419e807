# Makes the original's first answers: python3 make.py ORACLE OUT, where ORACLE is the folder of
# the oracle (it is copied and built elsewhere, and left alone) and OUT takes the five files.

import sys
import tempfile
from pathlib import Path

sys.path.append(str(Path(__file__).resolve().parent.parent))

import bounds  # noqa: E402
import naturals  # noqa: E402
import outputs  # noqa: E402
import tables  # noqa: E402
import values  # noqa: E402
from asking import Oracle, built  # noqa: E402
from rng import Rng  # noqa: E402

COMMAND = "python3 tools/first-answers/make.py ORACLE vectors/original"
SEED = 1
MOST_BYTES = 150_000
MOST_LINE = 8_000
FILES = {
    "naturals.tsv": (naturals, 400),
    "tables.tsv": (tables, 300),
    "bounds.tsv": (bounds, 150),
    "outputs.tsv": (outputs, 200),
    "values.tsv": (values, 100),
}


# The text of a file: comment lines, then the rows.
def text(name, maker, rows):
    lines = [f"# {note}" for note in (f"{name}, made by: {COMMAND}", *maker.NOTES, maker.COLUMNS)]
    lines += ["\t".join(str(column) for column in row) for row in rows]
    assert max(len(line) for line in lines) < MOST_LINE, f"{name}: a line is too long"
    whole = "\n".join(lines) + "\n"
    assert len(whole) < MOST_BYTES, f"{name}: {len(whole)} bytes"
    return whole


# Makes all files.
def main(folder, out):
    with tempfile.TemporaryDirectory() as place:
        oracle = Oracle(built(folder, place))
        for name, (maker, least) in FILES.items():
            rows = maker.rows(oracle, Rng(SEED))
            assert len(rows) >= least, f"{name}: {len(rows)} rows"
            (out / name).write_text(text(name, maker, rows))
            print(f"{name}: {len(rows)} rows")


if __name__ == "__main__":
    main(Path(sys.argv[1]), Path(sys.argv[2]))
