# make_reads.py VECTORS OUT: writes data/reads from the original's answers, naturals.tsv and tables.tsv of the folder VECTORS.
# The bit position of a hash or of a fail node's bytes is where those bits stand in the program: a program in which they stand twice is left out.
import os
import sys

sys.path.append(os.path.join(os.path.dirname(os.path.abspath(__file__)), "../../tools"))
from parts import record

ANSWERS = {"value": 0, "ended": 1, "long": 2, "over": 3}


def rows(path):
    for line in open(path):
        if not line.startswith("#"):
            yield line.rstrip("\n").split("\t")


def data(text):
    return b"" if text == "-" else bytes.fromhex(text)


def read_record(kind, stream, at, answer=0, bound=0, value=0, following=0, read=b""):
    return record([kind, at, answer, bound, value, following], [read, stream])


def naturals(folder):
    for _, answer, value, following, bound, start, stream in rows(folder + "/naturals.tsv"):
        number, bits = (int(value), int(following) - int(start)) if answer == "value" else (0, 0)
        yield read_record(0, data(stream), int(start), ANSWERS[answer], int(bound), number, bits)


def whole_bytes(folder):
    for row in rows(folder + "/tables.tsv"):
        program, hashes = data(row[6]), data(row[8])
        bits = "".join(f"{b:08b}" for b in program)
        for node in row[7].split() if hashes else []:
            kind, place, _ = map(int, node.split(","))
            if kind not in (10, 13):
                continue
            read = hashes[place:place + (64 if kind == 10 else 32)]
            wanted = "".join(f"{b:08b}" for b in read)
            if bits.find(wanted) == bits.rfind(wanted):
                yield read_record(1, program, bits.find(wanted), following=bits.find(wanted) + 8 * len(read), read=read)


def closings(folder):
    for _, mark, answer, _, _, read, program, _, _ in rows(folder + "/tables.tsv"):
        if mark == "all" and answer in ("0", "10"):
            yield read_record(2, data(program), int(read), int(answer != "0"))


if __name__ == "__main__":
    made = [*naturals(sys.argv[1]), *whole_bytes(sys.argv[1]), *closings(sys.argv[1])]
    open(sys.argv[2], "wb").write(b"".join(made))
    print({k: sum(r[7] == k for r in made) for k in range(3)}, sum(map(len, made)), "bytes")
