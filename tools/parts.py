"""Packed records, and files of them that a program can hold whole: at most 64 KiB each, a record never cut. Their names end in 0, 1 and so on."""
import os

LARGEST = 65536


def number32(n):
    """A number of 32 bits, big-endian."""
    return n.to_bytes(4, "big")


def short_number(n):
    """A number of a packed list: below 254 it is a byte; 254 stands before one of 2 bytes, 255 before one of 4."""
    if n < 254:
        return bytes([n])
    return b"\xfe" + n.to_bytes(2, "big") if n < 1 << 16 else b"\xff" + number32(n)


def record(numbers, parts, end=b""):
    """The count of the other bytes, the numbers, the sizes of the parts, the parts, and what follows them."""
    body = b"".join(map(number32, [*numbers] + [len(part) for part in parts])) + b"".join(parts) + end
    return number32(len(body)) + body


def write_parts(path, records):
    """Writes the records as path0, path1 and so on, each as full as whole records make it."""
    parts = [b""]
    for record in records:
        if LARGEST < len(parts[-1]) + len(record):
            parts.append(b"")
        parts[-1] += record
    for k, part in enumerate(parts):
        with open(f"{path}{k}", "wb") as file:
            file.write(part)


def read_parts(path):
    """The bytes of path0, path1 and so on, one after the other."""
    whole, k = b"", 0
    while os.path.exists(f"{path}{k}"):
        with open(f"{path}{k}", "rb") as file:
            whole += file.read()
        k += 1
    return whole
