# values.tsv: the original's reading of compact bits along a type, and the padded cells.

from asking import field
from coding import pack, records, text
from type_table import TypeTable, UNIT_TYPE, records_for

COLUMNS = "group\tanswer\twidth\tread\tpadded\tbit count\tbits\tindex\ttypes"
NOTES = [
    "Value::from_compact_bits of the original for the type record at `index` of `types`",
    "(the requirements' records in hex), from the first `bit count` bits of `bits` (hex, top bit",
    "first, filled up with zeros).",
    "answer: ok, or short where the value needs more than `bit count` bits.",
    "width: of the type. read: compact bits of the value. padded: its cells in hex, the last byte",
    "filled up with zeros. - for none.",
]


class Questions:
    def __init__(self, rng):
        self.rng = rng
        self.types = TypeTable()
        self.rows = []

    # A question for a type and some bits, once.
    def add(self, group, number, bits):
        table, index = records_for(self.types, [number])
        if (table, index[number], bits) not in (row[1:] for row in self.rows):
            self.rows.append((group, table, index[number], bits))

    # Some values of a type.
    def add_values(self, group, number, count):
        for _ in range(count):
            self.add(group, number, self.types.value(number, self.rng))


# Types of one kind each: unit, sums with padding on either side, products with empty parts.
def plain(questions):
    types = questions.types
    bit, byte = types.bit, types.power(3)
    maybe = types.sum(UNIT_TYPE, byte)
    empty = types.product(UNIT_TYPE, UNIT_TYPE)
    shapes = [
        types.sum(byte, UNIT_TYPE), maybe, types.sum(types.power(2), byte),
        types.sum(maybe, types.sum(bit, maybe)), types.product(empty, maybe),
        types.product(maybe, empty),
        types.product(types.product(empty, bit), types.sum(empty, byte)),
    ]
    for number in (UNIT_TYPE, empty, *shapes):
        questions.add_values("plain", number, 3)


# Words of 1 to 256 bits.
def words(questions):
    for n in range(9):
        questions.add_values("word", questions.types.power(n), 1)


# Both sides of a sum of width 1 to 20, its other part of width 0 or 3.
def paddings(questions):
    types = questions.types
    for width in range(1, 20, 2):
        part = types.of_width(width)
        left = types.sum(part, types.of_width(3))
        questions.add("padding", left, "0" + questions.rng.bits(width))
        questions.add("padding", left, "1" + questions.rng.bits(3))
        questions.add("padding", types.sum(UNIT_TYPE, part), "0")


# A doubled unit type.
def doubled(questions):
    types = questions.types
    empty = UNIT_TYPE
    for _ in range(40):
        empty = types.product(empty, empty)
    questions.add("doubled unit", empty, "")
    questions.add("doubled unit", types.product(empty, types.bit), "1")


# Types nested to one side, sums and products in turn.
def nested(questions):
    types = questions.types
    number = types.bit
    for step in range(12):
        number = types.sum(number, UNIT_TYPE) if step % 2 else types.product(types.bit, number)
        questions.add_values("nested", number, 1)


# Types at random, of width 3 and more.
def drawn(questions):
    types = questions.types
    pool = [UNIT_TYPE, types.bit, types.bit, types.power(2), types.sum(UNIT_TYPE, types.bit)]
    for _ in range(60):
        number = types.draw(questions.rng, 4, pool)
        if types.widths[number] > 2:
            questions.add_values("random", number, 2)


# Wide types with values of a bit.
def wide(questions):
    types = questions.types
    for width in (63, 64, 65, 500, 4096):
        number = types.padded(width)
        questions.add("wide", number, "0")
        questions.add("wide", types.product(number, types.bit), "01")


# Every beginning of a value, and a value with bits to spare.
def short(questions):
    types, rng = questions.types, questions.rng
    uneven = types.sum(types.power(3), types.sum(UNIT_TYPE, types.bit))
    for number in (types.power(3), types.product(uneven, uneven), types.product(UNIT_TYPE, uneven)):
        bits = types.value(number, rng)
        for end in range(len(bits)):
            questions.add("short", number, bits[:end])
        questions.add("spare", number, bits + "1")
        questions.add("spare", number, bits + rng.bits(11))


# The answer's columns: answer, width, read, padded.
def columns(answer, bits):
    if answer == "short":
        return "short", "-", "-", "-"
    padded, read = field(answer, "padded"), field(answer, "read")
    assert len(padded) == int(field(answer, "width")), "padded bits are not as wide as the type"
    assert field(answer, "compact") == bits[: int(read)], "compact bits are others than those read"
    return "ok", field(answer, "width"), read, text(pack(padded))


# All rows.
def rows(oracle, rng):
    questions = Questions(rng)
    for make in (plain, words, paddings, doubled, nested, drawn, wide, short):
        make(questions)
    asked = [
        f"value {text(records(table))} {index} {len(bits)} {text(pack(bits))}"
        for _, table, index, bits in questions.rows
    ]
    return [
        (group, *columns(answer, bits), len(bits), text(pack(bits)), index, text(records(table)))
        for (group, table, index, bits), answer in zip(questions.rows, oracle.ask(asked))
    ]
