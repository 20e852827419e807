//! Program bytes by the unmodified bit writer and natural writer. No check is made, so programs
//! that are refused can be written too.

use crate::row::Row;
use simplicity::encode::{encode_hash, encode_natural, encode_value};
use simplicity::{BitIter, BitWriter};

type Writer<'a> = BitWriter<&'a mut Vec<u8>>;

/// The code of each kind that comes before its data: bits and how many.
const CODES: [(u64, usize); 15] = [
    (0b00000, 5),
    (0b00001, 5),
    (0b00010, 5),
    (0b00011, 5),
    (0b00100, 5),
    (0b00101, 5),
    (0b00110, 5),
    (0b00111, 5),
    (0b01000, 5),
    (0b01001, 5),
    (0b01010, 5),
    (0b01011, 5),
    (0b0111, 4),
    (0b0110, 4),
    (0b10, 2),
];

/// The bits of a natural's code.
pub fn natural_bits(n: usize) -> Vec<bool> {
    let mut bytes = vec![];
    let mut writer = BitWriter::new(&mut bytes);
    let len = encode_natural(n, &mut writer).unwrap();
    writer.flush_all().unwrap();
    drop(writer);
    BitIter::from(&bytes[..]).take(len).collect()
}

/// Naturals one after the other: the bytes, and how many bits they take.
pub fn naturals(values: &[usize]) -> (Vec<u8>, usize) {
    let mut bytes = vec![];
    let mut writer = BitWriter::new(&mut bytes);
    for value in values {
        encode_natural(*value, &mut writer).unwrap();
    }
    let bits = writer.n_total_written();
    writer.flush_all().unwrap();
    drop(writer);
    (bytes, bits)
}

/// Writes one node.
fn node(writer: &mut Writer, at: usize, row: &Row) {
    let (code, len) = CODES[row.kind()];
    writer.write_bits_be(code, len).unwrap();
    match row {
        Row::Fail(_) | Row::Hidden(_) => {
            encode_hash(row.hash_bytes(), writer).unwrap();
        }
        Row::Word(word) => {
            encode_natural(word.n() + 1, writer).unwrap();
            encode_value(word.as_value(), writer).unwrap();
        }
        _ => {
            let (l, r) = row.children();
            for child in [l, r].into_iter().flatten() {
                encode_natural(at - child, writer).unwrap();
            }
        }
    }
}

/// The program of some rows, with the count that is given.
pub fn counted(count: usize, rows: &[Row]) -> Vec<u8> {
    let mut bytes = vec![];
    let mut writer = BitWriter::new(&mut bytes);
    encode_natural(count, &mut writer).unwrap();
    for (at, row) in rows.iter().enumerate() {
        node(&mut writer, at, row);
    }
    writer.flush_all().unwrap();
    drop(writer);
    bytes
}

/// The program of some rows.
pub fn program(rows: &[Row]) -> Vec<u8> {
    counted(rows.len(), rows)
}
