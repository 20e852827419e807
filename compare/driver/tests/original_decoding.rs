//! How the original decodes: what docs/DIFFERENCES.md says of it, each shown by a run.

use compare::bits::pack;
use compare::original::{decode, typing, write};
use compare::row::Row;
use simplicity::bititer::DecodeNaturalError as N;
use simplicity::{BitIter, Value};

/// Bits from 0 and 1, filled into bytes.
fn bits(text: &str) -> Vec<u8> {
    pack(&text.chars().filter(|c| *c != ' ').map(|c| c == '1').collect::<Vec<_>>())
}

fn natural(bytes: &[u8], bound: Option<usize>) -> (Result<usize, N>, usize) {
    let mut stream = BitIter::from(bytes);
    let result = stream.read_natural(bound);
    (result, stream.n_total_read())
}

fn number(bytes: &[u8]) -> u32 {
    decode::decode(bytes).unwrap_err().number
}

fn name(bytes: &[u8]) -> &'static str {
    decode::decode(bytes).unwrap_err().name
}

fn hidden(x: u8) -> Row {
    Row::Hidden([x; 32])
}

#[test]
fn known_programs() {
    let rows = |bytes: &[u8]| decode::decode(bytes).unwrap().0;
    assert_eq!(rows(&[0x24]), [Row::Unit]);
    assert_eq!(rows(&[0x20]), [Row::Iden]);
    assert_eq!(rows(&[0xa9, 0x40, 0x20]), [Row::Unit, Row::Iden, Row::Comp(0, 1)]);
    assert_eq!(rows(&[0x89, 0x20]), [Row::Unit, Row::InjL(0)]);
    assert_eq!(number(&[0xa9, 0x40, 0x10]), 6);
    assert_eq!(number(&[]), 3);
}

#[test]
fn naturals_up_to_32_bits_are_read_where_there_is_no_bound() {
    let (bytes, len) = write::naturals(&[u32::MAX as usize]);
    assert_eq!(natural(&bytes, None), (Ok(u32::MAX as usize), len));
}

#[test]
fn a_length_above_31_is_refused_once_read() {
    assert_eq!(natural(&bits("11110 0 01 00000"), None), (Err(N::Overflow), 13));
    assert_eq!(natural(&bits("111110 0 00 0000 0000000000000000"), None), (Err(N::Overflow), 29));
    assert_eq!(name(&[0xf1, 0x00]), "Natural.Overflow");
    assert!(matches!(natural(&[0xff; 40], None), (Err(N::EndOfStream(_)), 320)));
}

#[test]
fn a_bound_is_looked_at_after_the_whole_natural() {
    assert!(matches!(natural(&bits("1101 000 1"), Some(3)), (Err(N::BadIndex { got: 8, max: 3 }), 7)));
    assert!(matches!(natural(&bits("1111 0000"), Some(3)), (Err(N::EndOfStream(_)), 8)));
    assert_eq!(name(&[0x01]), "Natural.BadIndex");
}

#[test]
fn a_count_has_no_bound_of_its_own() {
    assert_eq!(number(&[0xeb, 0x00, 0x20]), 3);
    let mut long = write::natural_bits(1 << 31);
    long.extend([false, true, false, false, true]);
    assert_eq!(number(&pack(&long)), 3);
}

#[test]
fn all_nodes_are_read_before_the_walk() {
    assert_eq!(number(&write::program(&[Row::Unit, hidden(1), Row::Pair(0, 1)])), 7);
    let mut all = write::natural_bits(4);
    let text = format!("01001 0110 {} 00010 100 0 11", "00000001".repeat(32));
    all.extend(text.chars().filter(|c| *c != ' ').map(|c| c == '1'));
    assert_eq!(number(&pack(&all)), 5);
}

#[test]
fn order_of_the_walk() {
    let number_of = |rows: &[Row]| number(&write::program(rows));
    assert_eq!(number_of(&[hidden(1), Row::Unit, Row::Comp(1, 0)]), 6);
    assert_eq!(number_of(&[hidden(1), hidden(2), Row::Case(0, 1)]), 8);
    assert_eq!(number_of(&[hidden(1), Row::Case(0, 0)]), 8);
    assert_eq!(number_of(&[hidden(1), hidden(1), Row::Case(0, 1)]), 9);
    assert_eq!(number_of(&[hidden(1)]), 7);
    assert_eq!(number_of(&[Row::Unit, hidden(1)]), 6);
    assert_eq!(number_of(&[Row::Unit, Row::Unit, Row::InjL(0)]), 6);
}

#[test]
fn a_type_error_hides_later_errors() {
    let unfit = [Row::Unit, Row::Unit, Row::Take(1), Row::Comp(0, 2)];
    assert_eq!(number(&write::program(&unfit)), 0);
    assert_eq!(number(&[write::program(&unfit), vec![0]].concat()), 0);
    assert_eq!(number(&[0xa9, 0x30, 0x10, 0x00]), 0);
    let more = [&unfit[..], &[hidden(1), hidden(1), Row::Case(4, 5), Row::Pair(3, 6)]].concat();
    assert_eq!(number(&write::program(&more)), 0);
}

#[test]
fn closing_has_two_errors() {
    assert_eq!(name(&[0x24, 0x00]), "BitIter.TrailingBytes");
    assert_eq!(name(&[0x25]), "BitIter.IllegalPadding");
}

#[test]
fn an_endless_type_is_decoded() {
    let rows = decode::decode(&[0xa8, 0x30, 0x00]).unwrap().0;
    assert_eq!(rows, [Row::Iden, Row::Take(0), Row::Comp(1, 1)]);
    assert_eq!(typing::infer(&rows, None).err(), Some(3));
}

#[test]
fn places_where_reading_stopped() {
    let rows = compare::making::families::gates(300, 9);
    let bytes = write::program(&rows);
    for cut in (1..bytes.len()).step_by(97) {
        let head = &bytes[..cut];
        let read = compare::document::reader::read(head);
        let (number, place) = read.refused.unwrap();
        assert_eq!(number, 3);
        assert_eq!(decode::reading_place(head), place as usize);
    }
}

#[test]
fn equality_of_values_looks_past_their_end() {
    let x = Value::product(Value::u1(1), Value::u1(0));
    let y = Value::product(Value::u1(1), Value::u1(1));
    let left = |v: &Value| v.as_product().unwrap().0.to_value();
    let (a, b) = (left(&x), left(&y));
    assert!(a.iter_compact().eq(b.iter_compact()) && a.ty() == b.ty());
    assert!(a != b);
}
