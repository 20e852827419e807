//! The known runs of the requirements through each safe function, refusals and stores included.

use drevaloci::*;

/// The 81-byte dossier: injl of unit, to 1+(1+1).
const HEADER: [u32; 14] = [1, 3, 56, 2, 71, 2, 73, 0, 81, 0, 81, 0, 81, 81];
const TYPES: [u8; 15] = [0, 0, 0, 0, 0, 1, 0, 0, 0, 0, 1, 0, 0, 0, 1];
const PROGRAM: [u8; 2] = [0x89, 0x20];
const ARROWS: [u8; 8] = [0, 0, 0, 0, 0, 0, 0, 2];
const NODES: [u32; 8] = [9, 0, 0, 0, 4, 0, 0, 0];

fn dossier() -> Vec<u8> {
    let header: Vec<u8> = HEADER.iter().flat_map(|n| n.to_be_bytes()).collect();
    [&header[..], &TYPES, &PROGRAM, &ARROWS].concat()
}

fn tables() -> Tables<'static> {
    Tables { types: &TYPES, nodes: &NODES, arrows: &ARROWS, program: &PROGRAM, hashes: &[] }
}

const NO_BITS: Bits = Bits { bytes: &[], count: 0 };

#[test]
fn the_whole_job() {
    for (old, left) in [(0xff, 0x7f), (0x00, 0x00)] {
        let (mut nodes, mut hashes) = ([7; 9], [7; 3]);
        let (mut cells, mut frames, mut answer) = ([old; 2], [7; 7], [0xff; 2]);
        let stores = Stores { cells: &mut cells, frames: &mut frames, answer: &mut answer };
        assert_eq!(run(&dossier(), &mut nodes, &mut hashes, stores), Answer::Value(1));
        assert_eq!(nodes, [9, 0, 0, 0, 4, 0, 0, 0, 0]);
        assert_eq!(hashes, [0; 3]);
        assert_eq!(cells, [left, old]);
        assert_eq!(frames, [0, 0, 0, 0, 0, 0, 7]);
        assert_eq!(answer, [0x00, 0xff]);
    }
}

#[test]
fn a_short_store_leaves_the_table() {
    let (mut nodes, mut hashes) = ([7; 8], [7; 1]);
    let (mut cells, mut frames, mut answer) = ([5; 1], [5; 5], [5; 1]);
    let stores = Stores { cells: &mut cells, frames: &mut frames, answer: &mut answer };
    let refused = run(&dossier(), &mut nodes, &mut hashes, stores);
    assert_eq!(refused, Answer::Refused(Refusal::StoreShort(1)));
    assert_eq!((nodes, hashes), (NODES, [0]));
    assert_eq!((cells, frames, answer), ([5], [5; 5], [5]));
}

#[test]
fn decoding() {
    let (mut nodes, mut hashes) = ([7; 12], [7; 2]);
    let done = decode(&[0xa9, 0x40, 0x20], &mut nodes, &mut hashes);
    assert_eq!(done, Decoded::Table { nodes: 3, hash_bytes: 0 });
    assert_eq!(nodes, [9, 0, 0, 0, 8, 0, 0, 0, 0, 0, 1, 0]);
    assert_eq!(hashes, [0; 2]);
    let refused = |program: &[u8]| decode(program, &mut [7; 12], &mut []);
    assert_eq!(refused(&[0xa9, 0x40, 0x10]), Decoded::Refused(Refusal::CanonicalOrder(0)));
    assert_eq!(refused(&[]), Decoded::Refused(Refusal::StreamEnded(0)));
    assert_eq!(refused(&[0xec, 0x00, 0x10]), Decoded::Refused(Refusal::Natural(0)));
    assert_eq!(refused(&[0xf1, 0x00]), Decoded::Refused(Refusal::Overlong(0)));
    assert_eq!(refused(&[0x60]), Decoded::Refused(Refusal::Jet(0)));
    assert_eq!(refused(&[0x24, 0x00]), Decoded::Refused(Refusal::Closing(1)));
    assert_eq!(decode(&[0x80], &mut [7; 7], &mut []), Decoded::Refused(Refusal::StoreShort(3)));
}

#[test]
fn checks_of_lent_tables() {
    assert_eq!(walk(&PROGRAM, &[], &NODES), Checked::Passed);
    assert_eq!(walk(&PROGRAM, &[], &[15, 0, 0, 0]), Checked::Refused(Refusal::NodeRecord(0)));
    assert_eq!(walk(&PROGRAM, &[], &[]), Checked::Refused(Refusal::Natural(0)));
    assert_eq!(arrows(tables()), Checked::Passed);
    let short = Tables { arrows: &ARROWS[..4], ..tables() };
    assert_eq!(arrows(short), Checked::Refused(Refusal::Arrow(2)));
    assert_eq!(hashes(tables(), &[]), Checked::Passed);
    assert_eq!(hashes(tables(), &[1; 64]), Checked::Refused(Refusal::Hash(2)));
}

#[test]
fn equal_nodes() {
    let types = [0, 0, 0, 0, 0, 1, 0, 0, 0, 0, 2, 0, 1, 0, 1];
    let words = |first: u32, second: u32, program: &[u8]| {
        let nodes = [14, 1, first, 0, 14, 1, second, 0, 2, 0, 1, 0];
        let arrows_of = [0, 0, 0, 1, 0, 0, 0, 1, 0, 0, 0, 2];
        arrows(Tables { types: &types, nodes: &nodes, arrows: &arrows_of, program, hashes: &[] })
    };
    assert_eq!(words(0, 3, &[0b1001_0000]), Checked::Refused(Refusal::NodeRepeated(1)));
    assert_eq!(words(0, 1, &[0b1001_0000]), Checked::Passed);
}

#[test]
fn bounds_of_a_program() {
    assert_eq!(bounds(tables()), Bounds::Within { cells: 2, frames: 2, cost: 200 });
    let equal = Tables { types: &[0; 10], ..tables() };
    assert_eq!(bounds(equal), Bounds::Refused(Refusal::TypeRecord(1)));
}

#[test]
fn a_run_on_tables() {
    let (mut cells, mut frames, mut answer) = ([0xff; 1], [7; 6], [0xff; 1]);
    let stores = Stores { cells: &mut cells, frames: &mut frames, answer: &mut answer };
    assert_eq!(run_tables(tables(), &[], NO_BITS, NO_BITS, stores), Answer::Value(1));
    assert_eq!((cells, frames, answer), ([0x7f], [0; 6], [0x00]));
    let stores = Stores { cells: &mut cells, frames: &mut frames, answer: &mut answer };
    let input = Bits { bytes: &[0x80], count: 1 };
    assert_eq!(run_tables(tables(), &[], NO_BITS, input, stores), Answer::Refused(Refusal::Input(0)));
}

#[test]
fn bytes_above_the_limit_are_left_over() {
    let long = [0xff; DOSSIER_BYTES + 1];
    let unit = Tables { types: &[0; 5], nodes: &[9, 0, 0, 0], arrows: &[0; 4], program: &[0x24], hashes: &[] };
    let (mut frames, mut answer) = ([7; 6], [0xff; 1]);
    let mut run_on = |witness: Bits, input: Bits| {
        let stores = Stores { cells: &mut [], frames: &mut frames, answer: &mut answer };
        run_tables(unit, &[], witness, input, stores)
    };
    assert_eq!(run_on(NO_BITS, NO_BITS), Answer::Value(0));
    for bytes in [&long[..], &long[1..]] {
        let spare = Bits { bytes, count: 0 };
        assert_eq!(run_on(spare, NO_BITS), Answer::Refused(Refusal::Witness(1)));
        assert_eq!(run_on(NO_BITS, spare), Answer::Refused(Refusal::Input(0)));
    }
}

#[test]
fn naturals() {
    assert_eq!(natural(&[0b1000_0000], 0, 9), Natural::Value { value: 2, next: 3 });
    assert_eq!(natural(&[0b0110_1000], 1, 8), Natural::Value { value: 8, next: 8 });
    assert_eq!(natural(&[0b0110_1000], 1, 7), Natural::TooLarge);
    assert_eq!(natural(&[0xf1, 0x00], 0, 9), Natural::Overlong);
    assert_eq!(natural(&[0xff], 0, 9), Natural::Ended);
    assert_eq!(natural(&[0xff], 800, 9), Natural::Ended);
}

#[test]
fn every_refusal_has_its_number_and_place() {
    for number in (1..=19).chain([26]) {
        let refusal = Refusal::of(number, 5).unwrap();
        assert_eq!((refusal.number(), refusal.place()), (number, 5));
        assert_eq!(refusal.to_string(), format!("refused {number} 5"));
    }
    assert_eq!(Refusal::of(0, 0), None);
    assert_eq!(Refusal::of(20, 0), None);
}
