//! Programs made without an eye to types: any kinds, any children, in canonical order.

use crate::making::graph;
use crate::rng::Rng;
use crate::row::Row;
use simplicity::{BitIter, Word};

/// Any node without children.
fn leaf(rng: &mut Rng) -> Row {
    match rng.below(9) {
        0..=2 => Row::Iden,
        3..=5 => Row::Unit,
        6 => Row::Witness,
        7 => {
            let n = rng.below(4) as u32;
            Row::Word(Word::from_bits(&mut BitIter::from(&rng.bytes(2)[..]), n).unwrap())
        }
        _ => Row::Fail(rng.bytes(64).try_into().unwrap()),
    }
}

/// Any node with one or both of these children.
fn branch(rng: &mut Rng, i: usize, j: usize) -> Row {
    match rng.below(11) {
        0 => Row::Comp(i, j),
        1 => Row::Case(i, j),
        2 | 3 => Row::Pair(i, j),
        4 => Row::Disconnect(i, j),
        5 | 6 => Row::InjL(i),
        7 => Row::InjR(i),
        8 => Row::Take(i),
        9 => Row::Drop(i),
        _ if rng.once_in(3) => Row::Disconnect1(i),
        _ => Row::Take(i),
    }
}

/// A program of at most some nodes. Hidden nodes stand anywhere where `hidden` is true, else under cases.
pub fn program(rng: &mut Rng, most: usize, hidden: bool) -> Vec<Row> {
    let mut rows = vec![leaf(rng)];
    while rows.len() < most {
        let n = rows.len();
        let near = n - 1 - rng.below(n.min(4));
        let far = rng.below(n);
        let row = match rng.below(10) {
            0..=2 => leaf(rng),
            3 if hidden => Row::Hidden([rng.below(3) as u8; 32]),
            _ if rng.once_in(2) => branch(rng, near, far),
            _ => branch(rng, far, near),
        };
        rows.push(row);
    }
    graph::canonical(&rows, rows.len() - 1).0
}
