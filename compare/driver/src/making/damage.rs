//! Sound programs and dossiers with one thing changed.

use crate::bits;
use crate::document::NODE_COUNT;
use crate::dossier::Dossier;
use crate::making::{graph, Made};
use crate::original::write;
use crate::rng::Rng;
use crate::row::Row;

/// Flips one bit.
fn flip(rng: &mut Rng, bytes: &mut [u8]) {
    if !bytes.is_empty() {
        let at = rng.below(8 * bytes.len());
        bytes[at / 8] ^= 0x80 >> (at % 8);
    }
}

/// The program's bytes: a bit flipped, cut off, longer, or its padding filled.
fn bytes(rng: &mut Rng, program: &mut Vec<u8>) {
    match rng.below(5) {
        0 | 1 => flip(rng, program),
        2 => {
            let keep = rng.below(program.len());
            program.truncate(keep);
        }
        3 => program.push(if rng.once_in(2) { 0 } else { rng.next() as u8 }),
        _ => {
            let last = program.len() - 1;
            program[last] |= 1;
        }
    }
}

/// One child of a node led to another earlier node, to a hidden one if there is one below.
fn redirect(rng: &mut Rng, rows: &mut [Row]) {
    let at = rng.below(rows.len());
    if at == 0 {
        return;
    }
    let hidden: Vec<usize> = (0..at).filter(|k| rows[*k].is_hidden()).collect();
    let to = if hidden.is_empty() || rng.once_in(3) { rng.below(at) } else { *rng.pick(&hidden) };
    let (l, r) = rows[at].children();
    let old = if rng.once_in(2) { l } else { r.or(l) };
    rows[at] = rows[at].moved(|child| if Some(child) == old { to } else { child });
}

/// A hidden node's hash given to another one, or to a node that was not hidden.
fn hidden_again(rng: &mut Rng, rows: &mut [Row]) {
    let hidden: Vec<usize> = (0..rows.len()).filter(|k| rows[*k].is_hidden()).collect();
    if hidden.is_empty() {
        return;
    }
    let (from, to) = (*rng.pick(&hidden), *rng.pick(&hidden));
    let to = if from == to { rng.below(rows.len()) } else { to };
    rows[to] = rows[from].clone();
}

/// An assertion's other child led to a hidden node too.
fn both_hidden(rng: &mut Rng, rows: &mut [Row]) {
    let hidden = |child: &usize| rows[*child].is_hidden();
    let asserts = |row: &Row| matches!(row, Row::Case(i, j) if hidden(i) || hidden(j));
    let found: Vec<usize> = (0..rows.len()).filter(|at| asserts(&rows[*at])).collect();
    if found.is_empty() {
        return;
    }
    let at = *rng.pick(&found);
    let below: Vec<usize> = (0..at).filter(hidden).collect();
    rows[at] = Row::Case(*rng.pick(&below), *rng.pick(&below));
}

/// The rows, still with children below their parents: two swapped, a child led elsewhere, one
/// hidden, a hash twice, a node twice, the last one dropped.
fn some_rows(rng: &mut Rng, rows: &mut Vec<Row>) {
    let at = rng.below(rows.len());
    match rng.below(9) {
        0 if at > 0 && rows[at].children() == (None, None) => rows.swap(at - 1, at),
        0..=2 => redirect(rng, rows),
        3 => rows[at] = Row::Hidden([rng.below(2) as u8; 32]),
        4 | 5 => hidden_again(rng, rows),
        6 => both_hidden(rng, rows),
        7 => rows.push(rows[at].clone()),
        _ if rows.len() > 1 => {
            rows.pop();
        }
        _ => rows[0] = Row::Unit,
    }
}

/// The program of rows of which some are changed, put into order again now and then.
fn changed_rows(rng: &mut Rng, made: &Made) -> Vec<u8> {
    let mut rows = made.rows.clone();
    some_rows(rng, &mut rows);
    if rng.once_in(2) {
        rows = graph::canonical(&rows, rows.len() - 1).0;
    }
    write::program(&rows)
}

/// The program: bytes, rows, or the count.
fn program(rng: &mut Rng, made: &Made, dossier: &mut Dossier) {
    match rng.below(5) {
        0 | 1 => bytes(rng, &mut dossier.program),
        2 | 3 => dossier.program = changed_rows(rng, made),
        _ => {
            let n = made.rows.len();
            let counts = [n + 1, n.saturating_sub(1).max(1), n + 7, NODE_COUNT + 1];
            dossier.program = write::counted(*rng.pick(&counts), &made.rows);
        }
    }
}

/// The arrows: one index changed, one more, one less.
fn arrows(rng: &mut Rng, dossier: &mut Dossier) {
    let types = dossier.types.len();
    if dossier.arrows.is_empty() {
        return;
    }
    let at = rng.below(dossier.arrows.len());
    let index = if rng.once_in(8) { types + rng.below(3) } else { rng.below(types) } as u16;
    match rng.below(8) {
        0..=2 => dossier.arrows[at].0 = index,
        3..=5 => dossier.arrows[at].1 = index,
        6 => dossier.arrows.push((0, 0)),
        _ => {
            dossier.arrows.pop();
        }
    }
}

/// The type records: a tag or a part changed, one twice.
fn types(rng: &mut Rng, dossier: &mut Dossier) {
    let at = rng.below(dossier.types.len());
    match rng.below(4) {
        0 => dossier.types[at].0 = rng.below(4) as u8,
        1 => dossier.types[at].1 = rng.below(dossier.types.len() + 1) as u16,
        2 => dossier.types[at].2 = rng.below(dossier.types.len() + 1) as u16,
        _ => dossier.types.push(dossier.types[at]),
    }
}

/// Witness or input bits: one more, one less, one flipped.
fn some_bits(rng: &mut Rng, bits: &mut Vec<bool>) {
    match rng.below(3) {
        0 => bits.push(rng.once_in(2)),
        1 => {
            bits.pop();
        }
        _ if bits.is_empty() => bits.push(true),
        _ => {
            let at = rng.below(bits.len());
            bits[at] = !bits[at];
        }
    }
}

/// Supplied hashes: a byte changed, one more, one less.
fn hashes(rng: &mut Rng, dossier: &mut Dossier) {
    match rng.below(4) {
        0 | 1 if !dossier.hashes.is_empty() => {
            let at = rng.below(dossier.hashes.len());
            dossier.hashes[at][rng.below(32)] ^= 1;
        }
        2 => {
            dossier.hashes.pop();
        }
        _ => dossier.hashes.push([7; 32]),
    }
}

/// The dossier's bytes with a leftover bit of the witness or input section set.
fn leftover(dossier: &Dossier) -> Vec<u8> {
    let mut bytes = dossier.to_bytes();
    let end = bytes.len() - 32 * dossier.hashes.len();
    if dossier.input.len() % 8 != 0 {
        bytes[end - 1] |= 1;
    } else if dossier.witness.len() % 8 != 0 {
        let input = bits::pack(&dossier.input).len();
        bytes[end - input - 1] |= 1;
    }
    bytes
}

/// A header number changed, or any bit.
fn raw(rng: &mut Rng, dossier: &Dossier) -> Vec<u8> {
    let mut bytes = dossier.to_bytes();
    match rng.below(4) {
        0 => {
            let at = 4 * rng.below(14) + 3;
            bytes[at] = bytes[at].wrapping_add(if rng.once_in(2) { 1 } else { 255 });
        }
        1 => {
            let at = rng.below(56);
            bytes[at] = rng.next() as u8;
        }
        2 => bytes.push(0),
        _ => flip(rng, &mut bytes),
    }
    bytes
}

/// A sound dossier's bytes with one thing changed.
pub fn any(rng: &mut Rng, made: &Made, dossier: &Dossier) -> Vec<u8> {
    let mut changed = dossier.clone();
    match rng.below(16) {
        0..=6 => program(rng, made, &mut changed),
        7..=9 => arrows(rng, &mut changed),
        10 => types(rng, &mut changed),
        11 => some_bits(rng, &mut changed.witness),
        12 => some_bits(rng, &mut changed.input),
        13 => hashes(rng, &mut changed),
        14 => return leftover(dossier),
        _ => return raw(rng, dossier),
    }
    changed.to_bytes()
}
