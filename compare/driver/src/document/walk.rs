//! The left-first walk with the places that the requirements give (refusals 6 to 9), one-child
//! disconnects (11), equal nodes (9), and supplied hashes (13).

use crate::document::Refused;
use crate::row::Row;
use std::collections::{HashMap, HashSet};

/// Rows in the order in which a left-first walk from the last one ends them, each once.
fn order(rows: &[Row]) -> Vec<usize> {
    let mut done = vec![false; rows.len()];
    let mut out = vec![];
    let mut stack = vec![(rows.len() - 1, false)];
    while let Some((at, ready)) = stack.pop() {
        if done[at] {
            continue;
        }
        if ready {
            done[at] = true;
            out.push(at);
            continue;
        }
        stack.push((at, true));
        let (l, r) = rows[at].children();
        stack.extend([r, l].into_iter().flatten().map(|child| (child, false)));
    }
    out
}

/// What is wrong with a row's hidden children, or with it as a hidden row.
fn fault(rows: &[Row], at: usize, hashes: &mut HashSet<[u8; 32]>) -> Option<u32> {
    let hidden = |child: Option<usize>| child.is_some_and(|c| rows[c].is_hidden());
    let (l, r) = rows[at].children();
    match &rows[at] {
        Row::Hidden(hash) if !hashes.insert(*hash) => Some(9),
        Row::Case(..) if hidden(l) && hidden(r) => Some(8),
        Row::Case(..) => None,
        _ if hidden(l) || hidden(r) => Some(7),
        _ => None,
    }
}

/// The first refusal of the walk.
pub fn refused(rows: &[Row]) -> Option<Refused> {
    let mut hashes = HashSet::new();
    for (k, at) in order(rows).into_iter().enumerate() {
        if at != k {
            return Some((6, k as u32));
        }
        if let Some(number) = fault(rows, at, &mut hashes) {
            return Some((number, at as u32));
        }
    }
    let last = rows.len() - 1;
    rows[last].is_hidden().then_some((7, last as u32))
}

/// The first disconnect with one child.
pub fn one_child(rows: &[Row]) -> Option<Refused> {
    let at = rows.iter().position(|row| matches!(row, Row::Disconnect1(_)))?;
    Some((11, at as u32))
}

/// The first row that an earlier one is equal to, its arrow included.
pub fn equal_row(rows: &[Row], arrows: &[u8]) -> Option<usize> {
    let mut known = HashSet::new();
    let repeats = |(row, arrow): (&Row, &[u8])| row.key().is_some_and(|key| !known.insert((key, arrow.to_vec())));
    rows.iter().zip(arrows.chunks_exact(4)).position(repeats)
}

/// What is wrong with the supplied hashes.
pub fn unlike_hashes(rows: &[Row], given: &[u8]) -> Option<Refused> {
    let right = |row: &Row| match row {
        Row::Disconnect(_, j) => Some(*j),
        _ => None,
    };
    let children: Vec<usize> = rows.iter().filter_map(right).collect();
    let count = given.len() / 32;
    if count != children.len() {
        return Some((13, count as u32));
    }
    let mut first = HashMap::new();
    let unlike = |(child, hash): (&usize, &[u8])| *first.entry(*child).or_insert(hash.to_vec()) != hash;
    let entry = children.iter().zip(given.chunks_exact(32)).position(unlike)?;
    Some((13, entry as u32))
}
