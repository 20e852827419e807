//! Nodes for the unmodified machine, made from rows and arrows that fit; witness values by the
//! unmodified `Value::from_compact_bits`; bounds by the unmodified `NodeBounds`.

use crate::original::typing::hash_of;
use crate::row::Row;
use simplicity::node::Inner;
use simplicity::types::arrow::FinalArrow;
use simplicity::{BitIter, FailEntropy, RedeemNode, Value};
use std::sync::Arc;

/// A node for each row; none for a hidden one.
pub type Nodes = Vec<Option<Arc<RedeemNode>>>;

/// The values of witness nodes in row order, or the row at which the bits ran out, or the row
/// count where bits are left over or leftover bits are not zero.
pub fn witness_values(rows: &[Row], arrows: &[FinalArrow], bytes: &[u8], count: usize) -> Result<Vec<Value>, usize> {
    let mut stream = BitIter::from(bytes);
    let mut values = vec![];
    for (at, row) in rows.iter().enumerate() {
        if !matches!(row, Row::Witness) {
            continue;
        }
        let value = Value::from_compact_bits(&mut stream, &arrows[at].target).map_err(|_| at)?;
        if stream.n_total_read() > count {
            return Err(at);
        }
        values.push(value);
    }
    if stream.n_total_read() != count || stream.close().is_err() {
        return Err(rows.len());
    }
    Ok(values)
}

/// The input as a value of the source, if it is just one.
pub fn input_value(arrow: &FinalArrow, bytes: &[u8], count: usize) -> Option<Value> {
    let mut stream = BitIter::from(bytes);
    let value = Value::from_compact_bits(&mut stream, &arrow.source).ok()?;
    (stream.n_total_read() == count && stream.close().is_ok()).then_some(value)
}

/// Zero for each witness node: enough for bounds.
pub fn zeros(rows: &[Row], arrows: &[FinalArrow]) -> Vec<Value> {
    let pairs = rows.iter().zip(arrows);
    pairs.filter(|(row, _)| matches!(row, Row::Witness)).map(|(_, arrow)| Value::zero(&arrow.target)).collect()
}

type RedeemInner = Inner<Arc<RedeemNode>, Arc<RedeemNode>, Value>;

/// What a node is made of; none for a hidden row.
fn inner(rows: &[Row], nodes: &Nodes, at: usize, witness: impl FnOnce() -> Value) -> Option<RedeemInner> {
    let n = |i: usize| Arc::clone(nodes[i].as_ref().expect("a child that is not hidden"));
    Some(match rows[at] {
        Row::Hidden(_) => return None,
        Row::Comp(i, j) => Inner::Comp(n(i), n(j)),
        Row::Case(i, j) if nodes[j].is_none() => Inner::AssertL(n(i), hash_of(rows, j)),
        Row::Case(i, j) if nodes[i].is_none() => Inner::AssertR(hash_of(rows, i), n(j)),
        Row::Case(i, j) => Inner::Case(n(i), n(j)),
        Row::Pair(i, j) => Inner::Pair(n(i), n(j)),
        Row::Disconnect(i, j) => Inner::Disconnect(n(i), n(j)),
        Row::Disconnect1(_) => unreachable!("a disconnect with one child"),
        Row::InjL(i) => Inner::InjL(n(i)),
        Row::InjR(i) => Inner::InjR(n(i)),
        Row::Take(i) => Inner::Take(n(i)),
        Row::Drop(i) => Inner::Drop(n(i)),
        Row::Iden => Inner::Iden,
        Row::Unit => Inner::Unit,
        Row::Fail(e) => Inner::Fail(FailEntropy::from_byte_array(e)),
        Row::Witness => Inner::Witness(witness()),
        Row::Word(ref w) => Inner::Word(w.shallow_clone()),
    })
}

/// The nodes of rows whose arrows fit and which have no one-child disconnect.
pub fn make(rows: &[Row], arrows: &[FinalArrow], witness: &[Value]) -> Nodes {
    let mut values = witness.iter();
    let mut nodes: Nodes = vec![];
    for at in 0..rows.len() {
        let value = || values.next().expect("a value for each witness node").shallow_clone();
        let node = inner(rows, &nodes, at, value);
        nodes.push(node.map(|inner| RedeemNode::make(arrows[at].shallow_clone(), inner)));
    }
    nodes
}

/// What a run needs at most: cells, frames, cost.
#[derive(Clone, Copy, Debug, PartialEq, Eq)]
pub struct Needs {
    pub cells: usize,
    pub frames: usize,
    pub cost: u64,
}

/// The original's needs of the last node as a program: its extra cells and frames, with source,
/// target and the two frames for them.
pub fn needs(nodes: &Nodes) -> Needs {
    let root = nodes.last().unwrap().as_ref().unwrap();
    let bounds = root.bounds();
    Needs {
        cells: root.arrow().source.bit_width() + root.arrow().target.bit_width() + bounds.extra_cells,
        frames: bounds.extra_frames + 2,
        cost: bounds.cost.to_string().parse().unwrap(),
    }
}

/// The same where a witness takes no cells, which is the one row of the library's table that is not the
/// original's. The cells are the original's for the same rows with a fail in place of each witness, since
/// its row for a fail has no cells; frames and cost are those of the rows themselves.
pub fn needs_without_witnesses(rows: &[Row], arrows: &[FinalArrow]) -> Needs {
    let own = needs(&make(rows, arrows, &zeros(rows, arrows)));
    let failing = |row: &Row| if matches!(row, Row::Witness) { Row::Fail([0; 64]) } else { row.clone() };
    let bare: Vec<Row> = rows.iter().map(failing).collect();
    let less = needs(&make(&bare, arrows, &[]));
    assert!(less.cells <= own.cells && less.frames == own.frames, "a witness has cells and no frame");
    Needs { cells: less.cells, ..own }
}
