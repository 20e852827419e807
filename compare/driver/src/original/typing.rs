//! Arrows by the unmodified inference, supplied arrows judged by the unmodified constructors and
//! unifier, and commitment roots by the unmodified cmr.rs.

use crate::row::Row;
use simplicity::node::{CoreConstructible, DisconnectConstructible, WitnessConstructible};
use simplicity::types::{arrow::FinalArrow, Context, Error as TypeError, Final, Type};
use simplicity::{Cmr, ConstructNode, FailEntropy};
use std::sync::Arc;

type Node<'brand> = Arc<ConstructNode<'brand>>;

/// The hash of a hidden row.
pub fn hash_of(rows: &[Row], at: usize) -> Cmr {
    match rows[at] {
        Row::Hidden(hash) => Cmr::from_byte_array(hash),
        _ => unreachable!("a node that is not hidden"),
    }
}

/// A case or an assertion, by which of its children are there.
fn case<'brand>(nodes: &[Option<Node<'brand>>], rows: &[Row], i: usize, j: usize) -> Result<Node<'brand>, TypeError> {
    match (&nodes[i], &nodes[j]) {
        (Some(l), Some(r)) => Node::case(l, r),
        (Some(l), None) => Node::assertl(l, hash_of(rows, j)),
        (None, Some(r)) => Node::assertr(hash_of(rows, i), r),
        (None, None) => unreachable!("both children hidden"),
    }
}

/// One node by the unmodified constructors of node/mod.rs and arrow.rs; none for a hidden row.
fn construct<'brand>(
    ctx: &Context<'brand>,
    nodes: &[Option<Node<'brand>>],
    rows: &[Row],
    at: usize,
) -> Result<Option<Node<'brand>>, TypeError> {
    let n = |i: usize| nodes[i].as_ref().expect("a child that is not hidden");
    Ok(Some(match rows[at] {
        Row::Comp(i, j) => Node::comp(n(i), n(j))?,
        Row::Case(i, j) => case(nodes, rows, i, j)?,
        Row::Pair(i, j) => Node::pair(n(i), n(j))?,
        Row::Disconnect(i, j) => Node::disconnect(n(i), &Some(Arc::clone(n(j))))?,
        Row::Disconnect1(i) => Node::disconnect(n(i), &None)?,
        Row::InjL(i) => Node::injl(n(i)),
        Row::InjR(i) => Node::injr(n(i)),
        Row::Take(i) => Node::take(n(i)),
        Row::Drop(i) => Node::drop_(n(i)),
        Row::Iden => Node::iden(ctx),
        Row::Unit => Node::unit(ctx),
        Row::Fail(e) => Node::fail(ctx, FailEntropy::from_byte_array(e)),
        Row::Witness => Node::witness(ctx, None),
        Row::Word(ref w) => Node::const_word(ctx, w.shallow_clone()),
        Row::Hidden(_) => return Ok(None),
    }))
}

/// Fixes a node's arrow by the unmodified unifier.
fn fix<'brand>(ctx: &Context<'brand>, node: &Node<'brand>, arrow: &FinalArrow) -> Result<(), TypeError> {
    let source = Type::complete(ctx, Arc::clone(&arrow.source));
    let target = Type::complete(ctx, Arc::clone(&arrow.target));
    ctx.unify(&node.arrow().source, &source, "source")?;
    ctx.unify(&node.arrow().target, &target, "target")
}

/// The arrow of hidden nodes.
pub fn nothing() -> FinalArrow {
    FinalArrow { source: Final::unit(), target: Final::unit() }
}

/// Arrows of all rows by inference, the last one fixed where it is given. On error, the node at
/// which the original noticed it, or the row count for endless types, which show at the end.
pub fn infer(rows: &[Row], last: Option<&FinalArrow>) -> Result<Vec<FinalArrow>, usize> {
    Context::with_context(|ctx| {
        let mut nodes = vec![];
        for at in 0..rows.len() {
            let node = construct(&ctx, &nodes, rows, at).map_err(|_| at)?;
            nodes.push(node);
        }
        if let (Some(arrow), Some(Some(node))) = (last, nodes.last()) {
            fix(&ctx, node, arrow).map_err(|_| rows.len() - 1)?;
        }
        let finished = |node: &Option<Node<'_>>| match node {
            Some(node) => node.arrow().finalize().map_err(|_| rows.len()),
            None => Ok(nothing()),
        };
        nodes.iter().map(finished).collect()
    })
}

/// The first node whose supplied arrow does not fit: each node is made from children whose arrows
/// are already fixed, then its own arrow is fixed. A hidden node's arrow is unit to unit.
pub fn first_unfit(rows: &[Row], arrows: &[FinalArrow]) -> Option<usize> {
    Context::with_context(|ctx| {
        let mut nodes = vec![];
        for (at, arrow) in arrows.iter().enumerate() {
            let Ok(node) = construct(&ctx, &nodes, rows, at) else {
                return Some(at);
            };
            let fits = match &node {
                Some(node) => fix(&ctx, node, arrow).is_ok(),
                None => arrow.source.is_unit() && arrow.target.is_unit(),
            };
            if !fits {
                return Some(at);
            }
            nodes.push(node);
        }
        None
    })
}

/// Commitment roots of all rows; a hidden row is its own root.
pub fn roots(rows: &[Row]) -> Vec<Cmr> {
    let mut out: Vec<Cmr> = vec![];
    for row in rows {
        out.push(match *row {
            Row::Comp(i, j) => Cmr::comp(out[i], out[j]),
            Row::Case(i, j) => Cmr::case(out[i], out[j]),
            Row::Pair(i, j) => Cmr::pair(out[i], out[j]),
            Row::Disconnect(i, _) | Row::Disconnect1(i) => Cmr::disconnect(out[i]),
            Row::InjL(i) => Cmr::injl(out[i]),
            Row::InjR(i) => Cmr::injr(out[i]),
            Row::Take(i) => Cmr::take(out[i]),
            Row::Drop(i) => Cmr::drop(out[i]),
            Row::Iden => Cmr::iden(),
            Row::Unit => Cmr::unit(),
            Row::Fail(e) => Cmr::fail(FailEntropy::from_byte_array(e)),
            Row::Witness => Cmr::witness(),
            Row::Hidden(h) => Cmr::from_byte_array(h),
            Row::Word(ref w) => Cmr::const_word(w),
        });
    }
    out
}

/// The hashes for the right children of two-child disconnects, in row order.
pub fn right_hashes(rows: &[Row]) -> Vec<[u8; 32]> {
    let roots = roots(rows);
    let right = |row: &Row| match row {
        Row::Disconnect(_, j) => Some(roots[*j].to_byte_array()),
        _ => None,
    };
    rows.iter().filter_map(right).collect()
}
