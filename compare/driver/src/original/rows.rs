//! The rows of a program that the original decoded, in program order. The order is the original's
//! own: its left-first walk, with nodes told apart by their address and hidden ones by their hash.

use crate::row::Row;
use simplicity::dag::{Dag, DagLike, PostOrderIterItem, SharingTracker};
use simplicity::node::Inner;
use simplicity::{Cmr, ConstructNode};
use std::collections::HashMap;

/// A node, or the hash that stands where a hidden one was.
#[derive(Clone)]
enum Seen<'a, 'brand> {
    Node(&'a ConstructNode<'brand>),
    Hidden(Cmr),
}

impl DagLike for Seen<'_, '_> {
    type Node = Self;
    fn data(&self) -> &Self {
        self
    }
    fn as_dag_node(&self) -> Dag<Self> {
        let Seen::Node(node) = self else {
            return Dag::Nullary;
        };
        match node.inner() {
            Inner::AssertL(l, cmr) => Dag::Binary(Seen::Node(l), Seen::Hidden(*cmr)),
            Inner::AssertR(cmr, r) => Dag::Binary(Seen::Hidden(*cmr), Seen::Node(r)),
            inner => match inner.as_dag() {
                Dag::Nullary => Dag::Nullary,
                Dag::Unary(c) => Dag::Unary(Seen::Node(c)),
                Dag::Binary(l, r) => Dag::Binary(Seen::Node(l), Seen::Node(r)),
            },
        }
    }
}

#[derive(Default)]
struct ByPlace {
    map: HashMap<(usize, Option<Cmr>), usize>,
}

/// What tells a node apart from others.
fn key(seen: &Seen<'_, '_>) -> (usize, Option<Cmr>) {
    match seen {
        Seen::Node(node) => (*node as *const _ as usize, None),
        Seen::Hidden(cmr) => (0, Some(*cmr)),
    }
}

impl SharingTracker<Seen<'_, '_>> for ByPlace {
    fn record(&mut self, seen: &Seen<'_, '_>, index: usize) -> Option<usize> {
        let known = self.map.get(&key(seen)).copied();
        if known.is_none() {
            self.map.insert(key(seen), index);
        }
        known
    }
    fn seen_before(&self, seen: &Seen<'_, '_>) -> Option<usize> {
        self.map.get(&key(seen)).copied()
    }
}

/// The row of a node.
fn row(item: &PostOrderIterItem<Seen<'_, '_>>) -> Row {
    let l = || item.left_index.unwrap();
    let r = || item.right_index.unwrap();
    let node = match &item.node {
        Seen::Hidden(cmr) => return Row::Hidden(cmr.to_byte_array()),
        Seen::Node(node) => node,
    };
    match node.inner() {
        Inner::Iden => Row::Iden,
        Inner::Unit => Row::Unit,
        Inner::InjL(_) => Row::InjL(l()),
        Inner::InjR(_) => Row::InjR(l()),
        Inner::Take(_) => Row::Take(l()),
        Inner::Drop(_) => Row::Drop(l()),
        Inner::Comp(..) => Row::Comp(l(), r()),
        Inner::Case(..) | Inner::AssertL(..) | Inner::AssertR(..) => Row::Case(l(), r()),
        Inner::Pair(..) => Row::Pair(l(), r()),
        Inner::Disconnect(_, None) => Row::Disconnect1(l()),
        Inner::Disconnect(_, Some(_)) => Row::Disconnect(l(), r()),
        Inner::Witness(_) => Row::Witness,
        Inner::Fail(e) => Row::Fail(e.to_byte_array()),
        Inner::Jet(_) => unreachable!("no jets"),
        Inner::Word(w) => Row::Word(w.shallow_clone()),
    }
}

/// The rows of a decoded program.
pub fn of(root: &ConstructNode<'_>) -> Vec<Row> {
    Seen::Node(root).post_order_iter::<ByPlace>().map(|item| row(&item)).collect()
}
