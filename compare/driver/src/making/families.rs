//! Programs of known shapes and any size, for large comparisons and for the bench.

use crate::making::{graph, types, Made};
use crate::original::typing;
use crate::rng::Rng;
use crate::row::Row;
use simplicity::types::{arrow::FinalArrow, Final};
use simplicity::Word;
use std::sync::Arc;

/// Rows with the last arrow fixed and the others inferred.
pub fn fixed(rows: Vec<Row>, source: &Arc<Final>, target: &Arc<Final>) -> Made {
    let last = FinalArrow { source: Arc::clone(source), target: Arc::clone(target) };
    let arrows = typing::infer(&rows, Some(&last)).expect("well typed");
    Made { rows, arrows }
}

/// n nodes: unit, then injl, injr, take or drop of the node before. Every distance is 1.
pub fn chain(n: usize, seed: u64) -> Vec<Row> {
    let mut rng = Rng::new(seed);
    let mut rows = vec![Row::Unit];
    while rows.len() < n {
        let child = rows.len() - 1;
        rows.push([Row::InjL, Row::InjR, Row::Take, Row::Drop][rng.below(4)](child));
    }
    rows
}

/// Node k is a pair of k - 1 and any earlier node.
pub fn pairs(n: usize, seed: u64) -> Vec<Row> {
    let mut rng = Rng::new(seed);
    let mut rows = vec![Row::Unit];
    while rows.len() < n {
        let k = rows.len();
        rows.push(Row::Pair(k - 1, rng.below(k)));
    }
    rows
}

/// Iden, then k times comp of the last node with itself.
pub fn doubled_iden(k: usize) -> Vec<Row> {
    let mut rows = vec![Row::Iden];
    rows.extend((0..k).map(|i| Row::Comp(i, i)));
    rows
}

/// Iden, then k times comp of the last node with node 0 on the right.
pub fn nested_comp(k: usize) -> Vec<Row> {
    let mut rows = vec![Row::Iden];
    rows.extend((0..k).map(|i| Row::Comp(i, 0)));
    rows
}

/// n nodes: comps over one iden, no two equal and none deep. Chains, each with a right child of its own, are joined one
/// after the other.
pub fn comp_chains(n: usize) -> Vec<Row> {
    let (chain, mut rows) = (800, vec![Row::Iden]);
    let mut last = 0;
    let mut joined = None;
    while rows.len() < n - 1 {
        let right = rows.len() / chain;
        let mut at = 0;
        for _ in 0..chain.min(n - 1 - rows.len()) {
            rows.push(Row::Comp(at, right));
            at = rows.len() - 1;
        }
        last = joined.map_or(at, |before| {
            rows.push(Row::Comp(before, at));
            rows.len() - 1
        });
        joined = Some(last);
    }
    while rows.len() < n {
        rows.push(Row::Comp(last, last));
        last = rows.len() - 1;
    }
    rows
}

/// At most n nodes: words of 64 bits, unlike in their last bits alone, each thrown away, one after the other.
pub fn thrown_words(n: usize) -> Made {
    let (one, ty) = (Final::unit(), types::word(6));
    let arrow = |source: &Arc<Final>, target: &Arc<Final>| FinalArrow {
        source: Arc::clone(source),
        target: Arc::clone(target),
    };
    let mut made = Made { rows: vec![], arrows: vec![] };
    let (mut unit, mut last) = (None, None);
    for k in 0..(n - 1) / 3 {
        let word = made.add(Row::Word(Word::u64(k as u64)), arrow(&one, &ty));
        let unit = *unit.get_or_insert_with(|| made.add(Row::Unit, arrow(&ty, &one)));
        let thrown = made.add(Row::Comp(word, unit), arrow(&one, &one));
        last = Some(last.map_or(thrown, |before| made.add(Row::Comp(before, thrown), arrow(&one, &one))));
    }
    made
}

/// A witness thrown away, 2^k times: comp(witness, unit), then comp of the last node with itself.
pub fn thrown_witness(k: usize, ty: &Arc<Final>) -> Made {
    let one = Final::unit();
    let arrow = |source: &Arc<Final>, target: &Arc<Final>| FinalArrow {
        source: Arc::clone(source),
        target: Arc::clone(target),
    };
    let mut rows = vec![Row::Witness, Row::Unit, Row::Comp(0, 1)];
    let mut arrows = vec![arrow(&one, ty), arrow(ty, &one), arrow(&one, &one)];
    for i in 0..k {
        rows.push(Row::Comp(2 + i, 2 + i));
        arrows.push(arrow(&one, &one));
    }
    Made { rows, arrows }
}

/// A type of some bits, each with a part of width 0 before it, nested to the right: (1, bit), rest.
pub fn deep_type(bits: usize) -> Arc<Final> {
    let mut ty = types::word(0);
    for _ in 1..bits {
        let with_nothing = types::product(&Final::unit(), &ty);
        ty = types::product(&types::word(0), &with_nothing);
    }
    ty
}

/// A type with padding in its last part, so many products deep: bit, (bit, .. (1+(1+1))).
pub fn deep_padded_type(depth: usize) -> Arc<Final> {
    let mut ty = types::sum(&Final::unit(), &types::word(0));
    for _ in 0..depth {
        ty = types::product(&types::word(0), &ty);
    }
    ty
}

/// A witness thrown away at the bottom of k comps, each with so many pairs below it.
pub fn alternating(k: usize, pairs: usize, ty: &Arc<Final>) -> Made {
    let one = Final::unit();
    let mut paired = vec![types::product(&one, &one)];
    while paired.len() < pairs {
        paired.push(types::product(&paired[paired.len() - 1], &one));
    }
    let arrow = |source: &Arc<Final>, target: &Arc<Final>| FinalArrow {
        source: Arc::clone(source),
        target: Arc::clone(target),
    };
    let mut made = Made {
        rows: vec![Row::Witness, Row::Unit, Row::Comp(0, 1), Row::Unit],
        arrows: vec![arrow(&one, ty), arrow(ty, &one), arrow(&one, &one), arrow(&one, &one)],
    };
    let (mut last, beside) = (2, 3);
    let mut dropped = None;
    for _ in 0..k {
        for target in &paired {
            last = made.add(Row::Pair(last, beside), arrow(&one, target));
        }
        let unit = *dropped.get_or_insert_with(|| made.add(Row::Unit, arrow(&paired[pairs - 1], &one)));
        last = made.add(Row::Comp(last, unit), arrow(&one, &one));
    }
    made
}

/// Boolean gates: the bodies that a circuit is made of.
struct Gates {
    rows: Vec<Row>,
    not: usize,
    and: usize,
    or: usize,
    xor: usize,
    second: usize,
    zero: usize,
    unit: usize,
}

/// Adds a node; its number.
fn add(rows: &mut Vec<Row>, row: Row) -> usize {
    rows.push(row);
    rows.len() - 1
}

/// The bodies: from 2 x 2 to 2, for `not` from 2 x 1. A node has one arrow, so units of different
/// sources are different nodes.
fn gate_bodies(iden: usize, mut rows: Vec<Row>) -> Gates {
    let rows_ref = &mut rows;
    let unit = add(rows_ref, Row::Unit);
    let zero = add(rows_ref, Row::InjL(unit));
    let under_not = add(rows_ref, Row::Unit);
    let not_one = add(rows_ref, Row::InjR(under_not));
    let not_zero = add(rows_ref, Row::InjL(under_not));
    let not = add(rows_ref, Row::Case(not_one, not_zero));
    let second = add(rows_ref, Row::Drop(iden));
    let under_case = add(rows_ref, Row::Unit);
    let case_zero = add(rows_ref, Row::InjL(under_case));
    let case_one = add(rows_ref, Row::InjR(under_case));
    let and = add(rows_ref, Row::Case(case_zero, second));
    let or = add(rows_ref, Row::Case(second, case_one));
    let under_drop = add(rows_ref, Row::Unit);
    let dropped = add(rows_ref, Row::Drop(under_drop));
    let pair = add(rows_ref, Row::Pair(second, dropped));
    let not_second = add(rows_ref, Row::Comp(pair, not));
    let xor = add(rows_ref, Row::Case(second, not_second));
    Gates { rows, not, and, or, xor, second, zero, unit }
}

impl Gates {
    /// Adds a node; its number.
    fn add(&mut self, row: Row) -> usize {
        add(&mut self.rows, row)
    }

    /// One more gate over `last` and another expression.
    fn gate(&mut self, rng: &mut Rng, last: usize, other: usize) -> usize {
        let (pair, body) = match rng.below(12) {
            0 => {
                let unit = self.add(Row::Unit);
                (Row::Pair(last, unit), self.not)
            }
            1 => {
                let word = self.add(Row::Word(Word::u1(rng.below(2) as u8)));
                let constant = self.add(Row::Comp(self.unit, word));
                (Row::Pair(last, constant), self.xor)
            }
            2 => {
                let witness = self.add(Row::Witness);
                (Row::Pair(last, witness), self.or)
            }
            3 => {
                let hidden = self.add(Row::Hidden(rng.bytes(32).try_into().unwrap()));
                let assertion = self.add(Row::Case(self.second, hidden));
                (Row::Pair(self.zero, last), assertion)
            }
            k => (Row::Pair(last, other), [self.and, self.or, self.xor][k % 3]),
        };
        let pair = self.add(pair);
        self.add(Row::Comp(pair, body))
    }
}

/// Selectors of the 16 bits of an input.
fn selectors(rows: &mut Vec<Row>, iden: usize) -> Vec<usize> {
    let select = |rows: &mut Vec<Row>, k: usize| {
        (0..4).fold(iden, |child, level| {
            let row = if k >> level & 1 == 0 { Row::Take(child) } else { Row::Drop(child) };
            add(rows, row)
        })
    };
    (0..16).map(|k| select(rows, k)).collect()
}

/// n nodes: a circuit of gates over 16 input bits, children near and far, with words, witnesses and
/// assertions; takes at the end, to come to n.
pub fn gates(n: usize, seed: u64) -> Vec<Row> {
    let mut rng = Rng::new(seed);
    let mut rows = vec![Row::Iden];
    let mut known = selectors(&mut rows, 0);
    let mut gates = gate_bodies(0, rows);
    let mut last = known[0];
    let size = |gates: &Gates, root: usize| graph::canonical(&gates.rows, root).0.len();
    loop {
        let far = *rng.pick(&known);
        let near = known[known.len() - 1 - rng.below(known.len().min(6))];
        let other = if rng.once_in(3) { far } else { near };
        let next = gates.gate(&mut rng, last, other);
        if size(&gates, next) > n {
            break;
        }
        last = next;
        known.push(last);
    }
    let short = n - size(&gates, last);
    last = (0..short).fold(last, |child, _| gates.add(Row::Take(child)));
    graph::canonical(&gates.rows, last).0
}

/// Exclusive or of an input pair, its result paired with itself, and so on k times: each level
/// doubles the work of pairs, comps, cases, takes and drops.
pub fn xor_tree(k: usize) -> Vec<Row> {
    let mut gates = gate_bodies(0, vec![Row::Iden]);
    let mut last = gates.add(Row::Take(0));
    let mut other = gates.add(Row::Drop(0));
    for _ in 0..k {
        let pair = gates.add(Row::Pair(last, other));
        last = gates.add(Row::Comp(pair, gates.xor));
        other = last;
    }
    graph::canonical(&gates.rows, last).0
}
