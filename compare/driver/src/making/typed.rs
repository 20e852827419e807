//! Programs made along their types: for a source and a target any node that fits, its children made
//! the same way, nodes of one arrow shared now and then. All kinds but one-child disconnects.

use crate::making::{graph, types, Made};
use crate::original::typing;
use crate::rng::Rng;
use crate::row::Row;
use simplicity::types::{arrow::FinalArrow, Final};
use simplicity::{BitIter, Tmr, Word};
use std::collections::HashMap;
use std::sync::Arc;

type Ty = Arc<Final>;

/// How a program is made.
#[derive(Clone, Copy, Debug)]
pub struct Style {
    /// About how many nodes at most.
    pub nodes: usize,
    /// How deep nodes are nested at most.
    pub depth: usize,
    /// Width of types that are made up on the way.
    pub width: usize,
    /// A node is shared once in so many times, where one of its arrow is there.
    pub share: usize,
    /// A leaf is a fail node once in so many times.
    pub fail: usize,
}

struct Maker<'r> {
    rng: &'r mut Rng,
    style: Style,
    rows: Vec<Row>,
    arrows: Vec<FinalArrow>,
    known: HashMap<(Tmr, Tmr), Vec<usize>>,
    hidden: Vec<usize>,
}

/// What a node with children can be, given its arrow.
#[derive(Clone, Copy)]
enum Shape {
    Comp,
    Case,
    AssertL,
    AssertR,
    Pair,
    Disconnect,
    InjL,
    InjR,
    Take,
    Drop,
}

/// The parts of a source that a case can take: both parts of the sum, and the rest.
fn case_parts(a: &Ty) -> Option<(&Ty, &Ty, &Ty)> {
    let (tag, rest) = a.as_product()?;
    let (l, r) = tag.as_sum()?;
    Some((l, r, rest))
}

/// Every shape that fits an arrow, some named more often so that they are taken more often.
fn shapes(a: &Ty, b: &Ty) -> Vec<Shape> {
    let mut out = vec![Shape::Comp, Shape::Comp];
    if case_parts(a).is_some() {
        out.extend([Shape::Case, Shape::Case, Shape::Case, Shape::Case, Shape::AssertL, Shape::AssertR]);
    }
    if a.as_product().is_some() {
        out.extend([Shape::Take, Shape::Drop]);
    }
    if b.as_sum().is_some() {
        out.extend([Shape::InjL, Shape::InjR, Shape::InjL, Shape::InjR]);
    }
    if b.as_product().is_some() {
        out.extend([Shape::Pair, Shape::Pair, Shape::Pair, Shape::Disconnect]);
    }
    out
}

impl Maker<'_> {
    /// Adds a node of an arrow; its number.
    fn add(&mut self, row: Row, a: &Ty, b: &Ty) -> usize {
        self.rows.push(row);
        self.arrows.push(FinalArrow { source: Arc::clone(a), target: Arc::clone(b) });
        let at = self.rows.len() - 1;
        self.known.entry((a.tmr(), b.tmr())).or_default().push(at);
        at
    }

    /// A node from a to b.
    fn node(&mut self, a: &Ty, b: &Ty, depth: usize) -> usize {
        if self.rng.once_in(self.style.share) {
            if let Some(known) = self.known.get(&(a.tmr(), b.tmr())) {
                return *self.rng.pick(known);
            }
        }
        let row = if depth == 0 || self.rows.len() >= self.style.nodes || self.rng.once_in(12) {
            self.leaf(a, b)
        } else {
            self.branch(a, b, depth - 1)
        };
        self.add(row, a, b)
    }

    /// A node without children.
    fn leaf(&mut self, a: &Ty, b: &Ty) -> Row {
        if self.rng.once_in(self.style.fail) {
            return Row::Fail(self.rng.bytes(64).try_into().unwrap());
        }
        if b.is_unit() && !self.rng.once_in(6) {
            return Row::Unit;
        }
        if a == b && !self.rng.once_in(6) {
            return Row::Iden;
        }
        match b.as_word() {
            Some(n) if a.is_unit() && !self.rng.once_in(5) => {
                let bytes = self.rng.bytes(b.bit_width() / 8 + 1);
                Row::Word(Word::from_bits(&mut BitIter::from(&bytes[..]), u32::from(n)).unwrap())
            }
            _ => Row::Witness,
        }
    }

    /// A node with children.
    fn branch(&mut self, a: &Ty, b: &Ty, depth: usize) -> Row {
        let shape = *self.rng.pick(&shapes(a, b));
        match shape {
            Shape::Comp => self.comp(a, b, depth),
            Shape::Case | Shape::AssertL | Shape::AssertR => self.case(shape, a, b, depth),
            Shape::Pair => {
                let (l, r) = b.as_product().unwrap();
                Row::Pair(self.node(a, l, depth), self.node(a, r, depth))
            }
            Shape::Disconnect => self.disconnect(a, b, depth),
            Shape::InjL => Row::InjL(self.node(a, b.as_sum().unwrap().0, depth)),
            Shape::InjR => Row::InjR(self.node(a, b.as_sum().unwrap().1, depth)),
            Shape::Take => Row::Take(self.node(a.as_product().unwrap().0, b, depth)),
            Shape::Drop => Row::Drop(self.node(a.as_product().unwrap().1, b, depth)),
        }
    }

    /// A comp over any type, or over one that a case can take.
    fn comp(&mut self, a: &Ty, b: &Ty, depth: usize) -> Row {
        let width = self.style.width;
        let middle = match self.rng.below(6) {
            0 => types::any(self.rng, width),
            1 => types::product(a, &types::any(self.rng, width)),
            2 => Final::unit(),
            _ => {
                let tag = types::sum(&types::any(self.rng, width), &types::any(self.rng, width / 2));
                types::product(&tag, a)
            }
        };
        let middle = if middle.bit_width() > 8_000 { types::word(0) } else { middle };
        Row::Comp(self.node(a, &middle, depth), self.node(&middle, b, depth))
    }

    /// A case, or an assertion.
    fn case(&mut self, shape: Shape, a: &Ty, b: &Ty, depth: usize) -> Row {
        let (l, r, rest) = case_parts(a).unwrap();
        let (l, r) = (types::product(l, rest), types::product(r, rest));
        match shape {
            Shape::AssertL => {
                let left = self.node(&l, b, depth);
                Row::Case(left, self.hidden())
            }
            Shape::AssertR => {
                let right = self.node(&r, b, depth);
                Row::Case(self.hidden(), right)
            }
            _ => Row::Case(self.node(&l, b, depth), self.node(&r, b, depth)),
        }
    }

    /// A hidden node of its own hash, or one that is there.
    fn hidden(&mut self) -> usize {
        if !self.hidden.is_empty() && self.rng.once_in(3) {
            return *self.rng.pick(&self.hidden);
        }
        self.rows.push(Row::Hidden(self.rng.bytes(32).try_into().unwrap()));
        self.arrows.push(typing::nothing());
        self.hidden.push(self.rows.len() - 1);
        self.rows.len() - 1
    }

    /// A disconnect over any type that is handed on.
    fn disconnect(&mut self, a: &Ty, b: &Ty, depth: usize) -> Row {
        let (kept, target) = b.as_product().unwrap();
        let handed = types::any(self.rng, self.style.width);
        let left_source = types::product(&types::word(8), a);
        let left_target = types::product(kept, &handed);
        Row::Disconnect(self.node(&left_source, &left_target, depth), self.node(&handed, target, depth))
    }
}

/// A program from a to b.
pub fn program(rng: &mut Rng, style: Style, a: &Ty, b: &Ty) -> Made {
    let (rows, arrows, known, hidden) = (vec![], vec![], HashMap::new(), vec![]);
    let mut maker = Maker { rng, style, rows, arrows, known, hidden };
    let root = maker.node(a, b, style.depth);
    let (rows, from) = graph::canonical(&maker.rows, root);
    let arrows = from.iter().map(|at| maker.arrows[*at].shallow_clone()).collect();
    Made { rows, arrows }
}
