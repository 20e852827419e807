//! A node of a program as a row of a table: its kind, and its children as row numbers.

use simplicity::Word;

#[derive(Clone, Debug, PartialEq, Eq)]
pub enum Row {
    Comp(usize, usize),
    Case(usize, usize),
    Pair(usize, usize),
    Disconnect(usize, usize),
    InjL(usize),
    InjR(usize),
    Take(usize),
    Drop(usize),
    Iden,
    Unit,
    Fail([u8; 64]),
    Disconnect1(usize),
    Witness,
    Hidden([u8; 32]),
    Word(Word),
}

/// The kinds by their numbers.
pub const KINDS: [&str; 15] = [
    "comp",
    "case",
    "pair",
    "disconnect",
    "injl",
    "injr",
    "take",
    "drop",
    "iden",
    "unit",
    "fail",
    "disconnect, one child",
    "witness",
    "hidden",
    "word",
];

impl Row {
    /// The kind's number in the requirements.
    pub fn kind(&self) -> usize {
        match self {
            Row::Comp(..) => 0,
            Row::Case(..) => 1,
            Row::Pair(..) => 2,
            Row::Disconnect(..) => 3,
            Row::InjL(_) => 4,
            Row::InjR(_) => 5,
            Row::Take(_) => 6,
            Row::Drop(_) => 7,
            Row::Iden => 8,
            Row::Unit => 9,
            Row::Fail(_) => 10,
            Row::Disconnect1(_) => 11,
            Row::Witness => 12,
            Row::Hidden(_) => 13,
            Row::Word(_) => 14,
        }
    }

    /// The children, left first.
    pub fn children(&self) -> (Option<usize>, Option<usize>) {
        match *self {
            Row::Comp(i, j) | Row::Case(i, j) | Row::Pair(i, j) | Row::Disconnect(i, j) => (Some(i), Some(j)),
            Row::InjL(i) | Row::InjR(i) | Row::Take(i) | Row::Drop(i) | Row::Disconnect1(i) => (Some(i), None),
            _ => (None, None),
        }
    }

    /// The same node with each child taken elsewhere.
    pub fn moved(&self, to: impl Fn(usize) -> usize) -> Row {
        match *self {
            Row::Comp(i, j) => Row::Comp(to(i), to(j)),
            Row::Case(i, j) => Row::Case(to(i), to(j)),
            Row::Pair(i, j) => Row::Pair(to(i), to(j)),
            Row::Disconnect(i, j) => Row::Disconnect(to(i), to(j)),
            Row::InjL(i) => Row::InjL(to(i)),
            Row::InjR(i) => Row::InjR(to(i)),
            Row::Take(i) => Row::Take(to(i)),
            Row::Drop(i) => Row::Drop(to(i)),
            Row::Disconnect1(i) => Row::Disconnect1(to(i)),
            _ => self.clone(),
        }
    }

    /// Whether the node is hidden.
    pub fn is_hidden(&self) -> bool {
        matches!(self, Row::Hidden(_))
    }

    /// What tells the node from others, but for its arrow: its kind, then its children, its word's n and bits or its fail
    /// bytes. None of a node that may stand twice.
    pub fn key(&self) -> Option<Vec<usize>> {
        if matches!(self, Row::Disconnect(..) | Row::Disconnect1(_) | Row::Witness | Row::Hidden(_)) {
            return None;
        }
        let (l, r) = self.children();
        let mut key = vec![self.kind()];
        key.extend([l, r].into_iter().flatten());
        if let Row::Word(word) = self {
            key.push(word.n() as usize);
            key.extend(word.iter().map(usize::from));
        }
        key.extend(self.hash_bytes().iter().map(|byte| usize::from(*byte)));
        Some(key)
    }

    /// The bytes that the node has in the hash store.
    pub fn hash_bytes(&self) -> &[u8] {
        match self {
            Row::Hidden(h) => h,
            Row::Fail(e) => e,
            _ => &[],
        }
    }
}
