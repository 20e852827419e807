//! Every way in which a call says no: one case for each number of the requirements' table, with its place.

use std::fmt;

#[derive(Clone, Copy, Debug, PartialEq, Eq)]
pub enum Refusal {
    /// 1: dossier too short or too long, or a header number against the rules. Place: 0, or its byte.
    Header(u32),
    /// 2: a type record breaks a rule or is too wide. Place: the record.
    TypeRecord(u32),
    /// 3: the stream ended. Place: the node being read.
    StreamEnded(u32),
    /// 4: a natural over its bound; a table with no record or too many. Place: the node being read; 0.
    Natural(u32),
    /// 5: a jet. Place: the node being read.
    Jet(u32),
    /// 6: not in canonical order. Place: how many nodes were done.
    CanonicalOrder(u32),
    /// 7: a hidden node elsewhere than under a case, or last. Place: the parent, or the last node.
    HiddenElsewhere(u32),
    /// 8: both children of a case hidden. Place: the case.
    BothHidden(u32),
    /// 9: a hidden hash again, or a node equal to an earlier one. Place: the later node.
    NodeRepeated(u32),
    /// 10: a whole byte left, or padding not zero. Place: the node count.
    Closing(u32),
    /// 11: a disconnect with one child. Place: the first such node.
    OneChildDisconnect(u32),
    /// 12: the count of arrows, or an arrow. Place: the node count, or the first such node.
    Arrow(u32),
    /// 13: the count of hashes, or two unlike for one child. Place: the count given, or the entry.
    Hash(u32),
    /// 14: cells, frames or cost over their limit. Place: 0, 1, 2.
    OverLimit(u32),
    /// 15: witness bits short; left over, or leftover bits not zero. Place: the node; the node count.
    Witness(u32),
    /// 16: the input is not just one value of the source. Place: 0.
    Input(u32),
    /// 17: a store too short. Place: 0 cells, 1 frames, 2 answer, 3 nodes, 4 hashes.
    StoreShort(u32),
    /// 18: a fail node was reached. Place: the fail node.
    FailReached(u32),
    /// 19: a pruned branch was reached. Place: the assertion.
    PrunedReached(u32),
    /// 21: a natural with a length above 31 in its code. Place: the node being read.
    Overlong(u32),
    /// 26: a record of a lent node table breaks a rule. Place: the first such record.
    NodeRecord(u32),
}

use Refusal::*;

/// The cases in the order of their numbers.
const CASES: [(u32, fn(u32) -> Refusal); 21] = [
    (1, Header),
    (2, TypeRecord),
    (3, StreamEnded),
    (4, Natural),
    (5, Jet),
    (6, CanonicalOrder),
    (7, HiddenElsewhere),
    (8, BothHidden),
    (9, NodeRepeated),
    (10, Closing),
    (11, OneChildDisconnect),
    (12, Arrow),
    (13, Hash),
    (14, OverLimit),
    (15, Witness),
    (16, Input),
    (17, StoreShort),
    (18, FailReached),
    (19, PrunedReached),
    (21, Overlong),
    (26, NodeRecord),
];

impl Refusal {
    /// The refusal of a number and a place; none where the table has no such number.
    pub fn of(number: u32, place: u32) -> Option<Refusal> {
        let case = CASES.iter().find(|case| case.0 == number)?;
        Some((case.1)(place))
    }

    /// The number in the requirements' table.
    pub fn number(self) -> u32 {
        let place = self.place();
        CASES.iter().find(|case| (case.1)(place) == self).map_or(0, |case| case.0)
    }

    /// The place.
    pub fn place(self) -> u32 {
        match self {
            Header(p)
            | TypeRecord(p)
            | StreamEnded(p)
            | Natural(p)
            | Jet(p)
            | CanonicalOrder(p)
            | HiddenElsewhere(p)
            | BothHidden(p)
            | NodeRepeated(p)
            | Closing(p)
            | OneChildDisconnect(p)
            | Arrow(p)
            | Hash(p)
            | OverLimit(p)
            | Witness(p)
            | Input(p)
            | StoreShort(p)
            | FailReached(p)
            | PrunedReached(p)
            | Overlong(p)
            | NodeRecord(p) => p,
        }
    }
}

impl fmt::Display for Refusal {
    fn fmt(&self, f: &mut fmt::Formatter<'_>) -> fmt::Result {
        write!(f, "refused {} {}", self.number(), self.place())
    }
}
