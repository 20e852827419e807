//! Decoding and the walk: accepted or not, the table, number and place of a refusal, the stores.

use super::{Judge, Names};
use crate::bits;
use crate::document::{DOSSIER_BYTES, NODE_COUNT};
use crate::facts::whole::Facts;
use crate::lent::{Contents, Lent, Room};
use crate::row::Row;
use crate::tally::Rests;
use drevaloci::{Checked, Decoded, Natural, Refusal};

const DECODE: Names = Names { number: "decode: accepted, or number", place: "decode: place" };
const WALK: Names = Names { number: "walk: passed, or number", place: "walk: place" };

/// Whether a record of the library's table is the original's node, its word and hash bytes included.
fn same_node(record: &[u32], row: &Row, program: &[u8], hashes: &[u8]) -> bool {
    let (l, r) = row.children();
    if record[0] as usize != row.kind() {
        return false;
    }
    let at = record[1] as usize;
    match row {
        Row::Word(word) => {
            let start = record[2] as usize;
            at == word.n() + 1 && word.iter().enumerate().all(|(k, b)| bits::bit(program, start + k) == b)
        }
        Row::Hidden(_) | Row::Fail(_) => hashes[at..at + row.hash_bytes().len()] == *row.hash_bytes(),
        _ => (at, record[2] as usize) == (l.unwrap_or(0), r.unwrap_or(0)),
    }
}

impl Judge {
    /// The decode call with stores of some size, where the dossier has a program.
    pub(super) fn decode(&mut self, facts: &Facts, room: Room, old: &[u8]) {
        let Some(decoding) = &facts.decoding else {
            return;
        };
        let program = facts.sections[1].1;
        let mut lent = Lent::new(room, &Contents::old(&room, old));
        let parts = lent.parts();
        let got = drevaloci::decode(program, parts.nodes, parts.hashes);
        let want = decoding.verdict(room.nodes / 4, room.hashes);
        let refused = match got {
            Decoded::Table { .. } => None,
            Decoded::Refused(refusal) => Some(refusal),
        };
        let passed = if decoding.type_error() { Rests::Document } else { Rests::Original };
        self.refusal(&DECODE, want, refused, passed);
        if decoding.type_error() {
            let read = !refused.is_some_and(|r| (3..=5).contains(&r.number()));
            self.tally.compared(
                "decode: read to the end where the original met a type error",
                Rests::Original,
                read,
                || format!("{refused:?}"),
            );
        }
        self.tally.compared("decode: nothing written outside the stores", Rests::Document, lent.guarded(), String::new);
        let left = lent.contents();
        match got {
            Decoded::Table { nodes, hash_bytes } if want.is_none() => self.table(facts, &left, nodes, hash_bytes),
            Decoded::Refused(_) => {
                let zero = left.nodes.iter().all(|x| *x == 0) && left.hashes.iter().all(|x| *x == 0);
                self.tally.compared("decode: stores zero after a refusal", Rests::Document, zero, String::new);
            }
            _ => {}
        }
    }

    /// The table that decoding wrote.
    fn table(&mut self, facts: &Facts, left: &Contents, nodes: u32, hash_bytes: u32) {
        let decoding = facts.decoding.as_ref().unwrap();
        let program = facts.sections[1].1;
        if let Ok((rows, _)) = &decoding.original {
            let records = left.nodes.chunks_exact(4);
            let same = nodes as usize == rows.len()
                && records.zip(rows).all(|(record, row)| same_node(record, row, program, &left.hashes));
            let name = "decode: kinds, children, words, hash bytes";
            self.tally.compared(name, Rests::Original, same, || format!("{:?}", left.nodes));
        }
        let table = &facts.table;
        let (n, h) = (table.nodes.len(), table.hashes.len());
        let same = left.nodes[..n] == table.nodes
            && left.hashes[..h] == table.hashes
            && (nodes as usize, hash_bytes as usize) == (n / 4, h)
            && left.nodes[n..].iter().all(|x| *x == 0)
            && left.hashes[h..].iter().all(|x| *x == 0);
        let name = "decode: positions, unused numbers, the rest zero, sizes";
        self.tally.compared(name, Rests::Document, same, || format!("{:?}", left.nodes));
    }

    /// Slices longer than a dossier may be: an empty stream, or 1 at 0.
    pub fn over_long(&mut self) {
        let long = vec![0x24; DOSSIER_BYTES + 1];
        let (mut nodes, mut hashes) = ([7; 8], [7; 8]);
        let header = Refusal::Header(0);
        let decoded = drevaloci::decode(&long, &mut nodes, &mut hashes) == Decoded::Refused(header);
        let zero = (nodes, hashes) == ([0; 8], [0; 8]);
        let walked = drevaloci::walk(&long, &[], &[9, 0, 0, 0]) == Checked::Refused(header);
        let read = drevaloci::natural(&long, 0, 9) == Natural::Ended;
        let same = decoded && zero && walked && read;
        let text = || format!("decode {decoded}, stores {zero}, walk {walked}, natural {read}");
        self.tally.compared("a program longer than a dossier: 1, or no natural", Rests::Document, same, text);
    }

    /// Lent tables of the most records, each a drop of the one before, and of one more: passed, and 4 at 0.
    pub fn over_many(&mut self) {
        let record = |i: u32| if i == 0 { [9, 0, 0, 0] } else { [7, i - 1, 0, 0] };
        let table = |n: usize| (0..n as u32).flat_map(record).collect::<Vec<u32>>();
        let most = drevaloci::walk(&[], &[], &table(NODE_COUNT));
        let over = drevaloci::walk(&[], &[], &table(NODE_COUNT + 1));
        let same = (most, over) == (Checked::Passed, Checked::Refused(Refusal::Natural(0)));
        let text = || format!("{most:?}, {over:?}");
        self.tally.compared("a table of the most records, and of one more: 4", Rests::Document, same, text);
    }

    /// The walk call on the table as read, where the whole program could be read.
    pub(super) fn walk(&mut self, facts: &Facts) {
        let decoding = facts.decoding.as_ref().unwrap();
        let verdict = decoding.verdict(usize::MAX, usize::MAX);
        let want = verdict.filter(|v| (6..=9).contains(&v.number));
        let passed = if decoding.type_error() { Rests::Document } else { Rests::Original };
        let got = drevaloci::walk(facts.sections[1].1, &facts.table.hashes, &facts.table.nodes);
        self.refusal(&WALK, want, refusal_of(got), passed);
    }
}

/// The refusal of a check.
pub(super) fn refusal_of(checked: Checked) -> Option<Refusal> {
    match checked {
        Checked::Passed => None,
        Checked::Refused(refusal) => Some(refusal),
    }
}
