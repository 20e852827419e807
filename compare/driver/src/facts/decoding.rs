//! What decoding must answer, and whether our reading of the requirements agrees with the original.

use crate::document::{reader, walk, Refused, NODE_COUNT};
use crate::facts::Verdict;
use crate::original::decode;
use crate::row::Row;
use crate::tally::Rests;
use simplicity::BitIter;

pub struct Decoding {
    /// The original's own answer.
    pub original: Result<(Vec<Row>, usize), decode::Refused>,
    /// The nodes as read by this driver.
    pub read: reader::Read,
    /// The refusal where stores are large enough.
    verdict: Option<Verdict>,
    /// Where the original and our reading of the requirements part in a way that no document names.
    pub disagreement: Option<String>,
}

/// A node table and a hash store as the requirements lay them out.
#[derive(Clone, Debug, Default, PartialEq, Eq)]
pub struct Table {
    pub nodes: Vec<u32>,
    pub hashes: Vec<u8>,
}

/// The four numbers of a row, its hash bytes standing at `hash`.
fn record(row: &Row, start: u32, hash: usize) -> [u32; 4] {
    let (l, r) = row.children();
    let kind = row.kind() as u32;
    match row {
        Row::Word(word) => [kind, word.n() as u32 + 1, start, 0],
        Row::Hidden(_) | Row::Fail(_) => [kind, hash as u32, 0, 0],
        _ => [kind, l.unwrap_or(0) as u32, r.unwrap_or(0) as u32, 0],
    }
}

impl Table {
    /// The table of what was read.
    pub fn of(read: &reader::Read) -> Table {
        let mut table = Table::default();
        for (row, start) in read.rows.iter().zip(&read.starts) {
            table.nodes.extend(record(row, *start, table.hashes.len()));
            table.hashes.extend(row.hash_bytes());
        }
        table
    }
}

/// Whether the count is one that the original takes and the limit does not.
fn count_over(program: &[u8]) -> bool {
    matches!(BitIter::from(program).read_natural::<usize>(None), Ok(count) if count > NODE_COUNT)
}

/// The refusal of the requirements, stores being large enough.
fn required(program: &[u8], read: &reader::Read) -> Option<Refused> {
    let closing = || (!reader::closes(program, read.bits)).then_some((10, read.count as u32));
    read.refused.or_else(|| walk::refused(&read.rows)).or_else(closing)
}

/// Whether the original's answer and the required one are the same kind of answer.
fn agree(original: &Result<(Vec<Row>, usize), decode::Refused>, read: &reader::Read, ours: Option<Refused>) -> bool {
    match (original, ours) {
        (Ok((rows, bits)), None) => *rows == read.rows && *bits == read.bits,
        (Ok(_), Some(_)) => false,
        (Err(r), _) if r.number == 0 => !ours.is_some_and(|o| (3..=5).contains(&o.0)),
        (Err(r), Some(o)) => r.number == o.0,
        (Err(_), None) => false,
    }
}

/// On what number and place of a refusal rest.
fn rests(number: u32, type_error: bool, place_asked: bool) -> (Rests, Rests) {
    match number {
        5 => (Rests::Ours, Rests::Ours),
        3 | 4 if place_asked => (Rests::Original, Rests::Original),
        3 | 4 => (Rests::Original, Rests::Document),
        _ if type_error => (Rests::Document, Rests::Document),
        _ => (Rests::Original, Rests::Document),
    }
}

impl Decoding {
    /// Asks for a program; the place of 3 to 5 is asked of the original too if `ask_place`.
    pub fn of(program: &[u8], ask_place: bool) -> Decoding {
        let original = decode::decode(program);
        let read = reader::read(program);
        let ours = required(program, &read);
        if count_over(program) {
            let verdict = Some(Verdict::document((4, 0)));
            return Decoding { original, read, verdict, disagreement: None };
        }
        let mut disagreement = None;
        if !agree(&original, &read, ours) {
            disagreement =
                Some(format!("the original says {:?}, the requirements {ours:?}", original.as_ref().map(|r| r.1)));
        }
        let type_error = matches!(&original, Err(r) if r.number == 0);
        let verdict = ours.map(|(number, place)| {
            let (number_rests, place_rests) = rests(number, type_error, ask_place);
            Verdict { number, place, number_rests, place_rests }
        });
        if let (true, Some((3..=5, place))) = (ask_place, ours) {
            let asked = decode::reading_place(program) as u32;
            if asked != place {
                disagreement = Some(format!("the original stops at node {asked}, the requirements at {place}"));
            }
        }
        Decoding { original, read, verdict, disagreement }
    }

    /// Whether the original stopped at a type error, after which it says nothing more.
    pub fn type_error(&self) -> bool {
        matches!(&self.original, Err(r) if r.number == 0)
    }

    /// The refusal with a node store of some records and a hash store of some bytes.
    pub fn verdict(&self, records: usize, hash_bytes: usize) -> Option<Verdict> {
        if self.read.count > records {
            return Some(Verdict::document((17, 3)));
        }
        let mut need = 0;
        for row in &self.read.rows {
            need += row.hash_bytes().len();
            if need > hash_bytes {
                return Some(Verdict::document((17, 4)));
            }
        }
        self.verdict
    }
}
