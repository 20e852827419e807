//! What the whole job must answer to a dossier, and what it must leave in the five stores.

use crate::bits;
use crate::document::{self, header, walk};
use crate::dossier;
use crate::facts::decoding::{Decoding, Table};
use crate::facts::Verdict;
use crate::lent::{Contents, Room, AMPLE};
use crate::original::machine::{self, Ended};
use crate::original::nodes::{self, Needs};
use crate::original::typing;
use crate::row::Row;
use crate::tally::Rests;
use drevaloci::FRAME_RECORD;
use simplicity::types::arrow::FinalArrow;

/// Why a run was not made on the original.
#[derive(Clone, Copy, Debug, PartialEq, Eq)]
pub enum NotRun {
    /// Its cost is above what this run of the driver spends on one program.
    Long,
    /// A supplied hash is not the root that the original computes.
    OtherHash,
}

pub struct Facts<'a> {
    pub sections: header::Sections<'a>,
    pub decoding: Option<Decoding>,
    pub table: Table,
    pub needs: Option<Needs>,
    answer_bytes: usize,
    /// 1 or 2.
    early: Option<Verdict>,
    /// 11 to 16, and 9 of equal nodes.
    later: Option<Verdict>,
    /// 14, whatever 13 says: the bounds' stage is lent no supplied hashes.
    over: Option<Verdict>,
    pub ended: Option<Ended>,
    pub not_run: Option<NotRun>,
}

/// What is expected of one call of the whole job.
pub struct Wanted {
    pub refused: Option<Verdict>,
    /// The output's bits, where there is one.
    pub output: Option<Vec<bool>>,
    pub left: Contents,
}

/// Refusal 12 of a node's arrow.
fn unfit(rows: &[Row], arrows: &[FinalArrow]) -> Option<Verdict> {
    if let Some(at) = typing::first_unfit(rows, arrows) {
        let rests = if rows[at].is_hidden() { Rests::Document } else { Rests::Original };
        return Some(Verdict { number: 12, place: at as u32, number_rests: rests, place_rests: rests });
    }
    (arrows.len() < rows.len()).then(|| Verdict::document((12, arrows.len() as u32)))
}

/// Refusals 11 and 12, and 9 of equal nodes; the arrows if they pass.
fn arrows_of(rows: &[Row], sections: &header::Sections) -> Result<Vec<FinalArrow>, Verdict> {
    if let Some(refused) = walk::one_child(rows) {
        return Err(Verdict::document(refused));
    }
    if sections[2].0 != rows.len() {
        return Err(Verdict::document((12, rows.len() as u32)));
    }
    let finals = dossier::finals(sections[0].1);
    let arrows = dossier::final_arrows(&finals, sections[2].1);
    let unfit = unfit(rows, &arrows);
    if let Some(at) = walk::equal_row(rows, sections[2].1) {
        if unfit.is_none_or(|verdict| at as u32 <= verdict.place) {
            return Err(Verdict::document((9, at as u32)));
        }
    }
    unfit.map_or(Ok(arrows), Err)
}

/// Refusal 14.
fn over_limit(needs: &Needs) -> Option<Verdict> {
    let over =
        [needs.cells > document::CELL_COUNT, needs.frames > document::FRAME_COUNT, needs.cost > document::COST_LIMIT];
    let place = over.iter().position(|over| *over)?;
    Some(Verdict::document((14, place as u32)))
}

/// A refusal of bits, which the original's value reader finds and this driver numbers.
fn bits_refused(number: u32, place: usize) -> Verdict {
    Verdict { number, place: place as u32, number_rests: Rests::Ours, place_rests: Rests::Ours }
}

impl<'a> Facts<'a> {
    /// Asks for a dossier. `old` fills the cells beforehand; no run whose cost is above `most_cost`.
    pub fn of(dossier: &'a [u8], old: &[u8], most_cost: u64, ask_place: bool) -> Facts<'a> {
        let mut facts = Facts {
            sections: [(0, &dossier[..0]); 6],
            decoding: None,
            table: Table::default(),
            needs: None,
            answer_bytes: 0,
            early: None,
            later: None,
            over: None,
            ended: None,
            not_run: None,
        };
        match header::open(dossier).and_then(|s| header::widths(s[0].1).map(|_| s)) {
            Ok(sections) => facts.sections = sections,
            Err(refused) => {
                facts.early = Some(Verdict::document(refused));
                return facts;
            }
        }
        let decoding = Decoding::of(facts.sections[1].1, ask_place);
        facts.table = Table::of(&decoding.read);
        let refused = decoding.verdict(usize::MAX, usize::MAX);
        if refused.is_none() {
            facts.later = facts.after_decoding(&decoding.read.rows, old, most_cost).err();
        }
        facts.decoding = Some(decoding);
        facts
    }

    /// Checks 11 to 16 with 9 of equal nodes, then the run.
    fn after_decoding(&mut self, rows: &[Row], old: &[u8], most_cost: u64) -> Result<(), Verdict> {
        let arrows = arrows_of(rows, &self.sections)?;
        let last = arrows.last().unwrap();
        self.answer_bytes = last.target.bit_width().div_ceil(8);
        let needs = nodes::needs_without_witnesses(rows, &arrows);
        self.needs = Some(needs);
        self.over = over_limit(&needs);
        let given = self.sections[5].1;
        if let Some(refused) = walk::unlike_hashes(rows, given) {
            return Err(Verdict::document(refused));
        }
        if let Some(refused) = self.over {
            return Err(refused);
        }
        let (witness, input) = (self.sections[3], self.sections[4]);
        let values = nodes::witness_values(rows, &arrows, witness.1, witness.0).map_err(|at| bits_refused(15, at))?;
        let input = nodes::input_value(last, input.1, input.0).ok_or(bits_refused(16, 0))?;
        if typing::right_hashes(rows).concat() != given {
            self.not_run = Some(NotRun::OtherHash);
        } else if needs.cost > most_cost {
            self.not_run = Some(NotRun::Long);
        } else {
            self.ended = Some(machine::run(&nodes::make(rows, &arrows, &values), &input, old));
        }
        Ok(())
    }

    /// The refusal of 11 to 16, or 9 of equal nodes, which stages that are lent the table must give too.
    pub fn later(&self) -> Option<Verdict> {
        self.later
    }

    /// The refusal 14 of the bounds, also where 13 comes first.
    pub fn over(&self) -> Option<Verdict> {
        self.over
    }

    /// Stores of just the size that is needed, as far as it is known; small ones elsewhere.
    pub fn exact_room(&self) -> Room {
        let Some(decoding) = &self.decoding else {
            return Room { nodes: 8, hashes: 33, cells: 3, frames: 6, answer: 2 };
        };
        let needs = self.needs.unwrap_or(Needs { cells: 17, frames: 3, cost: 0 });
        Room {
            nodes: 4 * decoding.read.count,
            hashes: self.table.hashes.len(),
            cells: needs.cells.div_ceil(8).min(AMPLE.cells),
            frames: (FRAME_RECORD * needs.frames).min(AMPLE.frames),
            answer: self.answer_bytes,
        }
    }

    /// The refusal with stores of some size; none where there is a run.
    fn refused(&self, room: &Room) -> Option<Verdict> {
        if self.early.is_some() {
            return self.early;
        }
        let decoding = self.decoding.as_ref().unwrap();
        if let Some(verdict) = decoding.verdict(room.nodes / 4, room.hashes) {
            return Some(verdict);
        }
        if self.later.is_some() {
            return self.later;
        }
        self.store_short(room)
    }

    /// Refusal 17 at 0, 1 or 2.
    pub fn store_short(&self, room: &Room) -> Option<Verdict> {
        let needs = self.needs?;
        let short = [
            room.cells < needs.cells.div_ceil(8),
            room.frames / FRAME_RECORD < needs.frames,
            room.answer < self.answer_bytes,
        ];
        let place = short.iter().position(|short| *short)?;
        Some(Verdict::document((17, place as u32)))
    }

    /// What is expected with stores of some size and old contents. None where a run would be
    /// compared that was not made.
    pub fn wanted(&self, room: &Room, old: &Contents) -> Option<Wanted> {
        let mut left = old.clone();
        let refused = self.refused(room);
        self.put_table(refused, &mut left);
        if refused.is_some() {
            return Some(Wanted { refused, output: None, left });
        }
        let (refused, output) = self.put_run(&mut left)?;
        Some(Wanted { refused, output, left })
    }

    /// The node and hash stores at an end: the table, or zeros.
    fn put_table(&self, refused: Option<Verdict>, left: &mut Contents) {
        left.nodes.fill(0);
        left.hashes.fill(0);
        let zeroed = matches!(refused.map(|v| v.pair()), Some((1..=13 | 21, _)) | Some((17, 3..)));
        if !zeroed {
            left.nodes[..self.table.nodes.len()].copy_from_slice(&self.table.nodes);
            left.hashes[..self.table.hashes.len()].copy_from_slice(&self.table.hashes);
        }
    }

    /// The other stores after a run, and how it ended.
    pub fn put_run(&self, left: &mut Contents) -> Option<(Option<Verdict>, Option<Vec<bool>>)> {
        let (ended, needs) = (self.ended.as_ref()?, self.needs?);
        // The original has cells for witnesses as well, which may be more than are lent here.
        let held = ended.cells.len().min(left.cells.len());
        left.cells[..held].copy_from_slice(&ended.cells[..held]);
        left.frames[..FRAME_RECORD * needs.frames].fill(0);
        match &ended.result {
            Ok(output) => {
                let packed = bits::pack(output);
                left.answer[..packed.len()].copy_from_slice(&packed);
                Some((None, Some(output.clone())))
            }
            Err((number, place)) => {
                let (number_rests, place_rests) = (Rests::Original, Rests::Ours);
                let verdict = Verdict { number: *number, place: *place as u32, number_rests, place_rests };
                Some((Some(verdict), None))
            }
        }
    }
}
