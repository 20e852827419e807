//! Holds the library's answers against what is expected, call by call.

mod decoding;
mod stages;
mod whole;

use crate::bits;
use crate::facts::whole::{Facts, NotRun};
use crate::facts::Verdict;
use crate::lent::{Room, AMPLE};
use crate::rng::Rng;
use crate::row::Row;
use crate::tally::{Rests, Tally};
use drevaloci::{Answer, Refusal};
use std::path::PathBuf;

/// Which stores a dossier is run with, beside those of just the needed size.
#[derive(Clone, Copy, Debug, PartialEq, Eq)]
pub enum Choice {
    /// As large as any dossier needs.
    Ample,
    /// Some elements more than needed, not whole records.
    Odd(usize),
    /// One element less than needed in one store: nodes, hashes, cells, frames, answer.
    Short(usize),
}

/// The names of the results of one kind of call.
struct Names {
    number: &'static str,
    place: &'static str,
}

pub struct Judge {
    pub tally: Tally,
    /// Old contents of every store.
    old: Vec<u8>,
    /// Runs whose cost is above this are left out.
    pub most_cost: u64,
    /// The place of 3 to 5 is asked of the original for programs of at most this many bytes.
    pub place_bytes: usize,
    /// Keeps each dossier in a file before it is judged, so that a crash leaves it behind.
    pub trace: bool,
    rng: Rng,
    saved: PathBuf,
}

impl Judge {
    /// A judge that has compared nothing; it keeps dossiers that differ in a folder.
    pub fn new(seed: u64, saved: PathBuf) -> Judge {
        let mut rng = Rng::new(seed ^ 0x0D0D);
        let old = rng.bytes(AMPLE.cells + AMPLE.hashes);
        Judge { tally: Tally::default(), old, most_cost: 300_000, place_bytes: 400, trace: false, rng, saved }
    }

    /// Compares everything about one dossier.
    pub fn dossier(&mut self, class: &'static str, dossier: &[u8]) {
        let choice = match self.rng.below(4) {
            0 => Choice::Ample,
            1 => Choice::Odd(1 + self.rng.below(5)),
            _ => Choice::Short(self.rng.below(5)),
        };
        self.dossier_in(class, dossier, &[choice]);
    }

    /// The same with stores that are chosen.
    pub fn dossier_in(&mut self, class: &'static str, dossier: &[u8], choices: &[Choice]) {
        let shift = self.rng.below(64);
        let old = self.old[shift..].to_vec();
        if self.trace {
            self.keep("current.dossier", dossier);
        }
        let ask_place = dossier.len() <= self.place_bytes;
        let facts = Facts::of(dossier, &old, self.most_cost, ask_place);
        let (before, keeps) = (self.tally.fault_count, self.tally.keeps());
        self.count(class, &facts);
        let exact = facts.exact_room();
        if let Some(answer) = self.whole(&facts, dossier, exact, &old) {
            self.count_answer(class, &facts, answer);
        }
        self.decode(&facts, exact, &old);
        self.stages(&facts, exact, &old);
        for choice in choices {
            let room = room_of(exact, *choice);
            self.whole(&facts, dossier, room, &old);
            self.decode(&facts, room, &old);
        }
        if self.tally.fault_count > before && keeps {
            self.save(class, dossier);
        }
    }

    /// Counts a dossier, its nodes and visits, and what is left out.
    fn count(&mut self, class: &'static str, facts: &Facts) {
        self.tally.class(class).programs += 1;
        match facts.not_run {
            Some(NotRun::Long) => self.tally.skip("a run whose cost is above what is spent on one program"),
            Some(NotRun::OtherHash) => {
                self.tally.skip("a run where a supplied hash is not the root that the original computes")
            }
            None => {}
        }
        let Some(decoding) = &facts.decoding else {
            return;
        };
        if let Some(text) = &decoding.disagreement {
            self.tally.fault(format!("original and requirements part: {text}"));
        }
        if decoding.type_error() {
            self.tally.skip("the original's word on walk and closing after its type error");
        }
        self.count_rows(&decoding.read.rows, facts);
    }

    /// Counts a program that both accepted, its run and its output.
    fn count_answer(&mut self, class: &'static str, facts: &Facts, answer: Answer) {
        let accepted = match answer {
            Answer::Value(_) => true,
            Answer::Refused(refusal) => matches!(refusal.number(), 18 | 19),
        };
        let counts = self.tally.class(class);
        if let (Some(ended), true) = (&facts.ended, accepted) {
            counts.run += 1;
            counts.outputs += u64::from(ended.result.is_ok() && matches!(answer, Answer::Value(_)));
        }
    }

    /// Counts nodes and visits of each kind.
    fn count_rows(&mut self, rows: &[Row], facts: &Facts) {
        for (at, row) in rows.iter().enumerate() {
            let kind = &mut self.tally.kinds[row.kind()];
            kind.nodes += 1;
            let Some(ended) = &facts.ended else {
                continue;
            };
            let visits = u64::from(ended.visits[at]);
            kind.visits += visits;
            if let Row::Case(i, j) = row {
                self.tally.assertions[0] += if rows[*j].is_hidden() { visits } else { 0 };
                self.tally.assertions[1] += if rows[*i].is_hidden() { visits } else { 0 };
            }
        }
    }

    /// Compares a refusal, or that there is none.
    fn refusal(&mut self, names: &Names, want: Option<Verdict>, got: Option<Refusal>, passed: Rests) {
        let (wanted, found) = (want.map(|v| v.pair()), got.map(|r| (r.number(), r.place())));
        let rests = want.map_or(passed, |v| v.number_rests);
        let same = wanted.map(|p| p.0) == found.map(|p| p.0);
        let text = || format!("expected {wanted:?}, the library says {found:?}");
        self.tally.compared(names.number, rests, same, text);
        if let (Some(verdict), true) = (want, same) {
            self.tally.compared(names.place, verdict.place_rests, wanted == found, text);
        }
    }

    /// Writes a dossier into the folder of kept ones.
    fn keep(&self, name: &str, dossier: &[u8]) {
        let written =
            std::fs::create_dir_all(&self.saved).and_then(|()| std::fs::write(self.saved.join(name), dossier));
        written.expect("a folder that can be written to");
    }

    /// Keeps a dossier on which something differs.
    fn save(&mut self, class: &str, dossier: &[u8]) {
        let name = format!("{}.dossier", self.tally.fault_count);
        self.keep(&name, dossier);
        let short = if dossier.len() <= 200 { bits::hex(dossier) } else { format!("{} bytes", dossier.len()) };
        if let Some(last) = self.tally.faults.last_mut() {
            last.push_str(&format!(" [{class}; {name}: {short}]"));
        }
    }
}

/// Stores by a choice.
fn room_of(exact: Room, choice: Choice) -> Room {
    let mut room = exact;
    match choice {
        Choice::Ample => return AMPLE,
        Choice::Odd(more) => {
            room.nodes += more;
            room.hashes += more;
            room.cells += more;
            room.frames += more;
            room.answer += more;
        }
        Choice::Short(0) => room.nodes = room.nodes.saturating_sub(1),
        Choice::Short(1) => room.hashes = room.hashes.saturating_sub(1),
        Choice::Short(2) => room.cells = room.cells.saturating_sub(1),
        Choice::Short(3) => room.frames = room.frames.saturating_sub(1),
        Choice::Short(_) => room.answer = room.answer.saturating_sub(1),
    }
    room
}
