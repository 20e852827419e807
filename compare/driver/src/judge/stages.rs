//! The stages that are lent tables: arrows, hashes, bounds, and the run on tables.

use super::decoding::refusal_of;
use super::whole::refused_run;
use super::{Judge, Names};
use crate::facts::whole::Facts;
use crate::facts::Verdict;
use crate::lent::{Contents, Lent, Room};
use crate::tally::Rests;
use drevaloci::{Answer, Bits, Bounds, Tables};

const ARROWS: Names = Names { number: "arrows: passed, or number", place: "arrows: place" };
const HASHES: Names = Names { number: "hashes: passed, or number", place: "hashes: place" };
const BOUNDS: Names = Names { number: "bounds: within, or number", place: "bounds: place" };

/// The names of the results of a run on tables.
struct RunNames {
    refusal: Names,
    output: &'static str,
    outside: &'static str,
}

const APART: RunNames = RunNames {
    refusal: Names { number: "run on tables: value, or number", place: "run on tables: place" },
    output: "run on tables: output",
    outside: "run on tables: nothing written outside the stores",
};

const LAPPING: RunNames = RunNames {
    refusal: Names { number: "run on overlapping tables: value, or number", place: "run on overlapping tables: place" },
    output: "run on overlapping tables: output",
    outside: "run on overlapping tables: nothing written outside the stores",
};

/// The expected refusal where it is one of a range of numbers.
fn among(facts: &Facts, last: u32) -> Option<Verdict> {
    facts.later().filter(|v| v.number <= last)
}

impl Judge {
    /// All stages, where the program could be read and closed.
    pub(super) fn stages(&mut self, facts: &Facts, room: Room, old: &[u8]) {
        let Some(decoding) = &facts.decoding else {
            return;
        };
        let refused = decoding.verdict(usize::MAX, usize::MAX);
        if decoding.read.refused.is_some() || decoding.read.rows.is_empty() {
            return;
        }
        self.walk(facts);
        if refused.is_some() {
            return;
        }
        let tables = Tables {
            types: facts.sections[0].1,
            nodes: &facts.table.nodes,
            arrows: facts.sections[2].1,
            program: facts.sections[1].1,
            hashes: &facts.table.hashes,
        };
        self.refusal(&ARROWS, among(facts, 12), refusal_of(drevaloci::arrows(tables)), Rests::Original);
        let given = drevaloci::hashes(tables, facts.sections[5].1);
        self.refusal(&HASHES, among(facts, 13), refusal_of(given), Rests::Document);
        self.bounds(facts, tables);
        self.run_tables(facts, tables, room, old);
        self.run_overlapping(facts, tables, room, old);
    }

    /// The bounds call. It is not lent the supplied hashes, so 13 is not among its refusals.
    fn bounds(&mut self, facts: &Facts, tables: Tables) {
        let want = among(facts, 12).or(facts.over());
        match drevaloci::bounds(tables) {
            Bounds::Refused(refusal) => self.refusal(&BOUNDS, want, Some(refusal), Rests::Document),
            Bounds::Within { cells, frames, cost } => {
                self.refusal(&BOUNDS, want, None, Rests::Document);
                let Some(needs) = facts.needs else {
                    return;
                };
                let got = (cells as usize, frames as usize, u64::from(cost));
                let same = got == (needs.cells, needs.frames, needs.cost);
                let text = || format!("expected {needs:?}, the library says {got:?}");
                self.tally.compared("bounds: cells, frames, cost", Rests::Ours, same, text);
            }
        }
    }

    /// The run on tables that stand apart.
    fn run_tables(&mut self, facts: &Facts, tables: Tables, room: Room, old: &[u8]) {
        self.run_with(&APART, facts, tables, room, old);
    }

    /// The run on tables whose program bytes go on over all sections behind them, so that slices
    /// that are read overlap. Nothing of that may show.
    fn run_overlapping(&mut self, facts: &Facts, tables: Tables, room: Room, old: &[u8]) {
        let whole: Vec<u8> = facts.sections[1..].iter().flat_map(|section| section.1.to_vec()).collect();
        let start = facts.sections[1].1.len();
        let end = start + facts.sections[2].1.len();
        let lapping = Tables { program: &whole, arrows: &whole[start..end], ..tables };
        self.run_with(&LAPPING, facts, lapping, room, old);
    }

    /// A run on tables: answer and stores.
    fn run_with(&mut self, names: &RunNames, facts: &Facts, tables: Tables, room: Room, old: &[u8]) {
        let before = Contents::old(&room, old);
        let mut want = before.clone();
        let refused = facts.later().or_else(|| facts.store_short(&room));
        let (refused, output) = match refused {
            Some(_) => (refused, None),
            None => match facts.put_run(&mut want) {
                Some(end) => end,
                None => return,
            },
        };
        let mut lent = Lent::new(room, &before);
        let (witness, input) = (facts.sections[3], facts.sections[4]);
        let witness = Bits { bytes: witness.1, count: witness.0 as u32 };
        let input = Bits { bytes: input.1, count: input.0 as u32 };
        let got = drevaloci::run_tables(tables, facts.sections[5].1, witness, input, lent.parts().stores);
        self.refusal(&names.refusal, refused, refused_run(got), Rests::Original);
        self.tally.compared(names.outside, Rests::Document, lent.guarded(), String::new);
        let left = lent.contents();
        if let (Some(output), Answer::Value(count)) = (output, got) {
            let same = count as usize == output.len() && left.answer == want.answer;
            self.tally.compared(names.output, Rests::Original, same, || format!("{:02x?}", left.answer));
        }
        self.left(refused.is_none_or(|v| v.number > 17), &want, &left);
    }
}
