//! The whole job, from a dossier to the answer and all five stores.

use super::{Judge, Names};
use crate::facts::whole::Facts;
use crate::lent::{Contents, Lent, Room};
use crate::tally::Rests;
use drevaloci::{Answer, Refusal};

const RUN: Names = Names { number: "whole job: value, or number", place: "whole job: place" };

impl Judge {
    /// The whole job with stores of some size: the library's answer, where there is one to compare.
    pub(super) fn whole(&mut self, facts: &Facts, dossier: &[u8], room: Room, old: &[u8]) -> Option<Answer> {
        let before = Contents::old(&room, old);
        let want = facts.wanted(&room, &before)?;
        let mut lent = Lent::new(room, &before);
        let parts = lent.parts();
        let got = drevaloci::run(dossier, parts.nodes, parts.hashes, parts.stores);
        let refused = refused_run(got);
        self.tally.answer(refused.map_or(0, |r| r.number()));
        self.refusal(&RUN, want.refused, refused, Rests::Original);
        self.tally.compared(
            "whole job: nothing written outside the stores",
            Rests::Document,
            lent.guarded(),
            String::new,
        );
        let left = lent.contents();
        if let (Some(output), Answer::Value(count)) = (&want.output, got) {
            let same = count as usize == output.len() && left.answer == want.left.answer;
            self.tally.compared("whole job: output", Rests::Original, same, || format!("{:02x?}", left.answer));
        }
        let same = left.nodes == want.left.nodes && left.hashes == want.left.hashes;
        self.tally.compared("whole job: node and hash stores", Rests::Document, same, || {
            format!("{:x?} {:x?}", left.nodes, left.hashes)
        });
        self.left(want.refused.is_none_or(|v| v.number > 17), &want.left, &left);
        Some(got)
    }

    /// Cells, frames and answer as they are left, after a run or untouched.
    pub(super) fn left(&mut self, ran: bool, want: &Contents, left: &Contents) {
        let (name, rests) = match ran {
            true => ("cells left by a run", Rests::Original),
            false => ("cells untouched", Rests::Document),
        };
        let cells = || format!("expected {:02x?}, found {:02x?}", want.cells, left.cells);
        self.tally.compared(name, rests, left.cells == want.cells, cells);
        let frames = || format!("expected {:?}, found {:?}", want.frames, left.frames);
        self.tally.compared("frames left", Rests::Document, left.frames == want.frames, frames);
        let answer = || format!("expected {:02x?}, found {:02x?}", want.answer, left.answer);
        self.tally.compared("answer store left", Rests::Document, left.answer == want.answer, answer);
    }
}

/// The refusal of a run.
pub(super) fn refused_run(answer: Answer) -> Option<Refusal> {
    match answer {
        Answer::Value(_) => None,
        Answer::Refused(refusal) => Some(refusal),
    }
}
