//! Counts of what was compared, what was left out and why, and the differences that were found.

use crate::row::KINDS;
use std::collections::BTreeMap;

/// On what an expected result rests.
#[derive(Clone, Copy, Debug, PartialEq, Eq, PartialOrd, Ord)]
pub enum Rests {
    /// The original's code alone.
    Original,
    /// The original's code, with a part of a stand-in or of this driver.
    Ours,
    /// The requirements, as this driver reads them: the original has nothing like it.
    Document,
}

impl Rests {
    /// The words for it in a table.
    fn name(self) -> &'static str {
        match self {
            Rests::Original => "original",
            Rests::Ours => "original, with a part of ours",
            Rests::Document => "the requirements",
        }
    }
}

/// Counts of one class of programs.
#[derive(Clone, Copy, Default)]
pub struct Class {
    pub programs: u64,
    /// Accepted by the original and by the library, and run by both.
    pub run: u64,
    /// Of these, ended with an output by both.
    pub outputs: u64,
}

/// Counts of one kind of node.
#[derive(Clone, Copy, Default)]
pub struct Kind {
    /// Nodes of programs that were decoded.
    pub nodes: u64,
    /// Visits in runs that were compared.
    pub visits: u64,
}

#[derive(Default)]
pub struct Tally {
    pub classes: BTreeMap<&'static str, Class>,
    pub kinds: [Kind; 15],
    /// Visits of assertions, left and right, which are kind 1 too.
    pub assertions: [u64; 2],
    /// Programs that were made with equal nodes and had to be shared.
    pub shared: u64,
    results: BTreeMap<(&'static str, Rests), [u64; 2]>,
    answers: BTreeMap<u32, u64>,
    skipped: BTreeMap<&'static str, u64>,
    pub faults: Vec<String>,
    pub fault_count: u64,
}

/// Disconnects with one child and hidden nodes.
const NEVER_VISITED: [usize; 2] = [11, 13];
const FAULTS_KEPT: usize = 12;
const FAULT_LENGTH: usize = 400;

impl Tally {
    /// The counts of a class.
    pub fn class(&mut self, name: &'static str) -> &mut Class {
        self.classes.entry(name).or_default()
    }

    /// One result compared: the same or not.
    pub fn compared(&mut self, result: &'static str, rests: Rests, same: bool, text: impl FnOnce() -> String) {
        self.results.entry((result, rests)).or_default()[usize::from(!same)] += 1;
        if !same {
            self.fault(format!("{result}: {}", text()));
        }
    }

    /// A difference.
    pub fn fault(&mut self, text: String) {
        self.fault_count += 1;
        if self.faults.len() < FAULTS_KEPT {
            self.faults.push(text.chars().take(FAULT_LENGTH).collect());
        }
    }

    /// Whether a difference is still kept with its text.
    pub fn keeps(&self) -> bool {
        self.faults.len() < FAULTS_KEPT
    }

    /// One result that could not be compared.
    pub fn skip(&mut self, why: &'static str) {
        *self.skipped.entry(why).or_default() += 1;
    }

    /// One answer of a whole run: 0 for a value, else the refusal's number.
    pub fn answer(&mut self, number: u32) {
        *self.answers.entry(number).or_default() += 1;
    }

    /// All classes together.
    pub fn total(&self) -> Class {
        self.classes.values().fold(Class::default(), |a, b| Class {
            programs: a.programs + b.programs,
            run: a.run + b.run,
            outputs: a.outputs + b.outputs,
        })
    }

    /// Prints the counts of programs.
    fn print_classes(&self) {
        println!("\n| programs | made | accepted and run by both | with an output |\n|---|---|---|---|");
        for (name, c) in &self.classes {
            println!("| {name} | {} | {} | {} |", c.programs, c.run, c.outputs);
        }
        let c = self.total();
        println!("| all | {} | {} | {} |", c.programs, c.run, c.outputs);
        println!("\n{} programs were made with equal nodes, and shared before they were judged.", self.shared);
    }

    /// Prints the counts of nodes.
    fn print_kinds(&self) {
        println!("\n| kind | nodes decoded | visits in compared runs |\n|---|---|---|");
        for (name, kind) in KINDS.iter().zip(&self.kinds) {
            println!("| {name} | {} | {} |", kind.nodes, kind.visits);
        }
        let [left, right] = self.assertions;
        println!("\nOf the visits of case: {left} of an assertion with its left child, {right} with its right.");
        println!("A hidden node is never visited, and a disconnect with one child never runs (11).");
    }

    /// Prints what was compared.
    fn print_results(&self) {
        println!("\n| result | rests on | the same | different |\n|---|---|---|---|");
        for ((result, rests), [same, other]) in &self.results {
            println!("| {result} | {} | {same} | {other} |", rests.name());
        }
    }

    /// Prints what was left out.
    fn print_skipped(&self) {
        println!("\n| left out | times |\n|---|---|");
        for (why, times) in &self.skipped {
            println!("| {why} | {times} |");
        }
    }

    /// Prints the answers by number.
    fn print_answers(&self) {
        println!("\n| answer of a whole run | times |\n|---|---|");
        for (number, times) in &self.answers {
            match number {
                0 => println!("| a value | {times} |"),
                _ => println!("| {number} | {times} |"),
            }
        }
    }

    /// Whether the counts are those that a full comparison asks for: 200,000 programs, 100,000 of
    /// them run by both, each kind that can be visited visited 5,000 times.
    pub fn reached(&self) -> String {
        let total = self.total();
        let runs = |kind: &usize| !NEVER_VISITED.contains(kind);
        let least = (0..15).filter(runs).map(|kind| self.kinds[kind].visits).min().unwrap_or(0);
        let full = total.programs >= 200_000 && total.run >= 100_000 && least >= 5_000;
        let word = if full { "a full comparison" } else { "not a full comparison" };
        format!(
            "{} programs, {} run by both, each kind visited at least {least} times: {word}",
            total.programs, total.run
        )
    }

    /// Prints all counts as tables.
    pub fn print(&self) {
        self.print_classes();
        self.print_kinds();
        self.print_results();
        self.print_skipped();
        self.print_answers();
        println!("\n{} differences", self.fault_count);
        for fault in &self.faults {
            println!("- {fault}");
        }
    }
}
