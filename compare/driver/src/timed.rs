//! What the bench times: the library's calls with stores of the largest size, and the original's own
//! road over the same bytes.

use crate::clock::{clocked, now};
use crate::document::header;
use crate::dossier;
use crate::facts::decoding::{Decoding, Table};
use crate::making::Made;
use crate::original::{decode as decoding, nodes, typing};
use crate::rng::Rng;
use drevaloci::{Answer, Bits, Natural, Stores, Tables};
use simplicity::jet::{Core, CoreEnv};
use simplicity::types::Context;
use simplicity::{decode, BitIter, BitMachine, Value};
use std::hint::black_box;

/// The sum of naturals read one after the other by the original.
pub fn original_naturals(bytes: &[u8], count: usize) -> u64 {
    let mut stream = BitIter::from(bytes);
    (0..count).map(|_| stream.read_natural::<u32>(Some(u32::MAX)).map_or(0, u64::from)).sum()
}

/// The same by the library.
pub fn library_naturals(bytes: &[u8], count: usize) -> u64 {
    let (mut at, mut sum) = (0, 0);
    for _ in 0..count {
        if let Natural::Value { value, next } = drevaloci::natural(bytes, at, u32::MAX) {
            sum += u64::from(value);
            at = next;
        }
    }
    sum
}

/// The original's decoding; its nodes and its context are freed after the clock is stopped.
pub fn original_decode(bytes: &[u8]) -> u64 {
    Context::with_context(|ctx| {
        let mut stream = BitIter::from(black_box(bytes));
        let start = now();
        let result = decode::decode_expression::<_, Core>(&ctx, &mut stream);
        let end = now();
        assert!(black_box(result).is_ok());
        end - start
    })
}

/// The original's reading alone: one leaf more as the last node, so that the walk stops at once.
pub fn original_reading(longer: &[u8]) -> u64 {
    clocked(|| {
        Context::with_context(|ctx| {
            let mut stream = BitIter::from(black_box(longer));
            let result = decode::decode_expression::<_, Core>(&ctx, &mut stream);
            assert!(matches!(result, Err(decode::Error::NotInCanonicalOrder)));
        })
    })
}

/// The five stores, of the largest size.
pub struct Largest {
    nodes: Vec<u32>,
    hashes: Vec<u8>,
    cells: Vec<u8>,
    frames: Vec<u32>,
    answer: Vec<u8>,
}

impl Largest {
    /// Stores of zeros.
    #[allow(clippy::new_without_default)]
    pub fn new() -> Largest {
        Largest {
            nodes: vec![0; drevaloci::NODE_NUMBERS],
            hashes: vec![0; drevaloci::HASH_BYTES],
            cells: vec![0; drevaloci::CELL_BYTES],
            frames: vec![0; drevaloci::FRAME_NUMBERS],
            answer: vec![0; drevaloci::ANSWER_BYTES],
        }
    }

    /// Clears all five stores.
    pub fn clear(&mut self) {
        self.nodes.fill(0);
        self.hashes.fill(0);
        self.cells.fill(0);
        self.frames.fill(0);
        self.answer.fill(0);
    }

    /// The whole job.
    pub fn run(&mut self, dossier: &[u8]) -> Answer {
        let stores = Stores { cells: &mut self.cells, frames: &mut self.frames, answer: &mut self.answer };
        drevaloci::run(black_box(dossier), &mut self.nodes, &mut self.hashes, stores)
    }

    /// The run on tables; with no frames lent every check is made and nothing runs (17 at 1).
    pub fn tables(&mut self, dossier: &[u8], table: &Table, frames: bool) -> Answer {
        let sections = header::open(dossier).unwrap();
        let tables = Tables {
            types: sections[0].1,
            nodes: &table.nodes,
            arrows: sections[2].1,
            program: sections[1].1,
            hashes: &table.hashes,
        };
        let bits = |k: usize| Bits { bytes: sections[k].1, count: sections[k].0 as u32 };
        let lent = if frames { &mut self.frames[..] } else { &mut [] };
        let stores = Stores { cells: &mut self.cells, frames: lent, answer: &mut self.answer };
        drevaloci::run_tables(black_box(tables), sections[5].1, bits(3), bits(4), stores)
    }
}

/// The original's road from a dossier's bytes to the output's bits; how many.
pub fn original_whole(bytes: &[u8]) -> usize {
    let sections = header::open(bytes).unwrap();
    let finals = dossier::finals(sections[0].1);
    let arrows = dossier::final_arrows(&finals, sections[2].1);
    let (rows, _) = decoding::decode(sections[1].1).unwrap();
    assert!(typing::first_unfit(&rows, &arrows).is_none());
    let witness = nodes::witness_values(&rows, &arrows, sections[3].1, sections[3].0).unwrap();
    let made = nodes::make(&rows, &arrows, &witness);
    let root = made.last().unwrap().as_ref().unwrap();
    let input = nodes::input_value(root.arrow(), sections[4].1, sections[4].0).unwrap();
    let mut machine = BitMachine::for_program(root).unwrap();
    machine.input(&input).unwrap();
    machine.exec(root, &CoreEnv::new()).unwrap().iter_compact().count()
}

/// A made program with its dossier, ready to be timed.
pub struct Job {
    pub bytes: Vec<u8>,
    pub table: Table,
    pub made: nodes::Nodes,
    input: Value,
    pub output: usize,
}

/// The job of a program on an input, with any witness; equal nodes are made one.
pub fn job(made: &Made, input: Value) -> Job {
    let (made, _) = made.shared();
    let dossier = made.dossier_on(&mut Rng::new(5), &input);
    let bytes = dossier.to_bytes();
    let sections = header::open(&bytes).expect("within the limits");
    let witness = nodes::witness_values(&made.rows, &made.arrows, sections[3].1, sections[3].0).unwrap();
    let table = Table::of(&Decoding::of(&dossier.program, false).read);
    let output = original_whole(&bytes);
    Job { made: nodes::make(&made.rows, &made.arrows, &witness), bytes, table, input, output }
}

/// The original's machine: made beforehand. With `bits` from loading the input to the output's
/// compact bits, else the run alone, the input loaded beforehand and the output left padded.
pub fn original_exec(job: &Job, bits: bool) -> u64 {
    let root = job.made.last().unwrap().as_ref().unwrap();
    let mut machine = BitMachine::for_program(root).unwrap();
    let before = now();
    machine.input(&job.input).unwrap();
    let start = if bits { before } else { now() };
    let output = machine.exec(root, &CoreEnv::new()).unwrap();
    if bits {
        black_box(output.iter_compact().fold(0usize, |n, bit| 2 * (n & 0xFFFF) + usize::from(bit)));
    }
    let end = now();
    black_box(output);
    end - start
}
