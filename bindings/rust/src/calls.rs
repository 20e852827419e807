//! One safe function over each C function: slices in, an enum out.
//!
//! Why each `unsafe` is sound: the pointers come from Rust slices and references, so they are
//! valid, aligned and of the length that is passed, and what is written is lent by `&mut`, so it
//! stands apart from all else. The stack is the caller's business (`STACK_BYTES`).

use crate::sys;
use crate::Refusal;

/// What a run says: the count of the output's bits, which stand in the answer store, or why there is none.
#[derive(Clone, Copy, Debug, PartialEq, Eq)]
pub enum Answer {
    Value(u32),
    Refused(Refusal),
}

/// What decoding says: how many records and hash bytes it wrote, or why none.
#[derive(Clone, Copy, Debug, PartialEq, Eq)]
pub enum Decoded {
    Table { nodes: u32, hash_bytes: u32 },
    Refused(Refusal),
}

/// What a check says.
#[derive(Clone, Copy, Debug, PartialEq, Eq)]
pub enum Checked {
    Passed,
    Refused(Refusal),
}

/// What a run of a program needs at most, or why there is no run.
#[derive(Clone, Copy, Debug, PartialEq, Eq)]
pub enum Bounds {
    Within { cells: u32, frames: u32, cost: u32 },
    Refused(Refusal),
}

/// A natural and the bit after its code; or the bytes ended; or it is over its bound; or a length in its code is above 31.
#[derive(Clone, Copy, Debug, PartialEq, Eq)]
pub enum Natural {
    Value { value: u32, next: usize },
    Ended,
    TooLarge,
    Overlong,
}

/// A program by its tables. Types, arrows and program bytes are as in a dossier, nodes and hashes
/// as `decode` writes them; `nodes` is just the program's records.
#[derive(Clone, Copy, Debug)]
pub struct Tables<'a> {
    pub types: &'a [u8],
    pub nodes: &'a [u32],
    pub arrows: &'a [u8],
    pub program: &'a [u8],
    pub hashes: &'a [u8],
}

/// Bits filled into bytes from the top bit, and their count.
#[derive(Clone, Copy, Debug)]
pub struct Bits<'a> {
    pub bytes: &'a [u8],
    pub count: u32,
}

/// The stores that the machine works in.
#[derive(Debug)]
pub struct Stores<'a> {
    pub cells: &'a mut [u8],
    pub frames: &'a mut [u32],
    pub answer: &'a mut [u8],
}

/// The refusal that the library names.
fn refusal(number: u32, place: u32) -> Refusal {
    Refusal::of(number, place).unwrap_or_else(|| panic!("the library gave {number}, which is no refusal"))
}

/// A check's enum from the library's two numbers.
fn checked(number: u32, place: u32) -> Checked {
    match number {
        0 => Checked::Passed,
        _ => Checked::Refused(refusal(number, place)),
    }
}

/// A run's enum from the library's two numbers.
fn answered(number: u32, place: u32) -> Answer {
    match number {
        0 => Answer::Value(place),
        _ => Answer::Refused(refusal(number, place)),
    }
}

/// The whole job, from a dossier to the output's bits in `stores.answer`.
pub fn run(dossier: &[u8], nodes: &mut [u32], hashes: &mut [u8], stores: Stores) -> Answer {
    let Stores { cells, frames, answer } = stores;
    let mut place = 0;
    let number = unsafe {
        sys::drevaloci_run(
            dossier.as_ptr(),
            dossier.len(),
            nodes.as_mut_ptr(),
            nodes.len(),
            hashes.as_mut_ptr(),
            hashes.len(),
            cells.as_mut_ptr(),
            cells.len(),
            frames.as_mut_ptr(),
            frames.len(),
            answer.as_mut_ptr(),
            answer.len(),
            &mut place,
        )
    };
    answered(number, place)
}

/// Decodes a program into a node table and a hash store.
pub fn decode(program: &[u8], nodes: &mut [u32], hashes: &mut [u8]) -> Decoded {
    let (mut place, mut hash_bytes) = (0, 0);
    let number = unsafe {
        sys::drevaloci_decode(
            program.as_ptr(),
            program.len(),
            nodes.as_mut_ptr(),
            nodes.len(),
            hashes.as_mut_ptr(),
            hashes.len(),
            &mut place,
            &mut hash_bytes,
        )
    };
    match number {
        0 => Decoded::Table { nodes: place, hash_bytes },
        _ => Decoded::Refused(refusal(number, place)),
    }
}

/// Judges a node table on its own: its records, then the left-first walk.
pub fn walk(program: &[u8], hashes: &[u8], nodes: &[u32]) -> Checked {
    let mut place = 0;
    let number = unsafe {
        sys::drevaloci_walk(
            program.as_ptr(),
            program.len(),
            hashes.as_ptr(),
            hashes.len(),
            nodes.as_ptr(),
            nodes.len(),
            &mut place,
        )
    };
    checked(number, place)
}

/// Judges a program's types and arrows.
pub fn arrows(tables: Tables) -> Checked {
    let mut place = 0;
    let number = unsafe {
        sys::drevaloci_arrows(
            tables.types.as_ptr(),
            tables.types.len(),
            tables.nodes.as_ptr(),
            tables.nodes.len(),
            tables.arrows.as_ptr(),
            tables.arrows.len(),
            tables.program.as_ptr(),
            tables.program.len(),
            tables.hashes.as_ptr(),
            tables.hashes.len(),
            &mut place,
        )
    };
    checked(number, place)
}

/// Judges the hashes that are given for the right children of disconnects.
pub fn hashes(tables: Tables, given: &[u8]) -> Checked {
    let mut place = 0;
    let number = unsafe {
        sys::drevaloci_hashes(
            tables.types.as_ptr(),
            tables.types.len(),
            tables.nodes.as_ptr(),
            tables.nodes.len(),
            tables.arrows.as_ptr(),
            tables.arrows.len(),
            tables.program.as_ptr(),
            tables.program.len(),
            tables.hashes.as_ptr(),
            tables.hashes.len(),
            given.as_ptr(),
            given.len(),
            &mut place,
        )
    };
    checked(number, place)
}

/// What a run of a program needs at most.
pub fn bounds(tables: Tables) -> Bounds {
    let (mut cells, mut frames, mut cost) = (0, 0, 0);
    let number = unsafe {
        sys::drevaloci_bounds(
            tables.types.as_ptr(),
            tables.types.len(),
            tables.nodes.as_ptr(),
            tables.nodes.len(),
            tables.arrows.as_ptr(),
            tables.arrows.len(),
            tables.program.as_ptr(),
            tables.program.len(),
            tables.hashes.as_ptr(),
            tables.hashes.len(),
            &mut cells,
            &mut frames,
            &mut cost,
        )
    };
    match number {
        0 => Bounds::Within { cells, frames, cost },
        _ => Bounds::Refused(refusal(number, cells)),
    }
}

/// Runs a program that is given by its tables, after every check of them.
pub fn run_tables(tables: Tables, given: &[u8], witness: Bits, input: Bits, stores: Stores) -> Answer {
    let Stores { cells, frames, answer } = stores;
    let mut place = 0;
    let number = unsafe {
        sys::drevaloci_run_tables(
            tables.types.as_ptr(),
            tables.types.len(),
            tables.nodes.as_ptr(),
            tables.nodes.len(),
            tables.arrows.as_ptr(),
            tables.arrows.len(),
            tables.program.as_ptr(),
            tables.program.len(),
            tables.hashes.as_ptr(),
            tables.hashes.len(),
            given.as_ptr(),
            given.len(),
            witness.bytes.as_ptr(),
            witness.bytes.len(),
            witness.count,
            input.bytes.as_ptr(),
            input.bytes.len(),
            input.count,
            cells.as_mut_ptr(),
            cells.len(),
            frames.as_mut_ptr(),
            frames.len(),
            answer.as_mut_ptr(),
            answer.len(),
            &mut place,
        )
    };
    answered(number, place)
}

/// Reads one natural at a bit position.
pub fn natural(bytes: &[u8], at: usize, bound: u32) -> Natural {
    let (mut value, mut next) = (0, 0);
    let number = unsafe { sys::drevaloci_natural(bytes.as_ptr(), bytes.len(), at, bound, &mut value, &mut next) };
    match number {
        0 => Natural::Value { value, next },
        3 => Natural::Ended,
        4 => Natural::TooLarge,
        21 => Natural::Overlong,
        _ => panic!("the library gave {number} for a natural"),
    }
}
