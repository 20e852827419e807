//! Safe Rust over Drevaloci's proved library: a Simplicity interpreter without jets.
//!
//! Each function here hands slices to one C function and turns its numbers into an enum. Nothing is
//! decided here. What each answer means stands in the requirements; `drevaloci.h` has the contracts.
//!
//! A call needs up to `STACK_BYTES` of stack.

mod calls;
mod limits;
mod refusal;
pub mod sys;

pub use calls::{
    arrows, bounds, decode, hashes, natural, run, run_tables, walk, Answer, Bits, Bounds, Checked, Decoded, Natural,
    Stores, Tables,
};
pub use limits::{
    ANSWER_BYTES, CELL_BYTES, DOSSIER_BYTES, FRAME_NUMBERS, FRAME_RECORD, HASH_BYTES, NODE_NUMBERS, NODE_RECORD,
};
pub use refusal::Refusal;

/// Stack that is enough for any call.
pub const STACK_BYTES: usize = 8 << 20;
