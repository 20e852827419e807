// Stands in for the missing lib.rs: module tree and re-exports, no logic.
#![allow(dead_code, unused_imports)]

pub mod analysis;
pub mod bit_encoding;
pub mod bit_machine;
pub mod dag;
pub mod jet;
pub mod merkle;
pub mod node;
pub mod types;
pub mod value;

pub use simplicity_sys as ffi;

pub use crate::analysis::{Cost, NodeBounds};
pub use crate::bit_encoding::bititer::{
    self, BitCollector, BitIter, CloseError as BitIterCloseError, EarlyEndOfStreamError,
};
pub use crate::bit_encoding::bitwriter::{write_to_vec, BitWriter};
pub use crate::bit_encoding::{decode, encode};
pub use crate::bit_machine::BitMachine;
pub use crate::merkle::cmr::Cmr;
pub use crate::merkle::ihr::{Ihr, Imr};
pub use crate::merkle::tmr::Tmr;
pub use crate::merkle::{FailEntropy, HasCmr};
pub use crate::node::{CommitNode, ConstructNode, RedeemNode};
pub use crate::value::{Value, Word};

/// Named by `Jet::parse` only.
#[derive(Debug)]
pub enum Error {
    InvalidJetName(String),
}

impl std::fmt::Display for Error {
    fn fmt(&self, f: &mut std::fmt::Formatter<'_>) -> std::fmt::Result {
        match self {
            Error::InvalidJetName(s) => write!(f, "unknown jet `{s}`"),
        }
    }
}

impl std::error::Error for Error {}
