//! Holds Drevaloci's proved library against the original Rust.
//!
//! `original` asks the unmodified files, `document` says what the requirements add to them, `facts`
//! joins the two into one expected answer, and `judge` compares it with what the library does.

pub mod bits;
pub mod clock;
pub mod document;
pub mod dossier;
#[cfg(feature = "library")]
pub mod facts;
#[cfg(feature = "library")]
pub mod judge;
#[cfg(feature = "library")]
pub mod lent;
pub mod making;
pub mod original;
pub mod rng;
pub mod row;
pub mod tally;
#[cfg(feature = "library")]
pub mod timed;
