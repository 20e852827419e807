//! What the requirements add to the original: the dossier's header, type records, the
//! order in which a program is read, the places of the walk, supplied hashes, limits and stores.
//! The original has nothing to hold these against; where it gives a number of its own, `facts` says so.

pub mod header;
pub mod reader;
pub mod walk;

/// The limits.
pub const DOSSIER_BYTES: usize = 49_152;
pub const TYPE_COUNT: usize = 1_024;
pub const NODE_COUNT: usize = 4_096;
pub const TYPE_WIDTH: usize = 32_768;
pub const CELL_COUNT: usize = 262_144;
pub const FRAME_COUNT: usize = 1_024;
pub const COST_LIMIT: u64 = 50_000_000;

/// A refusal: its number and its place.
pub type Refused = (u32, u32);
