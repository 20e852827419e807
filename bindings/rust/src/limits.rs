//! Sizes for callers of this crate. Written by tools/limits.py from crates/limits.

/// Bytes of the largest dossier.
pub const DOSSIER_BYTES: usize = 49152;

/// Numbers of a node's record.
pub const NODE_RECORD: usize = 4;

/// Numbers of a frame's record.
pub const FRAME_RECORD: usize = 3;

/// Numbers of a node store that is enough for every dossier.
pub const NODE_NUMBERS: usize = 4 * 4096;

/// Bytes of a hash store that is enough for every dossier.
pub const HASH_BYTES: usize = 49152;

/// Bytes of a cell store that is enough for every dossier.
pub const CELL_BYTES: usize = 262144 / 8;

/// Numbers of a frame store that is enough for every dossier.
pub const FRAME_NUMBERS: usize = 3 * 1024;

/// Bytes of an answer store that is enough for every dossier.
pub const ANSWER_BYTES: usize = 32768 / 8;
