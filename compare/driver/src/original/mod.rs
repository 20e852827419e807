//! The unmodified files at work: decoding, writing, typing, roots, bounds, the machine.
//! Nothing of what they decide is computed here.

pub mod cells;
pub mod decode;
pub mod machine;
pub mod nodes;
pub mod rows;
pub mod typing;
pub mod write;
