// Stands in for the missing bit_encoding/mod.rs: module tree only.
pub mod bititer;
pub mod bitwriter;
pub mod decode;
pub mod encode;
