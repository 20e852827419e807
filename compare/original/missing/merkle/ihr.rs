// Stands in for the missing merkle/ihr.rs: identity roots.
//
// tracker.rs and encode.rs need a key that tells nodes apart. This one follows the
// report's identity hash as we understand it, but nothing confirms the bytes: use it as
// a key only, never as a vector.

use super::{bip340_iv, impl_mr_type, MidstateExt as _};
use crate::types::arrow::FinalArrow;
use crate::{Cmr, Value};
use hashes::sha256;

impl_mr_type! {
    /// First pass: a commitment root that also covers witnesses and both disconnect branches
    #[derive(Copy, Clone, PartialEq, Eq, Hash, PartialOrd, Ord)]
    pub struct Imr([u8; 32]);
}

impl_mr_type! {
    /// Identity hash: the first pass and the node's arrow
    #[derive(Copy, Clone, PartialEq, Eq, Hash, PartialOrd, Ord)]
    pub struct Ihr([u8; 32]);
}

impl Imr {
    /// Every node but witness and disconnect: as the commitment root.
    pub fn of_cmr(cmr: Cmr) -> Self {
        Imr(cmr.to_byte_array())
    }
    pub fn as_cmr(self) -> Cmr {
        Cmr::from_byte_array(self.0)
    }
    pub fn witness(value: &Value) -> Self {
        let mut bytes = vec![];
        let (mut acc, mut n) = (0u8, 0);
        for bit in value.iter_compact().chain(std::iter::once(true)) {
            acc = 2 * acc + u8::from(bit);
            n += 1;
            if n == 8 {
                bytes.push(acc);
                (acc, n) = (0, 0);
            }
        }
        if n > 0 {
            bytes.push(acc << (8 - n));
        }
        bip340_iv(b"Simplicity\x1fIdentity\x1fwitness")
            .zz_update_2x32(sha256::hash(&bytes), value.ty().tmr())
            .into_merkle_root()
    }
    pub fn disconnect(left: Imr, right: Imr) -> Self {
        bip340_iv(b"Simplicity\x1fIdentity\x1fdisconnect").zz_update_2x32(left, right).into_merkle_root()
    }
}

impl Ihr {
    pub fn new(imr: Imr, arrow: &FinalArrow) -> Self {
        bip340_iv(b"Simplicity\x1fIdentity")
            .update_0_then_32(imr)
            .zz_update_2x32(arrow.source.tmr(), arrow.target.tmr())
            .into_merkle_root()
    }
}
