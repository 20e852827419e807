// Stands in for the missing merkle/tmr.rs: type roots as the report defines them.
// No constant of an original file confirms them (see compare/README.md).

use super::{bip340_iv_const, impl_mr_type, two, MidstateExt as _};
use hashes::sha256::Midstate;

impl_mr_type! {
    /// Type Merkle root
    #[derive(Copy, Clone, PartialEq, Eq, Hash, PartialOrd, Ord)]
    pub struct Tmr([u8; 32]);
}

const UNIT_IV: Midstate = bip340_iv_const(b"Simplicity\x1fType\x1funit");
const SUM_IV: Midstate = bip340_iv_const(b"Simplicity\x1fType\x1fsum");
const PRODUCT_IV: Midstate = bip340_iv_const(b"Simplicity\x1fType\x1fprod");

const fn pair_const(iv: Midstate, l: Tmr, r: Tmr) -> Tmr {
    Tmr(iv.block_const(&two(l.0, r.0)).to_parts().0)
}

impl Tmr {
    pub const fn unit() -> Self {
        Tmr(UNIT_IV.to_parts().0)
    }
    pub fn sum(left: Tmr, right: Tmr) -> Self {
        SUM_IV.zz_update_2x32(left, right).into_merkle_root()
    }
    pub fn product(left: Tmr, right: Tmr) -> Self {
        PRODUCT_IV.zz_update_2x32(left, right).into_merkle_root()
    }

    /// Roots of 2^(2^n), n from 0 to 31.
    pub const TWO_TWO_N: [Tmr; 32] = {
        let mut t = [pair_const(SUM_IV, Tmr::unit(), Tmr::unit()); 32];
        let mut i = 1;
        while i < 32 {
            t[i] = pair_const(PRODUCT_IV, t[i - 1], t[i - 1]);
            i += 1;
        }
        t
    };

    /// Only its length matters here: the largest buffer type on offer. Six is
    /// enough for `Value::ctx8`; the crate's own length is not known to us.
    pub const BUFFER8_TWO_N_PLUS_ONE: [Tmr; 6] = [Tmr::unit(); 6];
}
