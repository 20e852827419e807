// Stands in for the missing merkle/mod.rs.
//
// The names are those that cmr.rs uses. The meanings are the report's: the
// initial value of a tag is the SHA-256 state after SHA-256(tag) twice; a node's
// root is that state after one block. What of this is checked against constants
// that stand in the unmodified cmr.rs is listed in compare/README.md.

pub mod cmr;
pub mod ihr;
pub mod tmr;

use hashes::sha256::{self, Midstate};
use std::fmt;

use self::cmr::Cmr;

/// The state after the block SHA-256(tag) || SHA-256(tag).
fn bip340_iv(tag: &[u8]) -> Midstate {
    let h = sha256::hash(tag);
    Midstate::start().block(&two(h, h))
}

/// The same at compile time.
const fn bip340_iv_const(tag: &[u8]) -> Midstate {
    let h = sha256::hash_short(tag);
    Midstate::start().block_const(&two(h, h))
}

/// Two hashes as one block.
const fn two(l: [u8; 32], r: [u8; 32]) -> [u8; 64] {
    let mut b = [0u8; 64];
    let mut i = 0;
    while i < 32 {
        b[i] = l[i];
        b[i + 32] = r[i];
        i += 1;
    }
    b
}

trait MerkleRoot {
    fn of_bytes(bytes: [u8; 32]) -> Self;
}

trait MidstateExt {
    /// One block: 32 zero bytes, then the argument.
    fn update_0_then_32<T: Into<[u8; 32]>>(self, x: T) -> Self;
    /// One block: both arguments.
    fn zz_update_2x32<L: Into<[u8; 32]>, R: Into<[u8; 32]>>(self, l: L, r: R) -> Self;
    /// One block: the argument.
    fn zz_update_64(self, x: [u8; 64]) -> Self;
    /// One block: 24 zero bytes, the weight as 8 big-endian bytes, then the argument.
    fn update_weight_then_32<T: Into<[u8; 32]>>(self, weight: u64, x: T) -> Self;
    /// The state itself as a root.
    fn into_merkle_root<T: MerkleRoot>(self) -> T;
}

impl MidstateExt for Midstate {
    fn update_0_then_32<T: Into<[u8; 32]>>(self, x: T) -> Self {
        self.block(&two([0; 32], x.into()))
    }
    fn zz_update_2x32<L: Into<[u8; 32]>, R: Into<[u8; 32]>>(self, l: L, r: R) -> Self {
        self.block(&two(l.into(), r.into()))
    }
    fn zz_update_64(self, x: [u8; 64]) -> Self {
        self.block(&x)
    }
    fn update_weight_then_32<T: Into<[u8; 32]>>(self, weight: u64, x: T) -> Self {
        let mut l = [0u8; 32];
        l[24..].copy_from_slice(&weight.to_be_bytes());
        self.block(&two(l, x.into()))
    }
    fn into_merkle_root<T: MerkleRoot>(self) -> T {
        T::of_bytes(self.to_parts().0)
    }
}

macro_rules! impl_mr_type {
    ($(#[$attr:meta])* pub struct $name:ident([u8; 32]);) => {
        $(#[$attr])*
        pub struct $name([u8; 32]);

        impl $name {
            pub const fn from_byte_array(bytes: [u8; 32]) -> Self {
                $name(bytes)
            }
            pub const fn to_byte_array(self) -> [u8; 32] {
                self.0
            }
        }
        impl $crate::merkle::MerkleRoot for $name {
            fn of_bytes(bytes: [u8; 32]) -> Self {
                $name(bytes)
            }
        }
        impl From<$name> for [u8; 32] {
            fn from(x: $name) -> Self {
                x.0
            }
        }
        impl AsRef<[u8]> for $name {
            fn as_ref(&self) -> &[u8] {
                &self.0
            }
        }
        impl std::fmt::Display for $name {
            fn fmt(&self, f: &mut std::fmt::Formatter<'_>) -> std::fmt::Result {
                for b in &self.0 {
                    write!(f, "{b:02x}")?;
                }
                Ok(())
            }
        }
        impl std::fmt::Debug for $name {
            fn fmt(&self, f: &mut std::fmt::Formatter<'_>) -> std::fmt::Result {
                std::fmt::Display::fmt(self, f)
            }
        }
    };
}
use impl_mr_type;

/// Entropy of a fail node.
#[derive(Copy, Clone, PartialEq, Eq, PartialOrd, Ord, Hash)]
pub struct FailEntropy([u8; 64]);

impl FailEntropy {
    pub const fn from_byte_array(bytes: [u8; 64]) -> Self {
        FailEntropy(bytes)
    }
    pub const fn to_byte_array(self) -> [u8; 64] {
        self.0
    }
}

impl AsRef<[u8]> for FailEntropy {
    fn as_ref(&self) -> &[u8] {
        &self.0
    }
}

impl fmt::Display for FailEntropy {
    fn fmt(&self, f: &mut fmt::Formatter<'_>) -> fmt::Result {
        for b in &self.0 {
            write!(f, "{b:02x}")?;
        }
        Ok(())
    }
}

impl fmt::Debug for FailEntropy {
    fn fmt(&self, f: &mut fmt::Formatter<'_>) -> fmt::Result {
        fmt::Display::fmt(self, f)
    }
}

pub trait HasCmr {
    fn cmr(&self) -> Cmr;
}

/// Checks of this stand-in against the literal constants that stand in the unmodified cmr.rs.
pub mod selfcheck {
    use super::*;

    /// The bytes of every `0x..` literal between the first `start` and the next `end`.
    fn literals(text: &str, start: &str, end: &str) -> Vec<u8> {
        let from = text.find(start).expect(start) + start.len();
        let upto = from + text[from..].find(end).expect(end);
        let mut out = vec![];
        for piece in text[from..upto].split("0x").skip(1) {
            out.push(u8::from_str_radix(&piece[..2], 16).unwrap());
        }
        out
    }

    /// Every line is a check and whether it holds.
    pub fn run() -> Vec<(String, bool)> {
        let text = include_str!("cmr.rs");
        let mut out = vec![];
        for name in
            ["unit", "iden", "injl", "injr", "take", "drop", "comp", "case", "pair", "disconnect", "witness", "fail"]
        {
            let lit = literals(text, &format!("const {}_IV: Midstate = Midstate::new([", name.to_uppercase()), "]");
            let tag = format!("Simplicity\x1fCommitment\x1f{name}");
            let got = bip340_iv(tag.as_bytes()).to_parts().0;
            out.push((format!("initial value of {tag:?}"), lit == got));
        }
        let lit = literals(text, "const CONST_WORD_IV: Midstate = Midstate::new([", "]");
        let got = bip340_iv(b"Simplicity\x1fIdentity").to_parts().0;
        out.push(("CONST_WORD_IV is the tag Simplicity, Identity".into(), lit == got));
        let lit = literals(text, "const BITS: [Cmr; 2] = [", "];");
        let got = [Cmr::injl(Cmr::unit()), Cmr::injr(Cmr::unit())];
        out.push((
            "BITS are injl unit and injr unit (update_0_then_32, into_merkle_root)".into(),
            lit[..32] == got[0].to_byte_array() && lit[32..] == got[1].to_byte_array(),
        ));
        out.push((
            "compile-time and run-time initial values agree".into(),
            bip340_iv(b"Simplicity\x1fJet") == bip340_iv_const(b"Simplicity\x1fJet"),
        ));
        out
    }
}
