// Stand-in: the one trait of `hex-conservative` that the original files name, for printing.

use std::fmt;

pub struct Hex<'a>(&'a [u8]);

impl fmt::Display for Hex<'_> {
    fn fmt(&self, f: &mut fmt::Formatter<'_>) -> fmt::Result {
        for b in self.0 {
            write!(f, "{b:02x}")?;
        }
        Ok(())
    }
}

pub trait DisplayHex {
    fn as_hex(&self) -> Hex<'_>;
}

impl DisplayHex for [u8] {
    fn as_hex(&self) -> Hex<'_> {
        Hex(self)
    }
}

impl DisplayHex for Vec<u8> {
    fn as_hex(&self) -> Hex<'_> {
        Hex(self)
    }
}
