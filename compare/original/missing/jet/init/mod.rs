// Stands in for the missing jet/init: families of jets without any member. Decoding a jet
// is an error at once, before any bit of its code is read.

macro_rules! no_jets {
    ($name:ident) => {
        use crate::analysis::Cost;
        use crate::jet::type_name::TypeName;
        use crate::jet::Jet;
        use crate::{decode, BitIter, BitWriter, Cmr};
        use simplicity_sys::c_jets::frame_ffi::CFrameItem;
        use std::fmt;
        use std::io::Write;

        #[derive(Copy, Clone, Debug, PartialEq, Eq, PartialOrd, Ord, Hash)]
        pub enum $name {}

        impl fmt::Display for $name {
            fn fmt(&self, _: &mut fmt::Formatter<'_>) -> fmt::Result {
                match *self {}
            }
        }

        impl Jet for $name {
            fn cmr(&self) -> Cmr {
                match *self {}
            }
            fn source_ty(&self) -> TypeName {
                match *self {}
            }
            fn target_ty(&self) -> TypeName {
                match *self {}
            }
            fn encode(&self, _: &mut BitWriter<&mut dyn Write>) -> std::io::Result<usize> {
                match *self {}
            }
            fn decode<I: Iterator<Item = u8>>(_: &mut BitIter<I>) -> Result<Self, decode::Error> {
                Err(decode::Error::InvalidJet)
            }
            fn cost(&self) -> Cost {
                match *self {}
            }
            fn parse(s: &str) -> Result<Self, crate::Error> {
                Err(crate::Error::InvalidJetName(s.to_owned()))
            }
        }

        pub fn c_jet_ptr(jet: &$name) -> fn(&mut CFrameItem, CFrameItem, &()) -> bool {
            match *jet {}
        }
    };
}

pub mod core {
    no_jets!(Core);
}
