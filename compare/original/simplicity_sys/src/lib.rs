// Stands in for the C bindings. There are no jets, so nothing here is ever called.

#[allow(non_camel_case_types)]
pub mod ffi {
    pub type UWORD = usize;
}

pub mod c_jets {
    pub fn uword_width(bit_width: usize) -> usize {
        bit_width.div_ceil(usize::BITS as usize)
    }

    pub fn sanity_checks() -> bool {
        false
    }

    #[allow(non_snake_case, clippy::missing_safety_doc)]
    pub mod frame_ffi {
        use crate::ffi::UWORD;

        pub struct CFrameItem(());

        impl CFrameItem {
            pub unsafe fn new_read(_n: usize, _from: *const UWORD) -> Self {
                unreachable!("no jets")
            }
            pub unsafe fn new_write(_n: usize, _from: *mut UWORD) -> Self {
                unreachable!("no jets")
            }
        }

        pub unsafe fn c_readBit(_frame: &mut CFrameItem) -> bool {
            unreachable!("no jets")
        }

        pub unsafe fn c_writeBit(_frame: &mut CFrameItem, _x: bool) {
            unreachable!("no jets")
        }
    }
}
