//! A look at the cells of the unmodified bit machine.
//!
//! `BitMachine` keeps its cells in a private field. So that cells left by a run can be
//! compared, and old cells supplied before one, this finds that field in memory: the
//! struct is made of machine words only, and on a machine built for the purpose the
//! cell vector is the one whose length and capacity are a number that occurs nowhere
//! else. The offsets found there hold for the type in this build.

use simplicity::node::Inner;
use simplicity::types::{arrow::FinalArrow, Final};
use simplicity::{BitIter, BitMachine, RedeemNode, Value};
use std::mem::size_of;
use std::sync::{Arc, OnceLock};

const WORDS: usize = size_of::<BitMachine>() / size_of::<usize>();

/// The words that a machine is made of.
fn words(mac: &BitMachine) -> [usize; 32] {
    assert!(WORDS <= 32 && size_of::<BitMachine>() % size_of::<usize>() == 0);
    let mut out = [0; 32];
    let base = mac as *const BitMachine as *const usize;
    for (i, w) in out.iter_mut().enumerate().take(WORDS) {
        *w = unsafe { base.add(i).read() };
    }
    out
}

/// Word offsets of the cell vector's pointer and length.
fn offsets() -> (usize, usize) {
    static FOUND: OnceLock<(usize, usize)> = OnceLock::new();
    *FOUND.get_or_init(|| {
        // iden on a type of width 2^14: 2^15 cells, 2^12 bytes
        let ty = Final::two_two_n(14).unwrap();
        let node = RedeemNode::make(FinalArrow { source: Arc::clone(&ty), target: Arc::clone(&ty) }, Inner::Iden);
        let mut mac = BitMachine::for_program(&node).unwrap();
        let w = words(&mac);
        let hits: Vec<usize> = (0..WORDS).filter(|i| w[*i] == 1 << 12).collect();
        assert_eq!(hits.len(), 2, "layout of BitMachine not understood");
        // The vector's three words stand together; the one that is not 2^12 is its pointer.
        let (a, b) = (hits[0], hits[1]);
        let found: Vec<usize> = if b == a + 2 {
            vec![a + 1]
        } else {
            assert_eq!(b, a + 1, "layout of BitMachine not understood");
            [a.wrapping_sub(1), b + 1].into_iter().filter(|i| *i < WORDS && w[*i] > 1 << 16).collect()
        };
        assert_eq!(found.len(), 1, "layout of BitMachine not understood");
        // Proof by use: an input of ones must show up at the front, and only there.
        let ones = vec![0xffu8; 1 << 11];
        let value = Value::from_padded_bits(&mut BitIter::from(&ones[..]), &ty).unwrap();
        mac.input(&value).unwrap();
        let cells = unsafe { std::slice::from_raw_parts(w[found[0]] as *const u8, 1 << 12) };
        assert!(cells[..1 << 11].iter().all(|x| *x == 0xff));
        assert!(cells[1 << 11..].iter().all(|x| *x == 0));
        (found[0], b)
    })
}

/// The machine's cells.
pub fn of(mac: &mut BitMachine) -> &mut [u8] {
    let (p, n) = offsets();
    let w = words(mac);
    unsafe { std::slice::from_raw_parts_mut(w[p] as *mut u8, w[n]) }
}
