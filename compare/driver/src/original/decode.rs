//! The unmodified `decode_expression` and `close`, and the node at which reading stopped.

use crate::bits;
use crate::original::rows;
use crate::original::write;
use crate::row::Row;
use simplicity::bititer::DecodeNaturalError;
use simplicity::jet::Core;
use simplicity::types::Context;
use simplicity::{decode, BitIter, BitIterCloseError};

/// How a decoding ended, and the number that the requirements give to such an end. The number is 0
/// for a type error, which the original meets in the walk and the requirements later.
#[derive(Clone, Debug, PartialEq, Eq)]
pub struct Refused {
    pub number: u32,
    pub name: &'static str,
    /// The bits that were read by then.
    pub bits: usize,
}

/// The number and a name for each error of the original.
fn named(error: &decode::Error) -> (u32, &'static str) {
    use DecodeNaturalError as N;
    match error {
        decode::Error::EndOfStream => (3, "EndOfStream"),
        decode::Error::Natural(N::EndOfStream(_)) => (3, "Natural.EndOfStream"),
        decode::Error::Natural(N::Overflow) => (21, "Natural.Overflow"),
        decode::Error::Natural(N::BadIndex { .. }) => (4, "Natural.BadIndex"),
        decode::Error::InvalidJet => (5, "InvalidJet"),
        decode::Error::NotInCanonicalOrder => (6, "NotInCanonicalOrder"),
        decode::Error::HiddenNode => (7, "HiddenNode"),
        decode::Error::BothChildrenHidden => (8, "BothChildrenHidden"),
        decode::Error::SharingNotMaximal => (9, "SharingNotMaximal"),
        decode::Error::BitIter(BitIterCloseError::TrailingBytes { .. }) => (10, "BitIter.TrailingBytes"),
        decode::Error::BitIter(BitIterCloseError::IllegalPadding { .. }) => (10, "BitIter.IllegalPadding"),
        decode::Error::Type(_) => (0, "Type"),
        _ => (99, "another error"),
    }
}

/// An error with its number and name.
fn refused(error: &decode::Error, bits: usize) -> Refused {
    let (number, name) = named(error);
    Refused { number, name, bits }
}

/// Decodes and closes: the rows and how many bits they took.
pub fn decode(bytes: &[u8]) -> Result<(Vec<Row>, usize), Refused> {
    Context::with_context(|ctx| {
        let mut stream = BitIter::from(bytes);
        let root = match decode::decode_expression::<_, Core>(&ctx, &mut stream) {
            Ok(root) => root,
            Err(e) => return Err(refused(&e, stream.n_total_read())),
        };
        let bits = stream.n_total_read();
        match stream.close() {
            Ok(()) => Ok((rows::of(&root), bits)),
            Err(e) => Err(refused(&e.into(), bits)),
        }
    })
}

/// Whether reading, not the walk, refuses these node bits if just `count` nodes are asked for.
/// Another count has another length: bits passed beforehand keep the node bits where they were
/// within their bytes, so that the stream ends at the same node bit.
fn reading_fails(node_bits: &[bool], count: usize, old_count_bits: usize) -> bool {
    let code = write::natural_bits(count);
    let before = (8 + old_count_bits % 8 - code.len() % 8) % 8;
    let mut all = vec![false; before];
    all.extend_from_slice(&code);
    all.extend_from_slice(node_bits);
    let all = bits::pack(&all);
    Context::with_context(|ctx| {
        let mut stream = BitIter::from(&all[..]);
        for _ in 0..before {
            stream.read_bit().unwrap();
        }
        match decode::decode_expression::<_, Core>(&ctx, &mut stream) {
            Ok(_) => false,
            Err(e) => matches!(named(&e).0, 3..=5),
        }
    })
}

/// The node at which reading stopped, found with the original alone: the least count with which
/// the same node bits are still refused while they are read, less one.
pub fn reading_place(bytes: &[u8]) -> usize {
    let mut stream = BitIter::from(bytes);
    let Ok(count) = stream.read_natural::<usize>(None) else {
        return 0;
    };
    let count_bits = stream.n_total_read();
    let node_bits: Vec<bool> = stream.collect();
    let (mut low, mut high) = (1, count);
    while low < high {
        let middle = low + (high - low) / 2;
        if reading_fails(&node_bits, middle, count_bits) {
            high = middle;
        } else {
            low = middle + 1;
        }
    }
    low - 1
}

/// A natural at a bit position: its value and the bit after it, or the refusal's number.
pub fn natural(bytes: &[u8], at: usize, bound: u32) -> Result<(u32, usize), u32> {
    let mut stream = BitIter::from(bytes);
    for _ in 0..at {
        stream.read_bit().map_err(|_| 3u32)?;
    }
    match stream.read_natural::<u32>(Some(bound)) {
        Ok(value) => Ok((value, stream.n_total_read())),
        Err(DecodeNaturalError::EndOfStream(_)) => Err(3),
        Err(DecodeNaturalError::Overflow) => Err(21),
        Err(_) => Err(4),
    }
}
