//! A program read node by node with the original's bit reader, so that the nodes are known even
//! where the original refuses them later. `facts` holds it against the original's own answer.

use crate::document::{Refused, NODE_COUNT};
use crate::row::Row;
use simplicity::bititer::DecodeNaturalError;
use simplicity::{BitIter, Word};

/// What was read: the count, the nodes up to the first that could not be read, the first bit of
/// each word (0 for other nodes), the bits taken, and why reading stopped, if it did.
#[derive(Clone, Debug, Default)]
pub struct Read {
    pub count: usize,
    pub rows: Vec<Row>,
    pub starts: Vec<u32>,
    pub bits: usize,
    pub refused: Option<Refused>,
}

type Stream<'a> = BitIter<std::iter::Copied<std::slice::Iter<'a, u8>>>;

/// A natural, or the number of its refusal.
fn natural(stream: &mut Stream, bound: usize) -> Result<usize, u32> {
    stream.read_natural::<usize>(Some(bound)).map_err(|e| match e {
        DecodeNaturalError::EndOfStream(_) => 3,
        DecodeNaturalError::Overflow => 21,
        _ => 4,
    })
}

/// Two bits as a number.
fn two_bits(stream: &mut Stream) -> Result<usize, u32> {
    let high = usize::from(stream.read_bit().map_err(|_| 3u32)?);
    let low = usize::from(stream.read_bit().map_err(|_| 3u32)?);
    Ok(2 * high + low)
}

/// The row number that a distance leads to.
fn child(stream: &mut Stream, at: usize) -> Result<usize, u32> {
    Ok(at - natural(stream, at)?)
}

/// A jet or a word, after a first bit 1: the row and a word's first bit.
fn word(stream: &mut Stream) -> Result<(Row, usize), u32> {
    if stream.read_bit().map_err(|_| 3u32)? {
        return Err(5);
    }
    let n = natural(stream, 32)?;
    let start = stream.n_total_read();
    let word = Word::from_bits(stream, n as u32 - 1).map_err(|_| 3u32)?;
    Ok((Row::Word(word), start))
}

/// A node with two children, after the code 00.
fn two_children(stream: &mut Stream, at: usize) -> Result<Row, u32> {
    let subcode = two_bits(stream)?;
    let (i, j) = (child(stream, at)?, child(stream, at)?);
    Ok([Row::Comp, Row::Case, Row::Pair, Row::Disconnect][subcode](i, j))
}

/// A node with one child, after the code 01.
fn one_child(stream: &mut Stream, at: usize) -> Result<Row, u32> {
    let subcode = two_bits(stream)?;
    let i = child(stream, at)?;
    Ok([Row::InjL, Row::InjR, Row::Take, Row::Drop][subcode](i))
}

/// Iden, unit, fail, or a disconnect with one child, after the code 10.
fn leaf(stream: &mut Stream, at: usize) -> Result<Row, u32> {
    match two_bits(stream)? {
        0 => Ok(Row::Iden),
        1 => Ok(Row::Unit),
        2 => stream.read_fail_entropy().map(|e| Row::Fail(e.to_byte_array())).map_err(|_| 3),
        _ => Ok(Row::Disconnect1(child(stream, at)?)),
    }
}

/// The node at an index, and a word's first bit.
fn node(stream: &mut Stream, at: usize) -> Result<(Row, usize), u32> {
    if stream.read_bit().map_err(|_| 3u32)? {
        return word(stream);
    }
    let row = match two_bits(stream)? {
        0 => two_children(stream, at)?,
        1 => one_child(stream, at)?,
        2 => leaf(stream, at)?,
        _ if stream.read_bit().map_err(|_| 3u32)? => Row::Witness,
        _ => Row::Hidden(stream.read_cmr().map_err(|_| 3u32)?.to_byte_array()),
    };
    Ok((row, 0))
}

/// Reads the count and the nodes.
pub fn read(bytes: &[u8]) -> Read {
    let mut stream: Stream = BitIter::from(bytes);
    let mut out = Read::default();
    match natural(&mut stream, NODE_COUNT) {
        Ok(count) => out.count = count,
        Err(number) => out.refused = Some((number, 0)),
    }
    while out.rows.len() < out.count && out.refused.is_none() {
        match node(&mut stream, out.rows.len()) {
            Ok((row, start)) => {
                out.rows.push(row);
                out.starts.push(start as u32);
            }
            Err(number) => out.refused = Some((number, out.rows.len() as u32)),
        }
    }
    out.bits = stream.n_total_read();
    out
}

/// Whether the stream may end after some bits: no whole byte left, padding zero.
pub fn closes(bytes: &[u8], bits: usize) -> bool {
    let mut stream = BitIter::from(bytes);
    for _ in 0..bits {
        stream.read_bit().unwrap();
    }
    stream.close().is_ok()
}
