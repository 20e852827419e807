//! The dossier's header and type records, judged as the requirements say (refusals 1 and 2).

use crate::document::{Refused, DOSSIER_BYTES, TYPE_COUNT, TYPE_WIDTH};
use std::collections::HashSet;

pub const HEADER_BYTES: usize = 56;

/// Bits that one of each section's things takes: types, program, arrows, witness, input, hashes.
const UNITS: [u64; 6] = [40, 8, 32, 1, 1, 256];

/// The sections of a dossier: count and bytes of each, in the header's order.
pub type Sections<'a> = [(usize, &'a [u8]); 6];

/// The header number at a byte.
fn number(dossier: &[u8], at: usize) -> u64 {
    u64::from(u32::from_be_bytes(dossier[at..at + 4].try_into().unwrap()))
}

/// The sections, or refusal 1.
pub fn open(dossier: &[u8]) -> Result<Sections<'_>, Refused> {
    let len = dossier.len();
    if !(HEADER_BYTES..=DOSSIER_BYTES).contains(&len) || number(dossier, 0) != 1 {
        return Err((1, 0));
    }
    let mut sections = [(0, &dossier[..0]); 6];
    let mut start = HEADER_BYTES as u64;
    for (k, section) in sections.iter_mut().enumerate() {
        let at = 4 + 8 * k;
        let count = number(dossier, at);
        let end = start + (count * UNITS[k]).div_ceil(8);
        let wrong_types = k == 0 && (count == 0 || count > TYPE_COUNT as u64);
        if wrong_types || end > len as u64 {
            return Err((1, at as u32));
        }
        if number(dossier, at + 4) != start {
            return Err((1, at as u32 + 4));
        }
        *section = (count as usize, &dossier[start as usize..end as usize]);
        start = end;
    }
    if number(dossier, 52) != len as u64 || start != len as u64 {
        return Err((1, 52));
    }
    Ok(sections)
}

/// A type record's width, if it keeps the rules.
fn width(record: &[u8], at: usize, widths: &[usize]) -> Option<usize> {
    let left = usize::from(u16::from_be_bytes([record[1], record[2]]));
    let right = usize::from(u16::from_be_bytes([record[3], record[4]]));
    let width = match record[0] {
        0 if left == 0 && right == 0 => 0,
        1 if left < at && right < at => 1 + widths[left].max(widths[right]),
        2 if left < at && right < at => widths[left] + widths[right],
        _ => return None,
    };
    (width <= TYPE_WIDTH).then_some(width)
}

/// The widths of a type table, or refusal 2.
pub fn widths(types: &[u8]) -> Result<Vec<usize>, Refused> {
    let mut widths = vec![];
    let mut seen = HashSet::new();
    for (at, record) in types.chunks_exact(5).enumerate() {
        let new = seen.insert(record);
        match width(record, at, &widths) {
            Some(width) if new => widths.push(width),
            _ => return Err((2, at as u32)),
        }
    }
    Ok(widths)
}
