//! Stores to lend. Those of one element type stand next to each other without a gap, with guards at
//! both ends, so that a write outside a store changes something that is compared.

use drevaloci::Stores;

/// Store sizes in elements.
#[derive(Clone, Copy, Debug, PartialEq, Eq)]
pub struct Room {
    pub nodes: usize,
    pub hashes: usize,
    pub cells: usize,
    pub frames: usize,
    pub answer: usize,
}

/// Room that is enough for every dossier.
pub const AMPLE: Room = Room {
    nodes: drevaloci::NODE_NUMBERS,
    hashes: drevaloci::HASH_BYTES,
    cells: drevaloci::CELL_BYTES,
    frames: drevaloci::FRAME_NUMBERS,
    answer: drevaloci::ANSWER_BYTES,
};

/// The contents of all five stores.
#[derive(Clone, Debug, PartialEq, Eq)]
pub struct Contents {
    pub nodes: Vec<u32>,
    pub hashes: Vec<u8>,
    pub cells: Vec<u8>,
    pub frames: Vec<u32>,
    pub answer: Vec<u8>,
}

const GUARD: usize = 9;
const GUARD_BYTE: u8 = 0xC3;
const GUARD_NUMBER: u32 = 0xC3C3_C3C3;

pub struct Lent {
    room: Room,
    numbers: Vec<u32>,
    bytes: Vec<u8>,
}

/// What is lent, apart from each other.
pub struct Parts<'a> {
    pub nodes: &'a mut [u32],
    pub hashes: &'a mut [u8],
    pub stores: Stores<'a>,
}

/// Old contents of some size: bytes, or numbers made of them.
fn old_numbers(old: &[u8], n: usize) -> Vec<u32> {
    let number = |i: usize| {
        let at = (4 * i) % (old.len() - 3);
        u32::from_be_bytes([old[at], old[at + 1], old[at + 2], old[at + 3]])
    };
    (0..n).map(number).collect()
}

impl Contents {
    /// Stores as they are before a call.
    pub fn old(room: &Room, old: &[u8]) -> Contents {
        Contents {
            nodes: old_numbers(old, room.nodes),
            hashes: old[..room.hashes].to_vec(),
            cells: old[..room.cells].to_vec(),
            frames: old_numbers(old, room.frames),
            answer: old[..room.answer].to_vec(),
        }
    }
}

impl Lent {
    /// Stores with these contents.
    pub fn new(room: Room, contents: &Contents) -> Lent {
        let (guard, guards) = ([GUARD_BYTE; GUARD], [GUARD_NUMBER; GUARD]);
        Lent {
            room,
            numbers: [&guards[..], &contents.nodes, &contents.frames, &guards].concat(),
            bytes: [&guard[..], &contents.hashes, &contents.cells, &contents.answer, &guard].concat(),
        }
    }

    /// The stores as slices.
    pub fn parts(&mut self) -> Parts<'_> {
        let (nodes, rest) = self.numbers[GUARD..].split_at_mut(self.room.nodes);
        let (hashes, more) = self.bytes[GUARD..].split_at_mut(self.room.hashes);
        let (cells, last) = more.split_at_mut(self.room.cells);
        Parts {
            nodes,
            hashes,
            stores: Stores { cells, frames: &mut rest[..self.room.frames], answer: &mut last[..self.room.answer] },
        }
    }

    /// What the stores hold now.
    pub fn contents(&mut self) -> Contents {
        let parts = self.parts();
        Contents {
            nodes: parts.nodes.to_vec(),
            hashes: parts.hashes.to_vec(),
            cells: parts.stores.cells.to_vec(),
            frames: parts.stores.frames.to_vec(),
            answer: parts.stores.answer.to_vec(),
        }
    }

    /// Whether nothing was written before or behind the stores.
    pub fn guarded(&self) -> bool {
        let (numbers, bytes) = (&self.numbers, &self.bytes);
        let ends = [&bytes[..GUARD], &bytes[bytes.len() - GUARD..]].concat();
        let more = [&numbers[..GUARD], &numbers[numbers.len() - GUARD..]].concat();
        ends.iter().all(|x| *x == GUARD_BYTE) && more.iter().all(|x| *x == GUARD_NUMBER)
    }
}
