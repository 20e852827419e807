//! A dossier as plain data: written to bytes, and its types and arrows as the original's own.

use crate::bits;
use crate::original::{typing, write};
use crate::row::Row;
use simplicity::types::{arrow::FinalArrow, CompleteBound, Final};
use simplicity::Value;
use std::collections::HashMap;
use std::sync::Arc;

pub type TypeRecord = (u8, u16, u16);

#[derive(Clone, Debug, Default)]
pub struct Dossier {
    pub types: Vec<TypeRecord>,
    pub program: Vec<u8>,
    pub arrows: Vec<(u16, u16)>,
    pub witness: Vec<bool>,
    pub input: Vec<bool>,
    pub hashes: Vec<[u8; 32]>,
}

/// The bytes of a type record.
pub fn type_bytes(record: &TypeRecord) -> [u8; 5] {
    let (a, b) = (record.1.to_be_bytes(), record.2.to_be_bytes());
    [record.0, a[0], a[1], b[0], b[1]]
}

/// The bytes of an arrow.
pub fn arrow_bytes(arrow: &(u16, u16)) -> [u8; 4] {
    let (a, b) = (arrow.0.to_be_bytes(), arrow.1.to_be_bytes());
    [a[0], a[1], b[0], b[1]]
}

impl Dossier {
    /// The dossier's bytes.
    pub fn to_bytes(&self) -> Vec<u8> {
        let sections = [
            (self.types.len(), self.types.iter().flat_map(type_bytes).collect()),
            (self.program.len(), self.program.clone()),
            (self.arrows.len(), self.arrows.iter().flat_map(arrow_bytes).collect()),
            (self.witness.len(), bits::pack(&self.witness)),
            (self.input.len(), bits::pack(&self.input)),
            (self.hashes.len(), self.hashes.concat()),
        ];
        let mut header = vec![1];
        let mut body = vec![];
        for (count, bytes) in sections {
            header.extend([count as u32, 56 + body.len() as u32]);
            body.extend(bytes);
        }
        header.push(56 + body.len() as u32);
        let mut out: Vec<u8> = header.iter().flat_map(|n| n.to_be_bytes()).collect();
        out.extend(body);
        out
    }
}

/// Type records in their first-use order; types are told apart by the unmodified equality.
#[derive(Default)]
pub struct TypeTable {
    index: HashMap<Arc<Final>, u16>,
    pub records: Vec<TypeRecord>,
}

impl TypeTable {
    /// The index of a type, after the records it needs: left part, right part, whole.
    pub fn put(&mut self, ty: &Arc<Final>) -> u16 {
        if let Some(i) = self.index.get(ty) {
            return *i;
        }
        let record = match ty.bound() {
            CompleteBound::Unit => (0, 0, 0),
            CompleteBound::Sum(a, b) => (1, self.put(a), self.put(b)),
            CompleteBound::Product(a, b) => (2, self.put(a), self.put(b)),
        };
        let i = u16::try_from(self.records.len()).expect("at most 65,536 types");
        self.records.push(record);
        self.index.insert(Arc::clone(ty), i);
        i
    }

    /// The indices of an arrow's two types.
    pub fn arrow(&mut self, arrow: &FinalArrow) -> (u16, u16) {
        (self.put(&arrow.source), self.put(&arrow.target))
    }
}

/// Types of the records, by the unmodified `unit`, `sum` and `product`. The table passes refusal 2.
pub fn finals(types: &[u8]) -> Vec<Arc<Final>> {
    let mut out: Vec<Arc<Final>> = vec![];
    for record in types.chunks_exact(5) {
        let part = |at: usize| Arc::clone(&out[usize::from(u16::from_be_bytes([record[at], record[at + 1]]))]);
        let ty = match record[0] {
            0 => Final::unit(),
            1 => Final::sum(part(1), part(3)),
            _ => Final::product(part(1), part(3)),
        };
        out.push(ty);
    }
    out
}

/// Arrows of the records up to the first that names no type.
pub fn final_arrows(finals: &[Arc<Final>], arrows: &[u8]) -> Vec<FinalArrow> {
    let ty = |high: u8, low: u8| finals.get(usize::from(u16::from_be_bytes([high, low]))).map(Arc::clone);
    let arrow =
        |record: &[u8]| Some(FinalArrow { source: ty(record[0], record[1])?, target: ty(record[2], record[3])? });
    arrows.chunks_exact(4).map_while(arrow).collect()
}

/// A dossier of rows with these arrows, witness bits and input; hashes by the unmodified cmr.rs.
pub fn of(rows: &[Row], arrows: &[FinalArrow], witness: Vec<bool>, input: &Value) -> Dossier {
    let mut types = TypeTable::default();
    types.put(&Final::unit());
    let arrows = arrows.iter().map(|arrow| types.arrow(arrow)).collect();
    Dossier {
        types: types.records,
        program: write::program(rows),
        arrows,
        witness,
        input: input.iter_compact().collect(),
        hashes: typing::right_hashes(rows),
    }
}
