//! Programs and dossiers to compare and to measure on, the same for the same seed.

pub mod classes;
pub mod damage;
pub mod families;
pub mod graph;
pub mod limits;
pub mod typed;
pub mod types;
pub mod untyped;

use crate::dossier::{self, Dossier};
use crate::rng::Rng;
use crate::row::Row;
use simplicity::types::{arrow::FinalArrow, Final};
use simplicity::{BitIter, Value};
use std::collections::HashMap;
use std::sync::Arc;

/// A program with an arrow for each node.
#[derive(Clone)]
pub struct Made {
    pub rows: Vec<Row>,
    pub arrows: Vec<FinalArrow>,
}

/// Any value of a type.
pub fn any_value(rng: &mut Rng, ty: &Arc<Final>) -> Value {
    let bytes = rng.bytes(ty.bit_width() / 8 + 1);
    Value::from_compact_bits(&mut BitIter::from(&bytes[..]), ty).expect("enough bits")
}

impl Made {
    /// The same program with equal nodes made one, and whether there were any.
    pub fn shared(&self) -> (Made, bool) {
        let mut made = Made { rows: vec![], arrows: vec![] };
        let (mut known, mut place) = (HashMap::new(), vec![]);
        for (row, arrow) in self.rows.iter().zip(&self.arrows) {
            let row = row.moved(|child| place[child]);
            let key = row.key().map(|key| (key, arrow.source.tmr(), arrow.target.tmr()));
            let there = key.as_ref().and_then(|key| known.get(key).copied());
            let at = there.unwrap_or_else(|| made.add(row, arrow.shallow_clone()));
            if let Some(key) = key {
                known.insert(key, at);
            }
            place.push(at);
        }
        let (rows, from) = graph::canonical(&made.rows, place[place.len() - 1]);
        let arrows = from.iter().map(|at| made.arrows[*at].shallow_clone()).collect();
        let fewer = rows.len() < self.rows.len();
        (Made { rows, arrows }, fewer)
    }

    /// Adds a node with its arrow; its number.
    pub fn add(&mut self, row: Row, arrow: FinalArrow) -> usize {
        self.rows.push(row);
        self.arrows.push(arrow);
        self.rows.len() - 1
    }

    /// Compact bits of any values for the witness nodes, in row order.
    pub fn any_witness(&self, rng: &mut Rng) -> Vec<bool> {
        let mut bits = vec![];
        for (row, arrow) in self.rows.iter().zip(&self.arrows) {
            if matches!(row, Row::Witness) {
                bits.extend(any_value(rng, &arrow.target).iter_compact());
            }
        }
        bits
    }

    /// The dossier with any witness and any input.
    pub fn dossier(&self, rng: &mut Rng) -> Dossier {
        let witness = self.any_witness(rng);
        let input = any_value(rng, &self.arrows.last().unwrap().source);
        dossier::of(&self.rows, &self.arrows, witness, &input)
    }

    /// The dossier with any witness and a given input.
    pub fn dossier_on(&self, rng: &mut Rng, input: &Value) -> Dossier {
        dossier::of(&self.rows, &self.arrows, self.any_witness(rng), input)
    }
}
