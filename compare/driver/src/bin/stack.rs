//! Measures how much stack the library's calls take, on the dossiers that nest deepest.
//!
//!   stack
//!
//! Each call runs in a thread of its own. The stack below the caller is painted first; what the call
//! wrote over is what it took.

use compare::document::{NODE_COUNT, TYPE_COUNT};
use compare::dossier::Dossier;
use compare::facts::decoding::{Decoding, Table};
use compare::making::{families, types, Made};
use compare::rng::Rng;
use compare::row::Row;
use drevaloci::{Stores, Tables};
use simplicity::types::{arrow::FinalArrow, Final};
use std::sync::Arc;

const PAINTED: usize = 48 << 20;
const PAINT: u8 = 0xA7;
/// Bytes next to the caller's own frame that are left alone.
const NEAR: usize = 4 << 10;

/// The stack that a call takes, in bytes, as far as it is deeper than `NEAR`.
fn taken(call: impl FnOnce() + Send) -> usize {
    let measured = move || {
        let here = 0u8;
        let top = std::ptr::addr_of!(here) as usize - NEAR;
        let bottom = top - PAINTED;
        for at in bottom..top {
            unsafe { std::ptr::write_volatile(at as *mut u8, PAINT) };
        }
        call();
        let untouched = (bottom..top).take_while(|at| unsafe { std::ptr::read_volatile(*at as *const u8) } == PAINT);
        PAINTED + NEAR - untouched.count()
    };
    std::thread::scope(|scope| {
        let thread = std::thread::Builder::new().stack_size(PAINTED + (8 << 20));
        thread.spawn_scoped(scope, measured).unwrap().join().unwrap()
    })
}

/// The most nodes, all but one of them nested: chains of takes, as long as there are types for them. Where
/// they end, a comp with a witness of the largest type, which takes no bits, begins the chain below.
fn deepest() -> Dossier {
    let one = Final::unit();
    let mut sources = vec![Final::unit()];
    while sources.len() < TYPE_COUNT {
        sources.push(types::product(&sources[sources.len() - 1], &one));
    }
    let arrow = |source: &Arc<Final>, target: &Arc<Final>| FinalArrow {
        source: Arc::clone(source),
        target: Arc::clone(target),
    };
    let mut rows = vec![Row::Witness, Row::Iden];
    let mut arrows = vec![arrow(&one, &sources[TYPE_COUNT - 1]), arrow(&one, &one)];
    let mut depth = 0;
    while rows.len() < NODE_COUNT {
        let below = rows.len() - 1;
        depth = (depth + 1) % TYPE_COUNT;
        rows.push(if depth == 0 { Row::Comp(0, below) } else { Row::Take(below) });
        arrows.push(arrow(&sources[depth], &one));
    }
    Made { rows, arrows }.dossier(&mut Rng::new(1))
}

/// The dossiers, each with what it is.
fn dossiers() -> Vec<(&'static str, Dossier)> {
    let mut rng = Rng::new(1);
    let one = Final::unit();
    let nested = families::fixed(families::nested_comp(1_022), &one, &one);
    let deep = families::thrown_witness(3, &families::deep_type(511));
    let both = families::alternating(1_021, 3, &families::deep_padded_type(1_018));
    vec![
        ("unit", families::fixed(vec![Row::Unit], &one, &one).dossier(&mut rng)),
        ("1,022 nested comps", nested.dossier(&mut rng)),
        ("4,095 nested nodes: four chains of takes", deepest()),
        ("a witness whose type is 1,021 records deep", deep.dossier(&mut rng)),
        ("1,021 comps with three pairs each over a witness whose type is 1,020 records deep", both.dossier(&mut rng)),
    ]
}

/// The whole job in the largest stores.
fn whole(bytes: &[u8]) {
    let mut nodes = vec![0; drevaloci::NODE_NUMBERS];
    let mut hashes = vec![0; drevaloci::HASH_BYTES];
    let mut cells = vec![0; drevaloci::CELL_BYTES];
    let mut frames = vec![0; drevaloci::FRAME_NUMBERS];
    let mut answer = vec![0; drevaloci::ANSWER_BYTES];
    let stores = Stores { cells: &mut cells, frames: &mut frames, answer: &mut answer };
    let answer = drevaloci::run(bytes, &mut nodes, &mut hashes, stores);
    assert!(matches!(answer, drevaloci::Answer::Value(_)), "{answer:?}");
}

fn main() {
    println!("| dossier | call | stack bytes |\n|---|---|---|");
    for (name, dossier) in dossiers() {
        let bytes = dossier.to_bytes();
        println!("| {name} | whole job | {} |", taken(|| whole(&bytes)));
        let table = Table::of(&Decoding::of(&dossier.program, false).read);
        let types: Vec<u8> = dossier.types.iter().flat_map(compare::dossier::type_bytes).collect();
        let arrows: Vec<u8> = dossier.arrows.iter().flat_map(compare::dossier::arrow_bytes).collect();
        let (program, nodes, hashes) = (&dossier.program, &table.nodes, &table.hashes);
        let tables = Tables { types: &types, nodes, arrows: &arrows, program, hashes };
        println!(
            "| {name} | bounds | {} |",
            taken(|| {
                drevaloci::bounds(tables);
            })
        );
        println!(
            "| {name} | walk | {} |",
            taken(|| {
                drevaloci::walk(program, hashes, nodes);
            })
        );
        let mut numbers = vec![0; drevaloci::NODE_NUMBERS];
        println!(
            "| {name} | decode | {} |",
            taken(|| {
                drevaloci::decode(program, &mut numbers, &mut []);
            })
        );
    }
}
