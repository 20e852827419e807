//! The classes of dossiers that are generated without end, each with its name.

use crate::dossier::Dossier;
use crate::making::typed::Style;
use crate::making::{damage, families, typed, types, untyped, Made};
use crate::original::{decode, typing, write};
use crate::rng::Rng;
use crate::row::Row;

/// A dossier for any program: inferred arrows where the original decodes and types it.
pub fn dossier_of(rng: &mut Rng, program: Vec<u8>) -> Vec<u8> {
    let bare = |program: Vec<u8>, count: usize| Dossier {
        types: vec![(0, 0, 0)],
        program,
        arrows: vec![(0, 0); count],
        ..Dossier::default()
    };
    let Ok((rows, _)) = decode::decode(&program) else {
        return bare(program, 1).to_bytes();
    };
    match typing::infer(&rows, None) {
        Ok(arrows) => Dossier { program, ..Made { rows, arrows }.dossier(rng) }.to_bytes(),
        Err(_) => bare(program, rows.len()).to_bytes(),
    }
}

/// How large and how wide a generated program is: mostly small, now and then large.
fn style(rng: &mut Rng) -> Style {
    let (nodes, depth) = match rng.below(100) {
        0 => (1_500, 60),
        1..=5 => (300, 16),
        6..=40 => (60, 9),
        _ => (15, 5),
    };
    let width = *rng.pick(&[1, 2, 4, 8, 30, 200]);
    Style { nodes, depth, width, share: 2 + rng.below(6), fail: 30 + rng.below(100) }
}

/// A program made along its types.
fn generated(rng: &mut Rng) -> Made {
    let style = style(rng);
    let width = 1 + rng.below(style.width + 8);
    let (a, b) = (types::any(rng, width), types::any(rng, width));
    typed::program(rng, style, &a, &b)
}

/// The same rows with arrows from the original's inference, the last arrow fixed or free.
fn inferred(rng: &mut Rng, made: &Made) -> Made {
    let last = if rng.once_in(2) { made.arrows.last() } else { None };
    let arrows = typing::infer(&made.rows, last).expect("a program made along its types is typed");
    Made { rows: made.rows.clone(), arrows }
}

/// A program with equal nodes made one, counted if there were any.
fn sharing(made: Made, shared: &mut u64) -> Made {
    let (made, fewer) = made.shared();
    *shared += u64::from(fewer);
    made
}

/// One program of known shape, of any size.
fn shaped(rng: &mut Rng) -> Vec<Row> {
    let n = 1 + rng.below(400);
    match rng.below(5) {
        0 => families::chain(n, rng.next()),
        1 => families::pairs(1 + n / 16, rng.next()),
        2 => families::gates(60 + n, rng.next()),
        3 => families::nested_comp(n),
        _ => families::xor_tree(rng.below(7)),
    }
}

/// One more dossier, and the name of its class. Programs made along their types have no equal nodes, but for one in 16; how
/// many had to be shared for that is counted.
pub fn any(rng: &mut Rng, shared: &mut u64) -> (&'static str, Vec<u8>) {
    let made = generated(rng);
    match rng.below(20) {
        0..=6 => {
            let made = inferred(rng, &made);
            let made = if rng.once_in(16) { made } else { sharing(made, shared) };
            ("typed, arrows inferred by the original", made.dossier(rng).to_bytes())
        }
        7..=12 => {
            let made = if rng.once_in(16) { made } else { sharing(made, shared) };
            ("typed, other arrows", made.dossier(rng).to_bytes())
        }
        13..=15 => {
            let made = if rng.once_in(2) { inferred(rng, &made) } else { made };
            let made = sharing(made, shared);
            let dossier = made.dossier(rng);
            ("damaged", damage::any(rng, &made, &dossier))
        }
        16 | 17 => {
            let (most, hidden) = (1 + rng.below(24), rng.once_in(2));
            let rows = untyped::program(rng, most, hidden);
            ("any nodes", dossier_of(rng, write::program(&rows)))
        }
        18 => {
            let rows = shaped(rng);
            let typed =
                typing::infer(&rows, None).ok().map(|arrows| sharing(Made { rows: rows.clone(), arrows }, shared));
            let program = typed.map_or(rows, |made| made.rows);
            ("known shapes", dossier_of(rng, write::program(&program)))
        }
        _ => {
            let len = rng.below(40);
            let program = rng.bytes(len);
            ("any bytes as a program", dossier_of(rng, program))
        }
    }
}
