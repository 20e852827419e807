//! Dossiers at each limit of the requirements, one short of it and one past it.

use crate::bits;
use crate::document::{CELL_COUNT, COST_LIMIT, DOSSIER_BYTES, FRAME_COUNT, NODE_COUNT, TYPE_COUNT, TYPE_WIDTH};
use crate::dossier::Dossier;
use crate::making::{families, types, Made};
use crate::original::write;
use crate::rng::Rng;
use crate::row::Row;
use simplicity::types::{arrow::FinalArrow, Final};
use simplicity::{BitIter, Word};
use std::sync::Arc;

/// One short of a number, the number, one past it.
fn around(n: usize) -> [usize; 3] {
    [n - 1, n, n + 1]
}

/// An arrow.
fn arrow(source: &Arc<Final>, target: &Arc<Final>) -> FinalArrow {
    FinalArrow { source: Arc::clone(source), target: Arc::clone(target) }
}

/// A dossier that has only a program.
fn bare(program: Vec<u8>) -> Dossier {
    Dossier { types: vec![(0, 0, 0)], program, ..Dossier::default() }
}

/// Node counts.
fn nodes(rng: &mut Rng) -> Vec<Dossier> {
    let one = Final::unit();
    around(NODE_COUNT).map(|n| families::fixed(families::comp_chains(n), &one, &one).dossier(rng)).into()
}

/// Type counts: unit doubled, iden on the last; no type at all.
fn type_counts() -> Vec<Dossier> {
    let doubled = |n: usize| {
        let mut types = vec![(0, 0, 0)];
        types.extend((1..n).map(|i| (2, i as u16 - 1, i as u16 - 1)));
        Dossier { types, program: vec![0x20], arrows: vec![(n as u16 - 1, n as u16 - 1)], ..Dossier::default() }
    };
    let mut out: Vec<Dossier> = around(TYPE_COUNT).map(doubled).into();
    out.push(Dossier { types: vec![], ..doubled(1) });
    out.push(doubled(1));
    out
}

/// Widths: iden on a type so wide.
fn widths(rng: &mut Rng) -> Vec<Dossier> {
    let iden = |w: usize| {
        let ty = types::of_width(w);
        Made { rows: vec![Row::Iden], arrows: vec![arrow(&ty, &ty)] }
    };
    around(TYPE_WIDTH).map(|w| iden(w).dossier(rng)).into()
}

/// Cells: k comps nested over iden on width w need (k + 2) w cells.
fn cells(rng: &mut Rng) -> Vec<Dossier> {
    let factors = [(9, 29_127), (8, 32_768), (13, 20_165)];
    let nested = |(all, w): (usize, usize)| {
        let ty = types::of_width(w);
        families::fixed(families::nested_comp(all - 2), &ty, &ty).dossier(rng)
    };
    assert!(factors.map(|(all, w)| all * w) == around(CELL_COUNT));
    factors.map(nested).into()
}

/// Frames: k comps nested need k + 2.
fn frames(rng: &mut Rng) -> Vec<Dossier> {
    let one = Final::unit();
    around(FRAME_COUNT).map(|n| families::fixed(families::nested_comp(n - 2), &one, &one).dossier(rng)).into()
}

/// A program of just some cost: iden on a width for the last digits, beside comps of doubled comps.
/// With doubled(k) the k-th comp of the last node with itself over iden at width 0, which costs
/// 100 (2^(k+1) - 1), a chain of comps over some of them costs 100 (sum of 2^(k+1)) - 100.
fn of_cost(cost: u64) -> Made {
    let mut width = cost % 100;
    if (cost - 400 - width) / 100 % 2 == 0 {
        width += 100;
    }
    let powers = (cost - 400 - width) / 100 + 1;
    let doubled = 63 - powers.leading_zeros() as usize;
    let mut rows = families::doubled_iden(doubled - 1);
    let mut last = rows.len() - 1;
    for k in (1..doubled).rev().filter(|k| powers >> k & 1 == 1) {
        rows.push(Row::Comp(last, k - 1));
        last = rows.len() - 1;
    }
    let mut all = vec![Row::Iden, Row::Unit];
    all.extend(rows.iter().map(|row| row.moved(|child| child + 2)));
    let top = all.len() - 1;
    all.extend([Row::Comp(1, top), Row::Pair(0, top + 1)]);
    let ty = types::of_width(width as usize);
    families::fixed(all, &ty, &types::product(&ty, &Final::unit()))
}

/// Costs.
fn costs(rng: &mut Rng) -> Vec<Dossier> {
    [COST_LIMIT - 1, COST_LIMIT, COST_LIMIT + 1].map(|cost| of_cost(cost).dossier(rng)).into()
}

/// Witnesses of these widths, each thrown away.
fn thrown(all: &[usize]) -> Made {
    let one = Final::unit();
    let (mut rows, mut arrows) = (vec![], vec![]);
    let mut last = None;
    for width in all {
        let ty = types::of_width(*width);
        let at = rows.len();
        rows.extend([Row::Witness, Row::Unit, Row::Comp(at, at + 1)]);
        arrows.extend([arrow(&one, &ty), arrow(&ty, &one), arrow(&one, &one)]);
        if let Some(before) = last {
            rows.push(Row::Comp(before, at + 2));
            arrows.push(arrow(&one, &one));
        }
        last = Some(rows.len() - 1);
    }
    Made { rows, arrows }
}

/// Dossiers of a size: witnesses of the largest width, and one that makes up the rest. Its width
/// decides how many type records there are, so the widths near the right one are tried.
fn sizes(rng: &mut Rng) -> Vec<Dossier> {
    let with = |rng: &mut Rng, width: usize| {
        let mut all = vec![TYPE_WIDTH; DOSSIER_BYTES / (TYPE_WIDTH / 8) - 1];
        all.push(width);
        thrown(&all).shared().0.dossier(rng)
    };
    let start = 8 * 3_000;
    let have = with(rng, start).to_bytes().len();
    let mut of_size = |size: usize| {
        let near = start + 8 * (size - have);
        let tried = (near - 480..near + 480).map(|width| with(rng, width));
        tried.into_iter().find(|dossier| dossier.to_bytes().len() == size).expect("a width that fits")
    };
    around(DOSSIER_BYTES).map(&mut of_size).into()
}

/// Words of each length that a program can hold or announce: n and how many bits are there.
fn words(rng: &mut Rng) -> Vec<Dossier> {
    let whole = |rng: &mut Rng, n: u32| {
        let bytes = rng.bytes((1 << (n - 1)) / 8 + 1);
        Word::from_bits(&mut BitIter::from(&bytes[..]), n - 1).unwrap()
    };
    let mut out: Vec<Dossier> = [1, 2, 15, 16, 17, 18, 19]
        .map(|n| {
            let rows = [Row::Word(whole(rng, n))];
            let ty = types::word(n as usize - 1);
            match n {
                ..=16 => Made { rows: rows.to_vec(), arrows: vec![arrow(&Final::unit(), &ty)] }.dossier(rng),
                _ => Dossier { arrows: vec![(0, 0)], ..bare(write::program(&rows)) },
            }
        })
        .into();
    for n in [20, 31, 32, 33, 34] {
        let mut code = vec![false, true, false];
        code.extend(write::natural_bits(n));
        code.extend([true; 200]);
        out.push(bare(bits::pack(&code)));
    }
    out
}

/// Distances that are the index, and one more.
fn distances() -> Vec<Dossier> {
    let far = |at: usize, distance: usize| {
        let mut code = write::natural_bits(at + 1);
        for k in 0..at {
            code.extend(if k == 0 {
                &[false, true, false, false, true][..]
            } else {
                &[false, false, true, true, false, false][..]
            });
        }
        code.extend([false, false, true, true, false]);
        code.extend(write::natural_bits(distance));
        bare(bits::pack(&code))
    };
    [1, 2, 5, 100, 1_000].iter().flat_map(|at| around(*at).map(|d| far(*at, d.max(1)))).collect()
}

/// Counts whose length is 31, and lengths of 32 and more, cut off at each bit.
fn naturals() -> Vec<Dossier> {
    let mut out = vec![];
    for n in around(NODE_COUNT).into_iter().chain([65_535, 1 << 31, u32::MAX as usize, 1 << 32]) {
        let code = write::natural_bits(n);
        out.extend((1..=code.len()).map(|len| bare(bits::pack(&code[..len]))));
    }
    out.extend((0..8).map(|ones| bare(bits::pack(&[vec![true; ones], vec![false; 40]].concat()))));
    out
}

/// Every dossier at a limit.
pub fn all(rng: &mut Rng) -> Vec<Vec<u8>> {
    let mut out = vec![nodes(rng), type_counts(), widths(rng), cells(rng), frames(rng), costs(rng)];
    out.extend([sizes(rng), words(rng), distances(), naturals()]);
    let mut bytes: Vec<Vec<u8>> = out.concat().iter().map(Dossier::to_bytes).collect();
    bytes.extend([vec![], vec![0; 55], vec![0; 56], vec![1; 57]]);
    bytes
}
