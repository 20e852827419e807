//! Types: words, and any mixture of sums and products up to a width.

use crate::rng::Rng;
use simplicity::types::Final;
use std::sync::Arc;

/// 2^(2^n).
pub fn word(n: usize) -> Arc<Final> {
    Final::two_two_n(n).expect("n is at most 31")
}

/// The sum of two types.
pub fn sum(a: &Arc<Final>, b: &Arc<Final>) -> Arc<Final> {
    Final::sum(Arc::clone(a), Arc::clone(b))
}

/// The product of two types.
pub fn product(a: &Arc<Final>, b: &Arc<Final>) -> Arc<Final> {
    Final::product(Arc::clone(a), Arc::clone(b))
}

/// A type without padding that is just so wide.
pub fn of_width(width: usize) -> Arc<Final> {
    let mut ty = Final::unit();
    for n in (0..16).rev().filter(|n| width >> n & 1 == 1) {
        ty = if ty.is_unit() { word(n) } else { product(&ty, &word(n)) };
    }
    ty
}

/// Any type of at most some width, more or less.
pub fn any(rng: &mut Rng, most: usize) -> Arc<Final> {
    if most <= 1 || rng.once_in(9) {
        return if rng.once_in(3) { Final::unit() } else { word(0) };
    }
    match rng.below(8) {
        0 | 1 => word(rng.below(usize::ilog2(most) as usize + 1)),
        2..=4 => {
            let (a, b) = (any(rng, most - 1), any(rng, most / 2));
            if rng.once_in(2) {
                sum(&a, &b)
            } else {
                sum(&b, &a)
            }
        }
        5 => product(&Final::unit(), &any(rng, most - 1)),
        _ => {
            let left = 1 + rng.below(most - 1);
            product(&any(rng, left), &any(rng, most - left))
        }
    }
}
