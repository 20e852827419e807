//! Compares the proved library with the original, and prints the counts.
//!
//!   compare [--seed N] [--programs N] [--short-every N] [--saved DIR] [--trace]
//!
//! All programs of 0 to 2 bytes (every N-th of 2 bytes with --short-every), each limit, naturals,
//! then generated programs until there are --programs of all. The status is 0 if nothing differs.
//! Dossiers on which something differs are kept in DIR; with --trace also the one at hand, for a crash.

use compare::document::NODE_COUNT;
use compare::judge::{Choice, Judge};
use compare::making::{classes, limits};
use compare::original::{decode, write};
use compare::rng::Rng;
use compare::tally::Rests;
use drevaloci::Natural;
use std::process::ExitCode;

struct Settings {
    seed: u64,
    programs: u64,
    short_every: usize,
    saved: String,
}

/// The number or text behind a name on the command line.
fn option(name: &str, default: &str) -> String {
    let mut args = std::env::args().skip_while(|arg| arg != name);
    args.nth(1).unwrap_or_else(|| default.to_owned())
}

/// What the command line says.
fn settings() -> Settings {
    let number = |name: &str, default: &str| option(name, default).parse().expect("a number");
    Settings {
        seed: number("--seed", "1"),
        programs: number("--programs", "250000"),
        short_every: number("--short-every", "1") as usize,
        saved: option("--saved", "differences"),
    }
}

/// All programs of 0, 1 and 2 bytes.
fn short_programs(judge: &mut Judge, rng: &mut Rng, every: usize) {
    let one = (0..=255u8).map(|a| vec![a]);
    let two = (0..=65_535u16).step_by(every).map(|ab| ab.to_be_bytes().to_vec());
    for program in std::iter::once(vec![]).chain(one).chain(two) {
        let dossier = classes::dossier_of(rng, program);
        judge.dossier("all of 0 to 2 bytes", &dossier);
    }
}

/// Each limit, with every choice of stores.
fn at_limits(judge: &mut Judge, rng: &mut Rng) {
    let usual = judge.most_cost;
    judge.most_cost = u64::MAX;
    let choices = [
        Choice::Ample,
        Choice::Odd(1),
        Choice::Short(0),
        Choice::Short(1),
        Choice::Short(2),
        Choice::Short(3),
        Choice::Short(4),
    ];
    for dossier in limits::all(rng) {
        judge.dossier_in("at the limits", &dossier, &choices);
    }
    judge.most_cost = usual;
}

/// How the library must read a natural, as the original does.
fn natural(judge: &mut Judge, bytes: &[u8], at: usize, bound: u32) {
    let want = decode::natural(bytes, at, bound);
    let got = match drevaloci::natural(bytes, at, bound) {
        Natural::Value { value, next } => Ok((value, next as usize)),
        Natural::Ended => Err(3),
        Natural::TooLarge => Err(4),
        Natural::Overlong => Err(21),
    };
    let text = || format!("{bytes:02x?} at {at}, bound {bound}: expected {want:?}, the library says {got:?}");
    judge.tally.compared("natural: value and next bit, or number", Rests::Original, want == got, text);
}

/// Naturals: written ones with bounds around them, and any bits.
fn naturals(judge: &mut Judge, rng: &mut Rng, count: usize) {
    for _ in 0..count {
        let length = rng.below(32);
        let value = (1usize << length) + rng.below(1 << length);
        let mut code = vec![false; rng.below(9)];
        let at = code.len();
        code.extend(write::natural_bits(value));
        let mut bytes = compare::bits::pack(&code);
        if rng.once_in(3) {
            bytes.truncate(rng.below(bytes.len() + 1));
        }
        let bound = (value as u64).saturating_add_signed(rng.below(3) as i64 - 1).min(u64::from(u32::MAX));
        natural(judge, &bytes, at, bound as u32);
        let len = 1 + rng.below(9);
        let any = rng.bytes(len);
        natural(judge, &any, rng.below(10), *rng.pick(&[1, 32, NODE_COUNT as u32, u32::MAX]));
    }
}

/// Compares everything; whether nothing differs.
fn compare_all() -> bool {
    let settings = settings();
    let mut rng = Rng::new(settings.seed);
    let mut judge = Judge::new(settings.seed, settings.saved.clone().into());
    judge.trace = std::env::args().any(|arg| arg == "--trace");
    judge.over_long();
    judge.over_many();
    short_programs(&mut judge, &mut rng, settings.short_every);
    at_limits(&mut judge, &mut rng);
    naturals(&mut judge, &mut rng, (settings.programs / 4) as usize);
    while judge.tally.total().programs < settings.programs {
        let (class, dossier) = classes::any(&mut rng, &mut judge.tally.shared);
        judge.dossier(class, &dossier);
    }
    println!("Seed {}, {} programs.", settings.seed, judge.tally.total().programs);
    judge.tally.print();
    println!("\n{}", judge.tally.reached());
    judge.tally.fault_count == 0
}

fn main() -> ExitCode {
    let big = std::thread::Builder::new().stack_size(512 << 20);
    let same = big.spawn(compare_all).unwrap().join().unwrap_or(false);
    if same {
        ExitCode::SUCCESS
    } else {
        ExitCode::FAILURE
    }
}
