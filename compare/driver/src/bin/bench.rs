//! Times of the proved library and of the original on the same inputs, in one run.
//!
//!   bench [--quick] [--only naturals|decode|arrows|machine]
//!   bench --lines
//!   bench --calls COUNT RIVAL LINE
//!
//! The other two forms time nothing. One prints the lines of the machine, the other makes so many calls of one rival on a line
//! of any part, for a tool that counts instructions: a call takes what two calls take less what one takes.
//!
//! Each figure is the best and the median of several batches, in processor time of one thread, all
//! rivals in turns; figures of different runs are not to be compared. Answers are compared before
//! anything is timed.
//!
//! Stores that the library is lent are not cleared between calls: each call finds what the last one
//! left. One column clears all five stores first. The original makes its own stores: this is counted
//! in "whole" and left out of "exec" and "input to output bits", where the machine is made beforehand.

use compare::clock::{clocked, race, task, Effort, Task, Time};
use compare::document::{header, DOSSIER_BYTES, NODE_COUNT};
use compare::facts::decoding::{Decoding, Table};
use compare::making::{any_value, families, types, Made};
use compare::original::{decode, nodes, write};
use compare::rng::Rng;
use compare::row::Row;
use compare::timed::{self, Largest};
use drevaloci::{Answer, Checked, Decoded, Tables};
use simplicity::types::Final;
use simplicity::Value;
use std::cell::RefCell;
use std::hint::black_box;
use std::sync::Arc;
use std::time::Duration;

/// Prints the head of a table: the rivals, then which is held against which.
fn heading(text: &str, rivals: &[&str], pairs: &[(usize, usize)]) {
    let factors: Vec<String> = pairs.iter().map(|(a, b)| format!("{} / {}", rivals[*a], rivals[*b])).collect();
    println!("\n{text}\n\n| input | {} | {} |", rivals.join(" | "), factors.join(" | "));
    println!("{}", "|---".repeat(1 + rivals.len() + pairs.len()) + "|");
}

/// Prints one row: best and median of each rival in microseconds, then the factors of the best.
fn print(what: &str, times: &[Time], pairs: &[(usize, usize)]) {
    let cells: Vec<String> = times.iter().map(|t| format!("{:.2} ({:.2})", t.best / 1e3, t.median / 1e3)).collect();
    let factors: Vec<String> = pairs.iter().map(|(a, b)| format!("{:.2}", times[*a].best / times[*b].best)).collect();
    println!("| {what} | {} | {} |", cells.join(" | "), factors.join(" | "));
}

const NATURALS: [&str; 2] = ["original", "library"];
const NATURAL_PAIRS: [(usize, usize); 1] = [(1, 0)];
const DECODE: [&str; 6] = [
    "original, all freed",
    "original, nothing freed",
    "original, reading alone",
    "library, stores just large enough",
    "library, largest stores",
    "library, reading alone",
];
const DECODE_PAIRS: [(usize, usize); 3] = [(3, 1), (3, 2), (5, 2)];
const ARROWS: [&str; 2] = ["library, stage of the walk", "library, stage of the arrows"];
const ARROW_PAIRS: [(usize, usize); 1] = [(1, 0)];
const RUN: [&str; 8] = [
    "original, exec",
    "original, input to output bits",
    "original, whole",
    "library, whole",
    "library, whole, stores cleared first",
    "library, on tables",
    "library, checks of tables alone",
    "library, on tables less checks",
];
const RUN_PAIRS: [(usize, usize); 2] = [(7, 1), (3, 2)];

/// What to do with the lines: time them, print the names of those of the machine, or make so many calls of one rival on one line.
enum Aim {
    Time(Effort),
    Lines,
    Calls { count: usize, rival: String, line: String },
}

impl Aim {
    /// Whether a line is to be run at all.
    fn wants(&self, name: &str) -> bool {
        match self {
            Aim::Time(_) => true,
            Aim::Lines => false,
            Aim::Calls { line, .. } => line == name,
        }
    }
}

/// Times the rivals of a line, or makes the calls that are asked for; then there are no times.
fn contest(aim: &Aim, rivals: &[&str], mut tasks: Vec<Task>) -> Option<Vec<Time>> {
    match aim {
        Aim::Time(effort) => Some(race(effort, tasks)),
        Aim::Lines => None,
        Aim::Calls { count, rival, .. } => {
            let at = rivals.iter().position(|name| name == rival).expect("a rival that is called");
            for _ in 0..*count {
                black_box(tasks[at]());
            }
            None
        }
    }
}

/// Naturals of some range, one after the other.
fn naturals(aim: &Aim, name: &str, pick: fn(&mut Rng) -> usize) {
    let what = format!("8,000 naturals, {name}");
    if !aim.wants(&what) {
        return;
    }
    let mut rng = Rng::new(7);
    let values: Vec<usize> = (0..8_000).map(|_| pick(&mut rng)).collect();
    let (bytes, _) = write::naturals(&values);
    let want: u64 = values.iter().map(|v| *v as u64).sum();
    assert!(bytes.len() <= DOSSIER_BYTES);
    assert_eq!(timed::original_naturals(&bytes, values.len()), want);
    assert_eq!(timed::library_naturals(&bytes, values.len()), want);
    let tasks = vec![
        task(|| clocked(|| timed::original_naturals(black_box(&bytes), values.len()))),
        task(|| clocked(|| timed::library_naturals(black_box(&bytes), values.len()))),
    ];
    if let Some(times) = contest(aim, &NATURALS, tasks) {
        print(&what, &times, &NATURAL_PAIRS);
    }
}

/// One program of a family, decoded.
fn decoding_of(aim: &Aim, name: &str, size: usize, family: fn(usize, u64) -> Vec<Row>) {
    if !aim.wants(&format!("{name}, {size} nodes")) {
        return;
    }
    let rows = &family(size, 1)[..];
    let bytes = write::program(rows);
    let longer = write::program(&[rows, &[Row::Iden]].concat());
    assert!(decode::decode(&bytes).is_ok_and(|(back, _)| back == rows));
    let hashes: usize = rows.iter().map(|row| row.hash_bytes().len()).sum();
    let library = |numbers: usize, hash_bytes: usize| {
        let (mut nodes, mut store) = (vec![0; numbers], vec![0; hash_bytes]);
        let bytes = &bytes;
        move || {
            clocked(|| {
                let done = drevaloci::decode(black_box(bytes), &mut nodes, &mut store);
                assert!(matches!(done, Decoded::Table { nodes, .. } if nodes as usize == rows.len()));
            })
        }
    };
    let (mut nodes, mut store) = (vec![0; 4 * rows.len() + 4], vec![0; hashes]);
    let reading = || {
        clocked(|| {
            let done = drevaloci::decode(black_box(&longer), &mut nodes, &mut store);
            assert!(matches!(done, Decoded::Refused(why) if why.number() == 6));
        })
    };
    let tasks = vec![
        task(|| clocked(|| timed::original_decode(&bytes))),
        task(|| timed::original_decode(&bytes)),
        task(|| timed::original_reading(&longer)),
        task(library(4 * rows.len(), hashes)),
        task(library(drevaloci::NODE_NUMBERS, drevaloci::HASH_BYTES)),
        task(reading),
    ];
    let what = format!("{name}, {} nodes, {} bytes", rows.len(), bytes.len());
    if let Some(times) = contest(aim, &DECODE, tasks) {
        print(&what, &times, &DECODE_PAIRS);
    }
}

/// One program, its arrows and equal nodes judged.
fn arrows_of(aim: &Aim, name: &str, made: &Made) {
    if !aim.wants(name) {
        return;
    }
    let bytes = made.dossier(&mut Rng::new(5)).to_bytes();
    let sections = header::open(&bytes).expect("within the limits");
    let table = Table::of(&Decoding::of(sections[1].1, false).read);
    let tables = Tables {
        types: sections[0].1,
        nodes: &table.nodes,
        arrows: sections[2].1,
        program: sections[1].1,
        hashes: &table.hashes,
    };
    assert_eq!(drevaloci::arrows(tables), Checked::Passed);
    let tasks = vec![
        task(|| clocked(|| drevaloci::walk(black_box(tables.program), tables.hashes, tables.nodes))),
        task(|| clocked(|| drevaloci::arrows(black_box(tables)))),
    ];
    if let Some(times) = contest(aim, &ARROWS, tasks) {
        print(&format!("{name}, {} nodes, {} bytes", made.rows.len(), bytes.len()), &times, &ARROW_PAIRS);
    }
}

/// One program, run.
fn running(aim: &Aim, name: &str, made: &Made, input: Value) {
    if let Aim::Lines = aim {
        println!("{name}");
    }
    if !aim.wants(name) {
        return;
    }
    let job = timed::job(made, input);
    let largest = RefCell::new(Largest::new());
    let want = Answer::Value(job.output as u32);
    assert_eq!(largest.borrow_mut().run(&job.bytes), want);
    assert_eq!(largest.borrow_mut().tables(&job.bytes, &job.table, true), want);
    let cleared = || {
        largest.borrow_mut().clear();
        largest.borrow_mut().run(&job.bytes)
    };
    let tasks = vec![
        task(|| timed::original_exec(&job, false)),
        task(|| timed::original_exec(&job, true)),
        task(|| clocked(|| timed::original_whole(&job.bytes))),
        task(|| clocked(|| largest.borrow_mut().run(&job.bytes))),
        task(|| clocked(cleared)),
        task(|| clocked(|| largest.borrow_mut().tables(&job.bytes, &job.table, true))),
        task(|| clocked(|| largest.borrow_mut().tables(&job.bytes, &job.table, false))),
    ];
    let Some(mut times) = contest(aim, &RUN, tasks) else {
        return;
    };
    let (all, checks) = (&times[5], &times[6]);
    let machine = Time { best: all.best - checks.best, median: all.median - checks.median };
    times.push(machine);
    let needs = nodes::needs(&job.made);
    let what = format!("{name}; cost {}, {} cells, {} frames", needs.cost, needs.cells, needs.frames);
    print(&what, &times, &RUN_PAIRS);
}

/// Large copies: aligned, random and zero, and with cursors at different places in a byte.
fn copies(aim: &Aim) {
    let w = types::word;
    let mut rng = Rng::new(3);
    let wide = w(15);
    let iden = |k: usize| families::fixed(families::doubled_iden(k), &wide, &wide);
    running(aim, "copy of 32,768 bits, random", &iden(0), any_value(&mut rng, &wide));
    running(aim, "the same 64 times", &iden(6), any_value(&mut rng, &wide));
    running(aim, "the same 64 times, zeros", &iden(6), Value::zero(&wide));
    let source = types::product(&w(0), &w(14));
    let target = types::sum(&w(14), &Final::unit());
    let rows = vec![Row::Iden, Row::Drop(0), Row::InjL(1)];
    let made = families::fixed(rows, &source, &target);
    running(aim, "copy of 16,384 bits, not aligned, random", &made, any_value(&mut rng, &source));
    let odd = types::of_width(32_767);
    let doubled = families::fixed(families::doubled_iden(6), &odd, &odd);
    running(aim, "copy of 32,767 bits 64 times, not aligned", &doubled, any_value(&mut rng, &odd));
}

/// Comps: deep and doubled, at several widths.
fn comps(aim: &Aim) {
    let mut rng = Rng::new(4);
    let mut at = |name: &str, rows: Vec<Row>, ty: &Arc<Final>| {
        running(aim, name, &families::fixed(rows, ty, ty), any_value(&mut rng, ty));
    };
    at("1,022 nested comps, width 0", families::nested_comp(1_022), &Final::unit());
    at("1,022 nested comps, width 1", families::nested_comp(1_022), &types::word(0));
    at("1,022 nested comps, width 128", families::nested_comp(1_022), &types::word(7));
    at("comp doubled 17 times, width 0", families::doubled_iden(17), &Final::unit());
    at("comp doubled 17 times, width 8", families::doubled_iden(17), &types::word(3));
}

/// Mixed programs, and witnesses that are visited often.
fn mixtures(aim: &Aim) {
    let mut rng = Rng::new(6);
    let tree = families::fixed(families::xor_tree(14), &types::word(1), &types::word(0));
    running(aim, "exclusive or, 14 levels: pair, comp, case, take, drop", &tree, any_value(&mut rng, &types::word(1)));
    let deep = families::thrown_witness(11, &families::deep_type(400));
    running(aim, "witness of 400 bits, 800 records deep, 2,048 times", &deep, Value::unit());
    let flat = families::thrown_witness(11, &types::of_width(400));
    running(aim, "witness of 400 bits, flat, 2,048 times", &flat, Value::unit());
    let small =
        families::fixed(vec![Row::Unit, Row::InjL(0)], &Final::unit(), &types::sum(&Final::unit(), &types::word(0)));
    running(aim, "the 81-byte dossier: injl of unit", &small, Value::unit());
}

/// Every line of the machine.
fn machine(aim: &Aim) {
    copies(aim);
    comps(aim);
    mixtures(aim);
}

/// Every line of naturals.
fn all_naturals(aim: &Aim) {
    naturals(aim, "1 to 8", |rng| 1 + rng.below(8));
    naturals(aim, "1 to 2,048", |rng| 1 + rng.below(2_048));
    naturals(aim, "of any length", |rng| {
        let bits = rng.below(32);
        (1usize << bits) + rng.below(1 << bits)
    });
}

/// Every line of the stage of the arrows.
fn arrows(aim: &Aim) {
    let one = Final::unit();
    arrows_of(aim, "comps of one arrow", &families::fixed(families::comp_chains(NODE_COUNT), &one, &one));
    arrows_of(
        aim,
        "words of 64 bits, unlike in the last ones, each thrown away",
        &families::thrown_words(NODE_COUNT),
    );
}

/// Every line of decoding.
fn decoding(aim: &Aim) {
    for n in [1_000, 1_500, 2_048, NODE_COUNT - 1] {
        decoding_of(aim, "chain", n, families::chain);
        decoding_of(aim, "pairs", n, families::pairs);
        decoding_of(aim, "gates", n, families::gates);
    }
}

/// Measures what is asked for.
fn measure() {
    let args: Vec<String> = std::env::args().collect();
    let words: Vec<&str> = args.iter().skip(1).map(String::as_str).collect();
    match words[..] {
        ["--lines"] => return machine(&Aim::Lines),
        ["--calls", count, rival, line] => {
            let count = count.parse().expect("a count");
            let aim = Aim::Calls { count, rival: rival.into(), line: line.into() };
            all_naturals(&aim);
            decoding(&aim);
            arrows(&aim);
            return machine(&aim);
        }
        _ => {}
    }
    let quick = args.iter().any(|arg| arg == "--quick");
    let only = args.iter().position(|arg| arg == "--only").map(|at| args[at + 1].clone());
    let wanted = |part: &str| only.as_deref().is_none_or(|name| name == part);
    let effort =
        Effort { batch: Duration::from_millis(if quick { 4 } else { 20 }), batches: if quick { 5 } else { 31 } };
    println!("Microseconds: the best of {} batches (the median), processor time of one thread.", effort.batches);
    println!("Stores lent to the library are not cleared between calls, except where a column says so.");
    let aim = Aim::Time(effort);
    if wanted("naturals") {
        heading("Naturals", &NATURALS, &NATURAL_PAIRS);
        all_naturals(&aim);
    }
    if wanted("decode") {
        heading("Decoding", &DECODE, &DECODE_PAIRS);
        decoding(&aim);
    }
    if wanted("arrows") {
        heading("The stage of the arrows", &ARROWS, &ARROW_PAIRS);
        arrows(&aim);
    }
    if wanted("machine") {
        heading("The machine and the whole job", &RUN, &RUN_PAIRS);
        machine(&aim);
    }
}

fn main() {
    let big = std::thread::Builder::new().stack_size(512 << 20);
    big.spawn(measure).unwrap().join().unwrap();
}
