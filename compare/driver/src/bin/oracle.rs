//! Answers questions with the original alone, one line each, from standard input.
//!
//!   nat BOUND HEX [START]        a natural from bit START; BOUND a number or -
//!   decode HEX                   decode and close: the rows, or the error
//!   place HEX                    the node at which reading stopped (3 to 5)
//!   infer HEX                    decode, then the inferred type table and arrows
//!   roots HEX                    decode, then the commitment roots of all nodes
//!   value TYPES INDEX BITS HEX   compact bits of a type to padded cells; TYPES as in a dossier
//!   dossier HEX [OLD]            arrows, bounds and a run; OLD: cells beforehand
//!
//! HEX may be - for no bytes.

use compare::bits::{hex, text, unhex};
use compare::document::header;
use compare::dossier::{self, TypeTable};
use compare::original::machine::{self, Ended};
use compare::original::{decode, nodes, typing};
use compare::row::Row;
use simplicity::bititer::DecodeNaturalError;
use simplicity::types::arrow::FinalArrow;
use simplicity::{BitIter, Value};
use std::io::{self, BufRead, Write};

/// A natural from some bit.
fn natural(words: &[&str]) -> Option<String> {
    let bound = words.get(1)?.parse::<usize>().ok();
    let bytes = unhex(words.get(2)?)?;
    let start = words.get(3).map_or(Some(0), |text| text.parse::<usize>().ok())?;
    let mut stream = BitIter::from(&bytes[..]);
    for _ in 0..start {
        stream.read_bit().ok()?;
    }
    let said = match stream.read_natural::<usize>(bound) {
        Ok(value) => format!("ok {value}"),
        Err(DecodeNaturalError::EndOfStream(_)) => "refused 3".to_owned(),
        Err(DecodeNaturalError::BadIndex { got, max }) => format!("refused 4 bound {got} {max}"),
        Err(_) => "refused 4 overflow".to_owned(),
    };
    Some(format!("{said} bits={}", stream.n_total_read()))
}

/// An error of decoding.
fn refused(refused: &decode::Refused) -> String {
    format!("refused {} {} bits={}", refused.number, refused.name, refused.bits)
}

/// A row: its kind, then its children, hash, or word.
fn row_text(row: &Row) -> String {
    match (row, row.children()) {
        (Row::Fail(_) | Row::Hidden(_), _) => format!("{}:{}", row.kind(), hex(row.hash_bytes())),
        (Row::Word(word), _) => format!("14:{}:{}", word.n() + 1, text(word.iter())),
        (_, (Some(i), Some(j))) => format!("{}:{i}:{j}", row.kind()),
        (_, (Some(i), None)) => format!("{}:{i}", row.kind()),
        _ => row.kind().to_string(),
    }
}

/// Texts of some things, with spaces between.
fn joined<T>(things: &[T], text: impl Fn(&T) -> String) -> String {
    things.iter().map(text).collect::<Vec<_>>().join(" ")
}

/// The rows of a program.
fn rows(bytes: &[u8]) -> String {
    match decode::decode(bytes) {
        Ok((rows, bits)) => format!("ok {} bits={bits} {}", rows.len(), joined(&rows, row_text)),
        Err(r) => refused(&r),
    }
}

/// The node at which reading stopped.
fn place(bytes: &[u8]) -> String {
    match decode::decode(bytes) {
        Err(r) if (3..=5).contains(&r.number) => format!("{} {}", r.number, decode::reading_place(bytes)),
        _ => "none".to_owned(),
    }
}

/// The inferred types and arrows of a program.
fn infer(bytes: &[u8]) -> String {
    let rows = match decode::decode(bytes) {
        Ok((rows, _)) => rows,
        Err(r) => return refused(&r),
    };
    match typing::infer(&rows, None) {
        Err(at) => format!("type error at {at}"),
        Ok(arrows) => {
            let mut types = TypeTable::default();
            let arrows: Vec<(u16, u16)> = arrows.iter().map(|arrow| types.arrow(arrow)).collect();
            let records: Vec<u8> = types.records.iter().flat_map(dossier::type_bytes).collect();
            format!("ok types={} arrows={}", hex(&records), joined(&arrows, |(s, t)| format!("{s},{t}")))
        }
    }
}

/// The roots of a program.
fn roots(bytes: &[u8]) -> String {
    match decode::decode(bytes) {
        Ok((rows, _)) => format!("ok {}", joined(&typing::roots(&rows), |root| root.to_string())),
        Err(r) => refused(&r),
    }
}

/// Compact bits as padded cells.
fn value(words: &[&str]) -> Option<String> {
    let finals = dossier::finals(&unhex(words.get(1)?)?);
    let ty = finals.get(words.get(2)?.parse::<usize>().ok()?)?;
    let count: usize = words.get(3)?.parse().ok()?;
    let bytes = unhex(words.get(4)?)?;
    let mut stream = BitIter::from(&bytes[..]);
    let value = Value::from_compact_bits(&mut stream, ty);
    let read = stream.n_total_read();
    Some(match value {
        Ok(value) if read <= count => {
            let (padded, compact) = (text(value.iter_padded()), text(value.iter_compact()));
            format!("ok width={} read={read} padded={padded} compact={compact}", ty.bit_width())
        }
        _ => "short".to_owned(),
    })
}

/// A run of nodes that fit: the answer, the bounds and the cells left.
fn ended(nodes: &nodes::Nodes, ended: &Ended) -> Option<String> {
    let bounds = nodes.last()?.as_ref()?.bounds();
    let mut visits: u32 = ended.visits.iter().sum();
    let answer = match &ended.result {
        Ok(bits) if bits.is_empty() => "value 0".to_owned(),
        Ok(bits) => format!("value {} {}", bits.len(), text(bits.iter().copied())),
        Err((number, place)) => {
            visits -= 1;
            format!("refused {number} {place}")
        }
    };
    let (cells, frames, cost) = (bounds.extra_cells, bounds.extra_frames, bounds.cost);
    let cells_left = if ended.cells.is_empty() { String::new() } else { hex(&ended.cells) };
    Some(format!("{answer} extra_cells={cells} extra_frames={frames} cost={cost} visits={visits} cells={cells_left}"))
}

/// The run of a dossier whose program and arrows fit.
fn run(rows: &[Row], arrows: &[FinalArrow], sections: &header::Sections, old: &[u8]) -> Option<String> {
    let values = match nodes::witness_values(rows, arrows, sections[3].1, sections[3].0) {
        Ok(values) => values,
        Err(at) => return Some(format!("refused 15 {at}")),
    };
    let nodes = nodes::make(rows, arrows, &values);
    let Some(input) = nodes::input_value(arrows.last()?, sections[4].1, sections[4].0) else {
        return Some("refused 16 0".to_owned());
    };
    let mut cells = old.to_vec();
    cells.resize(nodes::needs(&nodes).cells.div_ceil(8).max(old.len()), 0);
    ended(&nodes, &machine::run(&nodes, &input, &cells))
}

/// A dossier, from its bytes to its answer.
fn whole(words: &[&str]) -> Option<String> {
    let bytes = unhex(words.get(1)?)?;
    let old = words.get(2).map_or(Some(vec![]), |text| unhex(text))?;
    let sections = header::open(&bytes).ok()?;
    header::widths(sections[0].1).ok()?;
    let finals = dossier::finals(sections[0].1);
    let arrows = dossier::final_arrows(&finals, sections[2].1);
    let rows = match decode::decode(sections[1].1) {
        Ok((rows, _)) => rows,
        Err(r) => return Some(refused(&r)),
    };
    if let Some(at) = rows.iter().position(|row| matches!(row, Row::Disconnect1(_))) {
        return Some(format!("refused 11 {at}"));
    }
    if rows.len() != arrows.len() {
        return Some(format!("refused 12 {}", rows.len()));
    }
    match typing::first_unfit(&rows, &arrows) {
        Some(at) => Some(format!("refused 12 {at}")),
        None => run(&rows, &arrows, &sections, &old),
    }
}

/// The answer to a line; none where it is no question.
fn answer(line: &str) -> Option<String> {
    let words: Vec<&str> = line.split_whitespace().collect();
    let bytes = || unhex(words.get(1)?);
    match *words.first()? {
        "nat" => natural(&words),
        "decode" => Some(rows(&bytes()?)),
        "place" => Some(place(&bytes()?)),
        "infer" => Some(infer(&bytes()?)),
        "roots" => Some(roots(&bytes()?)),
        "value" => value(&words),
        "dossier" => whole(&words),
        _ => None,
    }
}

fn main() -> io::Result<()> {
    let mut out = io::BufWriter::new(io::stdout().lock());
    for line in io::stdin().lock().lines() {
        let line = line?;
        if !line.trim().is_empty() {
            writeln!(out, "{}", answer(&line).unwrap_or_else(|| "bad question".to_owned()))?;
            out.flush()?;
        }
    }
    Ok(())
}
