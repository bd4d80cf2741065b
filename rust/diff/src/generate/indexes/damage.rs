//! What may be wrong with an index: a field of a record, a bit, records that are missing, more, or exchanged, and
//! tails that are none.

use plain::indexing::{index_record, IndexRecord};
use plain::settings::MOST;

use crate::generate::Kind;
use crate::rng::Rng;

pub const WHOLE: Kind = "whole index";

/// An offset that is another: near its own, near the stream's end, or the same but for high bits.
fn offset(rng: &mut Rng, own: u64, stream: u64, others: &[u64]) -> u64 {
    match rng.below(14) {
        0 => own.wrapping_add(1),
        1 => own.wrapping_sub(1),
        2 => stream,
        3 => stream.saturating_sub(1),
        4 => stream + 1,
        5 => own + (1 << 32),
        6 => own + (1 << 63),
        7 => MOST + rng.below(2) as u64,
        8 => u64::MAX,
        9 => u64::MAX - rng.below(40) as u64,
        10 | 11 if !others.is_empty() => *rng.pick(others),
        12 => rng.below(stream as usize + 1) as u64,
        _ => 0,
    }
}

fn length(rng: &mut Rng, own: u64, stream: u64) -> u64 {
    match rng.below(8) {
        0 | 1 => own.wrapping_add(1),
        2 | 3 => own.wrapping_sub(1),
        4 => 0,
        5 => MOST,
        6 => stream,
        _ => own ^ 1 << rng.below(32),
    }
}

fn table(rng: &mut Rng, own: u64) -> u64 {
    match rng.below(6) {
        0 | 1 => own.wrapping_add(1),
        2 => own.wrapping_sub(1),
        // The same in the sixteen bits that a row's tag has.
        3 => own + 65_536,
        4 => MOST,
        _ => own ^ 1 << rng.below(32),
    }
}

/// One field of record `at` changed, or several.
fn field(rng: &mut Rng, index: &mut [u8], at: usize, stream: u64) -> Kind {
    let others: Vec<u64> =
        (0..index.len() as u64 / 16).map(|other| index_record(index, other).offset).collect();
    let own = index_record(index, at as u64);
    let (kind, changed) = match rng.below(8) {
        0..=3 => ("another offset", IndexRecord { offset: offset(rng, own.offset, stream, &others), ..own }),
        4 | 5 => ("another length", IndexRecord { length: length(rng, own.length, stream), ..own }),
        6 => ("another table", IndexRecord { table: table(rng, own.table), ..own }),
        _ => {
            let offset = offset(rng, own.offset, stream, &others);
            let length = length(rng, own.length, stream);
            ("another record", IndexRecord { offset, length, table: table(rng, own.table) })
        }
    };
    index[at * 16..at * 16 + 16].copy_from_slice(&changed.in_bytes());
    kind
}

/// One record more, at the end or anywhere, or one fewer.
fn more_or_fewer(rng: &mut Rng, index: &mut Vec<u8>, stream: u64) -> Kind {
    let rows = index.len() / 16;
    let at = if rng.one_in(2) { rows } else { rng.below(rows + 1) };
    if rng.one_in(2) && rows > 0 {
        let at = at.min(rows - 1) * 16;
        index.drain(at..at + 16);
        return "a record fewer";
    }
    let more = match rng.below(4) {
        0 if rows > 0 => index_record(index, rng.below(rows) as u64),
        1 => IndexRecord { offset: stream, length: rng.below(9) as u64, table: 0 },
        2 => IndexRecord { offset: rng.draw(), length: rng.byte().into(), table: rng.byte().into() },
        _ => IndexRecord { offset: 0, length: 0, table: 0 },
    };
    index.splice(at * 16..at * 16, more.in_bytes());
    "a record more"
}

/// Damages an index; where `hit` names one of its records, mostly that one.
pub fn damage(rng: &mut Rng, index: &mut Vec<u8>, stream: u64, hit: Option<usize>) -> Kind {
    let rows = index.len() / 16;
    let at = hit.filter(|at| *at < rows).unwrap_or_else(|| rng.below(rows.max(1)));
    match rng.below(20) {
        0..=8 if rows > 0 => field(rng, index, at, stream),
        9..=11 if rows > 0 => {
            index[at * 16 + rng.below(16)] ^= 1 << rng.below(8);
            "a flipped bit"
        }
        12 => {
            let more = rng.between(1, 15);
            index.extend((0..more).map(|_| rng.byte()));
            "a ragged tail"
        }
        13 if rows > 0 => {
            index.truncate(index.len() - rng.between(1, 15));
            "a ragged tail"
        }
        14 | 15 if rows > 1 => {
            let other = (at + rng.between(1, rows - 1)) % rows;
            for byte in 0..16 {
                index.swap(at * 16 + byte, other * 16 + byte);
            }
            "records exchanged"
        }
        16 => {
            let bytes = rng.below(50);
            *index = (0..bytes).map(|_| rng.byte()).collect();
            "any bytes"
        }
        17 => {
            index.clear();
            "no records"
        }
        _ => more_or_fewer(rng, index, stream),
    }
}
