//! Good rows made bad, positions that are no row's start, and formats that are not good.

use plain::settings::MOST;

use super::values::{fill, good};
use super::{either, usual};
use crate::case::{op, Case};
use crate::generate::{damage, formats};
use crate::rng::Rng;

/// Bytes that tags and lengths turn on.
pub const TELLING: [u8; 8] = [0, 1, 2, 3, 0x7F, 0x80, 0xFE, 0xFF];

/// A few bytes changed, taken out, put in or moved.
pub fn change(rng: &mut Rng, input: &mut Vec<u8>) {
    for _ in 0..rng.between(1, 3) {
        if input.is_empty() {
            input.push(rng.byte());
        }
        let at = rng.below(input.len());
        match rng.below(6) {
            0 => input[at] = rng.byte(),
            1 => input[at] ^= 1 << rng.below(8),
            2 => input[at] = *rng.pick(&TELLING),
            3 => input.insert(at, *rng.pick(&TELLING)),
            4 => drop(input.remove(at)),
            _ => {
                let other = rng.below(input.len());
                input.swap(at, other);
            }
        }
    }
}

/// The input of a good case changed.
pub fn changed(rng: &mut Rng) -> Case {
    let (mut case, stream) = good(rng);
    change(rng, &mut case.input);
    if case.op == op::SKIP && !stream.starts.is_empty() {
        case.a = (*rng.pick(&stream.starts)).min(case.input.len() as u64);
    }
    case
}

/// The input cut somewhere, mostly inside its last row.
pub fn cut(rng: &mut Rng) -> Case {
    let (mut case, stream) = good(rng);
    let last = stream.starts.last().copied().unwrap_or(0) as usize;
    let from = if rng.one_in(4) { 0 } else { last };
    let left = rng.between(from, case.input.len());
    case.input.truncate(left);
    if case.op == op::SKIP {
        case.a = last.min(left) as u64;
    }
    case
}

/// Any bytes under a good format: the table's tag is mostly right, nothing else is meant.
pub fn random_bytes(rng: &mut Rng) -> Case {
    let (mut case, _) = good(rng);
    let length = rng.below(24);
    case.input = (0..length).map(|_| if rng.one_in(2) { rng.byte() } else { *rng.pick(&TELLING) }).collect();
    for byte in case.input.iter_mut().take(2) {
        if !rng.one_in(4) {
            *byte = 0;
        }
    }
    case
}

/// Positions inside rows, at the length, beyond it, and such as would do if cut to 32 bits.
pub fn positions(rng: &mut Rng) -> Case {
    let (case, _) = good(rng);
    let length = case.input.len() as u64;
    let a = match rng.below(10) {
        0 => length,
        1 => length + 1,
        2 => MOST + 1,
        3 => (1 << 32) + rng.below(length as usize + 1) as u64,
        4 => u64::MAX - rng.below(3) as u64,
        _ => rng.below(length as usize + 1) as u64,
    };
    Case { op: op::SKIP, a, ..case }
}

/// A format's case turned into a reading one over any input.
fn reading(rng: &mut Rng, case: Case) -> Case {
    let length = rng.below(12);
    let input = (0..length).map(|_| *rng.pick(&TELLING)).collect();
    let a = if rng.one_in(3) { rng.below(length + 2) as u64 } else { 0 };
    let op = either(rng);
    let a = if op == op::SKIP { a } else { 0 };
    Case { op, a, b: 0, input, ..case }.with_settings(usual())
}

/// Formats with damaged records, references or registries, changed bytes, ragged tables, blocks that
/// overlap, and a rule broken here and there.
pub fn bad_format(rng: &mut Rng) -> Case {
    let case = match rng.below(6) {
        0 => damage::damaged(rng),
        1 => damage::mutated(rng),
        2 => damage::ragged(rng),
        3 => formats::overlapping(rng),
        _ => formats::random_format(rng),
    };
    reading(rng, case)
}

/// Names of any bytes, which are text by chance alone.
pub fn not_utf8(rng: &mut Rng) -> Case {
    let mut case = formats::not_utf8(rng);
    if plain::format::validate_format(&crate::judge::tables(&case)).is_err() {
        return reading(rng, case);
    }
    let rows = rng.below(3);
    fill(rng, &mut case, rows);
    Case { op: op::RUN, a: 0, b: 0, ..case }.with_settings(usual())
}
