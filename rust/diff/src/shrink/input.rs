//! Shorter streams and plainer settings.

use plain::settings::Settings;

use super::blocks::stretches;
use crate::case::Case;

/// How far the settings are from the defaults, to which shrinking leads them back.
pub fn oddness(case: &Case) -> u128 {
    if !case.reads() {
        return 0;
    }
    let usual = Settings::default();
    [
        case.node_charge.abs_diff(usual.node_charge),
        case.max_string32_bytes.abs_diff(usual.max_string32_bytes),
        case.max_yson32_bytes.abs_diff(usual.max_yson32_bytes),
        case.max_row_bytes.abs_diff(usual.max_row_bytes),
    ]
    .map(u128::from)
    .iter()
    .sum()
}

pub fn candidates(case: &Case, found: &mut Vec<Case>) {
    settings(case, found);
    for (from, count) in stretches(case.input.len()) {
        let mut shorter = case.clone();
        shorter.input.drain(from..from + count);
        found.push(shorter.clone());
        // What stood at the position still does.
        if case.a >= (from + count) as u64 {
            found.push(Case { a: case.a - count as u64, ..shorter });
        }
    }
    // All that stands before the position, which then is 0.
    if let Some(rest) = usize::try_from(case.a).ok().and_then(|at| case.input.get(at..)) {
        found.push(Case { a: 0, input: rest.to_vec(), ..case.clone() });
    }
}

/// Larger cases are not gone through pair by pair.
const MOST_BYTES: usize = 400;
const MOST_PLACES: usize = 40;
const MOST_CHARGES: u64 = 2;

/// A node goes together with the bytes that it stood for, and with what it cost: each smaller schema
/// found so far, with each short stretch of the input left out, under the limit and lower ones.
pub fn with_fewer_bytes(case: &Case, found: &mut Vec<Case>) {
    if case.bytes() > MOST_BYTES {
        return;
    }
    let fewer: Vec<Case> =
        found.iter().filter(|one| one.records.len() < case.records.len()).cloned().collect();
    for smaller in fewer {
        for charges in 0..=MOST_CHARGES {
            let cost = charges.saturating_mul(case.node_charge);
            let max_row_bytes = case.max_row_bytes.saturating_sub(cost);
            for count in [0, 1, 2, 4] {
                for from in (0..(smaller.input.len() + 1).saturating_sub(count)).take(MOST_PLACES) {
                    let mut shorter = Case { max_row_bytes, ..smaller.clone() };
                    shorter.input.drain(from..from + count);
                    found.push(shorter);
                }
            }
        }
    }
}

fn settings(case: &Case, found: &mut Vec<Case>) {
    let (now, usual) = (case.settings(), Settings::default());
    let step = |from: u64, to: u64| if from < to { from + 1 } else { from.saturating_sub(1) };
    let nearer = |from: u64, to: u64| [to, u64::midpoint(from, to), step(from, to)];
    let mut push = |settings| found.push(case.clone().with_settings(settings));
    push(usual);
    for node_charge in nearer(now.node_charge, usual.node_charge) {
        push(Settings { node_charge, ..now });
    }
    for max_string32_bytes in nearer(now.max_string32_bytes, usual.max_string32_bytes) {
        push(Settings { max_string32_bytes, ..now });
    }
    for max_yson32_bytes in nearer(now.max_yson32_bytes, usual.max_yson32_bytes) {
        push(Settings { max_yson32_bytes, ..now });
    }
    for max_row_bytes in nearer(now.max_row_bytes, usual.max_row_bytes) {
        push(Settings { max_row_bytes, ..now });
    }
}
