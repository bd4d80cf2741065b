//! Limits at and around equality, and settings at and outside their bounds.

use plain::settings::{Settings, MOST};

use super::damage::change;
use super::usual;
use super::values::{good, good_with_blobs, Cost, Stream};
use crate::case::{op, Case};
use crate::rng::Rng;

/// A number just below, at or just above another.
fn around(rng: &mut Rng, number: u64) -> u64 {
    (number + rng.below(3) as u64).saturating_sub(1)
}

/// What one of the rows costs, which a skip is to begin with.
fn one_row(rng: &mut Rng, case: &mut Case, stream: &Stream) -> Cost {
    let chosen = rng.below(stream.costs.len().max(1));
    if case.op == op::SKIP {
        case.a = stream.starts.get(chosen).copied().unwrap_or(0);
    }
    stream.costs.get(chosen).copied().unwrap_or_default()
}

/// A row limit at what a row costs, or what its first few nodes do; a blob limit at its longest blob.
pub fn at_equality(rng: &mut Rng) -> Case {
    let (mut case, stream) = good(rng);
    let cost = one_row(rng, &mut case, &stream);
    let node_charge = match rng.below(6) {
        0 => 1,
        1 => 4_096,
        2 => rng.between(1, 100) as u64,
        _ => usual().node_charge,
    };
    let max_row_bytes = match rng.below(6) {
        0 => node_charge * rng.below(cost.nodes as usize + 2) as u64 + rng.below(4) as u64,
        1 => usual().max_row_bytes,
        _ => around(rng, cost.under(node_charge)),
    };
    let blob_bytes = match rng.below(4) {
        0 => 0,
        1 => around(rng, cost.longest()),
        2 => rng.below(12) as u64,
        _ => usual().max_string32_bytes,
    };
    let settings = Settings { node_charge, max_row_bytes, ..usual() };
    case.with_settings(settings.with_max_blob_bytes(blob_bytes))
}

/// Limits at their bounds, beyond them, and such as would do if cut to 32 bits.
const EDGES: [u64; 11] = [0, 1, 48, 95, 96, 1_000, MOST - 1, MOST, MOST + 1, MOST + 1_000, u64::MAX];

/// Charges and limits at their bounds, beyond them, and such as would do if cut to 32 bits.
pub fn odd_settings(rng: &mut Rng) -> Case {
    let (case, _) = good(rng);
    let charge = [0, 1, 2, 48, 4_095, 4_096, 4_097, (1 << 32) + 48, u64::MAX];
    let mut settings = usual();
    if rng.one_in(2) {
        settings.node_charge = *rng.pick(&charge);
    }
    if rng.one_in(2) {
        settings = settings.with_max_blob_bytes(*rng.pick(&EDGES));
    }
    if rng.one_in(2) {
        settings.max_row_bytes = *rng.pick(&EDGES);
    }
    case.with_settings(settings)
}

/// Limits for string32 and yson32, of which the longest have so many bytes: each at or beside its own, seldom at an
/// edge, and now and then the one's for the other.
pub fn two_limits(rng: &mut Rng, longest: [u64; 2]) -> [u64; 2] {
    let [string32, yson32] = longest.map(|length| match rng.below(12) {
        0 => 0,
        1 => MOST,
        2 => *rng.pick(&EDGES),
        3 => rng.below(12) as u64,
        4 => usual().max_string32_bytes,
        _ => around(rng, length),
    });
    if rng.one_in(6) {
        [yson32, string32]
    } else {
        [string32, yson32]
    }
}

/// Rows with blobs of both types, mostly whole, under a limit for each.
pub fn two_blob_limits(rng: &mut Rng) -> Case {
    let (mut case, stream) = good_with_blobs(rng);
    let cost = one_row(rng, &mut case, &stream);
    if rng.one_in(6) {
        change(rng, &mut case.input);
        case.a = case.a.min(case.input.len() as u64);
    }
    let [max_string32_bytes, max_yson32_bytes] =
        two_limits(rng, [cost.longest_string32, cost.longest_yson32]);
    let mut settings = Settings { max_string32_bytes, max_yson32_bytes, ..usual() };
    if rng.one_in(4) {
        settings.max_row_bytes = around(rng, cost.under(settings.node_charge));
    }
    case.with_settings(settings)
}

#[cfg(test)]
mod tests {
    use super::*;
    use crate::judge::plain_report;

    /// Most have two different limits; rows are accepted under them, and blobs of either type refused.
    #[test]
    fn both_limits_are_at_work() {
        let (mut accepted, mut too_large) = (0, [0, 0]);
        for number in 0..3_000 {
            let case = two_blob_limits(&mut Rng::for_case(8, number));
            let report = plain_report(&case);
            match report.number {
                _ if case.has_one_blob_limit() => {}
                0 => accepted += 1,
                14 => too_large[report.carried[0] as usize - 13] += 1,
                _ => {}
            }
        }
        let [string32, yson32] = too_large;
        assert!(accepted > 500 && string32 > 100 && yson32 > 100, "{accepted} {too_large:?}");
    }
}
