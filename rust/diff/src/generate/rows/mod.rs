//! Cases of the reading calls: fixed ones, and random ones to fill a run up.

pub mod damage;
pub mod decoding;
pub mod edges;
pub mod exhaustive;
pub mod limits;
pub mod registries;
pub mod values;

use plain::settings::Settings;

use super::{named_edges, Emit, Kind, TWO_BLOB_LIMITS};
use crate::case::{op, Case};
use crate::original::node_charge;
use crate::rng::Rng;

/// Every fixed case.
pub fn fixed(emit: &mut Emit) {
    edges::fixed(emit);
    exhaustive::fixed(emit);
    named_edges::fixed_rows(emit);
}

/// One random case.
pub fn random(rng: &mut Rng) -> (Kind, Case) {
    match rng.below(110) {
        0..=24 => ("random rows", values::random_rows(rng)),
        25..=44 => ("limits at equality", limits::at_equality(rng)),
        45..=49 => ("odd settings", limits::odd_settings(rng)),
        50..=67 => ("damaged rows", damage::changed(rng)),
        68..=79 => ("cut rows", damage::cut(rng)),
        80..=84 => ("random bytes", damage::random_bytes(rng)),
        85..=89 => ("positions", damage::positions(rng)),
        90..=96 => ("bad formats", damage::bad_format(rng)),
        97..=99 => ("names not UTF-8", damage::not_utf8(rng)),
        _ => (TWO_BLOB_LIMITS, limits::two_blob_limits(rng)),
    }
}

/// The default limits with the original's charge, so that it can be asked too.
pub fn usual() -> Settings {
    Settings { node_charge: node_charge(), ..Settings::default() }
}

/// Skip or run, the one as often as the other.
fn either(rng: &mut Rng) -> u32 {
    [op::SKIP, op::RUN][rng.below(2)]
}
