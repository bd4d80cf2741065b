//! Where cases come from: fixed ones that every run goes through, and random ones that fill it up.

pub mod damage;
pub mod deliveries;
pub mod edges;
pub mod exhaustive;
pub mod formats;
pub mod indexes;
pub mod integers;
pub mod named_edges;
pub mod named_formats;
pub mod names;
pub mod rows;
pub mod small_formats;
pub mod trees;
pub mod words;
pub mod writes;

use crate::case::Case;
use crate::rng::Rng;

/// What kind of case it is, for the count at the end.
pub type Kind = &'static str;

/// Random cases with a limit for string32 and another for yson32.
pub const TWO_BLOB_LIMITS: Kind = "two blob limits";

/// Fixed cases with names that are no text, or are in an unusual way.
pub const NAMES: Kind = "names";

/// Takes the cases one by one.
pub type Emit<'a> = dyn FnMut(Kind, Case) + 'a;

/// Every fixed case.
pub fn fixed(emit: &mut Emit) {
    words::fixed(emit);
    exhaustive::fixed(emit);
    small_formats::fixed(emit);
    edges::fixed(emit);
    named_edges::fixed(emit);
}

/// One random case.
pub fn random(rng: &mut Rng) -> (Kind, Case) {
    match rng.below(200) {
        0..=3 => ("parse", words::random_parse(rng)),
        4 => ("fixed width", words::random_width(rng)),
        5..=54 => ("random tree", trees::random_case(rng)),
        55..=104 => ("random format", formats::random_format(rng)),
        105..=129 => ("random table", formats::random_table(rng)),
        130..=159 => ("damaged field", damage::damaged(rng)),
        160..=179 => ("changed bytes", damage::mutated(rng)),
        180..=187 => ("block numbers", damage::block_numbers(rng)),
        188..=191 => ("ragged table", damage::ragged(rng)),
        192..=195 => ("overlapping blocks", formats::overlapping(rng)),
        _ => ("names not UTF-8", formats::not_utf8(rng)),
    }
}
