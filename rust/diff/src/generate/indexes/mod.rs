//! Cases of the index calls: streams good and damaged, each with calls about its index, whole or damaged, at and
//! past the edges of what may be counted.

pub mod damage;
pub mod edges;

use plain::indexing::accepted;
use plain::tables::record_count;

use super::rows::limits::two_blob_limits;
use super::rows::{self, values};
use super::Kind;
use crate::case::{op, Case};
use crate::indexing::{filled, plainly, Call, IndexCase};
use crate::rng::Rng;
use crate::room::{Room, Slack};

/// A good format with usual settings and more rows than the cases of skip and run have.
fn good(rng: &mut Rng) -> Case {
    let mut case = values::good_format(rng);
    let rows = [0, 1, 2, 3, 4, 5, 8, 13][rng.below(8)];
    values::fill(rng, &mut case, rows);
    case
}

/// A stream and its format. About half of them are good; of the others most are refused for what they are.
fn stream(rng: &mut Rng) -> Case {
    let case = match rng.below(11) {
        0..=4 => good(rng),
        5 => {
            let mut case = good(rng);
            rows::damage::change(rng, &mut case.input);
            case
        }
        6 => two_blob_limits(rng),
        _ => rows::random(rng).1,
    };
    Case { op: op::RUN, a: 0, b: 0, ..case }
}

/// What is lent is filled; what is damaged was the index.
const FILLING: usize = 2;

/// The length of an index slice, beside what is needed.
fn length(rng: &mut Rng, need: usize) -> usize {
    match rng.below(16) {
        0..=4 => need,
        5 => need + 1,
        6 => need + 15,
        7 => need + 16,
        8 => need + 17 + rng.below(100),
        9 | 10 => need.saturating_sub(1),
        11 => need.saturating_sub(15),
        12 => need.saturating_sub(16),
        13 => need.saturating_sub(17),
        14 => need / 2,
        _ => 0,
    }
}

/// A count at an edge: those of whole records, one past them, and such as would do if they were cut or multiplied
/// without their highest bits.
fn count(rng: &mut Rng, edges: &[u64]) -> u64 {
    let near = *rng.pick(edges);
    match rng.below(12) {
        0..=3 => near,
        4 | 5 => near.saturating_add(1),
        6 => near.saturating_sub(1),
        7 => (1 << 32) + near,
        8 => (1 << 60) + near,
        9 => 1 << rng.between(4, 63),
        10 => u64::MAX - rng.below(3) as u64,
        _ => rng.below(20) as u64,
    }
}

/// The calls that are made of one stream.
pub fn random(rng: &mut Rng) -> Vec<(Kind, IndexCase)> {
    let stream = stream(rng);
    let whole = accepted(&plainly(&stream)).index();
    vec![
        build(rng, &stream, &whole),
        check(rng, &stream, &whole),
        extend(rng, &stream, &whole),
        row(rng, &stream, &whole),
        row(rng, &stream, &whole),
    ]
}

fn about(call: Call, stream: &Case, index: Vec<u8>) -> IndexCase {
    IndexCase { call, stream: stream.clone(), index, number: 0, lent: [0, 0] }
}

fn build(rng: &mut Rng, stream: &Case, whole: &[u8]) -> (Kind, IndexCase) {
    let index = filled(FILLING, length(rng, whole.len()));
    ("any room", about(Call::Build, stream, index))
}

fn check(rng: &mut Rng, stream: &Case, whole: &[u8]) -> (Kind, IndexCase) {
    let mut index = whole.to_vec();
    let kind = if rng.one_in(3) {
        damage::WHOLE
    } else {
        damage::damage(rng, &mut index, stream.input.len() as u64, None)
    };
    (kind, about(Call::Check, stream, index))
}

/// The first records are there, or all of them, whole or damaged, and room behind them for the others or not.
fn extend(rng: &mut Rng, stream: &Case, whole: &[u8]) -> (Kind, IndexCase) {
    let rows = whole.len() / 16;
    let kept = rng.below(rows + 1);
    let mut index = if rng.one_in(4) { whole.to_vec() } else { whole[..kept * 16].to_vec() };
    let kind = if rng.one_in(3) {
        damage::damage(rng, &mut index, stream.input.len() as u64, kept.checked_sub(1))
    } else {
        damage::WHOLE
    };
    let bytes = length(rng, whole.len());
    let behind = filled(FILLING, bytes.saturating_sub(index.len()));
    index.truncate(bytes);
    index.extend(behind);
    let number = if rng.one_in(3) {
        count(rng, &[0, kept as u64, rows as u64, record_count(&index)])
    } else {
        kept as u64
    };
    (kind, IndexCase { number, ..about(Call::Extend, stream, index) })
}

fn row(rng: &mut Rng, stream: &Case, whole: &[u8]) -> (Kind, IndexCase) {
    let mut index = whole.to_vec();
    let rows = whole.len() / 16;
    let chosen = rng.below(rows.max(1));
    let kind = if rng.one_in(2) {
        damage::WHOLE
    } else {
        // Mostly the record that is looked at; the others must not matter.
        let hit = if rng.one_in(4) { None } else { Some(chosen) };
        damage::damage(rng, &mut index, stream.input.len() as u64, hit)
    };
    let number =
        if rng.one_in(5) { count(rng, &[0, rows as u64, record_count(&index)]) } else { chosen as u64 };
    let case = IndexCase { number, ..about(Call::Row, stream, index) };
    let turn = rng.draw();
    let room = match rng.below(8) {
        0..=3 => Room::enough(turn),
        4 => Room { payload: Slack::Less(1), ..Room::EXACT },
        _ => Room::any(turn),
    };
    (kind, lend(case, room))
}

/// Row n with this room, beside what its row needs.
pub fn lend(case: IndexCase, room: Room) -> IndexCase {
    let a = case.offset().unwrap_or(u64::MAX);
    let decoding = Case { op: op::DECODE, a, ..case.stream.clone() };
    IndexCase { lent: room.lend(decoding).lent(), ..case }
}
