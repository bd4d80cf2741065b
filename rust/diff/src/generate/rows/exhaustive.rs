//! All streams of a few bytes over a set of small schemas, under limits that come round in turn.

use plain::settings::Settings;

use super::usual;
use crate::case::{op, Case};
use crate::generate::exhaustive::each_choice;
use crate::generate::{Emit, Kind};
use crate::plan::{inline, lay_out, over, Plan};

const KIND: Kind = "all short streams";

/// Columns, each a tree in level order, on which a walk can do something that it can't on the others.
fn columns() -> Vec<Vec<Plan>> {
    let leaf = |code| vec![Plan::new(code, 0)];
    let mut columns: Vec<Vec<Plan>> = (0..20).map(leaf).collect();
    let (nothing, boolean, int8, int16, uint8, string) = (0, 1, 2, 3, 8, 13);
    columns.extend([
        over(15, &[nothing, uint8]),
        over(15, &[nothing, string]),
        over(15, &[uint8, nothing, int16]),
        over(16, &[nothing, uint8]),
        over(16, &[14, boolean]),
        over(17, &[boolean, int8]),
        over(17, &[nothing]),
        over(17, &[string, nothing]),
        over(17, &[17]),
        over(18, &[nothing, uint8]),
        over(18, &[string]),
        over(19, &[uint8, uint8]),
        over(19, &[int16, nothing, boolean]),
        over(19, &[string, uint8]),
    ]);
    let nested = |outer: u8, inner: u8, leaves: &[u8]| {
        let mut plans = vec![Plan::new(outer, 1)];
        plans.extend(over(inner, leaves));
        plans
    };
    columns.extend([
        nested(17, 19, &[uint8, boolean]),
        nested(17, 17, &[nothing, uint8]),
        nested(17, 15, &[nothing, uint8]),
        nested(15, 17, &[uint8]),
        nested(19, 15, &[nothing, string]),
        nested(18, 19, &[nothing, string]),
    ]);
    columns
}

/// A format of one table for each list of columns.
fn format(tables: &[Vec<Vec<Plan>>]) -> Case {
    let mut case = Case::default();
    for columns in tables {
        let mut plans = vec![Plan::new(19, columns.len() as u32)];
        // Level order over several columns: their roots, then level by level what stands below.
        let mut levels: Vec<Vec<Plan>> = Vec::new();
        for column in columns {
            for (depth, level) in levels_of(column).into_iter().enumerate() {
                if levels.len() <= depth {
                    levels.push(Vec::new());
                }
                levels[depth].extend(level);
            }
        }
        for (index, root) in levels.first_mut().into_iter().flatten().enumerate() {
            root.name = Some(vec![b'a' + index as u8]);
        }
        plans.extend(levels.into_iter().flatten());
        let block = lay_out(&plans, &mut case.records, &mut case.names);
        case.references.extend(inline(block));
    }
    case
}

fn levels_of(column: &[Plan]) -> Vec<Vec<Plan>> {
    let mut levels = Vec::new();
    let (mut from, mut count) = (0, 1);
    while count > 0 {
        let level = column[from..from + count].to_vec();
        from += count;
        count = level.iter().map(|plan| plan.children as usize).sum();
        levels.push(level);
    }
    levels
}

/// Settings that come round: the usual ones, small row limits under the original's charge, small blob
/// limits, and a charge of 1.
fn settings(turn: usize) -> Settings {
    let usual = usual();
    let step = turn / 8;
    let near = (step % 7) as u64 * usual.node_charge + (step / 7 % 4) as u64;
    match turn % 8 {
        0..=3 => usual,
        4 => Settings { max_row_bytes: near, ..usual },
        5 => Settings { max_row_bytes: near.saturating_sub(1), ..usual }.with_max_blob_bytes(1),
        6 => usual.with_max_blob_bytes((step % 3) as u64),
        _ => Settings { node_charge: 1, max_row_bytes: (step % 8) as u64, ..usual }.with_max_blob_bytes(2),
    }
}

/// Every stream of up to `most` bytes from an alphabet, behind a prefix.
fn streams(format: &Case, prefix: &[u8], alphabet: &[u8], most: usize, turn: &mut usize, emit: &mut Emit) {
    for length in 0..=most {
        each_choice(alphabet, length, &mut |bytes| {
            *turn += 1;
            // The turn of the call goes on by itself, so that each meets all settings.
            let op = [op::SKIP, op::RUN][(*turn / 3) % 2];
            let input = [prefix, bytes].concat();
            emit(KIND, Case { op, input, ..format.clone() }.with_settings(settings(*turn)));
        });
    }
}

pub fn fixed(emit: &mut Emit) {
    let mut turn = 0;
    let columns = columns();
    for column in &columns {
        let format = format(&[vec![column.clone()]]);
        streams(&format, &[0, 0], &[0, 1, 2, 254, 255], 5, &mut turn, emit);
        streams(&format, &[0, 0], &[0, 1, 255], 8, &mut turn, emit);
    }
    // Two columns each, so that what ends one begins the other.
    for (one, other) in columns.iter().zip(columns.iter().skip(13)) {
        let format = format(&[vec![one.clone(), other.clone()]]);
        streams(&format, &[0, 0], &[0, 1, 3, 255], 5, &mut turn, emit);
    }
    // Two tables: every stream of two bytes whatsoever, and longer ones with tags of either table.
    let all: Vec<u8> = (0..=255).collect();
    let two = format(&[vec![columns[8].clone(), columns[21].clone()], vec![columns[25].clone()]]);
    streams(&two, &[], &all, 2, &mut turn, emit);
    streams(&two, &[], &[0, 1, 255], 9, &mut turn, emit);
    streams(&format(&[vec![]]), &[], &[0, 1, 255], 7, &mut turn, emit);
}
