//! All formats of up to two tables and two registry entries over a few blocks that each stand for
//! one answer.

use super::Emit;
use crate::case::{op, Case};
use crate::plan::{lay_out, words, Plan};

/// First record and count of: an empty tuple, a string, a tuple with an unnamed column, a leaf with
/// a child, a good table, the leaf inside it, and a stretch whose second record would be its own child.
const BLOCKS: [[u32; 2]; 7] = [[0, 1], [1, 1], [2, 2], [4, 2], [6, 2], [7, 1], [3, 2]];

/// Start and length in the store `ab`.
const EMPTY: [u32; 2] = [0, 0];
const A: [u32; 2] = [0, 1];
const AB: [u32; 2] = [0, 2];
const B: [u32; 2] = [1, 1];

fn base() -> Case {
    let mut case = Case { names: b"ab".to_vec(), ..Case::default() };
    for plans in [
        vec![Plan::new(19, 0)],
        vec![Plan::new(13, 0)],
        vec![Plan::new(19, 1), Plan::new(1, 0)],
        vec![Plan::new(2, 1), Plan::new(0, 0)],
        vec![Plan::new(19, 1), Plan::named(1, 0, b"a")],
    ] {
        lay_out(&plans, &mut case.records, &mut case.names);
    }
    case
}

/// Tables of nothing, one and two out of `choices`.
fn up_to_two(choices: &[[u8; 16]]) -> Vec<Vec<u8>> {
    let mut tables = vec![Vec::new()];
    for one in choices {
        tables.push(one.to_vec());
        tables.extend(choices.iter().map(|two| [*one, *two].concat()));
    }
    tables
}

pub fn fixed(emit: &mut Emit) {
    let mut references = Vec::new();
    references.extend(BLOCKS.map(|[first, count]| words([0, first, count, 0])));
    references.extend([EMPTY, A, AB, B].map(|[start, length]| words([1, start, length, 0])));
    references.push(words([2, 0, 1, 0]));
    let mut entries = Vec::new();
    for [start, length] in [EMPTY, A, AB] {
        entries.extend(BLOCKS[..4].iter().map(|[first, count]| words([start, length, *first, *count])));
    }
    let registries = up_to_two(&entries);
    let mut turn = 0;
    for references in up_to_two(&references) {
        for registry in &registries {
            let (references, registry) = (references.clone(), registry.clone());
            let case = Case { references, registry, ..base() };
            turn += 1;
            emit("exhaustive formats", Case { op: op::TABLE_SCHEMA, a: turn % 3, ..case.clone() });
            emit("exhaustive formats", Case { op: op::FORMAT, ..case });
        }
    }
}
