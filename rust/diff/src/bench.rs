//! Case files for timing: one inline table of a given number of records, again and again.

use crate::case::{op, Case};
use crate::compare::Expected;
use crate::plan::{inline, lay_out, Plan};
use crate::rng::Rng;

pub const RECORDS: [usize; 5] = [1_024, 4_096, 16_384, 65_536, 131_072];

/// A table of exactly `records` records: tuples and variants over scalars, a few levels deep.
fn plans(records: usize) -> Vec<Plan> {
    let mut rng = Rng::new(records as u64);
    let mut plans: Vec<Plan> = Vec::new();
    let mut met = 1;
    while plans.len() < met {
        let root = plans.is_empty();
        let last_chance = plans.len() + 1 == met;
        let wished = match rng.below(3) {
            _ if root => 16,
            _ if last_chance => 4,
            0 => 2,
            1 => rng.between(3, 12),
            _ => 0,
        };
        let children = wished.min(records - met);
        met += children;
        let code = match children {
            _ if root => 19,
            0 => rng.below(15),
            _ => rng.between(15, 19),
        };
        let mut plan = Plan::new(code as u8, children as u32);
        if !root && plans.len() <= plans[0].children as usize {
            plan.name = Some(format!("column {}", plans.len()).into_bytes());
        }
        plans.push(plan);
    }
    plans
}

/// The case, asserted to be an accepted one.
pub fn case(records: usize) -> Case {
    let mut case = Case { op: op::FORMAT, ..Case::default() };
    let block = lay_out(&plans(records), &mut case.records, &mut case.names);
    case.references.extend(inline(block));
    assert_eq!(block.count, records as u64);
    let expected = Expected::of(&case);
    assert!(expected.is_one() && expected.plain.number == 0, "a case for timing must be accepted");
    case
}

/// How deep it is, for whoever reads the times.
pub fn depth(case: &Case) -> u64 {
    plain::depth::depth(&case.records, plain::tables::reference(&case.references, 0).block())
}

/// A file of `repetitions` equal cases.
pub fn file(case: &Case, repetitions: usize) -> Vec<u8> {
    let mut one = Vec::new();
    case.write_to(&mut one);
    one.repeat(repetitions)
}
