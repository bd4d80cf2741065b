//! From a case that differs to a small one that still does. Records are taken out together with what
//! stands below them, and the fields that count records are put right again, so that a smaller case
//! is refused for the same reason and not for its broken form.

mod blocks;
mod fields;
mod input;

use crate::case::Case;

/// Candidates are tried together, as many as have this many bytes.
const TOGETHER: usize = 16 << 20;

/// What shrinking lowers, first things first; it falls with every step, so shrinking ends.
pub(crate) type Size = (usize, usize, u64, u128);

pub(crate) fn size(case: &Case) -> Size {
    let all = || case.strings().into_iter().flatten();
    let nonzero = all().filter(|byte| **byte != 0).count();
    let sum = all().map(|byte| u64::from(*byte)).sum();
    (case.bytes(), nonzero, sum, u128::from(case.a) + u128::from(case.b) + input::oddness(case))
}

/// Smaller cases, the smallest first.
pub(crate) fn candidates(case: &Case) -> Vec<Case> {
    let mut found = Vec::new();
    blocks::candidates(case, &mut found);
    fields::candidates(case, &mut found);
    if case.reads() {
        input::with_fewer_bytes(case, &mut found);
        input::candidates(case, &mut found);
    }
    let now = size(case);
    let mut sized: Vec<(Size, Case)> = found.into_iter().map(|case| (size(&case), case)).collect();
    sized.retain(|(size, _)| *size < now);
    sized.sort_by_key(|(size, _)| *size);
    sized.dedup_by(|one, other| one.1 == other.1);
    sized.into_iter().map(|(_, case)| case).collect()
}

/// The first of some cases that differs.
fn first(mut cases: Vec<Case>, differs: &mut dyn FnMut(&[Case]) -> Vec<bool>) -> Option<Case> {
    while !cases.is_empty() {
        let mut bytes = 0;
        let within = |case: &Case| {
            bytes += case.bytes() + 1;
            bytes <= TOGETHER
        };
        let together = cases.iter().map(within).take_while(|within| *within).count().max(1);
        let later = cases.split_off(together);
        let verdicts = differs(&cases);
        if let Some((case, _)) = cases.into_iter().zip(verdicts).find(|(_, differs)| *differs) {
            return Some(case);
        }
        cases = later;
    }
    None
}

/// Of cases of another kind: the first of the smaller ones that still differs is taken, again and again.
pub(crate) fn smallest<C>(
    mut case: C,
    smaller: impl Fn(&C) -> Vec<C>,
    mut differs: impl FnMut(&C) -> bool,
) -> C {
    while let Some(next) = smaller(&case).into_iter().find(|case| differs(case)) {
        case = next;
    }
    case
}

/// `differs` says for each of some cases whether it still shows the fault.
pub fn shrink(case: Case, differs: &mut dyn FnMut(&[Case]) -> Vec<bool>) -> Case {
    let mut best = case;
    while let Some(smaller) = first(candidates(&best), differs) {
        best = smaller;
    }
    best
}

#[cfg(test)]
mod tests {
    use super::*;
    use crate::case::op;
    use crate::generate;
    use crate::judge::plain_answer;
    use crate::plan::{fan, inline, lay_out, table_of, words, Plan};
    use crate::rng::Rng;

    fn shrunk(case: Case, keeps: &dyn Fn(&Case) -> bool) -> Case {
        assert!(keeps(&case));
        let small = shrink(case, &mut |cases| cases.iter().map(keeps).collect());
        assert!(keeps(&small));
        small
    }

    #[test]
    fn anything_shrinks_to_nothing() {
        for number in 0..50 {
            let (_, case) = generate::random(&mut Rng::for_case(3, number));
            let small = shrunk(case.clone(), &|_| true);
            assert_eq!(small, Case { op: case.op, ..Case::default() });
        }
    }

    #[test]
    fn a_leaf_with_a_child_is_left_of_a_large_format() {
        let mut case = Case { op: op::FORMAT, ..Case::default() };
        let mut column = fan(19, 40, 1);
        column[7] = Plan::new(5, 2);
        column.extend([Plan::named(1, 0, b"x"), Plan::new(19, 0)]);
        let good = lay_out(&table_of(&fan(15, 30, 1)), &mut case.records, &mut case.names);
        let bad = lay_out(&table_of(&column), &mut case.records, &mut case.names);
        case.references.extend([inline(good), inline(bad), inline(good)].concat());
        case.registry.extend(words([0, 1, good.first as u32, good.count as u32]));
        let small = shrunk(case, &|case| plain_answer(case).number == 4);
        // One table, and in it the leaf and one child.
        assert_eq!((small.records.len(), small.references.len()), (32, 16));
        assert_eq!((small.registry.len(), small.names.len()), (0, 0));
    }

    #[test]
    fn damage_that_must_stay_stays() {
        let mut case = Case { op: op::VALIDATE, ..Case::default() };
        let block = lay_out(&table_of(&fan(16, 20, 3)), &mut case.records, &mut case.names);
        (case.a, case.b) = (block.first, block.count);
        case.records[12 * 16] = 20;
        let small = shrunk(case, &|case| case.records.chunks_exact(16).any(|record| record[0] == 20));
        assert_eq!(small.records.len(), 16);
    }
}
