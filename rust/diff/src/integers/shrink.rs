//! A smaller integer that still differs: fewer and plainer bytes, and slices no longer than will do. Where room is too
//! little it stays as far from the need as it was.

use skiff::sys::ANSWER_SIZE;

use super::IntegerCase;
use crate::room::Slack;
use crate::shrink::smallest;

/// By how many bytes a case has, then by what they are, then by what is lent.
fn size(case: &IntegerCase) -> (usize, u64, usize) {
    let sum = case.bytes.iter().map(|byte| u64::from(*byte)).sum();
    (case.bytes.len(), sum, case.text_bytes() + case.answer)
}

fn candidates(case: &IntegerCase) -> Vec<IntegerCase> {
    let mut found = Vec::new();
    for at in 0..case.bytes.len() {
        let mut fewer = case.bytes.clone();
        let byte = fewer.remove(at);
        found.push(fewer);
        for smaller in [0, byte / 2, byte.saturating_sub(1)] {
            let mut plainer = case.bytes.clone();
            plainer[at] = smaller;
            found.push(plainer);
        }
    }
    let mut found: Vec<IntegerCase> =
        found.into_iter().map(|bytes| IntegerCase { bytes, ..case.clone() }).collect();
    found.push(IntegerCase { answer: case.answer.min(ANSWER_SIZE), ..case.clone() });
    if let Slack::More(bytes) = case.room {
        found.extend([0, bytes / 2].map(|bytes| IntegerCase { room: Slack::More(bytes), ..case.clone() }));
    }
    found.retain(|smaller| size(smaller) < size(case));
    found.sort_by_key(size);
    found
}

pub fn shrink(case: IntegerCase, differs: impl Fn(&IntegerCase) -> bool) -> IntegerCase {
    smallest(case, candidates, differs)
}

#[cfg(test)]
mod tests {
    use super::*;

    #[test]
    fn little_is_left() {
        let case = IntegerCase { bytes: vec![0xAB; 32], room: Slack::More(40), answer: 200 };
        let smallest =
            shrink(case, |case| case.bytes.len() > 4 && case.bytes[3] > 2 && case.room != Slack::More(0));
        assert_eq!(smallest, IntegerCase { bytes: vec![0, 0, 0, 3, 0], room: Slack::More(1), answer: 88 });
    }
}
