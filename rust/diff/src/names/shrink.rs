//! A smaller string that is still judged otherwise: fewer and plainer bytes, and an answer slice that is no longer than
//! it has to be.

use skiff::sys::ANSWER_SIZE;

use super::NameCase;
use crate::shrink::smallest;

/// By how many bytes a case has, then by what they are, then by its answer slice.
fn size(case: &NameCase) -> (usize, u64, usize) {
    let sum = case.name.iter().map(|byte| u64::from(*byte)).sum();
    (case.name.len(), sum, case.answer)
}

/// Longer strings lose whole stretches only.
const SHORT: usize = 300;

fn candidates(case: &NameCase) -> Vec<NameCase> {
    let has = case.name.len();
    let mut found = Vec::new();
    let mut length = has;
    while length > 0 {
        for from in (0..=has - length).step_by(length) {
            let mut fewer = case.name.clone();
            fewer.drain(from..from + length);
            found.push(fewer);
        }
        length = if has > SHORT && length < has / 64 { 0 } else { length / 2 };
    }
    if has <= SHORT {
        for at in 0..has {
            let byte = case.name[at];
            for smaller in [b'a', 0, 0x80, byte & 0xF8, byte.saturating_sub(1)] {
                let mut plainer = case.name.clone();
                plainer[at] = smaller;
                found.push(plainer);
            }
        }
    }
    let mut found: Vec<NameCase> =
        found.into_iter().map(|name| NameCase { name, answer: case.answer }).collect();
    found.push(NameCase { answer: case.answer.min(ANSWER_SIZE), ..case.clone() });
    found.retain(|smaller| size(smaller) < size(case));
    found.sort_by_key(size);
    found
}

pub fn shrink(case: NameCase, differs: impl Fn(&NameCase) -> bool) -> NameCase {
    smallest(case, candidates, differs)
}

#[cfg(test)]
mod tests {
    use super::*;

    #[test]
    fn little_is_left() {
        let case = NameCase { name: [b"some text ", "é".as_bytes(), b" and more"].concat(), answer: 200 };
        let smallest = shrink(case, |case| case.name.iter().filter(|byte| **byte >= 0x80).count() == 2);
        assert_eq!(smallest, NameCase { name: vec![0x80, 0x80], answer: 88 });
    }
}
