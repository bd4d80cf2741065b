//! A smaller case that still differs: a smaller stream, whose index is as far from the whole one as it was, and
//! fewer records, plainer bytes and lower counts. Room stays as far from the need as it was.

use std::time::{Duration, Instant};

use plain::indexing::accepted;

use super::{plainly, IndexCase};
use crate::case::{op, Case};
use crate::room::need;
use crate::shrink::{self, smallest, Size};

fn size(case: &IndexCase) -> Size {
    let (bytes, nonzero, sum, numbers) = shrink::size(&case.stream);
    let lent: usize = case.lent.iter().sum();
    (
        bytes + case.index.len() + lent,
        nonzero + case.index.iter().filter(|byte| **byte != 0).count(),
        sum + case.index.iter().map(|byte| u64::from(*byte)).sum::<u64>(),
        numbers + u128::from(case.number),
    )
}

/// How an index differs from the whole one: by so many bytes of length, and in these bits.
fn deviation(case: &IndexCase) -> (isize, Vec<u8>) {
    let whole = accepted(&plainly(&case.stream)).index();
    let bits = case.index.iter().zip(&whole).map(|(given, own)| given ^ own).collect();
    (case.index.len() as isize - whole.len() as isize, bits)
}

/// An index of another stream that differs as much from its whole one.
fn deviating(stream: &Case, (more, bits): &(isize, Vec<u8>)) -> Vec<u8> {
    let mut index = accepted(&plainly(stream)).index();
    index.resize(index.len().saturating_add_signed(*more), 0);
    index.iter_mut().zip(bits).for_each(|(byte, bits)| *byte ^= bits);
    index
}

/// What row n needs, where its record names a row.
fn needed(case: &IndexCase) -> Option<[usize; 2]> {
    need(&Case { op: op::DECODE, a: case.offset()?, ..case.stream.clone() })
}

/// The same room beside another need.
fn with_room(case: &IndexCase, new: IndexCase) -> IndexCase {
    match (needed(case), needed(&new)) {
        (Some(was), Some(is)) => {
            let lent = [0, 1].map(|which| (case.lent[which] + is[which]).saturating_sub(was[which]));
            IndexCase { lent, ..new }
        }
        _ => new,
    }
}

fn candidates(case: &IndexCase) -> Vec<IndexCase> {
    let mut found = Vec::new();
    let deviation = deviation(case);
    for stream in shrink::candidates(&case.stream) {
        let index = deviating(&stream, &deviation);
        let kept = IndexCase { stream: stream.clone(), ..case.clone() };
        found.push(with_room(case, IndexCase { stream, index, ..case.clone() }));
        found.push(with_room(case, kept));
    }
    let mut with_index = |index: Vec<u8>| found.push(with_room(case, IndexCase { index, ..case.clone() }));
    for at in 0..case.index.len() / 16 {
        let mut fewer = case.index.clone();
        fewer.drain(at * 16..at * 16 + 16);
        with_index(fewer);
    }
    for at in 0..case.index.len() {
        for smaller in [0, case.index[at] / 2, case.index[at].saturating_sub(1)] {
            let mut plainer = case.index.clone();
            plainer[at] = smaller;
            with_index(plainer);
        }
    }
    with_index(case.index[..case.index.len().saturating_sub(1)].to_vec());
    for number in [0, 1, case.number / 2, case.number.saturating_sub(1)] {
        found.push(with_room(case, IndexCase { number, ..case.clone() }));
    }
    let [records, payload] = case.lent;
    for lent in [[records / 2, payload], [records, payload / 2], [records.saturating_sub(16), payload]] {
        found.push(IndexCase { lent, ..case.clone() });
    }
    let now = size(case);
    let mut sized: Vec<(Size, IndexCase)> = found.into_iter().map(|case| (size(&case), case)).collect();
    sized.retain(|(size, _)| *size < now);
    sized.sort_by_key(|(size, _)| *size);
    sized.into_iter().map(|(_, case)| case).collect()
}

/// A case is not made smaller for longer than this.
const PATIENCE: Duration = Duration::from_secs(20);

pub fn shrink(case: IndexCase, differs: &mut dyn FnMut(&IndexCase) -> bool) -> IndexCase {
    let until = Instant::now() + PATIENCE;
    smallest(case, candidates, |case| Instant::now() < until && differs(case))
}

#[cfg(test)]
mod tests {
    use super::*;
    use crate::generate::indexes::random;
    use crate::indexing::{left_over, Call};
    use crate::rng::Rng;

    /// A call that is answered 31 comes down to an index of a byte or a record.
    #[test]
    fn little_is_left() {
        let is_mismatch = |case: &IndexCase| {
            let lent = case.lent.map(|bytes| vec![0; bytes]);
            left_over(&case.plainly(), case, lent).report.number == 31
        };
        let mut shrunk = [0; 4];
        for number in 0..60 {
            for (_, case) in random(&mut Rng::for_case(6, number)) {
                if is_mismatch(&case) && case.bytes() < 600 {
                    let small = shrink(case, &mut |case| is_mismatch(case));
                    assert!(small.index.len() <= 16 && small.stream.input.len() <= 2, "{small:?}");
                    shrunk[small.call as usize] += 1;
                }
            }
        }
        let [build, check, extend, row] = shrunk;
        assert_eq!((Call::Build as usize, build), (0, 0));
        assert!(check > 3 && extend > 0 && row > 3, "{shrunk:?}");
    }
}
