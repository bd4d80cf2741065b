//! Plainer fields: no names, smaller numbers, zeros.

use std::ops::Range;

use crate::case::Case;

/// Only small cases are gone through field by field.
const MOST_RECORDS: usize = 300;
const MOST_BYTES: usize = 600;

pub fn candidates(case: &Case, found: &mut Vec<Case>) {
    for clear in [
        |case: &mut Case| case.records.clear(),
        |case: &mut Case| case.names.clear(),
        |case: &mut Case| case.references.clear(),
        |case: &mut Case| case.registry.clear(),
        |case: &mut Case| case.input.clear(),
        |case: &mut Case| case.names.fill(b'a'),
        unname_all,
    ] {
        let mut smaller = case.clone();
        clear(&mut smaller);
        found.push(smaller);
    }
    numbers(case, found);
    store(case, found);
    if case.records.len() / 16 <= MOST_RECORDS {
        records(case, found);
    }
    if case.bytes() <= MOST_BYTES {
        single_bytes(case, found);
    }
}

fn unname_all(case: &mut Case) {
    for record in case.records.chunks_exact_mut(16) {
        record[1..8].fill(0);
    }
}

fn numbers(case: &Case, found: &mut Vec<Case>) {
    let smaller = |value: u64| [0, 1, value / 2, value.saturating_sub(1)];
    found.extend(smaller(case.a).map(|a| Case { a, ..case.clone() }));
    found.extend(smaller(case.b).map(|b| Case { b, ..case.clone() }));
}

/// Stretches of the name store left out: with the starts behind them moved, without, and with the names shorter that
/// they stood in.
fn store(case: &Case, found: &mut Vec<Case>) {
    let has = case.names.len();
    let mut length = has;
    while length > 0 {
        for from in (0..=has - length).step_by(length).take(32) {
            let mut smaller = case.clone();
            smaller.names.drain(from..from + length);
            found.push(smaller.clone());
            let behind = (from + length) as u32;
            move_starts(&mut smaller, &|start| if start >= behind { start - length as u32 } else { start });
            found.push(smaller);
            found.push(with_shorter_names(case, from as u32, behind));
        }
        length /= 2;
    }
}

/// The store without a stretch, and each name without as much of it as it had.
fn with_shorter_names(case: &Case, from: u32, end: u32) -> Case {
    let mut shorter = case.clone();
    shorter.names.drain(from as usize..end as usize);
    let field = |bytes: &[u8]| bytes.iter().rev().fold(0_u32, |number, byte| number << 8 | u32::from(*byte));
    let left = |at: u32| at.min(from) + at.saturating_sub(end);
    let change = |record: &mut [u8], start: usize, length: Range<usize>| {
        let (begins, bytes) = (field(&record[start..start + 4]), field(&record[length.clone()]));
        let ends = left(begins.saturating_add(bytes));
        record[start..start + 4].copy_from_slice(&left(begins).to_le_bytes());
        let bytes = ends.saturating_sub(left(begins)).to_le_bytes();
        let kept = length.len();
        record[length].copy_from_slice(&bytes[..kept]);
    };
    let records = shorter.records.chunks_exact_mut(16);
    records.filter(|record| record[1] == 1).for_each(|record| change(record, 4, 2..4));
    let references = shorter.references.chunks_exact_mut(16);
    references.filter(|one| one[0] == 1).for_each(|one| change(one, 4, 8..12));
    shorter.registry.chunks_exact_mut(16).for_each(|entry| change(entry, 0, 4..8));
    shorter
}

fn move_starts(case: &mut Case, moved: &dyn Fn(u32) -> u32) {
    let change = |bytes: &mut [u8]| {
        let start = u32::from_le_bytes(bytes[..4].try_into().expect("four bytes"));
        bytes[..4].copy_from_slice(&moved(start).to_le_bytes());
    };
    case.records
        .chunks_exact_mut(16)
        .filter(|record| record[1] == 1)
        .for_each(|record| change(&mut record[4..8]));
    case.references.chunks_exact_mut(16).filter(|one| one[0] == 1).for_each(|one| change(&mut one[4..8]));
    case.registry.chunks_exact_mut(16).for_each(|entry| change(&mut entry[..4]));
}

fn records(case: &Case, found: &mut Vec<Case>) {
    for at in (0..case.records.len() / 16).map(|index| index * 16) {
        for change in [
            |record: &mut [u8]| record.fill(0),
            |record: &mut [u8]| record[1..8].fill(0),
            |record: &mut [u8]| record[2..8].copy_from_slice(&[1, 0, 0, 0, 0, 0]),
            |record: &mut [u8]| record[4..8].fill(0),
            |record: &mut [u8]| record[0] = 0,
            |record: &mut [u8]| record[0] = 15,
        ] {
            let mut smaller = case.clone();
            change(&mut smaller.records[at..at + 16]);
            found.push(smaller);
        }
    }
}

fn single_bytes(case: &Case, found: &mut Vec<Case>) {
    let parts: [fn(&mut Case) -> &mut Vec<u8>; 5] = [
        |case| &mut case.records,
        |case| &mut case.names,
        |case| &mut case.references,
        |case| &mut case.registry,
        |case| &mut case.input,
    ];
    for part in parts {
        // A ragged tail may be shorter; whole records go elsewhere.
        let mut shorter = case.clone();
        part(&mut shorter).pop();
        found.push(shorter);
        for at in 0..part(&mut case.clone()).len() {
            for change in [|_: u8| 0, |byte: u8| byte / 2, |byte: u8| byte.saturating_sub(1)] {
                let mut smaller = case.clone();
                let byte = &mut part(&mut smaller)[at];
                *byte = change(*byte);
                found.push(smaller);
            }
        }
    }
}
