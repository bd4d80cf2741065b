//! Good cases made bad: one field at a time, byte by byte, by cutting tables, by wild numbers.

use super::formats::{random_format, random_table};
use super::trees::random_case;
use crate::case::{op, Case};
use crate::rng::Rng;

fn any_case(rng: &mut Rng) -> Case {
    match rng.below(3) {
        0 => random_case(rng),
        1 => random_format(rng),
        _ => random_table(rng),
    }
}

fn set_u32(table: &mut [u8], record: usize, at: usize, value: u32) {
    table[record * 16 + at..record * 16 + at + 4].copy_from_slice(&value.to_le_bytes());
}

fn get_u32(table: &[u8], record: usize, at: usize) -> u32 {
    let at = record * 16 + at;
    u32::from_le_bytes([table[at], table[at + 1], table[at + 2], table[at + 3]])
}

/// A value beside the one that stands there, or a wild one.
fn other_u32(rng: &mut Rng, value: u32) -> u32 {
    match rng.below(6) {
        0 => value.wrapping_add(1),
        1 => value.wrapping_sub(1),
        2 => 0,
        3 => 1,
        4 => value.wrapping_add(1 << rng.below(32)),
        _ => u32::MAX - rng.below(4) as u32,
    }
}

pub fn damage_record(rng: &mut Rng, case: &mut Case) {
    let index = rng.below(case.records.len() / 16);
    let store = case.names.len() as u32;
    let at = index * 16;
    let count = get_u32(&case.records, index, 12);
    match rng.below(12) {
        0 => case.records[at] = [20, 21, 32, 128, 255][rng.below(5)],
        1 => case.records[at + 1] = [2, 3, 128, 255][rng.below(4)],
        2 => {
            case.records[at + 1] = 0;
            case.records[at + 2 + rng.below(2)] ^= 1;
        }
        3 => {
            case.records[at + 1] = 0;
            case.records[at + 4 + rng.below(4)] ^= 1;
        }
        4 => set_u32(&mut case.records, index, 8, if count == 0 { 1 } else { 0 }),
        5 => set_u32(&mut case.records, index, 8, index as u32),
        6 => {
            let first = get_u32(&case.records, index, 8);
            set_u32(&mut case.records, index, 8, other_u32(rng, first));
        }
        7 => set_u32(&mut case.records, index, 12, other_u32(rng, count)),
        8 => {
            // A span that ends one past the store, or just at its end.
            let length = rng.below(4) as u32;
            let start = (store + rng.below(2) as u32).saturating_sub(length);
            case.records[at + 1] = 1;
            case.records[at + 2..at + 4].copy_from_slice(&(length as u16).to_le_bytes());
            set_u32(&mut case.records, index, 4, start);
        }
        9 => {
            // An empty name at the end of the store, or past it.
            case.records[at + 1] = 1;
            case.records[at + 2..at + 4].copy_from_slice(&[0, 0]);
            set_u32(&mut case.records, index, 4, store + rng.below(3) as u32);
        }
        10 => set_u32(&mut case.records, index, 4, u32::MAX - rng.below(3) as u32),
        _ => case.records[at] = rng.below(20) as u8,
    }
}

fn damage_reference(rng: &mut Rng, case: &mut Case) {
    let index = rng.below(case.references.len() / 16);
    let at = index * 16;
    match rng.below(6) {
        0 => case.references[at] = [2, 3, 128, 255][rng.below(4)],
        1 => case.references[at] ^= 1,
        2 | 3 => case.references[at + [1, 2, 3, 12, 13, 14, 15][rng.below(7)]] = 1 << rng.below(8),
        _ => {
            let field = [4, 8][rng.below(2)];
            let value = get_u32(&case.references, index, field);
            set_u32(&mut case.references, index, field, other_u32(rng, value));
        }
    }
}

fn damage_registry(rng: &mut Rng, case: &mut Case) {
    let count = case.registry.len() / 16;
    let index = rng.below(count);
    if rng.one_in(4) {
        // Two entries change places, or one stands twice.
        let other = rng.below(count);
        let copy = case.registry[other * 16..other * 16 + 16].to_vec();
        if rng.one_in(2) {
            case.registry.copy_within(index * 16..index * 16 + 16, other * 16);
        }
        case.registry[index * 16..index * 16 + 16].copy_from_slice(&copy);
        return;
    }
    let field = 4 * rng.below(4);
    let value = get_u32(&case.registry, index, field);
    set_u32(&mut case.registry, index, field, other_u32(rng, value));
}

pub fn damaged(rng: &mut Rng) -> Case {
    let mut case = any_case(rng);
    for _ in 0..[1, 1, 1, 2][rng.below(4)] {
        match rng.below(6) {
            0 | 1 if case.references.len() >= 16 => damage_reference(rng, &mut case),
            2 if case.registry.len() >= 16 => damage_registry(rng, &mut case),
            _ => damage_record(rng, &mut case),
        }
    }
    case
}

fn pick_string<'a>(rng: &mut Rng, case: &'a mut Case) -> &'a mut Vec<u8> {
    match rng.below(8) {
        0..=3 => &mut case.records,
        4 => &mut case.names,
        5 | 6 => &mut case.references,
        _ => &mut case.registry,
    }
}

/// A few bytes changed anywhere, or swapped, or a stretch repeated.
pub fn mutated(rng: &mut Rng) -> Case {
    let mut case = any_case(rng);
    for _ in 0..rng.between(1, 3) {
        let string = pick_string(rng, &mut case);
        if string.is_empty() {
            continue;
        }
        let at = rng.below(string.len());
        match rng.below(5) {
            0 => string[at] = rng.byte(),
            1 => string[at] ^= 1 << rng.below(8),
            2 => string[at] = [0, 1, 2, 19, 20, 255][rng.below(6)],
            3 => {
                let other = rng.below(string.len());
                string.swap(at, other);
            }
            _ => {
                let from = rng.below(string.len() / 16 + 1) * 16;
                let piece: Vec<u8> = string[from.min(string.len())..].iter().take(16).copied().collect();
                string.extend(piece);
            }
        }
    }
    case
}

/// Tables cut inside a record, or with a few bytes more.
pub fn ragged(rng: &mut Rng) -> Case {
    let mut case = any_case(rng);
    let string = pick_string(rng, &mut case);
    if rng.one_in(2) && !string.is_empty() {
        let left = string.len() - rng.between(1, string.len().min(17));
        string.truncate(left);
    } else {
        string.extend((0..rng.between(1, 17)).map(|_| 0));
    }
    case
}

/// Blocks by wild numbers: none, past the end, and those that would do if cut to 32 bits.
pub fn block_numbers(rng: &mut Rng) -> Case {
    let mut case = random_case(rng);
    let has = (case.records.len() / 16) as u64;
    let number = |rng: &mut Rng, good: u64| match rng.below(10) {
        0 => 0,
        1 => has,
        2 => has + 1,
        3 => good + (1 << 32),
        4 => u64::MAX - rng.below(3) as u64,
        5 => 1 << rng.below(64),
        6 => good.wrapping_add(1),
        7 => good.wrapping_sub(1),
        8 => good.wrapping_neg(),
        _ => good,
    };
    let (a, b) = (number(rng, case.a), number(rng, case.b));
    (case.a, case.b) = (a, b);
    if rng.one_in(10) {
        case.references = vec![rng.byte(); rng.below(40)]; // not a part of these calls
    }
    Case { op: [op::VALIDATE, op::ENCODER][rng.below(2)], ..case }
}
