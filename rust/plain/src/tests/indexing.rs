//! Document 02's index by hand: three rows of A, and what each call makes of them.

use super::{a, words};
use crate::answer::Refusal;
use crate::indexing::{build, check, decode_row, extend, IndexRecord, Plainly};
use crate::reading::{Row, Run};
use crate::settings::Settings;
use crate::tables::FormatTables;

/// `00 00 25 00`, then the row with a name of two bytes, then the first again.
const ROWS: [u8; 18] = [0, 0, 0x25, 0, 0, 0, 0x25, 1, 2, 0, 0, 0, 0xD1, 0xC5, 0, 0, 0x25, 0];

/// Offset (8), length (4), table (4), little-endian.
const INDEX: [u8; 48] = [
    0, 0, 0, 0, 0, 0, 0, 0, 4, 0, 0, 0, 0, 0, 0, 0, //
    4, 0, 0, 0, 0, 0, 0, 0, 10, 0, 0, 0, 0, 0, 0, 0, //
    14, 0, 0, 0, 0, 0, 0, 0, 4, 0, 0, 0, 0, 0, 0, 0,
];

const ALL: Run = Run { rows: 3, bytes: 18, refusal: None };

fn refused(rows: u64, bytes: u64, number: u64) -> Run {
    Run { rows, bytes, refusal: Some(Refusal::bare(number)) }
}

/// Asks about a stream of A's rows under settings.
fn over<R>(settings: Settings, input: &[u8], ask: impl FnOnce(&Plainly) -> R) -> R {
    let (records, names) = a();
    let references = words(&[[0, 0, 5, 0]]);
    let tables = FormatTables { records: &records, names: &names, references: &references, registry: &[] };
    ask(&Plainly { settings, tables, input })
}

fn of_rows<R>(ask: impl FnOnce(&Plainly) -> R) -> R {
    over(Settings::default(), &ROWS, ask)
}

fn built(input: &[u8], bytes: usize) -> (Run, Vec<u8>) {
    let mut index = vec![0xA5; bytes];
    (over(Settings::default(), input, |stream| build(stream, &mut index)), index)
}

#[test]
fn build_writes_the_rows_that_the_run_accepts() {
    assert_eq!(built(&ROWS, 48), (ALL, INDEX.to_vec()));
    // All bytes past those written stay; a ragged tail is no room and no fault.
    assert_eq!(built(&ROWS, 63), (ALL, [&INDEX[..], &[0xA5; 15]].concat()));
    for bytes in [47, 32, 0] {
        assert_eq!(built(&ROWS, bytes), (refused(3, 18, 30), vec![0xA5; bytes]));
    }
    assert_eq!(built(&[], 0), (Run { rows: 0, bytes: 0, refusal: None }, vec![]));
    // The run's refusal comes before room, and not even the accepted rows are written.
    let cut = Refusal::at(12, 16, [8, 0, 0]);
    for bytes in [48, 0] {
        let ran = Run { rows: 2, bytes: 14, refusal: Some(cut) };
        assert_eq!(built(&ROWS[..16], bytes), (ran, vec![0xA5; bytes]));
    }
}

#[test]
fn check_accepts_just_what_build_writes() {
    let checked = |index: &[u8]| of_rows(|stream| check(stream, index));
    assert_eq!(checked(&INDEX), ALL);
    for other in [&INDEX[..47], &INDEX[..32], &[], &[&INDEX[..], &[0]].concat(), &INDEX.repeat(2)] {
        assert_eq!(checked(other), refused(3, 18, 31));
    }
    for at in 0..48 {
        let mut flipped = INDEX;
        flipped[at] ^= 0x10;
        assert_eq!(checked(&flipped), refused(3, 18, 31), "byte {at}");
    }
    let settings = Settings { node_charge: 0, ..Settings::default() };
    assert_eq!(over(settings, &ROWS, |stream| check(stream, &[])), refused(0, 0, 1));
}

#[test]
fn extend_checks_the_old_records_and_writes_the_others() {
    let extended = |old: u64, index: &[u8]| {
        let mut index = index.to_vec();
        (of_rows(|stream| extend(stream, old, &mut index)), index)
    };
    let room = |old: usize| [&INDEX[..16 * old], &vec![0xA5; 64 - 16 * old][..]].concat();
    let whole = [&INDEX[..], &[0xA5; 16]].concat();
    for old in 0..=3 {
        assert_eq!(extended(old, &room(old as usize)), (ALL, whole.clone()));
    }
    // More old records than rows; more than the slice has, whole ones only; numbers that are not cut.
    assert_eq!(extended(4, &whole), (refused(3, 18, 31), whole.clone()));
    for old in [5, 1 << 32, (1 << 60) + 1, u64::MAX] {
        assert_eq!(extended(old, &whole), (refused(0, 0, 1), whole.clone()));
    }
    assert_eq!(extended(3, &INDEX[..47]).0, refused(0, 0, 1));
    // 31 goes before 30. What stands behind the old records is not looked at.
    let mut wrong = INDEX[..32].to_vec();
    wrong[24] = 9;
    assert_eq!(extended(2, &wrong), (refused(3, 18, 31), wrong.clone()));
    assert_eq!(extended(1, &wrong), (refused(3, 18, 30), wrong.clone()));
    assert_eq!(extended(1, &[&wrong[..], &[7; 16]].concat()), (ALL, INDEX.to_vec()));
}

#[test]
fn row_n_looks_at_record_n_alone() {
    let decoded = |index: &[u8], n: u64, lent: [usize; 2]| {
        let (mut records, mut payload) = (vec![0xA5; lent[0]], vec![0xA5; lent[1]]);
        let done = of_rows(|stream| decode_row(stream, index, n, &mut records, &mut payload));
        let stayed = records.iter().chain(&payload).all(|byte| *byte == 0xA5);
        assert!(done.is_ok() || stayed);
        done.map_err(|refusal| (refusal.number, refusal.place, refusal.carried[0]))
    };
    let row = |bytes, payload| Ok(Row { table: 0, bytes, records: 4, payload });
    assert_eq!(decoded(&INDEX, 0, [64, 0]), row(4, 0));
    assert_eq!(decoded(&INDEX, 1, [64, 2]), row(10, 2));
    assert_eq!(decoded(&[&INDEX[..], &[1]].concat(), 2, [64, 0]), row(4, 0));
    for n in [3, 4, 1 << 32, 1 << 60, u64::MAX] {
        assert_eq!(decoded(&INDEX, n, [64, 2]), Err((32, 0, 0)));
    }
    assert_eq!(decoded(&INDEX[..47], 2, [64, 2]), Err((32, 0, 0)));
    // Records first, then payload, at the row's offset.
    assert_eq!(decoded(&INDEX, 1, [63, 1]), Err((19, 4, 4)));
    assert_eq!(decoded(&INDEX, 1, [64, 1]), Err((20, 4, 2)));

    let record = |offset, length, table| IndexRecord { offset, length, table }.in_bytes();
    // An offset at the stream's length or past it, in 64 bits.
    for offset in [18, 19, 1 << 32, (1 << 32) + 4, u64::MAX] {
        assert_eq!(decoded(&record(offset, 10, 0), 0, [64, 2]), Err((31, 0, 0)));
    }
    // The row's own refusal, at an offset inside of a row, comes before another length; that before room.
    assert_eq!(decoded(&record(2, 9, 0), 0, [0, 0]), Err((11, 2, 37)));
    assert_eq!(decoded(&record(4, 9, 0), 0, [0, 0]), Err((31, 0, 0)));
    assert_eq!(decoded(&record(4, 10, 65_536), 0, [0, 0]), Err((31, 0, 0)));
}
