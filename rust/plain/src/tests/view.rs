//! What the row view tells of a row by hand, and of the same row damaged.

use crate::answer::Refusal;
use crate::view::{after, child_count, field, kind, tag};

fn record(kind: u8, tag: u16, size: u32) -> [u8; 16] {
    let mut bytes = [0; 16];
    bytes[0] = kind;
    bytes[2..4].copy_from_slice(&tag.to_le_bytes());
    bytes[4..8].copy_from_slice(&size.to_le_bytes());
    bytes
}

/// 0 tuple(1 uint8, 2 variant(3 tuple()), 4 list(5 tuple(6 nothing), 7 nothing), 8 nothing).
fn table() -> Vec<u8> {
    [
        record(17, 0, 4),
        record(8, 0, 0),
        record(15, 0, 1),
        record(17, 1, 0),
        record(16, 0, 2),
        record(17, 3, 1),
        record(0, 0, 0),
        record(0, 65_535, 0),
        record(0, 0, 0),
    ]
    .concat()
}

const NOT_THERE: Result<u64, Refusal> = Err(Refusal { number: 1, place: 0, carried: [0; 3] });
const BAD: Result<u64, Refusal> = Err(Refusal { number: 18, place: 0, carried: [0; 3] });

#[test]
fn a_row_is_seen_from_each_record() {
    let table = table();
    let all = |getter: fn(&[u8], u64) -> Result<u64, Refusal>| -> Vec<u64> {
        (0..9).map(|index| getter(&table, index).expect("the record is good")).collect()
    };
    assert_eq!(all(kind), [17, 8, 15, 17, 16, 17, 0, 0, 0]);
    assert_eq!(all(tag), [0, 0, 0, 1, 0, 3, 0, 65_535, 0]);
    assert_eq!(all(child_count), [4, 0, 1, 0, 2, 1, 0, 0, 0]);
    assert_eq!(all(after), [9, 2, 4, 4, 8, 7, 7, 8, 9]);
    let fields = [0, 1, 2, 3, 4].map(|index| field(&table, 0, index));
    assert_eq!(fields, [Ok(1), Ok(2), Ok(4), Ok(8), NOT_THERE]);
    assert_eq!((field(&table, 5, 0), field(&table, 5, 1)), (Ok(6), NOT_THERE));
    // A tuple without fields, and what is no tuple.
    assert_eq!([3, 2, 4, 1].map(|index| field(&table, index, 0)), [NOT_THERE; 4]);
    for getter in [kind, tag, child_count, after] {
        assert_eq!((getter(&table, 9), getter(&table, u64::MAX)), (NOT_THERE, NOT_THERE));
    }
    assert_eq!((field(&table, 9, 0), field(&table, 0, u64::MAX)), (NOT_THERE, NOT_THERE));
}

#[test]
fn what_is_bad_is_met_on_the_way() {
    // The list's first element is bad by itself.
    let mut bad = table();
    bad[5 * 16 + 1] = 1;
    assert_eq!([0, 4, 5].map(|index| after(&bad, index)), [BAD; 3]);
    assert_eq!([1, 2, 6, 7, 8].map(|index| after(&bad, index)), [Ok(2), Ok(4), Ok(7), Ok(8), Ok(9)]);
    assert_eq!([0, 1, 2, 3].map(|index| field(&bad, 0, index)), [Ok(1), Ok(2), Ok(4), BAD]);
    assert_eq!((kind(&bad, 5), kind(&bad, 4), field(&bad, 5, 0)), (BAD, Ok(16), BAD));

    // Children that are not there: past the last record nothing is found.
    let short = &table()[..4 * 16];
    assert_eq!([0, 1, 2, 3].map(|index| after(short, index)), [BAD, Ok(2), Ok(4), Ok(4)]);
    assert_eq!([0, 1, 2, 3].map(|index| field(short, 0, index)), [Ok(1), Ok(2), BAD, BAD]);

    // A slice that is not whole records is bad wherever it is asked; but a field that is not there comes first.
    let ragged = &[table(), vec![0; 15]].concat();
    assert_eq!(
        (kind(ragged, 0), tag(ragged, 3), child_count(ragged, 1), after(ragged, 1)),
        (BAD, BAD, BAD, BAD)
    );
    assert_eq!((field(ragged, 0, 0), field(ragged, 0, 4), field(ragged, 1, 0)), (BAD, NOT_THERE, NOT_THERE));
    assert_eq!((kind(ragged, 9), field(ragged, 9, 0)), (NOT_THERE, NOT_THERE));
    assert_eq!((kind(&[], 0), after(&[], 0), field(&[], 0, 0)), (NOT_THERE, NOT_THERE, NOT_THERE));
}
