//! Value tables and rows that are written, by hand.

use super::{a, block, records};
use crate::answer::Refusal;
use crate::encoding::{encode, Given};
use crate::reading::Row;
use crate::settings::Settings;
use crate::value_table::{check, is_formed};

/// A value record: kind, tag, size, data.
type Value = (u8, u16, u32, u64);

fn table(values: &[Value]) -> Vec<u8> {
    let mut bytes = Vec::new();
    for &(kind, tag, size, data) in values {
        bytes.extend([kind, 0]);
        bytes.extend(tag.to_le_bytes());
        bytes.extend(size.to_le_bytes());
        bytes.extend(data.to_le_bytes());
    }
    bytes
}

/// Encodes under schema A at position 1 of so many bytes, each of which is EE before.
fn under_a(values: &[Value], payload: &[u8], limit: u64, room: usize) -> (Result<Row, Refusal>, Vec<u8>) {
    let (schema, names) = a();
    let value_records = table(values);
    let given = Given {
        settings: Settings::default().with_max_blob_bytes(limit),
        records: &schema,
        names: &names,
        block: block(0, 5),
        value_records: &value_records,
        payload,
    };
    let mut output = vec![0xEE; room];
    let done = encode(&given, &mut output, 1);
    (done, output)
}

const FULL: [Value; 4] = [(17, 0, 2, 0), (8, 0, 0, 0x25), (15, 0, 1, 0), (13, 1, 2, 0)];

#[test]
fn a_row_of_document_01() {
    let (done, output) = under_a(&FULL, &[0xD1, 0xC5], 2, 12);
    assert_eq!(done, Ok(Row { table: 0, bytes: 10, records: 4, payload: 2 }));
    assert_eq!(output, [0xEE, 0, 0, 0x25, 1, 2, 0, 0, 0, 0xD1, 0xC5, 0xEE]);
}

#[test]
fn b_row_of_document_01() {
    let schema = records(&[(19, 0, 0, 0, 1, 1), (17, 1, 1, 0, 2, 2), (1, 0, 0, 0, 0, 0), (2, 0, 0, 0, 0, 0)]);
    let value_records = table(&[(17, 0, 1, 0), (16, 0, 2, 0), (1, 0, 0, 1), (2, 1, 0, 0xFE)]);
    let given = Given {
        settings: Settings::default(),
        records: &schema,
        names: b"v",
        block: block(0, 4),
        value_records: &value_records,
        payload: &[],
    };
    let mut output = [0xEE; 7];
    assert_eq!(encode(&given, &mut output, 0), Ok(Row { table: 0, bytes: 7, records: 4, payload: 0 }));
    assert_eq!(output, [0, 0, 0, 1, 1, 0xFE, 0xFF]);
    // An element's tag is judged where it stands, the end tag too.
    let ended = table(&[(17, 0, 1, 0), (16, 0, 2, 0), (1, 0, 0, 1), (2, 255, 0, 0xFE)]);
    let refusal = encode(&Given { value_records: &ended, ..given }, &mut output, 0);
    assert_eq!(refusal, Err(Refusal::at(17, 3, [17, 255, 2])));
}

#[test]
fn refusals_in_their_order() {
    let room = |values: &[Value], limit, room| under_a(values, &[0xD1, 0xC5], limit, room).0;
    assert_eq!(room(&FULL, 1, 0), Err(Refusal::bare(1)));
    assert_eq!(room(&FULL, 1, 1), Err(Refusal::at(14, 3, [13, 2, 1])));
    assert_eq!(room(&FULL, 2, 10), Err(Refusal::at(21, 1, [10, 0, 0])));
    let mut wrong = FULL;
    wrong[3].1 = 2;
    assert_eq!(room(&wrong, 1, 1), Err(Refusal::at(17, 3, [15, 2, 2])));
    wrong[1].0 = 2;
    assert_eq!(room(&wrong, 1, 1), Err(Refusal::at(15, 1, [8, 2, 0])));
    // 18 judges the whole table first.
    wrong[3].3 = 1;
    assert_eq!(room(&wrong, 1, 1), Err(Refusal::bare(18)));
    let short: [Value; 2] = [(17, 0, 1, 0), (14, 0, 2, 0)];
    assert_eq!(room(&short, 9, 99), Err(Refusal::at(16, 0, [2, 1, 0])));
}

#[test]
fn each_blob_is_within_the_limit_of_its_type() {
    let schema = records(&[(19, 0, 0, 0, 1, 2), (13, 1, 1, 0, 0, 0), (14, 1, 1, 1, 0, 0)]);
    let value_records = table(&[(17, 0, 2, 0), (13, 0, 2, 0), (14, 0, 3, 2)]);
    let under = |max_string32_bytes, max_yson32_bytes| {
        let given = Given {
            settings: Settings { max_string32_bytes, max_yson32_bytes, ..Settings::default() },
            records: &schema,
            names: b"sy",
            block: block(0, 3),
            value_records: &value_records,
            payload: b"hi[1]",
        };
        encode(&given, &mut [0xEE; 15], 0)
    };
    assert_eq!(under(2, 3), Ok(Row { table: 0, bytes: 15, records: 3, payload: 5 }));
    assert_eq!(under(1, 3), Err(Refusal::at(14, 1, [13, 2, 1])));
    assert_eq!(under(3, 2), Err(Refusal::at(14, 2, [14, 3, 2])));
    assert_eq!(under(4_294_967_295, 0), Err(Refusal::at(14, 2, [14, 3, 0])));
    assert_eq!(under(4_294_967_296, 3), Err(Refusal::bare(1)));
    assert_eq!(under(2, 4_294_967_296), Err(Refusal::bare(1)));
}

#[test]
fn tables_that_are_none() {
    let formed = |values: &[Value], payload: usize| is_formed(&table(values), &vec![0; payload]);
    assert!(formed(&FULL, 2) && check(&table(&FULL), &[0; 2]).is_ok());
    for payload in [0, 1, 3] {
        assert!(!formed(&FULL, payload));
    }
    assert!(formed(&[(16, 0, 0, 0)], 0) && formed(&[(6, 0, 16, 0)], 16));
    let bad: [&[Value]; 14] = [
        &[],
        &[(17, 0, 1, 0)],
        &[(17, 0, 0, 0), (0, 0, 0, 0)],
        &[(17, 0, u32::MAX, 0), (0, 0, 0, 0)],
        &[(15, 0, 0, 0)],
        &[(15, 0, 2, 0), (0, 0, 0, 0), (0, 1, 0, 0)],
        &[(17, 0, 1, 0), (0, 1, 0, 0)],
        &[(0, 1, 0, 0)],
        &[(1, 0, 0, 2)],
        &[(3, 0, 0, 1 << 16)],
        &[(3, 0, 1, 0)],
        &[(0, 0, 0, 1)],
        &[(17, 0, 0, 1)],
        &[(18, 0, 0, 0)],
    ];
    for values in bad {
        assert!(!formed(values, 0), "{values:?}");
    }
    for length in [15, 17] {
        assert!(!formed(&[(6, 0, length, 0)], length as usize));
    }
    assert!(!formed(&[(13, 0, 1, 1)], 1) && !formed(&[(13, 0, 1, 1 << 32)], 1));
    let mut ragged = table(&FULL);
    ragged.push(0);
    assert!(!is_formed(&ragged, &[0; 2]));
    for (levels, fits) in [(64, true), (65, false)] {
        let mut chain = vec![(16, 0, 1, 0); levels - 1];
        chain.push((0, 0, 0, 0));
        assert_eq!(formed(&chain, 0), fits);
    }
}
