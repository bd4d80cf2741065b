//! Decoding: value records of each form, byte by byte, and room on both sides of the need.

use crate::answer::Refusal;
use crate::decoding::decode;
use crate::reading::{Row, Skipped};
use crate::settings::Settings;
use crate::tables::FormatTables;

use super::{a, records, words, Fields};

/// The answer and both slices, of so many bytes and full of 238s before.
fn decoded(
    schema: &[u8],
    names: &[u8],
    input: &[u8],
    room: [usize; 2],
) -> (Result<Skipped, Refusal>, Vec<u8>, Vec<u8>) {
    let references = words(&[[0, 0, (schema.len() / 16) as u32, 0]]);
    let tables = FormatTables { records: schema, names, references: &references, registry: &[] };
    let (mut records, mut payload) = (vec![238; room[0]], vec![238; room[1]]);
    let answer = decode(&Settings::default(), &tables, input, 0, &mut records, &mut payload);
    (answer, records, payload)
}

fn value(kind: u8, tag: u8, size: u8, data: [u8; 8]) -> Vec<u8> {
    [&[kind, 0, tag, 0, size, 0, 0, 0][..], &data].concat()
}

const ZEROS: [u8; 8] = [0; 8];

#[test]
fn a_row_of_schema_a() {
    let (schema, names) = a();
    let row = [0, 0, 7, 1, 2, 0, 0, 0, b'h', b'i'];
    let (answer, records, payload) = decoded(&schema, &names, &row, [64 + 3, 5]);
    assert_eq!(answer, Ok(Skipped::Row(Row { table: 0, bytes: 10, records: 4, payload: 2 })));
    let wanted = [
        value(17, 0, 2, ZEROS),
        value(8, 0, 0, [7, 0, 0, 0, 0, 0, 0, 0]),
        value(15, 0, 1, ZEROS),
        value(13, 1, 2, ZEROS),
        vec![238; 3],
    ];
    assert_eq!(records, wanted.concat());
    assert_eq!(payload, [b'h', b'i', 238, 238, 238]);
}

#[test]
fn every_scalar_and_the_payload_starts() {
    let codes: [u8; 8] = [1, 3, 6, 12, 7, 14, 0, 5];
    let mut rows: Vec<Fields> = vec![(19, 0, 0, 0, 1, codes.len() as u32)];
    rows.extend(codes.map(|code| (code, 1, 1, 0, 0, 0)));
    let mut input = vec![0, 0, 200, 0xFE, 0xFF];
    input.extend([6; 16]);
    // A signalling NaN keeps its bits.
    let double = [1, 0, 0, 0, 0, 0, 0xF0, 0x7F];
    input.extend(double);
    input.extend([7; 32]);
    input.extend([1, 0, 0, 0, b'#']);
    input.extend([0x80; 8]);
    let (answer, got, payload) = decoded(&records(&rows), b"c", &input, [9 * 16, 49]);
    assert!(answer.is_ok());
    let wanted = [
        value(17, 0, 8, ZEROS),
        value(1, 0, 0, [1, 0, 0, 0, 0, 0, 0, 0]),
        value(3, 0, 0, [0xFE, 0xFF, 0, 0, 0, 0, 0, 0]),
        value(6, 0, 16, ZEROS),
        value(12, 0, 0, double),
        value(7, 0, 32, [16, 0, 0, 0, 0, 0, 0, 0]),
        value(14, 0, 1, [48, 0, 0, 0, 0, 0, 0, 0]),
        value(0, 0, 0, ZEROS),
        value(5, 0, 0, [0x80; 8]),
    ];
    assert_eq!(got, wanted.concat());
    assert_eq!(payload, [&[6; 16][..], &[7; 32], b"#"].concat());
}

#[test]
fn repeated_items_bear_their_tags() {
    let rows = [(19, 0, 0, 0, 1, 1), (18, 1, 1, 0, 2, 2), (0, 0, 0, 0, 0, 0), (2, 0, 0, 0, 0, 0)];
    let input = [0, 0, 1, 0, 9, 0, 0, 1, 0, 8, 255, 255];
    let (answer, got, _) = decoded(&records(&rows), b"v", &input, [80, 0]);
    assert!(answer.is_ok());
    let wanted = [
        value(17, 0, 1, ZEROS),
        value(16, 0, 3, ZEROS),
        value(2, 1, 0, [9, 0, 0, 0, 0, 0, 0, 0]),
        value(0, 0, 0, ZEROS),
        value(2, 1, 0, [8, 0, 0, 0, 0, 0, 0, 0]),
    ];
    assert_eq!(got, wanted.concat());
}

#[test]
fn records_before_payload_and_neither_written() {
    let (schema, names) = a();
    let row = [0, 0, 7, 1, 2, 0, 0, 0, b'h', b'i'];
    for (room, wanted) in [
        ([63, 1], Refusal::at(19, 0, [4, 0, 0])),
        ([63, 2], Refusal::at(19, 0, [4, 0, 0])),
        ([0, 0], Refusal::at(19, 0, [4, 0, 0])),
        ([64, 1], Refusal::at(20, 0, [2, 0, 0])),
    ] {
        let (answer, records, payload) = decoded(&schema, &names, &row, room);
        assert_eq!(answer, Err(wanted));
        assert!(records.iter().chain(&payload).all(|byte| *byte == 238));
    }
    assert!(decoded(&schema, &names, &row, [64, 2]).0.is_ok());
    // A row that is refused for itself is so before there is a question of room.
    assert_eq!(decoded(&schema, &names, &row[..9], [0, 0]).0.unwrap_err().number, 12);
    assert_eq!(decoded(&schema, &names, &[], [0, 0]).0, Ok(Skipped::End));
}
