//! The listing: document 01's example, a line of each kind, files that are missing or too long.

use crate::listing::{listing, Delivery};

use super::{records, Fields};

fn text(schema: &[Fields], names: &[u8], stream: &[u8]) -> String {
    let (schema, names) = (Some(records(schema)), Some(names.to_vec()));
    listing(&Delivery { schema, names, stream: Some(stream.to_vec()) }).text
}

const B: [Fields; 4] = [(19, 0, 0, 0, 1, 1), (17, 1, 1, 0, 2, 2), (1, 0, 0, 0, 0, 0), (2, 0, 0, 0, 0, 0)];

#[test]
fn the_documents_example() {
    let wanted = "0 1 0 tuple 1\n0 2 0 repeated_variant 2\n0 3 0 boolean 1\n0 3 1 int8 -2\nend 1 7\n";
    assert_eq!(text(&B, b"v", &[0, 0, 0, 7, 1, 0xFE, 0xFF]), wanted);
}

#[test]
fn a_refused_second_row() {
    let wanted = "0 1 0 tuple 1\n0 2 0 repeated_variant 0\nrefused 17 5\n";
    assert_eq!(text(&B, b"v", &[0, 0, 0xFF, 0, 0, 2]), wanted);
}

/// A table of one column and its row: the line behind the root's.
fn line(code: u8, value: &[u8]) -> String {
    let row = [&[0, 0], value].concat();
    let text = text(&[(19, 0, 0, 0, 1, 1), (code, 1, 1, 0, 0, 0)], b"v", &row);
    let mut lines = text.lines();
    assert_eq!(lines.next(), Some("0 1 0 tuple 1"));
    let line = lines.next().unwrap_or_default().to_owned();
    assert_eq!(lines.next(), Some(format!("end 1 {}", row.len()).as_str()));
    line
}

#[test]
fn a_line_of_each_kind() {
    assert_eq!(line(0, &[]), "0 2 0 nothing -");
    assert_eq!(line(2, &[0x80]), "0 2 0 int8 -128");
    assert_eq!(line(3, &[0, 0x80]), "0 2 0 int16 -32768");
    assert_eq!(line(4, &[0, 0, 0, 0x80]), "0 2 0 int32 -2147483648");
    assert_eq!(line(5, &i64::MIN.to_le_bytes()), "0 2 0 int64 -9223372036854775808");
    assert_eq!(line(11, &u64::MAX.to_le_bytes()), "0 2 0 uint64 18446744073709551615");
    assert_eq!(line(12, &0x7FF0_0000_0000_00AB_u64.to_le_bytes()), "0 2 0 double 7ff00000000000ab");
    assert_eq!(line(13, &[0; 4]), "0 2 0 string32 -");
    assert_eq!(line(14, &[2, 0, 0, 0, 0x0A, 0xB1]), "0 2 0 yson32 0ab1");
    let wide: Vec<u8> = (0..16).collect();
    assert_eq!(line(6, &wide), "0 2 0 int128 f0e0d0c0b0a09080706050403020100");
    assert_eq!(line(6, &[0xFF; 16]), "0 2 0 int128 -1");
    assert_eq!(line(7, &[0; 32]), "0 2 0 int256 0");
    assert_eq!(line(7, &[0x80; 32]), format!("0 2 0 int256 -{}80", "7f".repeat(31)));
}

#[test]
fn files_are_there_and_not_too_long() {
    let whole = Delivery { schema: Some(records(&B)), names: Some(b"v".to_vec()), stream: Some(vec![]) };
    assert_eq!(listing(&whole).text, "end 0 0\n");
    let long = |bytes| Some(vec![0; bytes]);
    assert_eq!(listing(&Delivery { names: long(65_536), ..whole.clone() }).text, "end 0 0\n");
    for other in [
        Delivery { schema: None, ..whole.clone() },
        Delivery { names: None, ..whole.clone() },
        Delivery { stream: None, ..whole.clone() },
        Delivery { names: long(65_537), ..whole.clone() },
        Delivery { stream: long(65_537), ..whole },
    ] {
        assert_eq!(listing(&other).text, "refused 1 0\n");
    }
}
