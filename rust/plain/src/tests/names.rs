//! Names: which strings are text, which names are looked at, and in which turn.

use crate::answer::number::NAME_NOT_UTF8;
use crate::answer::{Checked, Refusal};
use crate::format::{validate_encoder, validate_format, validate_schema};
use crate::names::{check_name, is_text};
use crate::tables::FormatTables;

use super::{block, records, words, Fields};

fn refused() -> Checked {
    Err(Refusal::bare(NAME_NOT_UTF8))
}

/// A number laid out in so many bytes, as if it needed them.
fn laid_out(number: u32, bytes: usize) -> Vec<u8> {
    let six = |at: usize| 0x80 | (number >> (6 * at) & 0x3F) as u8;
    match bytes {
        1 => vec![number as u8],
        2 => vec![0xC0 | (number >> 6) as u8, six(0)],
        3 => vec![0xE0 | (number >> 12) as u8, six(1), six(0)],
        _ => vec![0xF0 | (number >> 18) as u8, six(2), six(1), six(0)],
    }
}

/// Every number that 1 to 4 bytes have bits for, in each of these lengths: text just where the standard says so.
#[test]
fn numbers_are_text_in_their_shortest_form_alone() {
    for (bytes, bits) in [(1, 7), (2, 11), (3, 16), (4, 21)] {
        for number in 0..1_u32 << bits {
            let character = char::from_u32(number);
            let is_one = character.is_some_and(|character| character.len_utf8() == bytes);
            assert_eq!(is_text(&laid_out(number, bytes)), is_one, "{number:X} in {bytes} bytes");
        }
    }
}

/// What the standard names one by one, and what stands beside it.
#[test]
fn edges() {
    let good: [&[u8]; 22] = [
        b"",
        b"\0",
        b"\x7F",
        b"name",
        b"\xC2\x80",
        b"\xDF\xBF",
        b"\xE0\xA0\x80",
        b"\xED\x9F\xBF",
        b"\xEE\x80\x80",
        b"\xEF\xBB\xBF",
        b"\xEF\xBB\xBFname",
        b"\xEF\xB7\x90",
        b"\xEF\xBF\xBD",
        b"\xEF\xBF\xBE",
        b"\xEF\xBF\xBF",
        b"\xF0\x90\x80\x80",
        b"\xF0\x9F\xBF\xBE",
        b"\xF4\x8F\xBF\xBF",
        "имя".as_bytes(),
        "名前".as_bytes(),
        "a\u{301}\u{1F600}z".as_bytes(),
        b"seven b\xC3\xA9",
    ];
    for name in good {
        assert_eq!(check_name(name), Ok(()), "{name:02x?}");
        // Each by itself: cut in its last character it is none, unless that is of one byte.
        if let Some(last) = name.last().filter(|last| **last >= 0x80) {
            assert_eq!(check_name(&name[..name.len() - 1]), refused(), "{name:02x?} without {last:02x}");
        }
    }
    let bad: [&[u8]; 30] = [
        b"\x80",
        b"\xBF",
        b"a\x80",
        b"\xC0\x80",
        b"\xC1\xBF",
        b"\xC2",
        b"\xC2a",
        b"\xC2\x7F",
        b"\xC2\xC0",
        b"\xC3\xC3\xA9",
        b"\xE0\x80\x80",
        b"\xE0\x9F\xBF",
        b"\xE1\x80",
        b"\xE1\x80a",
        b"\xED\xA0\x80",
        b"\xED\xAF\xBF\xED\xB0\x80",
        b"\xED\xBF\xBF",
        b"\xF0\x80\x80\x80",
        b"\xF0\x8F\xBF\xBF",
        b"\xF0\x90\x80",
        b"\xF1\x80\x80\xC0",
        b"\xF4\x90\x80\x80",
        b"\xF5\x80\x80\x80",
        b"\xF7\xBF\xBF\xBF",
        b"\xF8\x88\x80\x80\x80",
        b"\xFC\x84\x80\x80\x80\x80",
        b"\xFE",
        b"\xFF\xFE",
        b"eight by\xC3",
        b"\xD5\x81\x94\x85",
    ];
    for name in bad {
        assert_eq!(check_name(name), refused(), "{name:02x?}");
        for around in [[b"ab".as_slice(), name].concat(), [name, b"yz"].concat()] {
            assert_eq!(check_name(&around), refused(), "{around:02x?}");
        }
    }
}

/// All strings of up to two bytes, and a byte at each place of longer ones.
#[test]
fn short_strings_are_text_where_they_can_be_rusts() {
    let same = |name: &[u8]| assert_eq!(is_text(name), std::str::from_utf8(name).is_ok(), "{name:02x?}");
    for one in 0..=255 {
        same(&[one]);
        for other in 0..=255 {
            same(&[one, other]);
            same(&[0xE1, one, other]);
            same(&[0xF1, 0x80, one, other]);
        }
    }
}

const GOOD: &[u8] = b"good";

/// The store has `good` and then two bytes that are no text.
const STORE: &[u8] = b"good\xFF\xFE";

const fn node(code: u8, good: bool, first: u32, count: u32) -> Fields {
    if good {
        (code, 1, GOOD.len() as u16, 0, first, count)
    } else {
        (code, 1, 2, GOOD.len() as u32, first, count)
    }
}

#[test]
fn every_node_of_a_block_is_looked_at() {
    for bad in 0..4 {
        let rows = [(19, 2), (13, 0), (15, 1), (1, 0)];
        let firsts = [1, 0, 3, 0];
        let rows: Vec<Fields> = rows
            .iter()
            .enumerate()
            .map(|(at, (code, count))| node(*code, at != bad, firsts[at], *count))
            .collect();
        let table = records(&rows);
        assert_eq!(validate_schema(&table, STORE, block(0, 4)), refused());
        assert_eq!(validate_encoder(&table, STORE, block(0, 4)), refused());
    }
    // A record beside the block, and the store's other bytes.
    let table = records(&[node(1, false, 0, 0), node(19, true, 0, 0)]);
    assert_eq!(validate_encoder(&table, STORE, block(1, 1)), Ok(()));
}

fn format(rows: &[Fields], references: &[[u32; 4]], registry: &[[u32; 4]]) -> Checked {
    let (records, references, registry) = (records(rows), words(references), words(registry));
    let tables =
        FormatTables { records: &records, names: STORE, references: &references, registry: &registry };
    validate_format(&tables)
}

const TABLE: [u32; 4] = [0, 0, 1, 0];
const GOOD_NAME: [u32; 2] = [0, 4];
const BAD_NAME: [u32; 2] = [4, 2];

fn entry([start, length]: [u32; 2], first: u32) -> [u32; 4] {
    [start, length, first, 1]
}

fn reference([start, length]: [u32; 2]) -> [u32; 4] {
    [1, start, length, 0]
}

#[test]
fn names_of_a_format_that_are_in_use() {
    let tuple = (19, 0, 0, 0, 0, 0);
    let bad = node(19, false, 0, 0);
    let rows = [tuple, bad];
    // The second record is in no block.
    assert_eq!(format(&rows, &[TABLE], &[entry(GOOD_NAME, 0)]), Ok(()));
    assert_eq!(format(&rows, &[TABLE, [0, 1, 1, 0]], &[]), refused());
    assert_eq!(format(&rows, &[TABLE], &[entry(GOOD_NAME, 1)]), refused());
    // An entry's own name, referred to or not; a reference, known or not.
    assert_eq!(format(&rows, &[TABLE], &[entry(BAD_NAME, 0)]), refused());
    assert_eq!(format(&rows, &[reference(BAD_NAME)], &[entry(BAD_NAME, 0)]), refused());
    assert_eq!(format(&rows, &[TABLE, reference(BAD_NAME)], &[]), refused());
    // Two halves of a character are no names, though they stand side by side.
    let store = "é".as_bytes();
    let (halves, references) = (records(&[(19, 1, 1, 0, 1, 1), (13, 1, 1, 1, 0, 0)]), words(&[[0, 0, 2, 0]]));
    let tables = FormatTables { records: &halves, names: store, references: &references, registry: &[] };
    assert_eq!(validate_format(&tables), refused());
}

/// 2 and 3 come before it wherever they stand, all else after it.
#[test]
fn the_turn_of_names() {
    let (tuple, bad, leaf) = ((19, 0, 0, 0, 0, 0), node(19, false, 0, 0), (13, 0, 0, 0, 0, 0));
    assert_eq!(format(&[bad, (20, 0, 0, 0, 0, 0)], &[TABLE, [0, 1, 1, 0]], &[]), Err(Refusal::bare(2)));
    let chain = (0..65).map(|at| if at < 64 { (19, 0, 0, 0, at + 1, 1) } else { (1, 0, 0, 0, 0, 0) });
    let rows: Vec<Fields> = [bad].into_iter().chain(chain).collect();
    assert_eq!(format(&rows, &[TABLE, [0, 1, 65, 0]], &[]), Err(Refusal::bare(3)));
    assert_eq!(format(&rows, &[], &[entry(BAD_NAME, 0), [4, 2, 1, 65]]), Err(Refusal::bare(2)));
    assert_eq!(format(&rows, &[], &[entry(GOOD_NAME, 0), [4, 2, 1, 65]]), Err(Refusal::bare(3)));
    // 6, 4, 7, 8 and 10.
    assert_eq!(format(&[tuple], &[], &[entry(BAD_NAME, 0)]), refused());
    let wrong = [(2, 0, 0, 0, 1, 1), (0, 0, 0, 0, 0, 0), bad];
    assert_eq!(format(&wrong, &[[0, 0, 2, 0], [0, 2, 1, 0]], &[]), refused());
    assert_eq!(format(&[tuple], &[reference([0, 1]), reference(BAD_NAME)], &[]), refused());
    assert_eq!(format(&[leaf, bad], &[TABLE, [0, 1, 1, 0]], &[]), refused());
    assert_eq!(format(&[(19, 0, 0, 0, 1, 1), leaf, bad], &[[0, 0, 2, 0], [0, 2, 1, 0]], &[]), refused());
    // Of the encoder's: 2 and 3 before, 4, 9 and 10 after.
    let one = |rows: &[Fields]| validate_encoder(&records(rows), STORE, block(0, rows.len() as u64));
    assert_eq!(one(&[node(20, false, 0, 0)]), Err(Refusal::bare(2)));
    assert_eq!(one(&[node(13, false, 0, 0)]), refused());
    assert_eq!(one(&[node(19, false, 1, 1), leaf]), refused());
    assert_eq!(one(&[node(2, false, 1, 1), leaf]), refused());
}
