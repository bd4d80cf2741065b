//! Skip and run: document 01's rows on both sides of each edge, and the order of refusals.

use crate::answer::Refusal;
use crate::reading::{run, skip, Row, Run, Skipped};
use crate::report::Report;
use crate::settings::Settings;
use crate::tables::FormatTables;

use super::{a, records, words, Fields};

/// A format of inline tables, each given by its own records over one name store.
struct Made {
    records: Vec<u8>,
    names: Vec<u8>,
    references: Vec<u8>,
}

impl Made {
    fn of(schemas: &[Vec<u8>], names: &[u8]) -> Self {
        let mut made = Self { records: Vec::new(), names: names.to_vec(), references: Vec::new() };
        for schema in schemas {
            let first = (made.records.len() / 16) as u32;
            made.references.extend(words(&[[0, first, (schema.len() / 16) as u32, 0]]));
            made.records.extend(schema);
        }
        made
    }

    fn tables(&self) -> FormatTables<'_> {
        let Self { records, names, references } = self;
        FormatTables { records, names, references, registry: &[] }
    }

    fn skip(&self, settings: Settings, input: &[u8], position: u64) -> Result<Skipped, Refusal> {
        skip(&settings, &self.tables(), input, position)
    }

    /// With the default settings, from the slice's start.
    fn first(&self, input: &[u8]) -> Result<Skipped, Refusal> {
        self.skip(Settings::default(), input, 0)
    }
}

fn schema_a() -> Made {
    let (table, names) = a();
    Made::of(&[table], &names)
}

/// Document 01's B: tuple("v" repeated_variant8(boolean, int8)).
fn schema_b() -> Made {
    let rows = [(19, 0, 0, 0, 1, 1), (17, 1, 1, 0, 2, 2), (1, 0, 0, 0, 0, 0), (2, 0, 0, 0, 0, 0)];
    Made::of(&[records(&rows)], b"v")
}

/// A table of one column of a type without children.
fn column(code: u8) -> Made {
    Made::of(&[records(&[(19, 0, 0, 0, 1, 1), (code, 1, 1, 0, 0, 0)])], b"c")
}

fn row(table: u64, bytes: u64, records: u64, payload: u64) -> Result<Skipped, Refusal> {
    Ok(Skipped::Row(Row { table, bytes, records, payload }))
}

fn refused(number: u64, place: u64, carried: [u64; 3]) -> Result<Skipped, Refusal> {
    Err(Refusal::at(number, place, carried))
}

/// The same limit for both types of blobs.
fn limits(blob_bytes: u64, max_row_bytes: u64) -> Settings {
    Settings { max_row_bytes, ..Settings::default() }.with_max_blob_bytes(blob_bytes)
}

const FULL: [u8; 10] = [0, 0, 0x25, 1, 2, 0, 0, 0, 0xD1, 0xC5];
const DEFAULT_BLOB: u64 = 134_217_728;

#[test]
fn the_table_of_rows() {
    let (a, b) = (schema_a(), schema_b());
    assert_eq!(a.first(&[]), Ok(Skipped::End));
    assert_eq!(a.first(&[0]), refused(12, 0, [17, 0, 0]));
    assert_eq!(a.first(&[1, 0]), refused(11, 0, [1, 0, 0]));
    assert_eq!(a.first(&[0, 0]), refused(12, 2, [8, 0, 0]));
    assert_eq!(a.skip(limits(DEFAULT_BLOB, 47), &[0, 0], 0), refused(13, 2, [47, 0, 0]));
    assert_eq!(a.first(&[0, 0, 0x25, 0]), row(0, 4, 4, 0));
    assert_eq!(a.first(&FULL), row(0, 10, 4, 2));
    assert_eq!(a.skip(limits(DEFAULT_BLOB, 194), &FULL, 0), row(0, 10, 4, 2));
    assert_eq!(a.skip(limits(DEFAULT_BLOB, 193), &FULL, 0), refused(13, 4, [193, 0, 0]));
    for row_limit in [192, 193, 194, 4_294_967_295] {
        assert_eq!(a.skip(limits(1, row_limit), &FULL, 0), refused(14, 4, [13, 2, 1]));
    }
    // The last charge, which comes before the length field, is the one that 191 does not cover.
    assert_eq!(a.skip(limits(1, 191), &FULL, 0), refused(13, 4, [191, 0, 0]));
    assert_eq!(a.first(&FULL[..9]), refused(12, 8, [14, 0, 0]));
    assert_eq!(a.first(&[0, 0, 0x25, 2]), refused(17, 3, [15, 2, 2]));
    assert_eq!(b.first(&[0, 0, 0, 7, 1, 0xFE, 0xFF]), row(0, 7, 4, 0));
    assert_eq!(b.first(&[0, 0, 0xFF]), row(0, 3, 2, 0));
}

#[test]
fn every_cut_has_its_context_and_place() {
    let a = schema_a();
    let cuts = [(1, 0, 17), (2, 2, 8), (3, 3, 15), (4, 4, 13), (7, 4, 13), (8, 8, 14), (9, 8, 14)];
    for (length, place, context) in cuts {
        assert_eq!(a.first(&FULL[..length]), refused(12, place, [context, 0, 0]), "{length}");
    }
    let widths = [1, 1, 2, 4, 8, 16, 32, 1, 2, 4, 8, 8];
    for (code, width) in (1..).zip(widths) {
        let payload = if code == 6 || code == 7 { width } else { 0 };
        let input = vec![0; 2 + width as usize];
        assert_eq!(column(code).first(&input), row(0, 2 + width, 2, payload));
        let cut = &input[..input.len() - 1];
        assert_eq!(column(code).first(cut), refused(12, 2, [u64::from(code), 0, 0]));
    }
    assert_eq!(column(0).first(&[0, 0]), row(0, 2, 2, 0));
    let repeated16 = Made::of(&[records(&[(19, 0, 0, 0, 1, 1), (18, 1, 1, 0, 0, 0)])], b"c");
    assert_eq!(repeated16.first(&[0, 0, 0xFF]), refused(12, 2, [16, 0, 0]));
    assert_eq!(repeated16.first(&[0, 0, 0xFF, 0xFF]), row(0, 4, 2, 0));
    assert_eq!(repeated16.first(&[0, 0, 0xFE, 0xFF]), refused(17, 2, [18, 65_534, 0]));
}

#[test]
fn a_charge_comes_before_the_bytes_and_the_blob_limit_before_the_charge() {
    // tuple(yson32): root and column cost 96, and a blob of 5 five more.
    let yson = column(14);
    let input = [0, 0, 5, 0, 0, 0];
    assert_eq!(yson.skip(limits(5, 101), &input, 0), refused(12, 6, [14, 0, 0]));
    assert_eq!(yson.skip(limits(5, 100), &input, 0), refused(13, 2, [100, 0, 0]));
    assert_eq!(yson.skip(limits(4, 100), &input, 0), refused(14, 2, [14, 5, 4]));
    assert_eq!(yson.skip(limits(0, 0), &input, 0), refused(13, 2, [0, 0, 0]));
    assert_eq!(yson.skip(limits(4, 95), &input, 0), refused(13, 2, [95, 0, 0]));
    // The column's charge may be refused at the slice's end.
    assert_eq!(column(8).skip(limits(0, 48), &[0, 0], 0), refused(13, 2, [48, 0, 0]));
    // int128 is payload, but is not charged.
    assert_eq!(column(6).skip(limits(0, 96), &[0; 18], 0), row(0, 18, 2, 16));
    // An empty tuple costs one charge.
    let empty = Made::of(&[records(&[(19, 0, 0, 0, 0, 0)])], b"");
    assert_eq!(empty.skip(limits(0, 48), &[0, 0], 0), row(0, 2, 1, 0));
    assert_eq!(empty.skip(limits(0, 47), &[0, 0], 0), refused(13, 2, [47, 0, 0]));
    // A blob of no bytes is within a limit of none.
    assert_eq!(yson.skip(limits(0, 96), &[0, 0, 0, 0, 0, 0], 0), row(0, 6, 2, 0));
    // 11 comes before the root's charge.
    assert_eq!(yson.skip(limits(0, 0), &[1, 0], 0), refused(11, 0, [1, 0, 0]));
}

#[test]
fn settings_and_positions() {
    let a = schema_a();
    let with = |node_charge, max_string32_bytes, max_yson32_bytes, max_row_bytes| {
        let settings = Settings { node_charge, max_string32_bytes, max_yson32_bytes, max_row_bytes };
        a.skip(settings, &FULL, 0)
    };
    let most = 4_294_967_295;
    let one = refused(1, 0, [0; 3]);
    assert_eq!(with(1, 2, 0, 6), row(0, 10, 4, 2));
    assert_eq!(with(1, 2, 0, 5), refused(13, 4, [5, 0, 0]));
    assert_eq!(with(4_096, most, most, most), row(0, 10, 4, 2));
    for (charge, row) in [(0, 6), (4_097, most), (1, most + 1)] {
        assert_eq!(with(charge, 2, 2, row), one);
    }
    // The limit of a type that does not occur is tested too.
    assert_eq!(with(1, most + 1, 2, 6), one);
    assert_eq!(with(1, 2, most + 1, 6), one);
    assert_eq!(a.skip(Settings::default(), &FULL, 10), Ok(Skipped::End));
    assert_eq!(a.skip(Settings::default(), &FULL, 11), one);
    assert_eq!(a.skip(Settings::default(), &FULL, u64::MAX), one);
    // Any position is read as a row's start, and places count from the slice's start.
    assert_eq!(a.skip(Settings::default(), &FULL, 5), refused(17, 8, [15, 0xD1, 2]));
    assert_eq!(a.skip(Settings::default(), &FULL, 9), refused(12, 9, [17, 0, 0]));
    assert_eq!(a.skip(Settings::default(), &FULL, 2), refused(11, 2, [0x125, 0, 0]));
}

#[test]
fn each_blob_is_within_the_limit_of_its_type() {
    let columns = [(19, 0, 0, 0, 1, 2), (13, 1, 1, 0, 0, 0), (14, 1, 1, 1, 0, 0)];
    let both = Made::of(&[records(&columns)], b"sy");
    let input = [0, 0, 2, 0, 0, 0, b'h', b'i', 3, 0, 0, 0, b'[', b'1', b']'];
    let with = |max_string32_bytes, max_yson32_bytes| {
        let settings = Settings { max_string32_bytes, max_yson32_bytes, ..Settings::default() };
        both.skip(settings, &input, 0)
    };
    assert_eq!(with(2, 3), row(0, 15, 3, 5));
    assert_eq!(with(1, 3), refused(14, 2, [13, 2, 1]));
    assert_eq!(with(2, 2), refused(14, 8, [14, 3, 2]));
    assert_eq!(with(3, 2), refused(14, 8, [14, 3, 2]));
    assert_eq!(with(1, 2), refused(14, 2, [13, 2, 1]));
    let most = 4_294_967_295;
    assert_eq!(with(most, 0), refused(14, 8, [14, 3, 0]));
    assert_eq!(with(0, most), refused(14, 2, [13, 2, 0]));
    for (string32, yson32) in [(most + 1, 3), (2, most + 1), (most + 1, 0), (0, most + 1)] {
        assert_eq!(with(string32, yson32), refused(1, 0, [0; 3]));
    }
    // One type alone: the other's limit is in bounds and nothing more.
    let input = [0, 0, 1, 0, 0, 0, 7];
    for other in [0, most] {
        let strings = Settings { max_string32_bytes: 1, max_yson32_bytes: other, ..Settings::default() };
        let ysons = Settings { max_string32_bytes: other, max_yson32_bytes: 1, ..Settings::default() };
        assert_eq!(column(13).skip(strings, &input, 0), row(0, 7, 2, 1));
        assert_eq!(column(14).skip(ysons, &input, 0), row(0, 7, 2, 1));
    }
}

#[test]
fn order_of_refusals() {
    let mut bad = schema_a();
    bad.records[0] = 20;
    // A position beyond the slice comes before a bad format, a bad format before the end.
    assert_eq!(bad.skip(Settings::default(), &[], 1), refused(1, 0, [0; 3]));
    assert_eq!(bad.skip(Settings::default(), &[], 0), refused(2, 0, [0; 3]));
    let none = Made::of(&[], b"");
    assert_eq!(none.first(&[]), refused(6, 0, [0; 3]));
}

#[test]
fn several_tables_and_the_run() {
    let b: &[Fields] = &[(19, 0, 0, 0, 1, 1), (17, 1, 1, 0, 2, 2), (1, 0, 0, 0, 0, 0), (2, 0, 0, 0, 0, 0)];
    let two = Made::of(&[a().0, records(b)], &a().1);
    let stream = [&FULL[..], &[1, 0, 0, 7, 0xFF], &[0, 0, 0x25, 0]].concat();
    assert_eq!(two.skip(Settings::default(), &stream, 10), row(1, 5, 3, 0));
    let all = |input: &[u8]| run(&Settings::default(), &two.tables(), input);
    assert_eq!(all(&stream), Run { rows: 3, bytes: 19, refusal: None });
    assert_eq!(all(&[]), Run { rows: 0, bytes: 0, refusal: None });
    let cut = Refusal::at(12, 18, [15, 0, 0]);
    assert_eq!(all(&stream[..18]), Run { rows: 2, bytes: 15, refusal: Some(cut) });
    let missing = Refusal::at(11, 19, [2, 0, 0]);
    let with_more = [&stream[..], &[2, 0]].concat();
    assert_eq!(all(&with_more), Run { rows: 3, bytes: 19, refusal: Some(missing) });
    let settings = Settings { node_charge: 0, ..Settings::default() };
    let answer = run(&settings, &two.tables(), &stream);
    assert_eq!(answer, Run { rows: 0, bytes: 0, refusal: Some(Refusal::bare(1)) });
}

#[test]
fn reports() {
    let a = schema_a();
    let row = Report::of_skip(&a.first(&FULL));
    assert_eq!(row.numbers(), [0, 0, 0, 0, 0, 0, 1, 10, 0, 4, 2]);
    assert_eq!(Report::of_skip(&a.first(&[])).numbers(), [1, 0, 0, 0, 0, 0, 0, 0, 0, 0, 0]);
    let refusal = Report::of_skip(&a.skip(limits(1, 192), &FULL, 0));
    assert_eq!(refusal.numbers(), [2, 14, 4, 13, 2, 1, 0, 0, 0, 0, 0]);
    let stream = [&FULL[..], &FULL[..9]].concat();
    let answer = Report::of_run(&run(&Settings::default(), &a.tables(), &stream));
    assert_eq!(answer.numbers(), [2, 12, 18, 14, 0, 0, 1, 10, 0, 0, 0]);
    for (length, returned) in [(0, 1), (87, 1), (88, 12), (89, 12)] {
        let mut slice = vec![7; length];
        assert_eq!(answer.write_to(&mut slice), returned);
        let written = if length < 88 { 0 } else { 88 };
        assert!(slice[written..].iter().all(|byte| *byte == 7));
        assert!(written == 0 || slice[..8] == [2, 0, 0, 0, 0, 0, 0, 0]);
    }
}
