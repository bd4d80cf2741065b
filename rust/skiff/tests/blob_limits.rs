//! A string32 and a yson32 are each held to the limit of their own type, by every call that takes settings.

mod common;

use common::{one_table, schema_b};
use skiff::{Decoder, Encoder, Format, OwnedIndex, Refusal, Schema, Settings, Value, WireType};

const MOST: u64 = Settings::MOST_BYTES;

/// tuple("name" string32, "note" yson32).
fn schema() -> Schema {
    Schema::tuple([
        Schema::leaf(WireType::String32).named("name"),
        Schema::leaf(WireType::Yson32).named("note"),
    ])
}

/// A name of two bytes and a note of three.
const ROW: &[u8] = b"\0\0\x02\0\0\0hi\x03\0\0\0[1]";

fn limits(string32: u64, yson32: u64) -> Settings {
    Settings::default().with_max_string32_bytes(string32).with_max_yson32_bytes(yson32)
}

fn too_long(wire_type: WireType, length: u64, limit: u64, place: u64) -> Refusal {
    Refusal::BlobTooLarge { wire_type, length, limit, place }
}

/// Two limits, and by what the row is refused under them, if it is.
fn pairs() -> Vec<(u64, u64, Option<Refusal>)> {
    let (string32, yson32) = (WireType::String32, WireType::Yson32);
    vec![
        (2, 3, None),
        (MOST, MOST, None),
        (1, 3, Some(too_long(string32, 2, 1, 2))),
        (0, MOST, Some(too_long(string32, 2, 0, 2))),
        (3, 2, Some(too_long(yson32, 3, 2, 8))),
        (MOST, 0, Some(too_long(yson32, 3, 0, 8))),
        (1, 2, Some(too_long(string32, 2, 1, 2))),
        (MOST + 1, 3, Some(Refusal::Setting)),
        (2, MOST + 1, Some(Refusal::Setting)),
    ]
}

/// What each call that reads refuses the row at the start of a stream by.
fn refusals(format: Format, settings: &Settings, stream: &[u8]) -> [Option<Refusal>; 8] {
    let (mut records, mut payload) = ([0; 16 * 8], [0; 64]);
    let whole = format.build_index(&Settings::default(), stream, &mut [0; 16]).to_end();
    assert_eq!(whole, Ok((1, stream.len() as u64)), "one row");
    let mut record = [0; 16];
    record[8] = stream.len() as u8;
    [
        format.skip_row(settings, stream, 0).err(),
        format.next_row(settings, stream, 0, &mut records, &mut payload).err(),
        format.run(settings, stream).to_end().err(),
        format.run_window(settings, 0, 0, stream).run.to_end().err(),
        format.build_index(settings, stream, &mut [0; 16]).to_end().err(),
        format.check_index(settings, stream, &record[..]).to_end().err(),
        format.extend_index(settings, stream, 0, &mut [0; 16]).to_end().err(),
        format.indexed_row(settings, stream, &record[..], 0, &mut records, &mut payload).err(),
    ]
}

#[test]
fn reading() {
    let tables = one_table(&schema());
    for (string32, yson32, refused) in pairs() {
        let settings = limits(string32, yson32);
        assert_eq!(refusals(tables.format(), &settings, ROW), [refused; 8], "{settings:?}");
    }
}

/// One type alone, and none: the limit of the other is tested as a setting, and is otherwise nobody's.
#[test]
fn a_type_that_does_not_occur() {
    let column = |wire_type| one_table(&Schema::tuple([Schema::leaf(wire_type).named("c")]));
    let (names, notes) = (column(WireType::String32), column(WireType::Yson32));
    let lists = one_table(&schema_b());
    let blob = b"\0\0\x02\0\0\0hi";
    for (other, refused) in [(0, None), (MOST, None), (MOST + 1, Some(Refusal::Setting))] {
        assert_eq!(refusals(names.format(), &limits(2, other), blob), [refused; 8]);
        assert_eq!(refusals(notes.format(), &limits(other, 2), blob), [refused; 8]);
        assert_eq!(refusals(lists.format(), &limits(0, other), &[0, 0, 255]), [refused; 8]);
        assert_eq!(refusals(lists.format(), &limits(other, 0), &[0, 0, 255]), [refused; 8]);
    }
}

#[test]
fn writing() {
    let tables = schema().tables().expect("short names");
    let value = Value::Tuple(vec![Value::Bytes(b"hi".to_vec()), Value::Yson(b"[1]".to_vec())]);
    for (string32, yson32, refused) in pairs() {
        // In writing a place is the value record's number.
        let refused = refused.map(|refusal| match refusal {
            Refusal::BlobTooLarge { wire_type, length, limit, .. } => {
                too_long(wire_type, length, limit, if wire_type == WireType::String32 { 1 } else { 2 })
            }
            other => other,
        });
        let encoder = Encoder::to_writer(Vec::new(), &tables).expect("a table's schema");
        let mut encoder = encoder.with_max_string32_bytes(string32).with_max_yson32_bytes(yson32);
        let written = encoder.write_value(&value);
        assert_eq!(written.err().and_then(|error| error.refusal()), refused);
        assert_eq!(encoder.into_inner(), if refused.is_none() { ROW } else { &[] });
    }
}

/// A decoder's own limits, one by one and both at once; an index is refused as the rows are.
#[test]
fn decoders() {
    let tables = one_table(&schema());
    let over = || Decoder::from_slice(ROW, &tables).expect("a format");
    let refused = |mut decoder: Decoder<_>| {
        let refusal = decoder.next_row().err().and_then(|error| error.refusal());
        let built = decoder.build_index().map(OwnedIndex::into_records);
        assert_eq!(built.err().and_then(|error| error.refusal()), refusal);
        refusal
    };
    assert_eq!(refused(over()), None);
    assert_eq!(refused(over().with_max_blob_bytes(3)), None);
    assert_eq!(refused(over().with_max_blob_bytes(2)), Some(too_long(WireType::Yson32, 3, 2, 8)));
    assert_eq!(refused(over().with_max_string32_bytes(2).with_max_yson32_bytes(3)), None);
    let short = over().with_max_blob_bytes(3).with_max_string32_bytes(1);
    assert_eq!(refused(short), Some(too_long(WireType::String32, 2, 1, 2)));
    let words =
        "refused 14 BlobTooLarge (type 14 yson32, length 3, limit 2) at 8: byte 8, row 0, column \"note\"";
    let error = over().with_max_yson32_bytes(2).next_row().expect_err("a note too long").to_string();
    assert_eq!(error, words);
}

#[test]
fn settings_have_both() {
    let both = Settings::default().with_max_blob_bytes(7);
    assert_eq!((both.max_string32_bytes(), both.max_yson32_bytes()), (7, 7));
    assert_eq!(both, limits(7, 7));
    assert_ne!(limits(7, 8), limits(8, 7));
    let usual = Settings::default();
    assert_eq!(usual.max_string32_bytes(), Settings::DEFAULT_MAX_BLOB_BYTES);
    assert_eq!(usual.max_yson32_bytes(), Settings::DEFAULT_MAX_BLOB_BYTES);
    assert_eq!(
        format!("{:?}", limits(1, 2)),
        "Settings { node_charge: 48, max_string32_bytes: 1, max_yson32_bytes: 2, max_row_bytes: 268435456 }"
    );
}
