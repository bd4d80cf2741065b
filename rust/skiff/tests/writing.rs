//! Rows written and read back through the front end.

use skiff::{
    Encoder, FormatBuilder, Misuse, Refusal, RowBuilder, Schema, SchemaBlock, Settings, ValueTable, WireType,
};

/// Ends a chain of calls.
fn done(_: &mut RowBuilder) {}

/// "page" uint8, "name" optional string32, "tags" a list of (int64, or a tuple of double and boolean).
fn schema() -> Schema {
    let point = Schema::tuple([Schema::leaf(WireType::Double), Schema::leaf(WireType::Boolean)]);
    let items = [Schema::leaf(WireType::Int64), point];
    Schema::tuple([
        Schema::leaf(WireType::Uint8).named("page"),
        Schema::leaf(WireType::String32).optional().named("name"),
        Schema::node(WireType::RepeatedVariant8, items).named("tags"),
    ])
}

fn row(builder: &mut RowBuilder) {
    builder.clear();
    builder.value(0x25_u8).value(Some("hi")).list(|list| {
        list.item(0, |item| item.value(-2_i64));
        list.item(1, |item| item.tuple(|point| point.value(0.5).value(true)));
    });
}

const BYTES: [u8; 31] = [
    0, 0, 0x25, 1, 2, 0, 0, 0, b'h', b'i', 0, 0xFE, 0xFF, 0xFF, 0xFF, 0xFF, 0xFF, 0xFF, 0xFF, 1, 0, 0, 0, 0,
    0, 0, 0xE0, 0x3F, 1, 0xFF, 0xEE,
];

#[test]
fn a_row_is_written_and_read_back() {
    let tables = schema().tables().expect("short names");
    let (block, usual) = (tables.block(), Settings::default());
    let mut builder = RowBuilder::new();
    row(&mut builder);
    let value = builder.finish().expect("no misuse");
    assert_eq!(value.check(), Ok(()));

    let mut slice = [0xEE; 31];
    let written = block.encode(&usual, value, &mut slice, 0).expect("it fits");
    assert_eq!((written.table, written.bytes, written.records, written.payload), (0, 30, 9, 2));
    assert_eq!(slice, BYTES);

    let mut stream = vec![7, 7];
    assert_eq!(block.append(&usual, value, &mut stream), Ok(written));
    assert_eq!(stream[2..], BYTES[..30]);

    // What is read is handed to `write` as it is.
    let format = FormatBuilder::new().table(schema()).build().expect("short names");
    let (mut records, mut payload) = ([0; 16 * 9], [0; 2]);
    let read = format.format().next_row(&Settings::default(), &stream, 2, &mut records, &mut payload);
    let Ok(Some(decoded)) = read else { panic!("no row: {read:?}") };
    assert_eq!(decoded.records(), value.records);
    assert_eq!(decoded.payload(), value.payload);
    let mut again = Vec::new();
    assert_eq!(block.append(&usual, decoded, &mut again), Ok(written));
    assert_eq!(again, stream[2..]);
}

#[test]
fn room_is_refused_with_the_whole_need() {
    let tables = schema().tables().expect("short names");
    let (block, usual) = (tables.block(), Settings::default());
    let mut builder = RowBuilder::new();
    row(&mut builder);
    let value = builder.finish().expect("no misuse");
    for (room, position) in [(29, 0), (31, 2), (0, 0), (5, 5)] {
        let mut slice = vec![0xEE; room];
        let error = block.encode(&usual, value, &mut slice, position).expect_err("it does not fit");
        assert_eq!(error.refusal, Refusal::NoOutputRoom { needed: 30, place: position as u64 });
        assert_eq!(error.to_string(), format!("refused 21 NoOutputRoom (needed 30) at {position}"));
        assert!(slice.iter().all(|byte| *byte == 0xEE));
    }
    let mut slice = [0xEE; 4];
    assert_eq!(
        block.encode(&usual, value, &mut slice, 5).map_err(|error| error.refusal),
        Err(Refusal::Setting)
    );
}

#[test]
fn errors_say_which_value() {
    let tables = schema().tables().expect("short names");
    let (block, settings) = (tables.block(), Settings::default().with_max_blob_bytes(3));
    let mut stream = vec![1, 2, 3];
    let mut refused = |build: &dyn Fn(&mut RowBuilder)| {
        let mut builder = RowBuilder::new();
        build(&mut builder);
        let error =
            block.append(&settings, builder.finish().expect("no misuse"), &mut stream).expect_err("no fit");
        assert_eq!(stream, [1, 2, 3]);
        error.to_string()
    };
    assert_eq!(
        refused(&|row| done(row.value(1_u8))),
        "refused 16 TupleLength (expected 3, actual 1) at 0: value record 0"
    );
    assert_eq!(
        refused(&|row| done(row.value(1_i8).value(Some("hi")).list(|_| ()))),
        "refused 15 ValueDoesNotMatchSchema (type 8 uint8, kind 2) at 1: value record 1, column \"page\""
    );
    assert_eq!(
        refused(&|row| done(row.value(1_u8).value(Some("four")).list(|_| ()))),
        "refused 14 BlobTooLarge (type 13 string32, length 4, limit 3) at 3: value record 3, \
         column \"name\", tag 1"
    );
    assert_eq!(
        refused(&|row| done(row.value(1_u8).none().list(|list| {
            list.item(0, |item| item.value(1_i64)).item(2, |item| item.value(1_i64));
        }))),
        "refused 17 InvalidVariantTag (type 17 repeated_variant8, tag 2, children 2) at 6: value record 6, \
         column \"tags\", element 1, tag 2"
    );
    assert_eq!(
        refused(&|row| done(row.value(1_u8).none().list(|list| {
            list.item(1, |item| item.tuple(|point| point.value(1.0).value(2.0)));
        }))),
        "refused 15 ValueDoesNotMatchSchema (type 1 boolean, kind 12) at 7: value record 7, \
         column \"tags\", element 0, tag 1, field 1"
    );
}

#[test]
fn a_table_by_hand_is_judged_first() {
    let tables = schema().tables().expect("short names");
    let (block, usual) = (tables.block(), Settings::default());
    let table = ValueTable { records: &[1; 16], payload: &[] };
    assert_eq!(table.check(), Err(Refusal::BadValueTable));
    let error = block.append(&usual, table, &mut Vec::new()).expect_err("no table");
    assert_eq!(error.to_string(), "refused 18 BadValueTable at 0");
}

#[test]
fn bad_schemas_are_refused() {
    let refused = |schema: Schema| {
        let tables = schema.tables().expect("short names");
        let refusal = tables.block().check().expect_err("no table's schema");
        let error = Encoder::to_writer(Vec::new(), &tables).map(drop).expect_err("no table's schema");
        assert_eq!(error.refusal(), Some(refusal));
        refusal
    };
    assert_eq!(
        refused(Schema::leaf(WireType::Int8)),
        Refusal::TableSchemaMustBeTuple { found: WireType::Int8, place: 0 }
    );
    let nameless = Schema::tuple([Schema::leaf(WireType::Int8)]);
    assert_eq!(refused(nameless), Refusal::TableSchemaChildMissingName { index: 0, place: 1 });
    let tables = schema().tables().expect("short names");
    let block = SchemaBlock { count: 3, ..tables.block() };
    assert_eq!(block.check(), Err(Refusal::BadSchemaTable));
}

#[test]
fn every_scalar_has_its_record() {
    let mut row = RowBuilder::new();
    row.nothing().value(false).value(true).value(i8::MIN).value(i16::MIN).value(i32::MIN).value(i64::MIN);
    row.value(u8::MAX).value(u16::MAX).value(u32::MAX).value(u64::MAX);
    row.value(f64::from_bits(0x7FF0_0000_0000_0001)).value(i128::MIN).int256(&[9; 32]);
    row.value("text").value(&b"bytes"[..]).yson(b"y").value(()).value(None::<u8>);
    let table = row.finish().expect("no misuse");
    assert_eq!(table.check(), Ok(()));
    let kinds: Vec<u8> = table.records.chunks(16).map(|record| record[0]).collect();
    assert_eq!(kinds, [17, 0, 1, 1, 2, 3, 4, 5, 8, 9, 10, 11, 12, 6, 7, 13, 13, 14, 0, 15, 0]);
    assert_eq!(table.records[12 * 16 + 8..13 * 16], 0x7FF0_0000_0000_0001_u64.to_le_bytes());
    assert_eq!(table.payload.len(), 16 + 32 + 4 + 5 + 1);
}

#[test]
fn misuses_are_errors() {
    let misuse = |build: &dyn Fn(&mut RowBuilder)| {
        let mut row = RowBuilder::new();
        build(&mut row);
        // What comes after it changes nothing.
        row.value(1_u8).list(|list| done(list.item(0, |item| item.nothing())));
        row.finish().map(drop)
    };
    assert_eq!(misuse(&|row| done(row.variant(0, |v| v))), Err(Misuse::NoValue { record: 1 }));
    assert_eq!(
        misuse(&|row| done(row.variant(0, |v| v.nothing().nothing()))),
        Err(Misuse::SecondValue { record: 3 })
    );
    assert_eq!(misuse(&|row| done(row.list(|list| done(list.nothing())))), Err(Misuse::NoTag { record: 2 }));
    assert_eq!(
        misuse(&|row| done(row.list(|list| done(list.item(0, |item| item))))),
        Err(Misuse::NoValue { record: 2 })
    );
    assert_eq!(
        misuse(&|row| done(row.list(|list| done(list.item(0, |item| item.nothing().nothing()))))),
        Err(Misuse::NoTag { record: 3 })
    );
    assert_eq!(
        misuse(&|row| done(row.item(0, |item| item.nothing()))),
        Err(Misuse::NotInAList { record: 1 })
    );
    assert_eq!(
        misuse(&|row| done(row.list(|list| done(list.item(0, |item| item.item(0, |v| v.nothing())))))),
        Err(Misuse::NotInAList { record: 2 })
    );
    fn deep(row: &mut RowBuilder, levels: usize) -> &mut RowBuilder {
        if levels == 0 {
            return row;
        }
        row.tuple(|inner| deep(inner, levels - 1))
    }
    assert_eq!(misuse(&|row| done(deep(row, 63))), Ok(()));
    assert_eq!(misuse(&|row| done(deep(row, 64))), Err(Misuse::TooDeep { record: 64 }));
    // What the builder keeps from being written, the library would refuse.
    let levels = |count: usize| {
        let mut records = vec![0; 16 * count];
        for (index, record) in records.chunks_mut(16).enumerate() {
            record[0] = 17;
            record[4] = u8::from(index + 1 < count);
        }
        ValueTable { records: &records, payload: &[] }.check()
    };
    assert_eq!((levels(64), levels(65)), (Ok(()), Err(Refusal::BadValueTable)));
    assert!(Misuse::TooDeep { record: 64 }.to_string().starts_with("value record 64: "));
}
