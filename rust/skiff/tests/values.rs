//! Rows decoded through the library: values of every kind, room, and the bytes that stay.

use skiff::{
    sys, Context, Extent, FormatBuilder, FormatTables, Refusal, Schema, Settings, ValueRef, WireType,
};

/// What the slices hold before a call, so that a byte that was written shows.
const STALE: u8 = 0xA5;

fn leaf(wire_type: WireType) -> Schema {
    Schema::leaf(wire_type)
}

/// tuple("page" uint8, "name" variant8(nothing, string32)).
fn schema_a() -> FormatTables {
    let name = leaf(WireType::String32).named("name").optional();
    one_table(Schema::tuple([leaf(WireType::Uint8).named("page"), name]))
}

fn one_table(schema: Schema) -> FormatTables {
    FormatBuilder::new().table(schema).build().expect("short names")
}

fn one_column(schema: Schema) -> FormatTables {
    one_table(Schema::tuple([schema.named("c")]))
}

const FULL: [u8; 10] = [0, 0, 0x25, 1, 2, 0, 0, 0, 0xD1, 0xC5];

/// Decodes the row that is `wire` after a table tag 0 and hands its value on. Both slices have room to
/// spare, and what is spare has to stay.
fn with_row<T>(tables: &FormatTables, wire: &[u8], look: impl FnOnce(ValueRef) -> T) -> T {
    let stream = [&[0, 0], wire].concat();
    let usual = Settings::default();
    let Ok(Some(skipped)) = tables.format().skip_row(&usual, &stream, 0) else {
        panic!("what decodes also skips");
    };
    let written = (skipped.records as usize * 16, skipped.payload as usize);
    let (mut records, mut payload) = (vec![STALE; written.0 + 33], vec![STALE; written.1 + 7]);
    let decoded = tables.format().next_row(&usual, &stream, 0, &mut records, &mut payload);
    let Ok(Some(row)) = decoded else { panic!("it is a good row: {decoded:?}") };
    assert_eq!(row.extent(), skipped);
    assert_eq!(row.extent().bytes, stream.len());
    assert_eq!((row.records().len(), row.payload().len()), written);
    let seen = look(row.value());
    assert!(records[written.0..].iter().chain(&payload[written.1..]).all(|byte| *byte == STALE));
    seen
}

/// The only column's value is as it should be.
#[track_caller]
fn one(schema: Schema, wire: &[u8], expected: ValueRef) {
    with_row(&one_column(schema), wire, |value| {
        let ValueRef::Tuple(mut columns) = value else { panic!("a tuple: {value:?}") };
        assert_eq!(columns.len(), 1);
        assert_eq!(columns.next(), Some(expected));
        assert_eq!(columns.next(), None);
    });
}

#[test]
fn scalars_in_the_record() {
    one(leaf(WireType::Nothing), &[], ValueRef::Nothing);
    one(leaf(WireType::Boolean), &[0], ValueRef::Boolean(false));
    // Every byte but 0 is true, and the record then holds a 1.
    for byte in [1, 2, 0x80, 0xFF] {
        one(leaf(WireType::Boolean), &[byte], ValueRef::Boolean(true));
    }
    for number in [0, 1, -1, i8::MIN, i8::MAX] {
        one(leaf(WireType::Int8), &number.to_le_bytes(), ValueRef::Int8(number));
    }
    for number in [0, 0x0102, -1, i16::MIN, i16::MAX] {
        one(leaf(WireType::Int16), &number.to_le_bytes(), ValueRef::Int16(number));
    }
    for number in [0, 0x0102_0304, -1, i32::MIN, i32::MAX] {
        one(leaf(WireType::Int32), &number.to_le_bytes(), ValueRef::Int32(number));
    }
    for number in [0, 0x0102_0304_0506_0708, -1, i64::MIN, i64::MAX] {
        one(leaf(WireType::Int64), &number.to_le_bytes(), ValueRef::Int64(number));
    }
    for number in [0, 0x25, u8::MAX] {
        one(leaf(WireType::Uint8), &number.to_le_bytes(), ValueRef::Uint8(number));
    }
    for number in [0, 0x0102, u16::MAX] {
        one(leaf(WireType::Uint16), &number.to_le_bytes(), ValueRef::Uint16(number));
    }
    for number in [0, 0x0102_0304, u32::MAX] {
        one(leaf(WireType::Uint32), &number.to_le_bytes(), ValueRef::Uint32(number));
    }
    for number in [0, 0x0102_0304_0506_0708, u64::MAX] {
        one(leaf(WireType::Uint64), &number.to_le_bytes(), ValueRef::Uint64(number));
    }
}

#[test]
fn a_double_keeps_its_bits() {
    let tables = one_column(leaf(WireType::Double));
    // 0, -0, a half, infinity, a quiet and a signalling NaN with bits of their own, the least subnormal.
    let all = [0, 1 << 63, 0x3FE0 << 48, 0x7FF0 << 48, 0xFFF8_0000_0000_0BAD, 0x7FF0_0000_0000_0001, 1];
    for bits in all {
        let bits: u64 = bits;
        with_row(&tables, &bits.to_le_bytes(), |value| {
            let ValueRef::Tuple(mut columns) = value else { panic!("a tuple") };
            let Some(ValueRef::Double(number)) = columns.next() else { panic!("a double") };
            assert_eq!(number.to_bits(), bits);
        });
    }
}

#[test]
fn scalars_in_the_payload() {
    for number in [0, 1, -1, i128::MIN, i128::MAX, 0x0102_0304_0506_0708_090A_0B0C_0D0E_0F10] {
        one(leaf(WireType::Int128), &number.to_le_bytes(), ValueRef::Int128(number));
    }
    let bytes: [u8; 32] = std::array::from_fn(|index| 7 * index as u8 + 3);
    one(leaf(WireType::Int256), &bytes, ValueRef::Int256(&bytes));
    for blob in [&[][..], &[0xD1, 0xC5], &[0; 300]] {
        let wire = [&(blob.len() as u32).to_le_bytes(), blob].concat();
        one(leaf(WireType::String32), &wire, ValueRef::Bytes(blob));
        one(leaf(WireType::Yson32), &wire, ValueRef::Yson(blob));
    }
}

#[test]
fn a_variant_has_its_tag_and_value() {
    let choices = || [leaf(WireType::Nothing), leaf(WireType::Int16), leaf(WireType::String32)];
    let seen = |wire_type, wire: &[u8]| {
        with_row(&one_column(Schema::node(wire_type, choices())), wire, |value| {
            let ValueRef::Tuple(mut columns) = value else { panic!("a tuple") };
            let Some(ValueRef::Variant(variant)) = columns.next() else { panic!("a variant") };
            (variant.tag(), format!("{:?}", variant.value()))
        })
    };
    assert_eq!(seen(WireType::Variant8, &[0]), (0, "Nothing".to_owned()));
    assert_eq!(seen(WireType::Variant8, &[1, 0xFE, 0xFF]), (1, "Int16(-2)".to_owned()));
    assert_eq!(seen(WireType::Variant16, &[2, 0, 1, 0, 0, 0, 9]), (2, "Bytes(\"\\t\")".to_owned()));
    // The widest tags of both.
    let many = |wire_type, count| Schema::node(wire_type, vec![leaf(WireType::Nothing); count]);
    let tag = |schema, wire: &[u8]| {
        with_row(&one_column(schema), wire, |value| {
            let ValueRef::Tuple(mut columns) = value else { panic!("a tuple") };
            let Some(ValueRef::Variant(variant)) = columns.next() else { panic!("a variant") };
            variant.tag()
        })
    };
    assert_eq!(tag(many(WireType::Variant8, 256), &[255]), 255);
    assert_eq!(tag(many(WireType::Variant16, 65_536), &[255, 255]), 65_535);
}

#[test]
fn a_repeated_variant_has_its_elements_in_order() {
    let items = || [leaf(WireType::Boolean), Schema::tuple([leaf(WireType::Int8), leaf(WireType::Yson32)])];
    let seen = |wire_type, wire: &[u8]| {
        with_row(&one_column(Schema::node(wire_type, items())), wire, |value| {
            let ValueRef::Tuple(mut columns) = value else { panic!("a tuple") };
            let Some(ValueRef::RepeatedVariants(variants)) = columns.next() else { panic!("repeated") };
            let length = variants.len();
            let all: Vec<_> = variants.map(|item| (item.tag(), format!("{:?}", item.value()))).collect();
            assert_eq!(all.len(), length);
            all
        })
    };
    assert_eq!(seen(WireType::RepeatedVariant8, &[255]), []);
    assert_eq!(seen(WireType::RepeatedVariant16, &[255, 255]), []);
    let expected = [
        (0, "Boolean(true)".to_owned()),
        (1, "Tuple([Int8(-2), Yson(\"\\u{8}\\t\")])".to_owned()),
        (0, "Boolean(false)".to_owned()),
    ];
    let narrow = [0, 7, 1, 0xFE, 2, 0, 0, 0, 8, 9, 0, 0, 255];
    assert_eq!(seen(WireType::RepeatedVariant8, &narrow), expected);
    let wide = [0, 0, 7, 1, 0, 0xFE, 2, 0, 0, 0, 8, 9, 0, 0, 0, 255, 255];
    assert_eq!(seen(WireType::RepeatedVariant16, &wide), expected);
}

/// Compound values before others: a step to the next column passes all that is below one.
#[test]
fn trees_in_trees() {
    let list = Schema::node(WireType::RepeatedVariant8, [leaf(WireType::Int128), leaf(WireType::String32)]);
    let inner = Schema::tuple([list.clone(), leaf(WireType::Uint8).optional(), Schema::tuple([])]);
    let choice = Schema::node(WireType::Variant16, [leaf(WireType::Nothing), inner.clone()]);
    let columns = [inner.named("a"), choice.named("b"), list.named("c"), leaf(WireType::Uint16).named("d")];
    let int128 = |number: i128| [&[0], &number.to_le_bytes()[..]].concat();
    let wire = [
        // a: two elements, then none, then the empty tuple
        int128(-5),
        vec![1, 3, 0, 0, 0, b'a', b'b', b'c', 255, 0],
        // b: no element, then 0x66
        vec![1, 0, 255, 1, 0x66],
        // c: an empty string, then a number
        vec![1, 0, 0, 0, 0],
        int128(1 << 100),
        vec![255, 0x34, 0x12],
    ]
    .concat();
    let printed = with_row(&one_table(Schema::tuple(columns)), &wire, |value| {
        assert_eq!(value, value.clone());
        format!("{value:?}")
    });
    let a = "Tuple([RepeatedVariants([Variant { tag: 0, value: Int128(-5) }, \
             Variant { tag: 1, value: Bytes(\"abc\") }]), \
             Variant { tag: 0, value: Nothing }, Tuple([])])";
    let b = "Variant { tag: 1, value: Tuple([RepeatedVariants([]), \
             Variant { tag: 1, value: Uint8(102) }, Tuple([])]) }";
    let c = "RepeatedVariants([Variant { tag: 0, value: Int128(1267650600228229401496703205376) }])";
    let c = c.replace("([", "([Variant { tag: 1, value: Bytes(\"\") }, ");
    assert_eq!(printed, format!("Tuple([{a}, {b}, {c}, Uint16(4660)])"));
}

#[test]
fn the_deepest_schema_is_decoded() {
    let mut deep = leaf(WireType::Int8);
    for _ in 0..63 {
        deep = Schema::tuple([deep.named("c")]);
    }
    with_row(&one_table(deep), &[0x80], |mut value| {
        let mut levels = 1;
        while let ValueRef::Tuple(mut columns) = value {
            value = columns.next().expect("one column");
            levels += 1;
        }
        assert_eq!((levels, value), (64, ValueRef::Int8(-128)));
    });
}

/// The bytes themselves, as the layout has them.
#[test]
fn records_and_payload_byte_by_byte() {
    let tables = schema_a();
    let (mut records, mut payload) = ([STALE; 80], [STALE; 3]);
    let usual = Settings::default();
    let decoded = tables.format().next_row(&usual, &FULL, 0, &mut records, &mut payload);
    let Ok(Some(row)) = decoded else { panic!("a row: {decoded:?}") };
    assert_eq!(row.extent(), Extent { table: 0, bytes: 10, records: 4, payload: 2 });
    let mut expected = [0; 64];
    expected[0] = 17;
    expected[4] = 2;
    expected[16] = 8;
    expected[24] = 0x25;
    expected[32] = 15;
    expected[36] = 1;
    expected[48] = 13;
    expected[50] = 1;
    expected[52] = 2;
    assert_eq!(row.records(), expected);
    assert_eq!(row.payload(), [0xD1, 0xC5]);
    assert_eq!((records[64..].to_vec(), payload[2]), (vec![STALE; 16], STALE));
}

/// Room for a row of 4 records and 2 payload bytes, around what is just enough.
#[test]
fn room_is_refused_with_the_whole_need() {
    let tables = schema_a();
    // The second row of a stream, since a place counts from the stream's start.
    let stream = [&[0, 0, 0x25, 0], &FULL[..]].concat();
    let decode = |record_bytes: usize, payload_bytes: usize| {
        let (mut records, mut payload) = (vec![STALE; record_bytes], vec![STALE; payload_bytes]);
        let usual = Settings::default();
        let answer = tables.format().next_row(&usual, &stream, 4, &mut records, &mut payload);
        let answer = answer.map(|row| row.expect("there is a row").extent());
        if answer.is_err() {
            assert!(records.iter().chain(&payload).all(|byte| *byte == STALE));
        }
        answer
    };
    let row = Ok(Extent { table: 0, bytes: 10, records: 4, payload: 2 });
    let no_node_room = Err(Refusal::NoNodeRoom { needed: 4, place: 4 });
    let no_payload_room = Err(Refusal::NoPayloadRoom { needed: 2, place: 4 });
    assert_eq!(decode(64, 2), row);
    assert_eq!(decode(65, 3), row);
    assert_eq!(decode(79, 2), row);
    for record_bytes in [0, 15, 16, 48, 63] {
        // Too little of both is refused for the records.
        for payload_bytes in [0, 1, 2, 3] {
            assert_eq!(decode(record_bytes, payload_bytes), no_node_room);
        }
    }
    for record_bytes in [64, 65, 80] {
        for payload_bytes in [0, 1] {
            assert_eq!(decode(record_bytes, payload_bytes), no_payload_room);
        }
    }
}

/// A refusal of the row itself comes before those of room, and none of them writes.
#[test]
fn a_refused_row_writes_nothing() {
    let tables = schema_a();
    let tight = Settings::default().with_max_blob_bytes(2).with_max_row_bytes(193);
    let usual = Settings::default();
    let cases = [
        (usual, &FULL[..9], 0, Refusal::Truncated { context: Context::BlobPayload, place: 8 }),
        (usual, &FULL[..1], 0, Refusal::Truncated { context: Context::TableTag, place: 0 }),
        (tight, &FULL, 0, Refusal::RowTooLarge { limit: 193, place: 4 }),
        (usual, &[1, 0], 0, Refusal::MissingTableSchema { index: 1, place: 0 }),
        (usual, &FULL, 11, Refusal::Setting),
    ];
    for (settings, input, position, refusal) in cases {
        for room in [0, 200] {
            let (mut records, mut payload) = (vec![STALE; room], vec![STALE; room]);
            let answer = tables.format().next_row(&settings, input, position, &mut records, &mut payload);
            assert_eq!(answer, Err(refusal));
            assert!(records.iter().chain(&payload).all(|byte| *byte == STALE));
            let skipped = tables.format().skip_row(&settings, input, position);
            assert_eq!(skipped, Err(refusal), "skip and decode refuse for the same reason");
        }
    }
    let none = FormatTables::default();
    let answer = none.format().next_row(&usual, &FULL, 0, &mut [], &mut []);
    assert_eq!(answer, Err(Refusal::EmptyTableSchemas));
}

#[test]
fn an_end_needs_no_room() {
    let tables = schema_a();
    for room in [0, 100] {
        let (mut records, mut payload) = (vec![STALE; room], vec![STALE; room]);
        for (input, position) in [(&FULL[..], 10), (&[], 0)] {
            let usual = Settings::default();
            let answer = tables.format().next_row(&usual, input, position, &mut records, &mut payload);
            assert_eq!(answer, Ok(None));
        }
        assert!(records.iter().chain(&payload).all(|byte| *byte == STALE));
    }
}

/// Below the types: an answer slice that is too short leaves all three slices as they were.
#[test]
fn a_short_answer_slice_is_refused_before_all_else() {
    let tables = schema_a();
    let numbers = sys::Numbers::from(&Settings::default());
    for length in [0, 1, 87, 88, 90] {
        let (mut records, mut payload) = ([STALE; 64], [STALE; 2]);
        let mut answer = vec![STALE; length];
        let format = tables.format();
        let returned = sys::decode(numbers, &format, &FULL, 0, &mut records, &mut payload, &mut answer);
        let stale = |bytes: &[u8]| bytes.iter().all(|byte| *byte == STALE);
        if length < sys::ANSWER_SIZE {
            assert_eq!(returned, 1);
            assert!(stale(&records) && stale(&payload) && stale(&answer));
        } else {
            assert_eq!(returned, 0);
            assert_eq!(payload, [0xD1, 0xC5]);
            assert!(stale(&answer[sys::ANSWER_SIZE..]));
        }
    }
}

/// The delivery that stands in examples/, decoded row by row.
#[test]
fn the_delivery() {
    let folder = concat!(env!("CARGO_MANIFEST_DIR"), "/../../examples/");
    let stream = std::fs::read(format!("{folder}rows.skf")).expect("it is there");
    let tables = schema_a();
    let (mut records, mut payload) = ([0; 64], [0; 4_096]);
    let (mut position, mut rows) = (0, 0);
    loop {
        let usual = Settings::default();
        let decoded = tables.format().next_row(&usual, &stream, position, &mut records, &mut payload);
        let Some(row) = decoded.expect("good rows") else { break };
        let ValueRef::Tuple(columns) = row.value() else { panic!("a tuple") };
        assert_eq!(columns.len(), 2);
        position += row.extent().bytes;
        rows += 1;
    }
    assert_eq!((rows, position), (5, stream.len()));
}
