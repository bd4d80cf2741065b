//! Values: by column, by Rust type, as trees, in words and in a listing.

mod common;

use common::{one_table, schema_a, schema_b, Chance};
use skiff::{
    Decoder, Encoder, FormatBuilder, Misuse, Row, RowBuilder, Schema, SchemaBlock, TableRef, Value, Variant,
    WireType,
};

/// One column of each kind, and a value of each.
fn every_kind() -> (Schema, Value) {
    let leaf = Schema::leaf;
    let mut columns: Vec<Schema> =
        WireType::ALL[..15].iter().map(|(wire_type, name)| leaf(*wire_type).named(*name)).collect();
    columns.push(leaf(WireType::String32).optional().named("some"));
    columns.push(leaf(WireType::String32).optional().named("none"));
    let items = [leaf(WireType::Uint8), leaf(WireType::Nothing)];
    columns.push(Schema::node(WireType::RepeatedVariant16, items).named("list"));
    columns.push(Schema::tuple([leaf(WireType::Int8)]).named("tuple"));
    let value = Value::Tuple(vec![
        Value::Nothing,
        Value::Boolean(true),
        Value::Int8(-8),
        Value::Int16(-16),
        Value::Int32(-32),
        Value::Int64(i64::MIN),
        Value::Int128(-128),
        Value::Int256(std::array::from_fn(|index| index as u8)),
        Value::Uint8(8),
        Value::Uint16(16),
        Value::Uint32(32),
        Value::Uint64(u64::MAX),
        Value::Double(0.5),
        Value::text("grün"),
        Value::Yson(vec![0xFF, b'{', b'}']),
        Value::variant(1, Value::text("")),
        Value::variant(0, Value::Nothing),
        Value::RepeatedVariants(vec![
            Variant { tag: 0, value: Value::Uint8(1) },
            Variant { tag: 1, value: Value::Nothing },
        ]),
        Value::Tuple(vec![Value::Int8(1)]),
    ]);
    (Schema::tuple(columns), value)
}

/// Looks at the row that a value is, written and read.
fn with_row(schema: &Schema, value: &Value, look: impl FnOnce(Row)) {
    let tables = schema.tables().expect("short names");
    let mut encoder = Encoder::to_writer(Vec::new(), &tables).expect("a table's schema");
    encoder.write_value(value).expect("it conforms");
    let (stream, format) = (encoder.into_inner(), one_table(schema));
    let mut decoder = Decoder::from_slice(&stream, &format).expect("a format");
    look(decoder.next_row().expect("a good row").expect("there is one"));
}

#[test]
fn values_by_column_name_and_rust_type() {
    let (schema, value) = every_kind();
    with_row(&schema, &value, |row| look_at_columns(&schema, &value, row));
}

fn look_at_columns(schema: &Schema, value: &Value, row: Row) {
    let get = |name: &str| row.get(name).expect("there is such a column");

    assert!(get("nothing").is_nothing() && !get("int8").is_nothing());
    assert_eq!((get("boolean").as_bool(), get("int8").as_bool()), (Some(true), None));
    let signed = ["int8", "int16", "int32", "int64"].map(|name| get(name).as_i64());
    assert_eq!(signed, [Some(-8), Some(-16), Some(-32), Some(i64::MIN)]);
    let unsigned = ["uint8", "uint16", "uint32", "uint64"].map(|name| get(name).as_u64());
    assert_eq!(unsigned, [Some(8), Some(16), Some(32), Some(u64::MAX)]);
    // A number of another kind, where it has it.
    assert_eq!((get("int8").as_u64(), get("uint64").as_i64()), (None, None));
    assert_eq!((get("uint8").as_i64(), get("int128").as_i64()), (Some(8), Some(-128)));
    assert_eq!((get("int128").as_i128(), get("int256").as_i128()), (Some(-128), None));
    assert_eq!(get("uint64").as_i128(), Some(i128::from(u64::MAX)));
    assert_eq!((get("double").as_f64(), get("double").as_i64()), (Some(0.5), None));
    assert_eq!((get("string32").as_str(), get("yson32").as_str()), (Some("grün"), None));
    assert_eq!(get("string32").as_bytes(), Some("grün".as_bytes()));
    assert_eq!((get("yson32").as_yson(), get("string32").as_yson()), (Some(&b"\xFF{}"[..]), None));
    assert_eq!(get("some").as_some().and_then(|text| text.as_str()), Some(""));
    assert_eq!((get("none").as_some(), get("int8").as_some()), (None, None));
    assert_eq!(get("none").as_variant().map(|chosen| chosen.tag()), Some(0));
    let tags = get("list").as_list().map(|list| list.map(|item| item.tag()).collect::<Vec<_>>());
    assert_eq!(tags, Some(vec![0, 1]));
    assert_eq!(get("tuple").as_tuple().and_then(|mut fields| fields.next()?.as_i64()), Some(1));
    assert!(get("tuple").as_list().is_none() && get("list").as_tuple().is_none());
    assert!(get("tuple").as_variant().is_none() && get("list").as_bytes().is_none());

    // By number, and all of them with their names.
    assert_eq!(row.at(8), row.get("uint8"));
    assert_eq!((row.at(19), row.get("uint9"), row.get("")), (None, None, None));
    let names = row.columns().map(|(name, _)| name.to_vec());
    assert!(names.eq(schema.children.iter().map(|column| column.name.clone().expect("a name"))));
    assert!(row.columns().all(|(name, value)| row.get(name) == Some(value)));

    // The tree gives the same answers.
    let tree = row.value().to_value();
    assert_eq!(tree, *value);
    let fields = tree.as_tuple().expect("a tuple");
    for (field, (_, view)) in fields.iter().zip(row.columns()) {
        assert_eq!(field.kind(), view.kind());
        assert_eq!((field.as_bool(), field.as_i64()), (view.as_bool(), view.as_i64()));
        assert_eq!((field.as_u64(), field.as_i128()), (view.as_u64(), view.as_i128()));
        assert_eq!((field.as_str(), field.as_f64()), (view.as_str(), view.as_f64()));
        assert_eq!((field.as_bytes(), field.as_yson()), (view.as_bytes(), view.as_yson()));
        assert_eq!(field.as_some().cloned(), view.as_some().map(Value::from));
        assert_eq!(field.as_variant().map(|chosen| chosen.tag), view.as_variant().map(|chosen| chosen.tag()));
        assert_eq!(field.as_list().map(<[_]>::len), view.as_list().map(|list| list.len()));
        assert_eq!(field.as_tuple().map(<[_]>::len), view.as_tuple().map(|fields| fields.len()));
        assert_eq!((format!("{field:?}"), field.to_string()), (format!("{view:?}"), view.to_string()));
    }
}

#[test]
fn words_show_text_as_text() {
    let (_, value) = every_kind();
    let words = format!("{value:?}");
    let wide: String = (0..32).rev().map(|byte| format!("{byte:02x}")).collect();
    for part in ["Bytes(\"grün\")", "Yson(b\"\\xff{}\")", "Boolean(true)", "Int128(-128)", "Double(0.5)"] {
        assert!(words.contains(part), "{part} is not in {words}");
    }
    assert!(words.contains(&format!("Int256(0x{wide})")));
    assert!(words.contains("Variant { tag: 1, value: Bytes(\"\") }"));
    assert!(words.contains("RepeatedVariants([Variant { tag: 0, value: Uint8(1) }, "));
}

/// The listing of the rules, whose lines document 01 has.
#[test]
fn a_listing_has_a_line_for_each_record() {
    let (schema, value) = every_kind();
    let wide: String = (1..32).rev().map(|byte| format!("{byte:02x}")).collect();
    let lines = [
        "1 0 tuple 19",
        "2 0 nothing -",
        "2 0 boolean 1",
        "2 0 int8 -8",
        "2 0 int16 -16",
        "2 0 int32 -32",
        "2 0 int64 -9223372036854775808",
        "2 0 int128 -80",
        &format!("2 0 int256 {wide}00"),
        "2 0 uint8 8",
        "2 0 uint16 16",
        "2 0 uint32 32",
        "2 0 uint64 18446744073709551615",
        "2 0 double 3fe0000000000000",
        "2 0 string32 6772c3bc6e",
        "2 0 yson32 ff7b7d",
        "2 0 variant 1",
        "3 1 string32 -",
        "2 0 variant 1",
        "3 0 nothing -",
        "2 0 repeated_variant 2",
        "3 0 uint8 1",
        "3 1 nothing -",
        "2 0 tuple 1",
        "3 0 int8 1",
    ];
    let expected: String = lines.iter().map(|line| format!("7 {line}\n")).collect();
    with_row(&schema, &value, |row| assert_eq!(row.listing(7).to_string(), expected));

    let format = one_table(&schema_b());
    let mut decoder = Decoder::from_slice(&[0, 0, 0xFF], &format).expect("a format");
    let row = decoder.next_row().expect("a good row").expect("there is one");
    assert_eq!(row.listing(0).to_string(), "0 1 0 tuple 1\n0 2 0 repeated_variant 0\n");
}

#[test]
fn a_schema_is_read_back_from_its_tables() {
    for seed in 0..200 {
        let mut chance = Chance(seed);
        let schemas = [1, 3, 5].map(|columns| chance.table(columns));
        let [first, second, third] = schemas.clone();
        let tables = FormatBuilder::new()
            .table(first.clone())
            .table_from_registry("two")
            .table(second.clone())
            .table_from_registry("three")
            .register("two", second)
            .register("three", third)
            .register("", first)
            .build()
            .expect("short names");
        let format = tables.format();
        assert_eq!((format.check(), format.tables()), (Ok(()), 4));
        for (table, index) in [(0, 0), (1, 1), (2, 1), (3, 2)] {
            let block = format.table_schema(table).expect("there is such a table");
            assert_eq!(block.schema().as_ref(), Some(&schemas[index]));
            assert_eq!(block.check(), Ok(()));
            assert_eq!(block.columns().count(), schemas[index].children.len());
        }
        assert_eq!(format.table_schema(4), None);
        let words = |table| match table {
            TableRef::Inline(block) => block.schema().expect("it is in form").children.len().to_string(),
            TableRef::Registry(name) => name.escape_ascii().to_string(),
        };
        assert!(format.table_refs().map(words).eq(["1", "two", "3", "three"]));
        let registered: Vec<_> = format.registered().map(|(name, block)| (name, block.schema())).collect();
        let wanted = [(&b""[..], 0), (b"three", 2), (b"two", 1)];
        assert_eq!(registered, wanted.map(|(name, index)| (name, Some(schemas[index].clone()))));
    }
}

/// What is not in form has no names and no schema, and nothing stops the program.
#[test]
fn tables_by_chance_stop_nothing() {
    let tables = schema_a().tables().expect("short names");
    let mut chance = Chance(1);
    let mut found = 0;
    for _ in 0..20_000 {
        let (mut records, mut names) = (tables.records.clone(), tables.names.clone());
        for _ in 0..1 + chance.below(3) {
            let at = chance.below(records.len());
            records[at] = chance.number() as u8;
        }
        names.truncate(chance.below(names.len() + 1));
        let first = chance.below(3) as u64;
        let block = SchemaBlock { records: &records, names: &names, first, count: 5 };
        found += usize::from(block.schema().is_some());
        block.columns().take(1000).for_each(drop);
        if block.check().is_ok() {
            assert!(block.schema().is_some(), "what is in form has a tree");
        }
    }
    assert!(found > 0);
}

#[test]
fn a_row_can_be_kept() {
    let format = one_table(&schema_a());
    let stream = [0, 0, 0x25, 1, 2, 0, 0, 0, b'h', b'i', 0, 0, 0x26, 0];
    let mut decoder = Decoder::from_slice(&stream, &format).expect("a format");
    let first = decoder.next_row().expect("a good row").expect("there is one").to_owned_row();
    let second = decoder.next_row().expect("a good row").expect("there is one").to_owned_row();
    assert_ne!(first, second);
    assert_eq!(first.row().get("name").and_then(|name| name.as_some()?.as_str()), Some("hi"));
    assert_eq!(first.row().extent().bytes, 10);
    assert!(format!("{second:?}").contains("Variant { tag: 0, value: Nothing }"));
}

#[test]
fn a_tree_of_any_root_is_put_as_it_is() {
    let mut row = RowBuilder::new();
    for value in [Value::Int8(1), Value::Tuple(vec![]), Value::variant(3, Value::Nothing), every_kind().1] {
        let table = row.set(&value).finish().expect("no misuse");
        assert_eq!(table.check(), Ok(()));
        assert_eq!(row.nothing().finish(), Err(Misuse::SecondValue { record: table_len(&value) }));
    }
    let mut deep = Value::Nothing;
    for _ in 0..63 {
        deep = Value::Tuple(vec![deep]);
    }
    assert!(row.set(&deep).finish().is_ok());
    deep = Value::Tuple(vec![deep]);
    assert_eq!(row.set(&deep).finish(), Err(Misuse::TooDeep { record: 64 }));
    // The builder is as good as new after it.
    assert_eq!(row.clear().value(1_u8).finish().expect("no misuse").check(), Ok(()));

    let tables = schema_a().tables().expect("short names");
    let mut encoder = Encoder::to_writer(Vec::new(), &tables).expect("a table's schema");
    let error = encoder.write_value(&Value::Int8(1)).expect_err("no tuple");
    let words = "refused 15 ValueDoesNotMatchSchema (type 19 tuple, kind 2) at 0: value record 0";
    assert_eq!(error.to_string(), words);
    assert!(encoder.write_with(|row| row.variant(0, |none| none)).is_err());
    encoder.write_with(|row| row.value(1_u8).none()).expect("it conforms");
    assert_eq!((encoder.written(), encoder.into_inner().len()), ((1, 4), 4));
}

fn table_len(value: &Value) -> usize {
    1 + match value {
        Value::Variant(chosen) => table_len(&chosen.value),
        Value::RepeatedVariants(items) => items.iter().map(|item| table_len(&item.value)).sum(),
        Value::Tuple(values) => values.iter().map(table_len).sum(),
        _ => 0,
    }
}
