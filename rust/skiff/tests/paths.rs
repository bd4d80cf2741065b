//! Which value a refusal is about: the words, held against what the library says of fewer columns.

mod common;

use common::{one_table, Chance};
use skiff::{Decoder, Encoder, FormatBuilder, Schema, Settings, WireType};

fn words(schema: &Schema, settings: Settings, stream: &[u8]) -> String {
    let tables = one_table(schema);
    let mut decoder = Decoder::from_slice(stream, &tables).expect("a format").with_settings(settings);
    let refused = loop {
        match decoder.next_row() {
            Ok(Some(_)) => {}
            Ok(None) => return "end".to_owned(),
            Err(error) => break error.to_string(),
        }
    };
    refused.split_once(": ").map_or(refused.clone(), |(_, path)| path.to_owned())
}

#[test]
fn a_path_leads_from_the_column_down() {
    let usual = Settings::default();
    let leaf = Schema::leaf;
    let point = Schema::tuple([leaf(WireType::Int16).named("x"), leaf(WireType::Yson32)]);
    let list = Schema::node(WireType::RepeatedVariant8, [leaf(WireType::Nothing), point]).named("points");
    let choice = Schema::node(WireType::Variant16, [leaf(WireType::Nothing), leaf(WireType::Boolean)]);
    let schema = Schema::tuple([list, choice.named("éc")]);
    let of = |stream: &[u8]| words(&schema, usual, stream);
    assert_eq!(of(&[0, 0, 255, 0, 0]), "end");
    assert_eq!(of(&[0]), "byte 0, row 0");
    assert_eq!(of(&[9, 0]), "byte 0, row 0");
    assert_eq!(of(&[0, 0]), "byte 2, row 0, column \"points\", element 0");
    assert_eq!(of(&[0, 0, 0, 0]), "byte 4, row 0, column \"points\", element 2");
    assert_eq!(of(&[0, 0, 0, 2]), "byte 3, row 0, column \"points\", element 1");
    assert_eq!(of(&[0, 0, 0, 1, 5]), "byte 4, row 0, column \"points\", element 1, tag 1, column \"x\"");
    let field = "row 0, column \"points\", element 1, tag 1, field 1";
    assert_eq!(of(&[0, 0, 0, 1, 5, 5, 1]), format!("byte 6, {field}"));
    assert_eq!(of(&[0, 0, 0, 1, 5, 5, 1, 0, 0, 0]), format!("byte 10, {field}"));
    assert_eq!(of(&[0, 0, 255, 7, 0]), "byte 3, row 0, column \"\\xc3\\xa9c\"");
    assert_eq!(of(&[0, 0, 255, 1, 0]), "byte 5, row 0, column \"\\xc3\\xa9c\", tag 1");
    assert_eq!(of(&[0, 0, 255, 0, 0, 0, 0, 255, 1]), "byte 8, row 1, column \"\\xc3\\xa9c\"");

    let long = [0, 0, 0, 1, 5, 5, 3, 0, 0, 0, 1, 2, 3, 255, 0, 0];
    let blob = words(&schema, usual.with_max_blob_bytes(2), &long);
    assert_eq!(blob, format!("byte 6, {field}"));
    // The root, the list, its first element, its second, and that one's fields, each charged before it.
    let charged = |limit| words(&schema, usual.with_max_row_bytes(limit), &long);
    assert_eq!(charged(47), "byte 2, row 0");
    assert_eq!(charged(48), "byte 2, row 0, column \"points\"");
    assert_eq!(charged(2 * 48), "byte 3, row 0, column \"points\", element 0, tag 0");
    assert_eq!(charged(3 * 48), "byte 4, row 0, column \"points\", element 1, tag 1");
    assert_eq!(charged(4 * 48), "byte 4, row 0, column \"points\", element 1, tag 1, column \"x\"");
    assert_eq!(charged(5 * 48), format!("byte 6, {field}"));
    assert_eq!(charged(6 * 48 + 2), format!("byte 6, {field}"));
    assert_eq!(charged(6 * 48 + 3), "byte 14, row 0, column \"\\xc3\\xa9c\"");
    assert_eq!(charged(8 * 48 + 3), "end");
}

/// The column that a refusal is in, by the library alone: the row is good with the columns before it, and
/// refused with it.
fn column_by_the_library(schema: &Schema, settings: &Settings, stream: &[u8]) -> Option<usize> {
    (0..=schema.children.len())
        .find(|count| {
            let fewer = Schema::tuple(schema.children[..*count].iter().cloned());
            one_table(&fewer).format().skip_row(settings, stream, 0).is_err()
        })?
        .checked_sub(1)
}

#[test]
fn the_column_is_the_one_that_the_library_refuses() {
    let mut met = [0; 22];
    for seed in 0..400 {
        let mut chance = Chance(seed);
        let columns = 1 + chance.below(6);
        let schema = chance.table(columns);
        let tables = schema.tables().expect("short names");
        let mut encoder = Encoder::to_writer(Vec::new(), &tables).expect("a table's schema");
        encoder.write_value(&chance.value(&schema)).expect("it conforms");
        let row = encoder.into_inner();
        let format = one_table(&schema);
        for _ in 0..50 {
            let mut stream = row.clone();
            let mut settings = Settings::default().with_node_charge(1 + chance.below(3) as u64);
            match chance.below(5) {
                0 => stream.truncate(chance.below(row.len() + 1)),
                1 if row.len() > 2 => stream[2 + chance.below(row.len() - 2)] = chance.number() as u8,
                2 => settings = settings.with_max_row_bytes(chance.below(row.len() + 10) as u64),
                3 => settings = settings.with_max_string32_bytes(chance.below(10) as u64),
                _ => settings = settings.with_max_yson32_bytes(chance.below(6) as u64),
            }
            let decoder = Decoder::from_slice(&stream, &format).expect("a format");
            let Err(error) = decoder.with_settings(settings).next_row() else { continue };
            let refusal = error.refusal().expect("no failure");
            met[refusal.number() as usize] += 1;
            let skiff::Error::Refused(refused) = &error else { panic!("{error}") };
            let expected = column_by_the_library(&schema, &settings, &stream);
            let column = expected.map(|column| format!("column \"{}\"", (b'a' + column as u8) as char));
            assert!(refused.path.starts_with(&column.clone().unwrap_or_default()), "{column:?} {error}");
            assert_eq!(refused.path.is_empty(), column.is_none(), "{error}");
        }
    }
    for number in [12, 13, 14, 17] {
        assert!(met[number] > 50, "{number} was met {} times", met[number]);
    }
}

/// Refusals of formats: the table or the schema of the registry, and the way down from its root.
#[test]
fn a_schema_record_is_named_by_its_table_and_its_columns() {
    let leaf = Schema::leaf;
    let good = || Schema::tuple([leaf(WireType::Int8).named("good")]);
    let bad = || Schema::node(WireType::Int8, [leaf(WireType::Nothing)]);
    let words = |builder: FormatBuilder| {
        let tables = builder.build().expect("short names");
        let refusal = tables.format().check().expect_err("no format");
        let explained = tables.format().explain(refusal).to_string();
        let error = Decoder::from_slice(&[], &tables).map(drop).expect_err("no format");
        assert_eq!(error.to_string(), explained);
        explained.strip_prefix(&refusal.to_string()).expect("the refusal first").to_owned()
    };
    let format = FormatBuilder::new;
    assert_eq!(words(format()), "");
    assert_eq!(words(format().table(good()).table_from_registry("x")), ": table 1");
    let nameless = Schema::tuple([leaf(WireType::Int8).named("a"), leaf(WireType::Int8)]);
    assert_eq!(words(format().table(good()).table(nameless)), ": schema record 4, table 1, field 1");
    assert_eq!(words(format().table(leaf(WireType::Int8))), ": schema record 0, table 0");
    let deep =
        Schema::node(WireType::Variant8, [good(), Schema::tuple([leaf(WireType::Int8), bad().named("n")])]);
    let deep = Schema::tuple([leaf(WireType::Int8).named("a"), deep.named("v")]);
    let way = "column \"v\", choice 1, column \"n\"";
    assert_eq!(words(format().table(deep.clone())), format!(": schema record 7, table 0, {way}"));
    let registered = format().table(good()).register("r", deep).register("a", good());
    assert_eq!(words(registered), format!(": schema record 11, registry schema \"r\", {way}"));
    let root = format().table_from_registry("r").register("r", leaf(WireType::Int8));
    assert_eq!(words(root), ": schema record 0, table 0");

    let tables = Schema::tuple([leaf(WireType::Int8)]).tables().expect("short names");
    let error = Encoder::to_writer(Vec::new(), &tables).map(drop).expect_err("no name");
    let expected = "refused 10 TableSchemaChildMissingName (index 0) at 1: schema record 1, field 0";
    assert_eq!(error.to_string(), expected);
}
