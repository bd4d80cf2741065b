//! The front end through the library: document 01's rows, and what the types make of the answers.

use skiff::{
    Context, Extent, FormatBuilder, FormatTables, Refusal, Run, Schema, Settings, Stop, WindowRun, WireType,
};

/// tuple("page" uint8, "name" variant8(nothing, string32)).
fn schema_a() -> Schema {
    let name = Schema::leaf(WireType::String32).named("name").optional();
    Schema::tuple([Schema::leaf(WireType::Uint8).named("page"), name])
}

/// tuple("v" repeated_variant8(boolean, int8)).
fn schema_b() -> Schema {
    let items = [Schema::leaf(WireType::Boolean), Schema::leaf(WireType::Int8)];
    Schema::tuple([Schema::node(WireType::RepeatedVariant8, items).named("v")])
}

fn one_table(schema: Schema) -> FormatTables {
    FormatBuilder::new().table(schema).build().expect("short names")
}

fn limits(blob_bytes: u64, row_bytes: u64) -> Settings {
    Settings::default().with_max_blob_bytes(blob_bytes).with_max_row_bytes(row_bytes)
}

fn row(bytes: usize, records: u64, payload: u64) -> Result<Option<Extent>, Refusal> {
    Ok(Some(Extent { table: 0, bytes, records, payload }))
}

const FULL: [u8; 10] = [0, 0, 0x25, 1, 2, 0, 0, 0, 0xD1, 0xC5];

#[test]
fn the_table_of_rows() {
    let (a, b) = (one_table(schema_a()), one_table(schema_b()));
    let skip = |tables: &FormatTables, settings: Settings, input: &[u8]| {
        tables.format().skip_row(&settings, input, 0)
    };
    let usual = Settings::default();
    let cut = |context, place| Err(Refusal::Truncated { context, place });
    assert_eq!(skip(&a, usual, &[]), Ok(None));
    assert_eq!(skip(&a, usual, &[0]), cut(Context::TableTag, 0));
    assert_eq!(skip(&a, usual, &[1, 0]), Err(Refusal::MissingTableSchema { index: 1, place: 0 }));
    assert_eq!(skip(&a, usual, &[0, 0]), cut(Context::Fixed(WireType::Uint8), 2));
    assert_eq!(skip(&a, limits(0, 47), &[0, 0]), Err(Refusal::RowTooLarge { limit: 47, place: 2 }));
    assert_eq!(skip(&a, usual, &[0, 0, 0x25, 0]), row(4, 4, 0));
    assert_eq!(skip(&a, usual, &FULL), row(10, 4, 2));
    assert_eq!(skip(&a, limits(2, 194), &FULL), row(10, 4, 2));
    assert_eq!(skip(&a, limits(2, 193), &FULL), Err(Refusal::RowTooLarge { limit: 193, place: 4 }));
    let too_long = Refusal::BlobTooLarge { wire_type: WireType::String32, length: 2, limit: 1, place: 4 };
    assert_eq!(skip(&a, limits(1, 192), &FULL), Err(too_long));
    assert_eq!(skip(&a, usual, &FULL[..9]), cut(Context::BlobPayload, 8));
    let bad_tag = Refusal::InvalidVariantTag { wire_type: WireType::Variant8, tag: 2, children: 2, place: 3 };
    assert_eq!(skip(&a, usual, &[0, 0, 0x25, 2]), Err(bad_tag));
    assert_eq!(skip(&b, usual, &[0, 0, 0, 7, 1, 0xFE, 0xFF]), row(7, 4, 0));
    assert_eq!(skip(&b, usual, &[0, 0, 0xFF]), row(3, 2, 0));
}

#[test]
fn a_row_is_where_the_one_before_it_ends() {
    let tables = FormatBuilder::new()
        .table(schema_a())
        .table_from_registry("numbers")
        .register("numbers", schema_b())
        .register("a name before", schema_a())
        .build()
        .expect("short names");
    let format = tables.format();
    let usual = Settings::default();
    let stream = [&FULL[..], &[1, 0, 0, 7, 0xFF], &[0, 0, 0x25, 0]].concat();
    let mut position = 0;
    let mut found = Vec::new();
    while let Some(row) = format.skip_row(&usual, &stream, position).expect("good rows") {
        found.push((row.table, row.bytes, row.records, row.payload));
        position += row.bytes;
    }
    assert_eq!(found, [(0, 10, 4, 2), (1, 5, 3, 0), (0, 4, 4, 0)]);
    let run = format.run(&usual, &stream);
    assert_eq!(run, Run { rows: 3, bytes: 19, stop: Stop::End });
    assert_eq!(run.to_end(), Ok((3, 19)));
    let cut = format.run(&usual, &stream[..18]);
    let refusal = Refusal::Truncated { context: Context::Variant8Tag, place: 18 };
    assert_eq!(cut, Run { rows: 2, bytes: 15, stop: Stop::Refused(refusal) });
    assert_eq!(cut.to_end(), Err(refusal));
    assert_eq!(format.skip_row(&usual, &stream, 20), Err(Refusal::Setting));
}

#[test]
fn a_stream_in_windows_is_run_as_a_whole() {
    let tables = one_table(schema_a());
    let format = tables.format();
    let usual = Settings::default();
    let refused = [&FULL[..], &FULL[..], &[0, 0, 0x25, 2], &FULL[..]].concat();
    for stream in [FULL.repeat(3), FULL.repeat(3)[..25].to_vec(), refused] {
        for step in [1, 3, 7, 11] {
            let (mut rows, mut bytes) = (0, 0_u64);
            for end in (0..stream.len()).step_by(step).chain([stream.len()]) {
                let WindowRun { run, may_change } =
                    format.run_window(&usual, rows, bytes, &stream[bytes as usize..end]);
                assert_eq!(run, format.run(&usual, &stream[..end]));
                let open = matches!(run.stop, Stop::End | Stop::Refused(Refusal::Truncated { .. }));
                assert_eq!(may_change, open);
                (rows, bytes) = (run.rows, run.bytes);
            }
        }
    }
    let most = 4_294_967_295;
    let full = Run { rows: 5, bytes: most, stop: Stop::End };
    assert_eq!(format.run_window(&usual, 5, most, &[]), WindowRun { run: full, may_change: true });
    let none = Run { rows: 0, bytes: 0, stop: Stop::Refused(Refusal::Setting) };
    let refused = WindowRun { run: none, may_change: false };
    assert_eq!(format.run_window(&usual, 5, most, &[0]), refused);
    assert_eq!(format.run_window(&usual, 5, most + 1, &[]), refused);
    assert_eq!(format.run_window(&usual, 5, 4, &[]), refused);
}

#[test]
fn bad_formats_are_refused_with_their_reasons() {
    let run = |builder: FormatBuilder| {
        let tables = builder.build().expect("short names");
        tables.format().run(&Settings::default(), &[]).to_end()
    };
    assert_eq!(run(FormatBuilder::new()), Err(Refusal::EmptyTableSchemas));
    let unnamed = Schema::tuple([Schema::leaf(WireType::Int8)]);
    let refusal = Refusal::TableSchemaChildMissingName { index: 0, place: 1 };
    assert_eq!(run(FormatBuilder::new().table(unnamed)), Err(refusal));
    let refusal = Refusal::TableSchemaRootMustBeTuple { found: WireType::Double, place: 0 };
    assert_eq!(run(FormatBuilder::new().table(Schema::leaf(WireType::Double))), Err(refusal));
    let refusal = Refusal::UnknownRegistryReference { table: 0, place: 0 };
    assert_eq!(run(FormatBuilder::new().table_from_registry("x")), Err(refusal));
    let parent = Schema::node(WireType::Int16, [Schema::leaf(WireType::Nothing)]).named("c");
    let refusal = Refusal::UnexpectedChildren { wire_type: WireType::Int16, count: 1, place: 1 };
    assert_eq!(run(FormatBuilder::new().table(Schema::tuple([parent]))), Err(refusal));
    let wide = Schema::node(WireType::RepeatedVariant8, vec![Schema::leaf(WireType::Int8); 256]).named("c");
    let wire_type = WireType::RepeatedVariant8;
    let refusal = Refusal::TooManyChildren { wire_type, count: 256, maximum: 255, place: 1 };
    assert_eq!(run(FormatBuilder::new().table(Schema::tuple([wide]))), Err(refusal));
    let mut deep = Schema::tuple([]);
    for _ in 0..64 {
        deep = Schema::tuple([deep.named("c")]);
    }
    assert_eq!(run(FormatBuilder::new().table(deep)), Err(Refusal::TooDeep));
    let mut tables = one_table(schema_a());
    tables.records.pop();
    assert_eq!(tables.format().run(&Settings::default(), &[]).to_end(), Err(Refusal::BadSchemaTable));
}

#[test]
fn settings_are_bounded() {
    let tables = one_table(schema_a());
    let run = |settings: Settings| tables.format().run(&settings, &FULL).to_end();
    let (least, most) = (Settings::default().with_node_charge(1), Settings::MOST_BYTES);
    assert_eq!(run(least), Ok((1, 10)));
    assert_eq!(
        run(least.with_max_blob_bytes(most).with_max_row_bytes(most).with_node_charge(4_096)),
        Ok((1, 10))
    );
    for bad in [
        least.with_node_charge(0),
        least.with_node_charge(Settings::MOST_NODE_CHARGE + 1),
        least.with_max_string32_bytes(most + 1),
        least.with_max_yson32_bytes(most + 1),
        least.with_max_row_bytes(most + 1),
    ] {
        assert_eq!(run(bad), Err(Refusal::Setting));
    }
    let named = Settings::new().with_node_charge(48).with_max_blob_bytes(134_217_728);
    assert_eq!(named.with_max_row_bytes(268_435_456), Settings::default());
}

#[test]
fn a_name_has_at_most_65535_bytes() {
    let named = |length| Schema::tuple([Schema::leaf(WireType::Int8).named(vec![b'x'; length])]);
    let tables = one_table(named(65_535));
    assert_eq!(tables.format().run(&Settings::default(), &[]).to_end(), Ok((0, 0)));
    assert!(FormatBuilder::new().table(named(65_536)).build().is_err());
}

#[test]
fn a_refusal_is_an_error_with_a_message() {
    let error: Box<dyn std::error::Error> = Box::new(Refusal::RowTooLarge { limit: 193, place: 4 });
    assert_eq!(error.to_string(), "refused 13 RowTooLarge (limit 193) at 4");
}

/// The delivery that stands in examples/, and that the builder writes the same format.
#[test]
fn the_delivery() {
    let folder = concat!(env!("CARGO_MANIFEST_DIR"), "/../../examples/");
    let read = |name: &str| std::fs::read(format!("{folder}{name}")).expect("it is there");
    let (records, names) = (read("schema.rec"), read("schema.nam"));
    let (references, registry) = (read("tables.ref"), read("registry.reg"));
    let tables = FormatTables { records, names, references, registry };
    assert_eq!(tables, one_table(schema_a()));
    let rows = read("rows.skf");
    assert_eq!(tables.format().run(&Settings::default(), &rows).to_end(), Ok((5, rows.len() as u64)));
}
