//! Names that are UTF-8 and names that are not, through every call that looks at them.

use skiff::{
    check_name, BadName, Decoder, Encoder, Format, FormatBuilder, NameOf, OwnedIndex, Refusal, Schema,
    Settings, WireType,
};

/// Strings that are no UTF-8, each in a way of its own.
const BAD: [&[u8]; 8] = [
    b"\x80",
    b"\xC0\x80",
    b"\xE0\x9F\xBF",
    b"\xED\xA0\x80",
    b"\xF0\x8F\xBF\xBF",
    b"\xF4\x90\x80\x80",
    b"cut \xE2\x82",
    b"\xD5\xC1\xD4\xC5",
];

const GOOD: [&str; 7] = ["", "\0", "имя", "名前", "\u{FEFF}name", "\u{FFFF}", "\u{10FFFF}"];

#[test]
fn one_string() {
    for name in GOOD {
        assert_eq!(check_name(name), Ok(()), "{name:?}");
    }
    for name in BAD {
        assert_eq!(check_name(name), Err(Refusal::NameNotUtf8), "{name:02x?}");
    }
    // All strings of two bytes, and long ones of which the last byte is cut or not.
    for number in 0..=u16::MAX {
        let name = number.to_be_bytes();
        assert_eq!(check_name(name).is_ok(), std::str::from_utf8(&name).is_ok(), "{name:02x?}");
    }
    for length in [7, 8, 9, 255, 256, 65_536] {
        let name = "é".repeat(length);
        assert_eq!(check_name(&name), Ok(()));
        assert_eq!(check_name(&name.as_bytes()[..2 * length - 1]), Err(Refusal::NameNotUtf8));
    }
}

/// A table of its own, one by name, a registry of two; the names are these.
fn format(names: [&[u8]; 6]) -> skiff::FormatTables {
    let [column, below, reference, entry, other, node] = names;
    let own = Schema::tuple([
        Schema::node(WireType::Variant8, [Schema::leaf(WireType::Int8).named(below)]).named(column)
    ]);
    let shared = Schema::tuple([Schema::leaf(WireType::Uint8).named(node)]);
    FormatBuilder::new()
        .table(own)
        .table_from_registry(reference)
        .register(entry, shared)
        .register(other, Schema::tuple([]))
        .build()
        .expect("short names")
}

const USUAL: [&[u8]; 6] = [b"column", b"below", b"entry", b"entry", b"other", b"node"];

#[test]
fn each_name_of_a_format() {
    assert_eq!(format(USUAL).format().check(), Ok(()));
    assert_eq!(format(USUAL).format().bad_name(), None);
    // Records 0 to 2 are the table's, 3 and 4 those of the first entry, 5 that of the other.
    let places = [
        (0, NameOf::TableNode { table: 0, record: 1 }),
        (1, NameOf::TableNode { table: 0, record: 2 }),
        (2, NameOf::Reference { table: 1 }),
        (4, NameOf::Registered { entry: 1 }),
        (5, NameOf::RegisteredNode { entry: 0, record: 4 }),
    ];
    for bytes in BAD {
        for (place, of) in places {
            let mut names = USUAL;
            names[place] = bytes;
            // An entry's bad name comes after "entry", or else it is the first of the two.
            let of = match of {
                NameOf::Registered { .. } if *bytes < b"entry"[..] => NameOf::Registered { entry: 0 },
                of => of,
            };
            let tables = format(names);
            assert_eq!(tables.format().check(), Err(Refusal::NameNotUtf8));
            let bad = tables.format().bad_name();
            assert_eq!(bad.map(|bad| (bad.of, bad.bytes)), Some((of, bytes)), "{bytes:02x?}");
        }
        // Where all are bad, it is the first entry's own name.
        let all = format([bytes; 6]);
        let first = BadName { of: NameOf::Registered { entry: 0 }, bytes };
        assert_eq!(all.format().bad_name(), Some(first));
    }
    for name in &GOOD[1..] {
        assert_eq!(format([name.as_bytes(); 6]).format().check(), Ok(()), "{name:?}");
    }
}

/// All calls that read by such a format, and those that write by such a schema, are refused before anything else.
#[test]
fn every_call() {
    let tables = format([b"column", b"\xFF", b"entry", b"entry", b"other", b"node"]);
    let (format, settings, refusal): (Format, _, _) =
        (tables.format(), Settings::default(), Refusal::NameNotUtf8);
    let stream = [1, 0, 7];
    assert_eq!(format.skip_row(&settings, &stream, 0), Err(refusal));
    assert_eq!(format.skip_row(&settings, &stream, 3), Err(refusal));
    assert_eq!(format.next_row(&settings, &stream, 0, &mut [0; 64], &mut []).err(), Some(refusal));
    assert_eq!(format.run(&settings, &stream).to_end(), Err(refusal));
    assert_eq!(format.run_window(&settings, 0, 0, &stream).run.to_end(), Err(refusal));
    // Settings and positions come before it.
    assert_eq!(format.skip_row(&settings, &stream, 4), Err(Refusal::Setting));
    assert_eq!(format.run(&settings.with_node_charge(0), &stream).to_end(), Err(Refusal::Setting));

    let words =
        r#"refused 33 NameNotUtf8 at 0: table 0, schema record 2: name "\xff", not UTF-8 from byte 0 on: ff"#;
    let error = Decoder::from_slice(&stream, &tables).err().expect("it is refused");
    assert_eq!((error.refusal(), error.to_string().as_str()), (Some(refusal), words));
    let good = self::format(USUAL);
    let index: OwnedIndex = Decoder::from_slice(&stream, &good).expect("good").build_index().expect("a row");
    assert_eq!(index.index().len(), 1);

    let schema = Schema::tuple([Schema::leaf(WireType::Uint8).named(b"\xC3")]).tables().expect("short names");
    let block = schema.block();
    assert_eq!(block.check(), Err(refusal));
    let bad = block.bad_name().expect("there is one");
    assert_eq!((bad.of, bad.bytes, bad.valid_up_to()), (NameOf::Node { record: 1 }, &b"\xC3"[..], 0));
    let error = Encoder::to_writer(Vec::new(), &schema).err().expect("it is refused");
    let words = r#"refused 33 NameNotUtf8 at 0: schema record 1: name "\xc3", not UTF-8 from byte 0 on: c3"#;
    assert_eq!((error.refusal(), error.to_string().as_str()), (Some(refusal), words));
}

/// Bytes of the store that are no name in use are not looked at.
#[test]
fn what_is_no_name() {
    let mut tables = format(USUAL);
    tables.names.extend(b"\xFF\xFE");
    // A record behind all blocks.
    let mut record = [1, 1, 2, 0, 0, 0, 0, 0, 0, 0, 0, 0, 0, 0, 0, 0];
    record[4..8].copy_from_slice(&(tables.names.len() as u32 - 2).to_le_bytes());
    tables.records.extend(record);
    assert_eq!((tables.format().check(), tables.format().bad_name()), (Ok(()), None));
}
