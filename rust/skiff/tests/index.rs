//! Indexes: built, checked, extended, and rows read by them.

mod common;

use common::{one_table, schema_a, schema_b, Chance};
use skiff::{
    Context, Decoder, Encoder, Format, FormatBuilder, FormatTables, Index, IndexRecord, OwnedIndex, Refusal,
    Run, Settings, Stop, WireType,
};

const FULL: [u8; 10] = [0, 0, 0x25, 1, 2, 0, 0, 0, 0xD1, 0xC5];

fn two_tables() -> FormatTables {
    let builder = FormatBuilder::new().table(schema_a()).table_from_registry("b").register("b", schema_b());
    builder.build().expect("short names")
}

/// Rows of 10, 5 and 4 bytes, the second of table 1.
fn stream() -> Vec<u8> {
    [&FULL[..], &[1, 0, 0, 7, 0xFF], &[0, 0, 0x25, 0]].concat()
}

fn record(offset: u64, length: u32, table: u32) -> IndexRecord {
    IndexRecord { offset, length, table }
}

fn bytes(records: &[IndexRecord]) -> Vec<u8> {
    let bytes = |record: &IndexRecord| {
        let mut bytes = record.offset.to_le_bytes().to_vec();
        bytes.extend([record.length, record.table].into_iter().flat_map(u32::to_le_bytes));
        bytes
    };
    records.iter().flat_map(bytes).collect()
}

fn wanted() -> Vec<u8> {
    bytes(&[record(0, 10, 0), record(10, 5, 1), record(15, 4, 0)])
}

fn refused(rows: u64, bytes: u64, refusal: Refusal) -> Run {
    Run { rows, bytes, stop: Stop::Refused(refusal) }
}

/// A run that is refused in its second row, by each number that a row may have.
fn bad_streams() -> Vec<(Vec<u8>, Refusal)> {
    let uint8 = Context::Fixed(WireType::Uint8);
    let tag = Refusal::InvalidVariantTag { wire_type: WireType::Variant8, tag: 2, children: 2, place: 13 };
    let after = |row: &[u8]| [&FULL[..], row].concat();
    vec![
        (after(&[2, 0]), Refusal::MissingTableSchema { index: 2, place: 10 }),
        (after(&[0, 0]), Refusal::Truncated { context: uint8, place: 12 }),
        (after(&[0, 0, 1, 2]), tag),
    ]
}

#[test]
fn an_index_is_built_where_there_is_room() {
    let tables = two_tables();
    let (format, usual, stream) = (tables.format(), Settings::default(), stream());
    for length in 0..80 {
        let mut room = vec![0xA5; length];
        let run = format.build_index(&usual, &stream, &mut room);
        if length < 48 {
            assert_eq!(run, refused(3, 19, Refusal::NoIndexRoom));
            assert_eq!(room, vec![0xA5; length]);
        } else {
            assert_eq!(run, Run { rows: 3, bytes: 19, stop: Stop::End });
            assert_eq!(room[..48], wanted());
            assert_eq!(room[48..], vec![0xA5; length - 48]);
            assert_eq!(Index::new(&room).first(run.rows).records, wanted());
        }
    }
    assert_eq!(format.build_index(&usual, &[], &mut []).to_end(), Ok((0, 0)));
}

#[test]
fn where_the_run_is_refused_so_is_the_index() {
    let tables = two_tables();
    let (format, usual) = (tables.format(), Settings::default());
    for (stream, refusal) in bad_streams() {
        let run = format.run(&usual, &stream);
        assert_eq!(run, refused(1, 10, refusal));
        let mut room = [0xA5; 64];
        assert_eq!(format.build_index(&usual, &stream, &mut room), run);
        assert_eq!(format.extend_index(&usual, &stream, 0, &mut room), run);
        assert_eq!(format.extend_index(&usual, &stream, 4, &mut room), run);
        // The run's refusal comes before too little room and before a wrong index.
        assert_eq!(format.build_index(&usual, &stream, &mut []), run);
        assert_eq!(format.check_index(&usual, &stream, &[7; 5][..]), run);
        assert_eq!(room, [0xA5; 64]);
    }
    let none = refused(0, 0, Refusal::Setting);
    let bad = usual.with_node_charge(0);
    let mut room = bytes(&[record(0, 10, 0)]);
    assert_eq!(format.build_index(&bad, &FULL, &mut room), none);
    assert_eq!(format.check_index(&bad, &FULL, &room[..]), none);
    assert_eq!(format.extend_index(&bad, &FULL, 1, &mut room), none);
    // An old count that the slice does not have, also where times 16 it passes 64 bits.
    for old in [2, 3, 1 << 60, (1 << 60) + 1, u64::MAX] {
        assert_eq!(format.extend_index(&usual, &FULL, old, &mut room), none);
    }
    let nothing = FormatTables::default();
    let empty = refused(0, 0, Refusal::EmptyTableSchemas);
    assert_eq!(nothing.format().build_index(&usual, &FULL, &mut room), empty);
    assert_eq!(nothing.format().check_index(&usual, &FULL, &room[..]), empty);
    assert_eq!(nothing.format().extend_index(&usual, &FULL, 1, &mut room), empty);
    assert_eq!(nothing.format().extend_index(&usual, &FULL, 2, &mut room), none);
    let row = nothing.format().indexed_row(&usual, &FULL, &room[..], 5, &mut [], &mut []);
    assert_eq!(row.map(|row| row.extent()), Err(Refusal::EmptyTableSchemas));
}

#[test]
fn an_index_is_checked_to_the_byte() {
    let tables = two_tables();
    let (format, usual, stream) = (tables.format(), Settings::default(), stream());
    let check = |index: &[u8]| format.check_index(&usual, &stream, index);
    assert_eq!(check(&wanted()), Run { rows: 3, bytes: 19, stop: Stop::End });
    let mismatch = refused(3, 19, Refusal::IndexMismatch);
    for at in 0..wanted().len() {
        let mut wrong = wanted();
        wrong[at] ^= 1;
        assert_eq!(check(&wrong), mismatch);
        assert_eq!(check(&wanted()[..at]), mismatch);
    }
    assert_eq!(check(&[wanted(), vec![0]].concat()), mismatch);
    assert_eq!(check(&[wanted(), wanted()].concat()), mismatch);
    assert_eq!(format.check_index(&usual, &[], Index::default()).to_end(), Ok((0, 0)));
}

#[test]
fn an_index_is_extended_from_each_row_on() {
    let tables = two_tables();
    let (format, usual, stream) = (tables.format(), Settings::default(), stream());
    for old in 0..=3 {
        let kept = old * 16;
        let mut room = [&wanted()[..kept], &[0xA5; 40]].concat();
        let run = format.extend_index(&usual, &stream, old as u64, &mut room);
        if room.len() < 48 {
            assert_eq!(run, refused(3, 19, Refusal::NoIndexRoom));
            assert_eq!(room, [&wanted()[..kept], &[0xA5; 40]].concat());
            continue;
        }
        assert_eq!(run.to_end(), Ok((3, 19)));
        assert_eq!(room[..48], wanted());
        assert!(room[48..].iter().all(|byte| *byte == 0xA5));
    }
    // A wrong old record, and more of them than rows, come before too little room.
    let mismatch = refused(3, 19, Refusal::IndexMismatch);
    for at in 0..32 {
        let mut room = wanted();
        room[at] ^= 1;
        let before = room.clone();
        assert_eq!(format.extend_index(&usual, &stream, 2, &mut room), mismatch);
        assert_eq!(format.extend_index(&usual, &stream, 2, &mut room[..32]), mismatch);
        assert_eq!(room, before);
    }
    let mut more = [wanted(), wanted()].concat();
    assert_eq!(format.extend_index(&usual, &stream, 4, &mut more), mismatch);
    assert_eq!(format.extend_index(&usual, &stream, 3, &mut more).to_end(), Ok((3, 19)));
}

#[test]
fn an_owned_index_grows_with_the_stream() {
    let tables = two_tables();
    let stream = stream();
    let over = |rows: usize| {
        Decoder::from_slice(&stream[..[0, 10, 15, 19][rows]], &tables).expect("a format").build_index()
    };
    for old in 0..=3 {
        let mut index = over(old).expect("good rows");
        assert_eq!(index.index().records, &wanted()[..old * 16]);
        for rows in old..=3 {
            let decoder = Decoder::from_slice(&stream[..[0, 10, 15, 19][rows]], &tables).expect("a format");
            decoder.extend_index(&mut index).expect("rows were appended");
            assert_eq!(index, over(rows).expect("good rows"));
            decoder.check_index(&index).expect("it is the stream's");
        }
        // Not with rows that the stream has lost; then it is as it was.
        for fewer in 0..3 {
            let decoder = Decoder::from_slice(&stream[..[0, 10, 15][fewer]], &tables).expect("a format");
            let error = decoder.extend_index(&mut index).expect_err("it has three rows");
            assert_eq!(error.refusal(), Some(Refusal::IndexMismatch));
            assert_eq!(index.index().records, wanted());
        }
    }
    // Of a file that was not written whole the records count.
    for length in 0..48 {
        let mut index = OwnedIndex::from(wanted()[..length].to_vec());
        let decoder = Decoder::from_slice(&stream, &tables).expect("a format");
        assert_eq!(
            decoder.check_index(&index).expect_err("it is not whole").refusal(),
            Some(Refusal::IndexMismatch)
        );
        decoder.extend_index(&mut index).expect("good records");
        assert_eq!(index.into_records(), wanted());
    }
}

/// A refused row is told as a decoder that comes to it tells it.
#[test]
fn a_refusal_says_which_row_it_is() {
    let tables = two_tables();
    for (stream, refusal) in bad_streams() {
        let mut decoder = Decoder::from_slice(&stream, &tables).expect("a format");
        let built = decoder.build_index().expect_err("a bad row");
        let checked = decoder.check_index(Index::default()).expect_err("a bad row");
        let mut index = OwnedIndex::from(bytes(&[record(0, 10, 0), record(10, 4, 0)]));
        let kept = index.clone();
        let extended = decoder.extend_index(&mut index).expect_err("a bad row");
        assert_eq!(index, kept);
        let by_number = decoder.indexed_row(&index, 1).expect_err("a bad row");
        decoder.skip_row().expect("a good row");
        let met = decoder.next_row().expect_err("a bad row");
        assert_eq!(met.refusal(), Some(refusal));
        for error in [built, checked, extended, by_number] {
            assert_eq!(error.to_string(), met.to_string());
        }
    }
}

#[test]
fn a_row_by_its_number_looks_at_its_record_alone() {
    let tables = two_tables();
    let (format, usual, stream) = (tables.format(), Settings::default(), stream());
    let row = |index: &[u8], row: u64| {
        let (mut records, mut payload) = ([0; 64], [0; 2]);
        let answer = format.indexed_row(&usual, &stream, index, row, &mut records, &mut payload);
        answer.map(|row| row.to_owned_row())
    };
    for (number, position) in [0, 10, 15].into_iter().enumerate() {
        let (mut records, mut payload) = ([0; 64], [0; 2]);
        let next = format.next_row(&usual, &stream, position, &mut records, &mut payload);
        let next = next.expect("a good row").expect("there is one").to_owned_row();
        // All other records may be anything, and so may a tail that is none.
        let mut index = vec![0xFF; 55];
        index[number * 16..][..16].copy_from_slice(&wanted()[number * 16..][..16]);
        assert_eq!(row(&index, number as u64), Ok(next.clone()));
        assert_eq!(row(&index, number as u64).map(|row| row.row().extent()), Ok(next.row().extent()));
    }
    for none in [3, 4, 1 << 60, (1 << 60) + 1, u64::MAX] {
        assert_eq!(row(&wanted(), none), Err(Refusal::NoSuchRow));
        assert_eq!(row(&[wanted(), vec![0; 15]].concat(), none), Err(Refusal::NoSuchRow));
    }
    assert_eq!(row(&[], 0), Err(Refusal::NoSuchRow));
    // Behind the stream's end; another length, another table.
    for wrong in [record(19, 0, 0), record(20, 4, 0), record(u64::MAX, 4, 0), record(1 << 32, 10, 0)] {
        assert_eq!(row(&bytes(&[wrong]), 0), Err(Refusal::IndexMismatch));
    }
    for wrong in [record(0, 9, 0), record(0, 11, 0), record(0, 10, 1), record(0, 10, 65_536)] {
        assert_eq!(row(&bytes(&[wrong]), 0), Err(Refusal::IndexMismatch));
    }
    // Where the record does not lead to a row, that row's own refusal.
    let missing = Refusal::MissingTableSchema { index: 0xC5D1, place: 8 };
    assert_eq!(row(&bytes(&[record(8, 10, 0)]), 0), Err(missing));
}

/// A row of another length is told before there is too little room for it.
#[test]
fn room_is_judged_last() {
    let tables = one_table(&schema_a());
    let (format, usual) = (tables.format(), Settings::default());
    let row = |record: IndexRecord, records: usize, payload: usize| {
        let (mut records, mut payload) = (vec![0xA5; records], vec![0xA5; payload]);
        let index = bytes(&[record]);
        let answer = format.indexed_row(&usual, &FULL, &index[..], 0, &mut records, &mut payload);
        let answer = answer.map(|row| row.extent().records);
        if answer.is_err() {
            assert!(records.iter().chain(&payload).all(|byte| *byte == 0xA5));
        }
        answer
    };
    let right = record(0, 10, 0);
    assert_eq!(row(right, 63, 2), Err(Refusal::NoNodeRoom { needed: 4, place: 0 }));
    assert_eq!(row(right, 64, 1), Err(Refusal::NoPayloadRoom { needed: 2, place: 0 }));
    assert_eq!(row(right, 64, 2), Ok(4));
    assert_eq!(row(record(0, 9, 0), 0, 0), Err(Refusal::IndexMismatch));
    assert_eq!(row(record(0, 10, 1), 64, 1), Err(Refusal::IndexMismatch));
}

/// The decoder's buffers grow for a row by its number, and it goes on from where it stood.
#[test]
fn a_decoder_goes_on_from_where_it_stood() {
    let tables = two_tables();
    let stream = stream();
    let mut decoder = Decoder::from_slice(&stream, &tables).expect("a format");
    let index = decoder.build_index().expect("good rows");
    decoder.skip_row().expect("a good row");
    let first = decoder.indexed_row(&index, 0).expect("a good row");
    assert_eq!(first.get("name").and_then(|name| name.as_some()?.as_bytes()), Some(&[0xD1, 0xC5][..]));
    let error = decoder.indexed_row(&index, 3).expect_err("there are three");
    assert_eq!(error.to_string(), "refused 32 NoSuchRow at 0: row 3");
    let wrong = bytes(&[record(0, 9, 0)]);
    let error = decoder.indexed_row(&wrong[..], 0).expect_err("it has ten bytes");
    assert_eq!(error.to_string(), "refused 31 IndexMismatch at 0: row 0");
    assert_eq!((decoder.position(), decoder.rows_passed()), (10, 1));
    assert_eq!(decoder.next_row().expect("a good row").map(|row| row.table()), Some(1));

    let mut numbers = decoder.indexed_rows(&index, [2, 7, 1]);
    assert_eq!(numbers.len(), 3);
    assert_eq!(numbers.next().map(|row| row.expect("a good row").row().extent().bytes), Some(4));
    assert!(numbers.next().is_some_and(|row| row.is_err()));
    assert_eq!(numbers.next().map(|row| row.expect("a good row").row().table()), Some(1));
    assert!(numbers.next().is_none());
}

/// What one call for each row says, from the start on.
fn by_hand(format: Format, stream: &[u8]) -> Vec<IndexRecord> {
    let (mut records, mut position) = (Vec::new(), 0);
    while let Some(row) = format.skip_row(&Settings::default(), stream, position).expect("good rows") {
        records.push(record(position as u64, row.bytes as u32, u32::from(row.table)));
        position += row.bytes;
    }
    records
}

#[test]
fn rows_by_chance() {
    for seed in 0..60 {
        let mut chance = Chance(seed);
        let columns = 1 + chance.below(5);
        let schema = chance.table(columns);
        let tables = schema.tables().expect("short names");
        let mut encoder = Encoder::to_writer(Vec::new(), &tables).expect("a table's schema");
        let values: Vec<_> = (0..200).map(|_| chance.value(&schema)).collect();
        for value in &values {
            encoder.write_value(value).expect("it conforms");
        }
        let stream = encoder.into_inner();
        let format = one_table(&schema);
        let mut decoder = Decoder::from_slice(&stream, &format).expect("a format");
        let index = decoder.build_index().expect("good rows");
        let records = by_hand(format.format(), &stream);
        assert!(index.index().iter().eq(records.iter().copied()));
        decoder.check_index(&index).expect("it is the stream's");

        let first = chance.below(200);
        let start = records[first].offset as usize;
        let mut shorter = Decoder::from_slice(&stream[..start], &format)
            .expect("a format")
            .build_index()
            .expect("good rows");
        assert_eq!(shorter.index(), index.index().first(first as u64));
        decoder.extend_index(&mut shorter).expect("rows were appended");
        assert_eq!(shorter, index);

        let numbers: Vec<_> = (0..100).map(|_| chance.below(200) as u64).chain(0..200).collect();
        let rows = decoder.indexed_rows(&index, numbers.iter().copied());
        for (row, number) in rows.zip(&numbers) {
            assert_eq!(row.expect("a good row").row().value().to_value(), values[*number as usize]);
        }
    }
}
