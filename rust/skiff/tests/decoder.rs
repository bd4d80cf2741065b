//! Decoders: the same rows and refusals from a slice and from readers of all manners.

mod common;

use std::io::{self, Read};

use common::{one_table, schema_a, schema_b, Chance};
use skiff::{
    Decoder, Encoder, Error, Format, FormatBuilder, FormatTables, Refusal, Schema, Settings, Source, Stop,
    WireType,
};

/// Gives its bytes in pieces of these lengths, in turn.
struct Pieces<'a> {
    bytes: &'a [u8],
    lengths: Vec<usize>,
    next: usize,
}

impl<'a> Pieces<'a> {
    fn new(bytes: &'a [u8], lengths: impl Into<Vec<usize>>) -> Self {
        Self { bytes, lengths: lengths.into(), next: 0 }
    }
}

impl Read for Pieces<'_> {
    fn read(&mut self, buffer: &mut [u8]) -> io::Result<usize> {
        let length = self.lengths[self.next % self.lengths.len()];
        self.next += 1;
        let (piece, rest) = self.bytes.split_at(length.min(buffer.len()).min(self.bytes.len()));
        buffer[..piece.len()].copy_from_slice(piece);
        self.bytes = rest;
        Ok(piece.len())
    }
}

/// Rows in words, and the end or the error in words.
fn all<S: Source>(decoder: &mut Decoder<S>) -> (Vec<String>, String) {
    let mut rows = Vec::new();
    loop {
        let position = decoder.position();
        match decoder.next_row() {
            Ok(Some(row)) => rows.push(format!("{position} {row:?}")),
            Ok(None) => return (rows, "end".to_owned()),
            Err(error) => return (rows, error.to_string()),
        }
    }
}

/// What one call for each row, over the whole slice and with room for all, makes of it.
fn by_hand(format: Format, settings: &Settings, stream: &[u8]) -> (Vec<String>, Option<Refusal>) {
    let (mut records, mut payload) = (vec![0; 1 << 16], vec![0; 1 << 16]);
    let (mut rows, mut position) = (Vec::new(), 0);
    loop {
        match format.next_row(settings, stream, position, &mut records, &mut payload) {
            Ok(Some(row)) => {
                rows.push(format!("{position} {row:?}"));
                position += row.extent().bytes;
            }
            Ok(None) => return (rows, None),
            Err(refusal) => return (rows, Some(refusal)),
        }
    }
}

fn two_tables() -> FormatTables {
    let builder = FormatBuilder::new().table(schema_a()).table_from_registry("b").register("b", schema_b());
    builder.build().expect("short names")
}

/// Good rows, rows cut at each byte, and rows that are refused for each reason.
fn streams() -> Vec<Vec<u8>> {
    let full = [0, 0, 0x25, 1, 2, 0, 0, 0, 0xD1, 0xC5];
    let good = [&full[..], &[1, 0, 0, 7, 1, 0xFE, 0xFF], &[0, 0, 0x25, 0], &full[..]].concat();
    let mut streams: Vec<Vec<u8>> = (0..=good.len()).map(|end| good[..end].to_vec()).collect();
    let bad: [&[u8]; 4] = [&[2, 0], &[0, 0, 1, 2], &[1, 0, 0, 1, 5], &[0, 0, 1, 1, 255, 255, 255, 255]];
    streams.extend(bad.map(|bytes| [&good, bytes, &good].concat()));
    streams
}

#[test]
fn a_reader_gives_what_a_slice_gives() {
    let tables = two_tables();
    let format = tables.format();
    let usual = Settings::default();
    for settings in [usual, usual.with_max_row_bytes(193), usual.with_max_blob_bytes(1)] {
        for stream in streams() {
            let slice = Decoder::from_slice(&stream, &tables).expect("a format");
            let expected = all(&mut slice.with_settings(settings));
            let (rows, refusal) = by_hand(format, &settings, &stream);
            assert_eq!(expected.0, rows);
            assert!(expected.1.starts_with(&refusal.map_or("end".to_owned(), |refusal| refusal.to_string())));
            for lengths in [vec![1], vec![2], vec![3, 1], vec![7], vec![10], vec![1000]] {
                let reader = Pieces::new(&stream, lengths);
                let decoder = Decoder::from_reader(reader, format).expect("a format");
                assert_eq!(all(&mut decoder.with_settings(settings)), expected, "{stream:?}");
            }
        }
    }
}

#[test]
fn rows_by_chance_in_pieces() {
    for seed in 0..60 {
        let mut chance = Chance(seed);
        let columns = 1 + chance.below(5);
        let schema = chance.table(columns);
        let tables = schema.tables().expect("short names");
        let mut encoder = Encoder::to_writer(Vec::new(), &tables).expect("a table's schema");
        let values: Vec<_> = (0..20).map(|_| chance.value(&schema)).collect();
        for value in &values {
            encoder.write_value(value).expect("it conforms");
        }
        assert_eq!(encoder.written().0, 20);
        let stream = encoder.into_inner();
        let format = one_table(&schema);
        let lengths: Vec<_> = (0..7).map(|_| 1 + chance.below(40)).collect();
        let mut decoder = Decoder::from_reader(Pieces::new(&stream, lengths), &format).expect("a format");
        let rows: Vec<_> = decoder.rows().collect::<Result<_, _>>().expect("good rows");
        assert!(rows.iter().map(|row| row.row().value().to_value()).eq(values));
        assert_eq!((decoder.position(), decoder.rows_passed()), (stream.len() as u64, 20));

        // What was read is written as the same bytes, into a slice too.
        let mut again = vec![0; stream.len()];
        let mut encoder = Encoder::to_slice(&mut again, &tables).expect("a table's schema");
        for row in &rows {
            encoder.write(row).expect("it was read");
        }
        assert_eq!(encoder.written(), (20, stream.len() as u64));
        assert_eq!(again, stream);
    }
}

#[test]
fn skipping_and_running_are_by_the_same_rules() {
    let tables = two_tables();
    for stream in streams() {
        let whole = tables.format().run(&Settings::default(), &stream);
        for lengths in [vec![1], vec![5, 2], vec![1000]] {
            let reader = || Pieces::new(&stream, lengths.clone());
            let mut decoder = Decoder::from_reader(reader(), &tables).expect("a format");
            let run = decoder.run().expect("no failure");
            assert_eq!(run, whole);
            assert_eq!((decoder.rows_passed(), decoder.position()), (run.rows, run.bytes));
            // After a run the decoder stands where it stopped.
            let refusal = decoder.next_row().err().and_then(|error| error.refusal());
            assert_eq!(refusal.map_or(Stop::End, Stop::Refused), run.stop);

            let mut skipping = Decoder::from_reader(reader(), &tables).expect("a format");
            let mut decoding = Decoder::from_reader(reader(), &tables).expect("a format");
            loop {
                let (skipped, decoded) = (skipping.skip_row(), decoding.next_row());
                let decoded = decoded.map(|row| row.map(|row| row.extent()));
                match (skipped, decoded) {
                    (Ok(skipped), Ok(decoded)) => {
                        assert_eq!(skipped, decoded);
                        if skipped.is_none() {
                            break;
                        }
                    }
                    (Err(skipped), Err(decoded)) => {
                        assert_eq!(skipped.to_string(), decoded.to_string());
                        break;
                    }
                    both => panic!("{both:?}"),
                }
            }
            // A run from the middle on.
            let mut decoder = Decoder::from_reader(reader(), &tables).expect("a format");
            if decoder.skip_row().is_ok() {
                assert_eq!(decoder.run().expect("no failure"), whole);
            }
        }
    }
}

#[test]
fn a_refusal_moves_nothing() {
    let tables = two_tables();
    let stream = [0, 0, 0x25, 0, 0, 0, 0x26, 2];
    let mut decoder = Decoder::from_reader(&stream[..], &tables).expect("a format");
    assert!(decoder.next_row().expect("a row").is_some());
    let words = "refused 17 InvalidVariantTag (type 15 variant8, tag 2, children 2) at 7: byte 7, row 1, \
                 column \"name\"";
    for _ in 0..3 {
        assert_eq!(decoder.next_row().expect_err("a bad tag").to_string(), words);
        assert_eq!(decoder.skip_row().expect_err("a bad tag").to_string(), words);
        assert_eq!((decoder.position(), decoder.rows_passed()), (4, 1));
    }
    let mut rows = decoder.rows();
    assert!(rows.next().expect("an error").is_err());
    assert!(rows.next().is_none() && rows.next().is_none());
}

/// Fails at each second call, and is interrupted before.
struct Failing<R> {
    reader: R,
    calls: usize,
}

impl<R: Read> Read for Failing<R> {
    fn read(&mut self, buffer: &mut [u8]) -> io::Result<usize> {
        self.calls += 1;
        match self.calls % 3 {
            0 => Err(io::ErrorKind::Interrupted.into()),
            1 => Err(io::Error::other("the wire was cut")),
            _ => self.reader.read(buffer),
        }
    }
}

#[test]
fn a_reader_that_fails_can_be_asked_again() {
    let tables = two_tables();
    for stream in streams() {
        let slice = &mut Decoder::from_slice(&stream, &tables).expect("a format");
        let expected = all(slice);
        for length in [1, 4, 1000] {
            let reader = Failing { reader: Pieces::new(&stream, [length]), calls: 0 };
            let mut decoder = Decoder::from_reader(reader, &tables).expect("a format");
            let (mut rows, mut failures) = (Vec::new(), 0);
            let last = loop {
                let position = decoder.position();
                match decoder.next_row() {
                    Ok(Some(row)) => rows.push(format!("{position} {row:?}")),
                    Ok(None) => break "end".to_owned(),
                    Err(Error::Io(error)) => {
                        assert_eq!(error.to_string(), "the wire was cut");
                        failures += 1;
                    }
                    Err(error) => break error.to_string(),
                }
            };
            assert!(failures > 0);
            assert_eq!((rows, last), expected);
        }
    }
}

#[test]
fn buffers_grow_with_the_rows() {
    let list = Schema::node(WireType::RepeatedVariant16, [Schema::leaf(WireType::Uint8)]).named("list");
    let blob = Schema::leaf(WireType::String32).named("blob");
    let schema = Schema::tuple([list, blob]);
    let tables = schema.tables().expect("short names");
    let mut encoder = Encoder::to_writer(Vec::new(), &tables).expect("a table's schema");
    let sizes = [0, 1, 3, 100, 2, 70_000, 1, 300_000, 0];
    for size in sizes {
        let done = encoder.write_with(|row| {
            row.list(|list| {
                for index in 0..size {
                    list.item(0, |item| item.value(index as u8));
                }
            });
            row.bytes(&vec![7; size])
        });
        assert_eq!(done.expect("it conforms").records, size as u64 + 3);
    }
    let stream = encoder.into_inner();
    let format = one_table(&schema);
    let mut decoder = Decoder::from_reader(Pieces::new(&stream, [30_000, 1]), &format).expect("a format");
    for size in sizes {
        let row = decoder.next_row().expect("a good row").expect("there is one");
        assert_eq!(row.get("list").and_then(|list| list.as_list()).map(|list| list.len()), Some(size));
        assert_eq!(row.get("blob").and_then(|blob| blob.as_bytes()), Some(&vec![7; size][..]));
    }
    assert!(decoder.next_row().expect("the end").is_none());
    assert_eq!(decoder.into_inner().bytes, [0; 0]);
}

#[test]
fn a_bad_format_makes_no_decoder() {
    let none = FormatTables::default();
    let refusal = |made: Result<(), Error>| made.expect_err("no format").refusal();
    let empty = Some(Refusal::EmptyTableSchemas);
    assert_eq!(refusal(Decoder::from_slice(&[], &none).map(drop)), empty);
    assert_eq!(refusal(Decoder::from_reader(&[][..], &none).map(drop)), empty);
    // Settings are judged by the calls.
    let tables = two_tables();
    let bad = Settings::default().with_node_charge(0);
    let mut decoder = Decoder::from_slice(&[], &tables).expect("a format").with_settings(bad);
    assert_eq!(decoder.next_row().err().and_then(|error| error.refusal()), Some(Refusal::Setting));
    assert_eq!(decoder.run().expect("no failure").stop, Stop::Refused(Refusal::Setting));
}

/// The delivery that stands in examples/, from its file.
#[test]
fn the_delivery() {
    let folder = concat!(env!("CARGO_MANIFEST_DIR"), "/../../examples/");
    let file = std::fs::File::open(format!("{folder}rows.skf")).expect("it is there");
    let tables = one_table(&schema_a());
    let mut decoder = Decoder::from_reader(file, &tables).expect("a format");
    assert_eq!(decoder.rows().filter(Result::is_ok).count(), 5);
    assert_eq!(decoder.position(), 49);
    // Its words are short, whatever its buffers hold.
    assert!(
        format!("{decoder:?}").starts_with("Decoder { position: 49, rows_passed: 5, settings: Settings {")
    );
}
