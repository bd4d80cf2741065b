//! Encoders over writers that fail, and over slices that end.

mod common;

use std::io::{self, Write};

use common::schema_a;
use skiff::{Encoder, Error, Refusal, Settings, Value};

/// Takes so many bytes, and then no more.
struct Full(usize, Vec<u8>);

impl Write for Full {
    fn write(&mut self, bytes: &[u8]) -> io::Result<usize> {
        if bytes.len() > self.0 {
            return Err(io::ErrorKind::StorageFull.into());
        }
        self.0 -= bytes.len();
        self.1.extend_from_slice(bytes);
        Ok(bytes.len())
    }

    fn flush(&mut self) -> io::Result<()> {
        Err(io::Error::other("flushed"))
    }
}

fn row(name: &str) -> Value {
    Value::Tuple(vec![Value::Uint8(1), Value::variant(1, Value::text(name))])
}

#[test]
fn a_full_disk_is_an_error() {
    let tables = schema_a().tables().expect("short names");
    let mut encoder = Encoder::to_writer(Full(17, Vec::new()), &tables).expect("a table's schema");
    assert_eq!(encoder.write_value(&row("hi")).expect("it fits").bytes, 10);
    let error = encoder.write_value(&row("hi")).expect_err("it is full");
    assert!(matches!(&error, Error::Io(error) if error.kind() == io::ErrorKind::StorageFull));
    assert_eq!(error.refusal(), None);
    assert_eq!(encoder.written(), (1, 10));
    assert!(matches!(encoder.flush(), Err(Error::Io(error)) if error.to_string() == "flushed"));
    assert_eq!(encoder.into_inner().1.len(), 10);
}

#[test]
fn a_refused_row_leaves_no_byte() {
    let tables = schema_a().tables().expect("short names");
    let mut encoder =
        Encoder::to_writer(Vec::new(), &tables).expect("a table's schema").with_max_blob_bytes(3);
    encoder.write_value(&row("hi")).expect("it conforms");
    let error = encoder.write_value(&row("four")).expect_err("too long");
    let words = "refused 14 BlobTooLarge (type 13 string32, length 4, limit 3) at 3: value record 3, \
                 column \"name\", tag 1";
    assert_eq!(error.to_string(), words);
    encoder.write_value(&row("abc")).expect("just as long");
    assert_eq!(encoder.written(), (2, 21));
    assert_eq!(encoder.into_inner().len(), 21);
}

#[test]
fn a_slice_is_filled_to_its_end() {
    let tables = schema_a().tables().expect("short names");
    for room in 0..=25 {
        let mut output = vec![0xEE; room];
        let mut encoder = Encoder::to_slice(&mut output, &tables).expect("a table's schema");
        let error = loop {
            if let Err(error) = encoder.write_value(&row("hi")) {
                break error;
            }
        };
        let full = room / 10 * 10;
        assert_eq!(error.refusal(), Some(Refusal::NoOutputRoom { needed: 10, place: full as u64 }));
        assert_eq!(encoder.written(), (room as u64 / 10, full as u64));
        assert_eq!(encoder.into_written().len(), full);
        assert!(output[full..].iter().all(|byte| *byte == 0xEE));
    }
    let (usual, over) = (Settings::default(), Settings::MOST_BYTES + 1);
    for bad in [usual.with_max_string32_bytes(over), usual.with_max_yson32_bytes(over)] {
        let mut encoder = Encoder::to_slice(&mut [], &tables).expect("a table's schema").with_settings(bad);
        let refusal = encoder.write_value(&row("")).expect_err("bad settings").refusal();
        assert_eq!(refusal, Some(Refusal::Setting));
    }
}
