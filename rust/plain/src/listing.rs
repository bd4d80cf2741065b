//! The listing of a delivery of one inline table: a line for each value record of its rows, and a last line.

use crate::answer::number::SETTING;
use crate::answer::Refusal;
use crate::decoding::{decode, kind};
use crate::integer;
use crate::reading::{Row, Skipped};
use crate::settings::Settings;
use crate::tables::{record_count, FormatTables, RECORD_BYTES};
use crate::value_table::{value_records, ValueRecord};
use crate::wire_type::{BOOLEAN, INT128, INT256, NAMES};

/// A file may have so many bytes.
pub const MOST_FILE_BYTES: usize = 65_536;
/// What each row has room for.
pub const MOST_RECORDS: usize = 4_096;
pub const MOST_PAYLOAD: usize = 65_536;

/// The three files of a delivery: schema records, names and rows. One may be missing.
#[derive(Debug, Clone, PartialEq, Eq, PartialOrd, Ord, Default)]
pub struct Delivery {
    pub schema: Option<Vec<u8>>,
    pub names: Option<Vec<u8>>,
    pub stream: Option<Vec<u8>>,
}

/// How a listing ends: the rows before, and the bytes that they have or what is refused.
#[derive(Debug, Clone, Copy, PartialEq, Eq)]
pub enum Last {
    End { bytes: u64 },
    Refused(Refusal),
}

#[derive(Debug, Clone, PartialEq, Eq)]
pub struct Listing {
    pub text: String,
    pub rows: u64,
    /// How many records of each kind there were.
    pub kinds: [u64; 18],
    pub last: Last,
}

/// What the listing program prints of a delivery.
pub fn listing(delivery: &Delivery) -> Listing {
    let mut listing = Listing { text: String::new(), rows: 0, kinds: [0; 18], last: Last::End { bytes: 0 } };
    listing.last = listing.rows_of(delivery).map_or_else(Last::Refused, |bytes| Last::End { bytes });
    let line = match listing.last {
        Last::End { bytes } => format!("end {} {bytes}\n", listing.rows),
        Last::Refused(refusal) => format!("refused {} {}\n", refusal.number, refusal.place),
    };
    listing.text.push_str(&line);
    listing
}

fn present(file: &Option<Vec<u8>>) -> Result<&[u8], Refusal> {
    match file {
        Some(bytes) if bytes.len() <= MOST_FILE_BYTES => Ok(bytes),
        _ => Err(Refusal::bare(SETTING)),
    }
}

impl Listing {
    /// The lines of all rows that are accepted, and how many bytes these have.
    fn rows_of(&mut self, delivery: &Delivery) -> Result<u64, Refusal> {
        let (schema, names) = (present(&delivery.schema)?, present(&delivery.names)?);
        let stream = present(&delivery.stream)?;
        // One inline table, which is all of the schema's records.
        let mut reference = [0; RECORD_BYTES];
        reference[8..12].copy_from_slice(&(record_count(schema) as u32).to_le_bytes());
        let tables = FormatTables { records: schema, names, references: &reference, registry: &[] };
        let (mut records, mut payload) = (vec![0; MOST_RECORDS * RECORD_BYTES], vec![0; MOST_PAYLOAD]);
        let mut position = 0;
        loop {
            match decode(&Settings::default(), &tables, stream, position, &mut records, &mut payload)? {
                Skipped::End => return Ok(position),
                Skipped::Row(row) => {
                    self.row(&row, &records, &payload);
                    self.rows += 1;
                    position += row.bytes;
                }
            }
        }
    }

    fn row(&mut self, row: &Row, records: &[u8], payload: &[u8]) {
        // How many children each of the records above the next one still waits for.
        let mut above: Vec<u64> = Vec::new();
        for record in value_records(&records[..row.records as usize * RECORD_BYTES]) {
            let depth = above.len() + 1;
            let (kind, value) = (kind_name(record.kind), value_text(&record, payload));
            let line = format!("{} {depth} {} {kind} {value}\n", self.rows, record.tag);
            self.text.push_str(&line);
            self.kinds[record.kind as usize] += 1;
            if let Some(left) = above.last_mut() {
                *left -= 1;
            }
            if record.has_children() {
                above.push(record.size);
            }
            while above.last() == Some(&0) {
                above.pop();
            }
        }
    }
}

/// A kind's name, with `_` for a space.
pub fn kind_name(of: u8) -> &'static str {
    match of {
        kind::VARIANT => "variant",
        kind::REPEATED => "repeated_variant",
        kind::TUPLE => "tuple",
        code => NAMES[usize::from(code)],
    }
}

fn value_text(record: &ValueRecord, payload: &[u8]) -> String {
    let data = record.data;
    match record.kind {
        0 => "-".to_owned(),
        BOOLEAN => data[0].to_string(),
        2 => i8::from_le_bytes([data[0]]).to_string(),
        3 => i16::from_le_bytes([data[0], data[1]]).to_string(),
        4 => i32::from_le_bytes([data[0], data[1], data[2], data[3]]).to_string(),
        5 => i64::from_le_bytes(data).to_string(),
        8..=11 => u64::from_le_bytes(data).to_string(),
        12 => format!("{:016x}", u64::from_le_bytes(data)),
        INT128 | INT256 => integer::text_of(record.payload(payload)),
        _ if record.has_payload() => hex(record.payload(payload)),
        _ => record.size.to_string(),
    }
}

/// Bytes in stored order, two digits each; no bytes are a `-`.
fn hex(bytes: &[u8]) -> String {
    if bytes.is_empty() {
        return "-".to_owned();
    }
    bytes.iter().map(|byte| format!("{byte:02x}")).collect()
}
