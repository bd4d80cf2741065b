//! Rows as the original reads them: `skip_row` for the answer, `next_row` for what an accepted row
//! holds, which skipping does not tell.

use std::cell::Cell;
use std::io::{self, Read};

use oracle::{CodecError, Decoder, Format, Value};
use plain::decoding::ValueTable;
use plain::value_table::{case as told, Said as Scalar};
use plain::wire_type::NAMES;

use super::{code, format, refused, views, Said};
use crate::case::{op, Case};

/// What the original charges for a node.
pub fn node_charge() -> u64 {
    size_of::<Value>() as u64
}

/// Its one limit for blobs, where that can stand for the case's two: they are the same, or no schema has a node of
/// the type whose limit is left out. Which types there are is told by the records' first bytes, those of records that
/// no schema has among them.
pub fn blob_limit(case: &Case) -> Option<u64> {
    let has = |code: u8| case.records.chunks(16).any(|record| record.first() == Some(&code));
    let Case { max_string32_bytes, max_yson32_bytes, .. } = *case;
    if case.has_one_blob_limit() || !has(14) {
        Some(max_string32_bytes)
    } else {
        (!has(13)).then_some(max_yson32_bytes)
    }
}

/// Whether it charges and limits a row as the case's settings do.
pub(super) fn takes_settings(case: &Case) -> bool {
    case.node_charge == node_charge() && blob_limit(case).is_some()
}

/// None outside the domain: another node charge, two limits for blobs that occur, or a name that is not UTF-8.
pub fn ask(case: &Case) -> Option<Said> {
    if !takes_settings(case) {
        return None;
    }
    let format = match format(case)? {
        Ok(format) => format,
        Err(error) => {
            let run = (case.op == op::RUN).then_some([0, 0]);
            return Some(Said { run, ..refused(case, error) });
        }
    };
    Some(if case.op == op::RUN { run(case, format) } else { skip(case, format) })
}

/// What is left of the input, seen from outside of the decoder that reads it.
pub(super) struct Rest<'a>(&'a Cell<&'a [u8]>);

impl Read for Rest<'_> {
    fn read(&mut self, buffer: &mut [u8]) -> io::Result<usize> {
        let mut rest = self.0.get();
        let count = rest.read(buffer)?;
        self.0.set(rest);
        Ok(count)
    }
}

/// The limits are within 32 bits, and the position is in the input.
pub(super) fn decoder<'a>(case: &Case, format: Format, rest: &'a Cell<&'a [u8]>) -> Decoder<Rest<'a>> {
    let blob_limit = blob_limit(case).expect("it takes these settings");
    Decoder::new(Rest(rest), format)
        .with_max_blob_bytes(blob_limit as usize)
        .with_max_row_bytes(case.max_row_bytes as usize)
}

pub(super) fn row_refused(case: &Case, error: CodecError) -> Said {
    match error {
        CodecError::InvalidSchema(error) => refused(case, error),
        CodecError::Truncated { context } => Said::new(12, [context_number(context), 0, 0]),
        CodecError::RowTooLarge { limit } => Said::new(13, [limit as u64, 0, 0]),
        CodecError::BlobTooLarge { wire_type, length, limit } => {
            Said::new(14, [code(wire_type), length as u64, limit as u64])
        }
        CodecError::InvalidVariantTag { wire_type, tag, children } => {
            Said::new(17, [code(wire_type), u64::from(tag), children as u64])
        }
        other => panic!("no answer about a row in memory: {other}"),
    }
}

/// Document 01's number for the original's words.
fn context_number(context: &str) -> u64 {
    match context {
        "blob length" => 13,
        "blob payload" => 14,
        "variant8 tag" => 15,
        "variant16 tag" => 16,
        "table Variant16 tag" => 17,
        name => {
            let fixed = NAMES[1..13].iter().position(|known| *known == name);
            1 + fixed.expect("the original names one of the fixed types") as u64
        }
    }
}

fn skip(case: &Case, format: Format) -> Said {
    let from = &case.input[case.a as usize..];
    let rest = Cell::new(from);
    let mut decoder = decoder(case, format, &rest);
    let table = match decoder.skip_row() {
        Ok(None) => return Said::accepted(),
        Ok(Some(table)) => table,
        Err(error) => return row_refused(case, error),
    };
    let bytes = from.len() - rest.get().len();
    rest.set(from);
    let (decoded, row) = decoder.next_row().expect("what skips decodes").expect("what skips is no end");
    assert_eq!(decoded, table, "the original skips and decodes rows of different tables");
    assert_eq!(from.len() - rest.get().len(), bytes, "the original skips and decodes different lengths");
    let mut counts = [0, 0];
    count(&row, &mut counts);
    let [records, payload] = counts;
    Said { table: Some(table as u64), ..Said::new(0, [bytes as u64, records, payload]) }
}

/// For a blob that is not there `next_row` takes as much memory as its length says, before it looks for
/// the bytes. Where the limit allows for more than this `skip_row` is asked first, and of such a row alone.
const LONGEST_BLOB: u64 = 1 << 28;

/// What `next_row` says of the row at the case's position, with the row that it gives; none outside of the
/// domain, as in `ask`.
pub fn decode(case: &Case) -> Option<Said> {
    if !takes_settings(case) {
        return None;
    }
    let format = match format(case)? {
        Ok(format) => format,
        Err(error) => return Some(refused(case, error)),
    };
    let from = &case.input[case.a as usize..];
    let rest = Cell::new(from);
    let mut decoder = decoder(case, format, &rest);
    if blob_limit(case).is_some_and(|limit| limit > LONGEST_BLOB) {
        if let Err(error @ CodecError::Truncated { context: "blob payload" }) = decoder.skip_row() {
            return Some(row_refused(case, error));
        }
        rest.set(from);
    }
    Some(match decoder.next_row() {
        Ok(None) => Said::accepted(),
        Ok(Some((table, row))) => {
            let bytes = from.len() - rest.get().len();
            let mut flat = ValueTable::default();
            flatten(&row, 0, &mut flat);
            let values = [bytes, flat.records.len() / 16, flat.payload.len()].map(|value| value as u64);
            let mut scalars = Vec::new();
            tell(&row, &mut 0, &mut scalars);
            let mut views = Vec::new();
            views::add(&row, 0, &mut views);
            Said { table: Some(table as u64), row: Some(flat), scalars, views, ..Said::new(0, values) }
        }
        Err(error) => row_refused(case, error),
    })
}

/// A value record as document 01 lays it out. `data` is at most eight bytes, and zeros follow it.
fn put(flat: &mut ValueTable, kind: u8, tag: u16, size: usize, data: &[u8]) {
    let mut record = [0; 16];
    record[0] = kind;
    record[2..4].copy_from_slice(&tag.to_le_bytes());
    record[4..8].copy_from_slice(&u32::try_from(size).expect("a count of 32 bits").to_le_bytes());
    record[8..8 + data.len()].copy_from_slice(data);
    flat.records.extend(record);
}

/// One whose bytes go to the payload store.
fn put_payload(flat: &mut ValueTable, kind: u8, tag: u16, bytes: &[u8]) {
    let start = flat.payload.len() as u64;
    put(flat, kind, tag, bytes.len(), &start.to_le_bytes());
    flat.payload.extend_from_slice(bytes);
}

/// The original's value as value records in preorder and payload bytes; doubles by their bits.
pub fn flatten(value: &Value, tag: u16, flat: &mut ValueTable) {
    match value {
        Value::Nothing => put(flat, 0, tag, 0, &[]),
        Value::Boolean(truth) => put(flat, 1, tag, 0, &[if *truth { 1 } else { 0 }]),
        Value::Int8(number) => put(flat, 2, tag, 0, &number.to_le_bytes()),
        Value::Int16(number) => put(flat, 3, tag, 0, &number.to_le_bytes()),
        Value::Int32(number) => put(flat, 4, tag, 0, &number.to_le_bytes()),
        Value::Int64(number) => put(flat, 5, tag, 0, &number.to_le_bytes()),
        Value::Int128(number) => put_payload(flat, 6, tag, &number.to_le_bytes()),
        Value::Int256(bytes) => put_payload(flat, 7, tag, bytes),
        Value::Uint8(number) => put(flat, 8, tag, 0, &number.to_le_bytes()),
        Value::Uint16(number) => put(flat, 9, tag, 0, &number.to_le_bytes()),
        Value::Uint32(number) => put(flat, 10, tag, 0, &number.to_le_bytes()),
        Value::Uint64(number) => put(flat, 11, tag, 0, &number.to_le_bytes()),
        Value::Double(number) => put(flat, 12, tag, 0, &number.to_bits().to_le_bytes()),
        Value::Bytes(bytes) => put_payload(flat, 13, tag, bytes),
        Value::Yson(bytes) => put_payload(flat, 14, tag, bytes),
        Value::Variant { tag: chosen, value } => {
            put(flat, 15, tag, 1, &[]);
            flatten(value, *chosen, flat);
        }
        Value::RepeatedVariants(items) => {
            put(flat, 16, tag, items.len(), &[]);
            items.iter().for_each(|item| flatten(&item.value, item.tag, flat));
        }
        Value::Tuple(values) => {
            put(flat, 17, tag, values.len(), &[]);
            values.iter().for_each(|value| flatten(value, 0, flat));
        }
    }
}

/// What the value query has to tell of each node in preorder: the original's own numbers, and where a payload
/// is stored after all that was before.
fn tell(value: &Value, stored: &mut u64, scalars: &mut Vec<Scalar>) {
    let (case, number, length) = match value {
        Value::Nothing => (told::NOTHING, 0, 0),
        Value::Boolean(truth) => (told::TRUTH, u64::from(*truth), 0),
        Value::Int8(number) => (told::SIGNED, i64::from(*number) as u64, 0),
        Value::Int16(number) => (told::SIGNED, i64::from(*number) as u64, 0),
        Value::Int32(number) => (told::SIGNED, i64::from(*number) as u64, 0),
        Value::Int64(number) => (told::SIGNED, *number as u64, 0),
        Value::Uint8(number) => (told::UNSIGNED, u64::from(*number), 0),
        Value::Uint16(number) => (told::UNSIGNED, u64::from(*number), 0),
        Value::Uint32(number) => (told::UNSIGNED, u64::from(*number), 0),
        Value::Uint64(number) => (told::UNSIGNED, *number, 0),
        Value::Double(number) => (told::DOUBLE, number.to_bits(), 0),
        Value::Int128(_) => (told::PAYLOAD, *stored, 16),
        Value::Int256(_) => (told::PAYLOAD, *stored, 32),
        Value::Bytes(bytes) | Value::Yson(bytes) => (told::PAYLOAD, *stored, bytes.len() as u64),
        Value::Variant { .. } => (told::CHILDREN, 1, 0),
        Value::RepeatedVariants(items) => (told::CHILDREN, items.len() as u64, 0),
        Value::Tuple(values) => (told::CHILDREN, values.len() as u64, 0),
    };
    *stored += length;
    scalars.push(Scalar { case, number, length });
    match value {
        Value::Variant { value, .. } => tell(value, stored, scalars),
        Value::RepeatedVariants(items) => items.iter().for_each(|item| tell(&item.value, stored, scalars)),
        Value::Tuple(values) => values.iter().for_each(|value| tell(value, stored, scalars)),
        _ => {}
    }
}

/// Value records and payload bytes of a decoded row.
fn count(value: &Value, counts: &mut [u64; 2]) {
    counts[0] += 1;
    match value {
        Value::Int128(_) => counts[1] += 16,
        Value::Int256(_) => counts[1] += 32,
        Value::Bytes(bytes) | Value::Yson(bytes) => counts[1] += bytes.len() as u64,
        Value::Variant { value, .. } => count(value, counts),
        Value::RepeatedVariants(items) => items.iter().for_each(|item| count(&item.value, counts)),
        Value::Tuple(values) => values.iter().for_each(|value| count(value, counts)),
        _ => {}
    }
}

/// A driver over `skip_row`: rows until the end or the first error. What a refused row has consumed
/// does not count.
fn run(case: &Case, format: Format) -> Said {
    let rest = Cell::new(case.input.as_slice());
    let mut decoder = decoder(case, format, &rest);
    let (mut rows, mut bytes) = (0, 0);
    let stop = loop {
        match decoder.skip_row() {
            Ok(Some(_)) => {
                rows += 1;
                bytes = case.input.len() - rest.get().len();
            }
            Ok(None) => break Said::accepted(),
            Err(error) => break row_refused(case, error),
        }
    };
    Said { run: Some([rows, bytes as u64]), ..stop }
}
