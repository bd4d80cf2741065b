//! Row starts beside a stream: an index has a record for each row that the run accepts, in order, and nothing else. It
//! is built, checked, extended after rows were appended, and used to decode row n by record n alone.
//!
//! Who skips the rows is a parameter, so that the same sentences can stand over another reader than this one.

use crate::answer::number::{INDEX_MISMATCH, NO_INDEX_ROOM, NO_SUCH_ROW, SETTING};
use crate::answer::{Checked, Refusal};
use crate::decoding::{has_room, value_table, ValueTable};
use crate::format::validate_format;
use crate::reading::{row, Row, Run};
use crate::settings::{is_short_enough, numbers_are_good, room, Settings};
use crate::tables::{record, record_count, u32_at, FormatTables, RECORD_BYTES};

/// A record: where a row begins, how long it is, and which table it is of.
#[derive(Debug, Clone, Copy, PartialEq, Eq)]
pub struct IndexRecord {
    pub offset: u64,
    pub length: u64,
    pub table: u64,
}

impl IndexRecord {
    /// Offset in bytes 0..7, length in 8..11, table in 12..15.
    pub fn in_bytes(&self) -> [u8; RECORD_BYTES] {
        let mut bytes = [0; RECORD_BYTES];
        bytes[..8].copy_from_slice(&self.offset.to_le_bytes());
        bytes[8..12].copy_from_slice(&(self.length as u32).to_le_bytes());
        bytes[12..].copy_from_slice(&(self.table as u32).to_le_bytes());
        bytes
    }
}

/// Record n of an index that has one. Its offset has all of its 64 bits.
pub fn index_record(index: &[u8], n: u64) -> IndexRecord {
    let bytes = record(index, n);
    IndexRecord {
        offset: u32_at(bytes, 0) | u32_at(bytes, 4) << 32,
        length: u32_at(bytes, 8),
        table: u32_at(bytes, 12),
    }
}

/// A stream with its settings and its format, as somebody reads it.
pub trait Stream {
    /// What comes before every row: settings and slices (1), then the format's own.
    fn opened(&self) -> Checked;

    /// How many bytes the stream has.
    fn bytes(&self) -> u64;

    /// Table and length of the row at an offset below the stream's length, or its own refusal.
    fn skipped(&self, offset: u64) -> Result<(u64, u64), Refusal>;

    /// What the row holds that is skipped at an offset.
    fn value_table(&self, offset: u64) -> ValueTable;
}

/// A stream as the plain reading reads it.
#[derive(Debug, Clone, Copy)]
pub struct Plainly<'a> {
    pub settings: Settings,
    pub tables: FormatTables<'a>,
    pub input: &'a [u8],
}

impl Plainly<'_> {
    fn row(&self, offset: u64) -> Result<Row, Refusal> {
        row(&self.settings, &self.tables, self.input, offset)
    }
}

impl Stream for Plainly<'_> {
    fn opened(&self) -> Checked {
        if !numbers_are_good(&self.settings, &self.tables, self.input, 0) {
            return Err(Refusal::bare(SETTING));
        }
        validate_format(&self.tables)
    }

    fn bytes(&self) -> u64 {
        self.input.len() as u64
    }

    fn skipped(&self, offset: u64) -> Result<(u64, u64), Refusal> {
        self.row(offset).map(|row| (row.table, row.bytes))
    }

    fn value_table(&self, offset: u64) -> ValueTable {
        let row = self.row(offset).expect("it was skipped");
        value_table(&self.tables, self.input, offset, &row)
    }
}

/// The rows that the run accepts, and the refusal that stops it, if one does.
#[derive(Debug, Clone, PartialEq, Eq)]
pub struct Accepted {
    pub rows: Vec<IndexRecord>,
    pub refusal: Option<Refusal>,
}

pub fn accepted(stream: &impl Stream) -> Accepted {
    let mut accepted = Accepted { rows: Vec::new(), refusal: stream.opened().err() };
    let mut offset = 0;
    while accepted.refusal.is_none() && offset < stream.bytes() {
        match stream.skipped(offset) {
            Ok((table, length)) => {
                accepted.rows.push(IndexRecord { offset, length, table });
                offset += length;
            }
            Err(refusal) => accepted.refusal = Some(refusal),
        }
    }
    accepted
}

impl Accepted {
    /// The bytes that are the index of these rows.
    pub fn index(&self) -> Vec<u8> {
        self.rows.iter().flat_map(IndexRecord::in_bytes).collect()
    }

    /// All rows and their bytes, as the run answers them, and the run's own refusal.
    fn ran(&self) -> Run {
        let bytes = self.rows.last().map_or(0, |last| last.offset + last.length);
        Run { rows: self.rows.len() as u64, bytes, refusal: self.refusal }
    }

    /// A refusal that comes after the run.
    fn refused(&self, number: u64) -> Run {
        Run { refusal: Some(Refusal::bare(number)), ..self.ran() }
    }

    /// Room is judged for all records before the first is written; those from record `old` on are.
    fn write_from(&self, old: u64, index: &mut [u8]) -> Run {
        let whole = self.index();
        if self.rows.len() as u64 > record_room(index) {
            return self.refused(NO_INDEX_ROOM);
        }
        let start = old as usize * RECORD_BYTES;
        index[start..whole.len()].copy_from_slice(&whole[start..]);
        self.ran()
    }
}

/// Whole records in the bytes that count; a ragged tail is no room and no fault.
fn record_room(index: &[u8]) -> u64 {
    room(index) / RECORD_BYTES as u64
}

/// What a call is refused by before anything was read.
fn not_read(number: u64) -> Run {
    Run { rows: 0, bytes: 0, refusal: Some(Refusal::bare(number)) }
}

/// 1, the format's, the run's; then room (30).
pub fn build(stream: &impl Stream, index: &mut [u8]) -> Run {
    let accepted = accepted(stream);
    if accepted.refusal.is_some() {
        return accepted.ran();
    }
    accepted.write_from(0, index)
}

/// 1, the format's, the run's; then 31 for all bytes but those that build would write.
pub fn check(stream: &impl Stream, index: &[u8]) -> Run {
    if !is_short_enough(index) {
        return not_read(SETTING);
    }
    let accepted = accepted(stream);
    if accepted.refusal.is_some() {
        return accepted.ran();
    }
    if accepted.index() != index {
        return accepted.refused(INDEX_MISMATCH);
    }
    accepted.ran()
}

/// 1, also for an old count beyond the index slice; the format's, the run's over the whole stream; then old records
/// that are not those of the first rows, or more than there are rows (31); then room (30).
pub fn extend(stream: &impl Stream, old: u64, index: &mut [u8]) -> Run {
    if old > record_room(index) {
        return not_read(SETTING);
    }
    let accepted = accepted(stream);
    if accepted.refusal.is_some() {
        return accepted.ran();
    }
    let first = accepted.rows.iter().take(old as usize).flat_map(IndexRecord::in_bytes);
    if !first.eq(index[..old as usize * RECORD_BYTES].iter().copied()) {
        return accepted.refused(INDEX_MISMATCH);
    }
    accepted.write_from(old, index)
}

/// Row n, by record n alone: 1, the format's; no such record (32); an offset that is not below the stream's length
/// (31); the row's own; another table or length (31); then room (19, 20).
pub fn decode_row(
    stream: &impl Stream,
    index: &[u8],
    n: u64,
    records: &mut [u8],
    payload: &mut [u8],
) -> Result<Row, Refusal> {
    if !is_short_enough(index) {
        return Err(Refusal::bare(SETTING));
    }
    stream.opened()?;
    if n >= record_count(index) {
        return Err(Refusal::bare(NO_SUCH_ROW));
    }
    let IndexRecord { offset, length, table } = index_record(index, n);
    if offset >= stream.bytes() {
        return Err(Refusal::bare(INDEX_MISMATCH));
    }
    if stream.skipped(offset)? != (table, length) {
        return Err(Refusal::bare(INDEX_MISMATCH));
    }
    let held = stream.value_table(offset);
    let need = Row {
        table,
        bytes: length,
        records: record_count(&held.records),
        payload: held.payload.len() as u64,
    };
    has_room(&need, offset, records, payload)?;
    held.write_to(records, payload);
    Ok(need)
}
