//! Value tables: records in preorder and a payload store, and everything that refusal 18 stands for.
//! Each sentence of document 01 is a check of its own over the whole table.

use crate::answer::number::{BAD_VALUE_TABLE, SETTING};
use crate::answer::{Checked, Refusal};
use crate::decoding::kind;
use crate::depth::MOST_LEVELS;
use crate::forms::is_whole;
use crate::settings::is_short_enough;
use crate::tables::{record, record_count, u16_at, u32_at};
use crate::wire_type::{fixed_width, BOOLEAN, INT128, INT256, STRING32, YSON32};

#[derive(Debug, Clone, Copy, PartialEq, Eq)]
pub struct ValueRecord {
    pub kind: u8,
    /// Byte 1, which is zero.
    pub zero: u8,
    pub tag: u64,
    /// Bytes 4..7: a child count or a payload length, else 0.
    pub size: u64,
    /// Bytes 8..15.
    pub data: [u8; 8],
}

impl ValueRecord {
    /// Kinds whose bytes stand in the payload store.
    pub fn has_payload(&self) -> bool {
        [INT128, INT256, STRING32, YSON32].contains(&self.kind)
    }

    pub fn has_children(&self) -> bool {
        [kind::VARIANT, kind::REPEATED, kind::TUPLE].contains(&self.kind)
    }

    /// Where the payload starts, of a kind that has one.
    pub fn start(&self) -> u64 {
        u64::from_le_bytes(self.data)
    }

    pub fn payload<'a>(&self, store: &'a [u8]) -> &'a [u8] {
        &store[self.start() as usize..(self.start() + self.size) as usize]
    }
}

pub fn value_record(records: &[u8], index: u64) -> ValueRecord {
    let bytes = record(records, index);
    ValueRecord {
        kind: bytes[0],
        zero: bytes[1],
        tag: u16_at(bytes, 2),
        size: u32_at(bytes, 4),
        data: bytes[8..].try_into().expect("eight bytes"),
    }
}

pub fn value_records(records: &[u8]) -> Vec<ValueRecord> {
    (0..record_count(records)).map(|index| value_record(records, index)).collect()
}

/// What can be said of a record alone: its kind, byte 1, its size and its data. Where a payload starts is
/// a matter of the others.
pub(crate) fn record_is_formed(record: &ValueRecord) -> bool {
    let (size_is_formed, data_is_formed) = match record.kind {
        INT128 => (record.size == 16, true),
        INT256 => (record.size == 32, true),
        STRING32 | YSON32 => (true, true),
        BOOLEAN => (record.size == 0, record.start() <= 1),
        code @ 0..=14 => {
            let width = fixed_width(u64::from(code)).expect("the others were told apart before");
            (record.size == 0, record.data[width as usize..].iter().all(|byte| *byte == 0))
        }
        kind::VARIANT => (record.size == 1, record.data == [0; 8]),
        kind::REPEATED | kind::TUPLE => (true, record.data == [0; 8]),
        _ => (false, false),
    };
    record.zero == 0 && size_is_formed && data_is_formed
}

/// A parent that waits for so many children more.
struct Open {
    left: u64,
    chooses_by_tag: bool,
}

/// Exactly one tree in preorder, at most 64 deep, with tags only where a variant or a repeated parent
/// chose.
fn is_one_tree(records: &[ValueRecord]) -> bool {
    let mut open: Vec<Open> = Vec::new();
    for (index, record) in records.iter().enumerate() {
        let chosen = match open.last_mut() {
            Some(parent) => {
                parent.left -= 1;
                parent.chooses_by_tag
            }
            // The first is the root; any other without a parent begins a second tree.
            None if index == 0 => false,
            None => return false,
        };
        if open.len() as u64 + 1 > MOST_LEVELS || (!chosen && record.tag != 0) {
            return false;
        }
        if record.has_children() {
            open.push(Open { left: record.size, chooses_by_tag: record.kind != kind::TUPLE });
        }
        while open.last().is_some_and(|parent| parent.left == 0) {
            open.pop();
        }
    }
    !records.is_empty() && open.is_empty()
}

/// Every payload starts at the sum of the earlier lengths, and the store is exactly filled.
fn payload_is_filled(records: &[ValueRecord], store: &[u8]) -> bool {
    let mut sum = 0;
    for record in records.iter().filter(|record| record.has_payload()) {
        if record.start() != sum {
            return false;
        }
        sum += record.size;
    }
    sum == store.len() as u64
}

pub fn is_formed(records: &[u8], payload: &[u8]) -> bool {
    if !is_whole(records) {
        return false;
    }
    let all = value_records(records);
    all.iter().all(record_is_formed) && is_one_tree(&all) && payload_is_filled(&all, payload)
}

/// The check of a value table as a call: 1 for a slice that is too long, then 18.
pub fn check(records: &[u8], payload: &[u8]) -> Checked {
    if !(is_short_enough(records) && is_short_enough(payload)) {
        return Err(Refusal::bare(SETTING));
    }
    if !is_formed(records, payload) {
        return Err(Refusal::bare(BAD_VALUE_TABLE));
    }
    Ok(())
}

/// What one record says by itself: which case it is, its number, and a payload's length.
#[derive(Debug, Clone, Copy, PartialEq, Eq, Default)]
pub struct Said {
    pub case: u64,
    pub number: u64,
    pub length: u64,
}

/// The cases of a value.
pub mod case {
    pub const NOTHING: u64 = 0;
    pub const TRUTH: u64 = 1;
    pub const SIGNED: u64 = 2;
    pub const UNSIGNED: u64 = 3;
    pub const DOUBLE: u64 = 4;
    pub const PAYLOAD: u64 = 5;
    pub const CHILDREN: u64 = 6;
}

/// One record by itself: 1 where it is not there, then 18.
pub fn seen(records: &[u8], index: u64) -> Result<ValueRecord, Refusal> {
    if !is_short_enough(records) || index >= record_count(records) {
        return Err(Refusal::bare(SETTING));
    }
    let record = value_record(records, index);
    if !is_whole(records) || !record_is_formed(&record) {
        return Err(Refusal::bare(BAD_VALUE_TABLE));
    }
    Ok(record)
}

/// The value query as a call.
pub fn value(records: &[u8], index: u64) -> Result<Said, Refusal> {
    let record = seen(records, index)?;
    let data = record.data;
    let signed = match record.kind {
        2 => i64::from(data[0] as i8),
        3 => i64::from(i16::from_le_bytes([data[0], data[1]])),
        4 => i64::from(i32::from_le_bytes([data[0], data[1], data[2], data[3]])),
        _ => i64::from_le_bytes(data),
    };
    let (case, number) = match record.kind {
        0 => (case::NOTHING, 0),
        BOOLEAN => (case::TRUTH, record.start()),
        2..=5 => (case::SIGNED, signed as u64),
        8..=11 => (case::UNSIGNED, record.start()),
        12 => (case::DOUBLE, record.start()),
        _ if record.has_payload() => (case::PAYLOAD, record.start()),
        _ => (case::CHILDREN, record.size),
    };
    let length = if record.has_payload() { record.size } else { 0 };
    Ok(Said { case, number, length })
}
