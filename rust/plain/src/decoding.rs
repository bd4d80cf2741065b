//! The decoding call: a row as value records and payload bytes, in two slices of the caller's. The row
//! is skipped first, so that nothing is written of one that is refused or has no room.

use crate::answer::number::{NO_NODE_ROOM, NO_PAYLOAD_ROOM};
use crate::answer::{Checked, Refusal};
use crate::format::table_block;
use crate::reading::{skip, Row, Skipped};
use crate::settings::{room, Settings};
use crate::tables::{schema_record, Block, FormatTables, RECORD_BYTES};
use crate::wire_type::{
    fixed_width, BOOLEAN, INT128, INT256, REPEATED_VARIANT16, REPEATED_VARIANT8, STRING32, TUPLE, VARIANT16,
    VARIANT8, YSON32,
};

/// The kinds of value records that are no wire codes.
pub mod kind {
    pub const VARIANT: u8 = 15;
    pub const REPEATED: u8 = 16;
    pub const TUPLE: u8 = 17;
}

/// A value as a flat table: its records in preorder, and its payload store.
#[derive(Debug, Clone, PartialEq, Eq, Default)]
pub struct ValueTable {
    pub records: Vec<u8>,
    pub payload: Vec<u8>,
}

impl ValueTable {
    /// Writes it to the starts of two slices that have room for it.
    pub fn write_to(&self, records: &mut [u8], payload: &mut [u8]) {
        records[..self.records.len()].copy_from_slice(&self.records);
        payload[..self.payload.len()].copy_from_slice(&self.payload);
    }
}

/// The row at `position`: what `skip` answers, then room for its records (19), then for its payload
/// (20). Only an accepted row is written.
pub fn decode(
    settings: &Settings,
    tables: &FormatTables,
    input: &[u8],
    position: u64,
    records: &mut [u8],
    payload: &mut [u8],
) -> Result<Skipped, Refusal> {
    let skipped = skip(settings, tables, input, position)?;
    let Skipped::Row(row) = skipped else {
        return Ok(skipped);
    };
    has_room(&row, position, records, payload)?;
    value_table(tables, input, position, &row).write_to(records, payload);
    Ok(skipped)
}

/// Room for the records of the row at `position`, then for its payload.
pub fn has_room(row: &Row, position: u64, records: &[u8], payload: &[u8]) -> Checked {
    if row.records > room(records) / RECORD_BYTES as u64 {
        return Err(Refusal::at(NO_NODE_ROOM, position, [row.records, 0, 0]));
    }
    if row.payload > room(payload) {
        return Err(Refusal::at(NO_PAYLOAD_ROOM, position, [row.payload, 0, 0]));
    }
    Ok(())
}

/// The table of a row that `skip` has accepted, so nothing is looked at twice.
pub fn value_table(tables: &FormatTables, input: &[u8], position: u64, row: &Row) -> ValueTable {
    let block = table_block(tables, row.table).expect("an accepted row has a table");
    let rest = &input[position as usize + 2..(position + row.bytes) as usize];
    let mut reader = Reader { table: tables.records, block, rest, out: ValueTable::default() };
    reader.node(0, 0);
    assert!(reader.rest.is_empty(), "a row is as long as skipping has said");
    reader.out
}

struct Reader<'a> {
    table: &'a [u8],
    block: Block,
    /// What is left of the row.
    rest: &'a [u8],
    out: ValueTable,
}

impl<'a> Reader<'a> {
    fn take(&mut self, count: u64) -> &'a [u8] {
        let (taken, rest) = self.rest.split_at(count as usize);
        self.rest = rest;
        taken
    }

    /// The next so many bytes as a number, at most eight of them.
    fn number(&mut self, count: u64) -> u64 {
        self.take(count).iter().rev().fold(0, |number, byte| number << 8 | u64::from(*byte))
    }

    fn push(&mut self, kind: u8, tag: u64, size: u64, data: u64) {
        self.out.records.extend([kind, 0]);
        self.out.records.extend((tag as u16).to_le_bytes());
        self.out.records.extend((size as u32).to_le_bytes());
        self.out.records.extend(data.to_le_bytes());
    }

    /// A record whose bytes stand in the payload store, after all that is there.
    fn push_payload(&mut self, kind: u8, tag: u64, count: u64) {
        self.push(kind, tag, count, self.out.payload.len() as u64);
        let bytes = self.take(count);
        self.out.payload.extend_from_slice(bytes);
    }

    /// The value of the node at `index` of the block, which its parent chose by `tag`.
    fn node(&mut self, index: u64, tag: u64) {
        let record = schema_record(self.table, self.block.first + index);
        let width = fixed_width(u64::from(record.code));
        match record.code {
            BOOLEAN => {
                let truth = self.number(1) != 0;
                self.push(BOOLEAN, tag, 0, u64::from(truth));
            }
            INT128 | INT256 => self.push_payload(record.code, tag, width.expect("it is fixed")),
            STRING32 | YSON32 => {
                let length = self.number(4);
                self.push_payload(record.code, tag, length);
            }
            VARIANT8 | VARIANT16 => {
                self.push(kind::VARIANT, tag, 1, 0);
                let chosen = self.number(if record.code == VARIANT8 { 1 } else { 2 });
                self.node(record.first_child + chosen, chosen);
            }
            REPEATED_VARIANT8 | REPEATED_VARIANT16 => {
                let (bytes, end) = if record.code == REPEATED_VARIANT8 { (1, 255) } else { (2, 65_535) };
                let own = self.out.records.len();
                self.push(kind::REPEATED, tag, 0, 0);
                let mut items: u32 = 0;
                loop {
                    let chosen = self.number(bytes);
                    if chosen == end {
                        break;
                    }
                    items += 1;
                    self.node(record.first_child + chosen, chosen);
                }
                self.out.records[own + 4..own + 8].copy_from_slice(&items.to_le_bytes());
            }
            TUPLE => {
                self.push(kind::TUPLE, tag, record.child_count, 0);
                for child in 0..record.child_count {
                    self.node(record.first_child + child, 0);
                }
            }
            code => {
                let data = self.number(width.expect("all other types were told apart before"));
                self.push(code, tag, 0, data);
            }
        }
    }
}
