//! The walk over one row's value, under a block that has passed the format's check. Each node is
//! charged when it begins, before any byte of it is looked at.

use crate::answer::number::{BLOB_TOO_LARGE, INVALID_VARIANT_TAG, ROW_TOO_LARGE, TRUNCATED};
use crate::answer::{context, Checked, Refusal};
use crate::settings::Settings;
use crate::tables::{schema_record, Block, SchemaRecord};
use crate::wire_type::{
    fixed_width, INT128, INT256, REPEATED_VARIANT16, REPEATED_VARIANT8, STRING32, TUPLE, VARIANT16, VARIANT8,
    YSON32,
};

const END_TAG8: u64 = 255;
const END_TAG16: u64 = 65_535;

/// Where the walk is, and what it has met.
pub struct Walk<'a> {
    settings: &'a Settings,
    table: &'a [u8],
    block: Block,
    input: &'a [u8],
    /// Offset of the next byte, from the slice's start.
    pub at: u64,
    /// What the row may still cost.
    left: u64,
    pub records: u64,
    pub payload: u64,
}

impl<'a> Walk<'a> {
    /// A walk that begins at offset `at`, with a whole row's allowance.
    pub fn new(settings: &'a Settings, table: &'a [u8], block: Block, input: &'a [u8], at: u64) -> Self {
        Self { settings, table, block, input, at, left: settings.max_row_bytes, records: 0, payload: 0 }
    }

    /// The value of the node at `index` of the block, with all that stands below it.
    pub fn node(&mut self, index: u64) -> Checked {
        self.charge(self.settings.node_charge)?;
        self.records += 1;
        let record = schema_record(self.table, self.block.first + index);
        match record.code {
            STRING32 | YSON32 => self.blob(record.code),
            VARIANT8 | VARIANT16 => {
                let place = self.at;
                let tag = self.tag(record.code)?;
                self.tagged_child(&record, tag, place)
            }
            REPEATED_VARIANT8 | REPEATED_VARIANT16 => self.repeated(&record),
            TUPLE => {
                for child in 0..record.child_count {
                    self.node(record.first_child + child)?;
                }
                Ok(())
            }
            code => self.fixed(code),
        }
    }

    /// Equality with the limit is accepted. A refusal's place is where the walk stands: where the node
    /// would start, or the blob's length field, which is not passed before the blob is paid for.
    fn charge(&mut self, cost: u64) -> Checked {
        if cost > self.left {
            return Err(Refusal::at(ROW_TOO_LARGE, self.at, [self.settings.max_row_bytes, 0, 0]));
        }
        self.left -= cost;
        Ok(())
    }

    /// `count` bytes from so far behind the walk's place, which does not move.
    fn peek(&self, offset: u64, count: u64, context: u64) -> Result<&'a [u8], Refusal> {
        let start = self.at + offset;
        if count > self.input.len() as u64 - start {
            return Err(Refusal::at(TRUNCATED, start, [context, 0, 0]));
        }
        Ok(&self.input[start as usize..(start + count) as usize])
    }

    fn fixed(&mut self, code: u8) -> Checked {
        let width = fixed_width(u64::from(code)).expect("all other types were told apart before");
        self.peek(0, width, u64::from(code))?;
        self.at += width;
        if code == INT128 || code == INT256 {
            self.payload += width;
        }
        Ok(())
    }

    /// A length, then its bytes: the limit of its type, then the row's charge, then whether they are there.
    fn blob(&mut self, code: u8) -> Checked {
        let field = self.peek(0, 4, context::BLOB_LENGTH)?;
        let length = u64::from(u32::from_le_bytes(field.try_into().expect("four bytes")));
        let limit = self.settings.blob_limit(code);
        if length > limit {
            return Err(Refusal::at(BLOB_TOO_LARGE, self.at, [u64::from(code), length, limit]));
        }
        self.charge(length)?;
        self.peek(4, length, context::BLOB_PAYLOAD)?;
        self.at += 4 + length;
        self.payload += length;
        Ok(())
    }

    fn tag(&mut self, code: u8) -> Result<u64, Refusal> {
        let tag = match code {
            VARIANT8 | REPEATED_VARIANT8 => u64::from(self.peek(0, 1, context::VARIANT8_TAG)?[0]),
            _ => {
                let field = self.peek(0, 2, context::VARIANT16_TAG)?;
                u64::from(u16::from_le_bytes(field.try_into().expect("two bytes")))
            }
        };
        self.at += if code == VARIANT8 || code == REPEATED_VARIANT8 { 1 } else { 2 };
        Ok(tag)
    }

    /// The child that a tag chooses; the tag stood at `place`.
    fn tagged_child(&mut self, record: &SchemaRecord, tag: u64, place: u64) -> Checked {
        if tag >= record.child_count {
            let carried = [u64::from(record.code), tag, record.child_count];
            return Err(Refusal::at(INVALID_VARIANT_TAG, place, carried));
        }
        self.node(record.first_child + tag)
    }

    fn repeated(&mut self, record: &SchemaRecord) -> Checked {
        let end = if record.code == REPEATED_VARIANT8 { END_TAG8 } else { END_TAG16 };
        loop {
            let place = self.at;
            let tag = self.tag(record.code)?;
            if tag == end {
                return Ok(());
            }
            self.tagged_child(record, tag, place)?;
        }
    }
}
