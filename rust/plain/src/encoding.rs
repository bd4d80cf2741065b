//! The encoding call: a value table as a row of table 0. The row is written down whole before room for
//! it is looked for, so that nothing is written of one that is refused.

use crate::answer::number::{
    BLOB_TOO_LARGE, INVALID_VARIANT_TAG, NO_OUTPUT_ROOM, SETTING, TUPLE_LENGTH, VALUE_DOES_NOT_MATCH_SCHEMA,
};
use crate::answer::{Checked, Refusal};
use crate::decoding::kind;
use crate::format::validate_encoder;
use crate::reading::Row;
use crate::settings::{is_short_enough, room, Settings};
use crate::tables::{schema_record, Block, SchemaRecord};
use crate::value_table::{check, value_records, ValueRecord};
use crate::wire_type::{
    fixed_width, BOOLEAN, INT128, INT256, REPEATED_VARIANT16, REPEATED_VARIANT8, STRING32, TUPLE, VARIANT16,
    VARIANT8, YSON32,
};

/// All that the call is given but for its output: the schema's block by its numbers, and the row as a
/// value table.
#[derive(Debug, Clone, Copy)]
pub struct Given<'a> {
    pub settings: Settings,
    pub records: &'a [u8],
    pub names: &'a [u8],
    pub block: Block,
    pub value_records: &'a [u8],
    pub payload: &'a [u8],
}

/// A row's bytes, and the offsets among them at which its booleans stand.
#[derive(Debug, Clone, Default, PartialEq, Eq)]
pub struct Written {
    pub bytes: Vec<u8>,
    pub booleans: Vec<usize>,
}

/// The row at `position` of `output`: 1, the schema's refusals, 18, the row's as met by the walk, and
/// last room. Only an accepted row is written.
pub fn encode(given: &Given, output: &mut [u8], position: u64) -> Result<Row, Refusal> {
    let slices = [given.records, given.names, given.value_records, given.payload];
    let numbers_are_good =
        given.settings.are_good() && slices.into_iter().all(is_short_enough) && position <= room(output);
    if !numbers_are_good {
        return Err(Refusal::bare(SETTING));
    }
    let Written { bytes, .. } = written(given)?;
    let count = bytes.len() as u64;
    if position + count > room(output) {
        return Err(Refusal::at(NO_OUTPUT_ROOM, position, [count, 0, 0]));
    }
    output[position as usize..][..bytes.len()].copy_from_slice(&bytes);
    let records = given.value_records.len() as u64 / 16;
    Ok(Row { table: 0, bytes: count, records, payload: given.payload.len() as u64 })
}

/// The row's bytes, whatever room there is for them. Settings and slices have been found good.
pub fn written(given: &Given) -> Result<Written, Refusal> {
    validate_encoder(given.records, given.names, given.block)?;
    check(given.value_records, given.payload)?;
    let values = value_records(given.value_records);
    let mut writer = Writer { given, values, next: 0, out: Written::default() };
    writer.out.bytes.extend(0_u16.to_le_bytes());
    writer.node(0)?;
    assert_eq!(writer.next, writer.values.len(), "the table is one tree");
    Ok(writer.out)
}

struct Writer<'a> {
    given: &'a Given<'a>,
    values: Vec<ValueRecord>,
    /// The value record that comes next.
    next: usize,
    out: Written,
}

/// Which kind a wire code takes.
fn kind_for(code: u8) -> u8 {
    match code {
        VARIANT8 | VARIANT16 => kind::VARIANT,
        REPEATED_VARIANT8 | REPEATED_VARIANT16 => kind::REPEATED,
        TUPLE => kind::TUPLE,
        code => code,
    }
}

impl Writer<'_> {
    /// The next value, and all that stands below it, as the node at `index` of the block.
    fn node(&mut self, index: u64) -> Checked {
        let schema = schema_record(self.given.records, self.given.block.first + index);
        let place = self.next as u64;
        let value = self.values[self.next];
        let (code, kind) = (u64::from(schema.code), u64::from(value.kind));
        if value.kind != kind_for(schema.code) {
            return Err(Refusal::at(VALUE_DOES_NOT_MATCH_SCHEMA, place, [code, kind, 0]));
        }
        self.next += 1;
        match schema.code {
            STRING32 | YSON32 => {
                let limit = self.given.settings.blob_limit(schema.code);
                if value.size > limit {
                    return Err(Refusal::at(BLOB_TOO_LARGE, place, [code, value.size, limit]));
                }
                self.out.bytes.extend((value.size as u32).to_le_bytes());
                self.out.bytes.extend(value.payload(self.given.payload));
            }
            INT128 | INT256 => self.out.bytes.extend(value.payload(self.given.payload)),
            VARIANT8 | VARIANT16 => self.tagged_child(&schema)?,
            REPEATED_VARIANT8 | REPEATED_VARIANT16 => {
                for _ in 0..value.size {
                    self.tagged_child(&schema)?;
                }
                self.tag(schema.code, 65_535);
            }
            TUPLE => {
                if value.size != schema.child_count {
                    return Err(Refusal::at(TUPLE_LENGTH, place, [schema.child_count, value.size, 0]));
                }
                for child in 0..schema.child_count {
                    self.node(schema.first_child + child)?;
                }
            }
            code => {
                if code == BOOLEAN {
                    self.out.booleans.push(self.out.bytes.len());
                }
                let width = fixed_width(u64::from(code)).expect("all other types were told apart before");
                self.out.bytes.extend(&value.data[..width as usize]);
            }
        }
        Ok(())
    }

    /// The next value bears the tag: it is judged, and then the child that it chooses.
    fn tagged_child(&mut self, schema: &SchemaRecord) -> Checked {
        let tag = self.values[self.next].tag;
        if tag >= schema.child_count {
            let carried = [u64::from(schema.code), tag, schema.child_count];
            return Err(Refusal::at(INVALID_VARIANT_TAG, self.next as u64, carried));
        }
        self.tag(schema.code, tag);
        self.node(schema.first_child + tag)
    }

    /// A tag of one byte or two; all ones end a repeated one.
    fn tag(&mut self, code: u8, tag: u64) {
        let bytes = (tag as u16).to_le_bytes();
        let is_narrow = code == VARIANT8 || code == REPEATED_VARIANT8;
        self.out.bytes.extend(if is_narrow { &bytes[..1] } else { &bytes[..] });
    }
}
