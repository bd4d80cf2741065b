//! The flat tables' layouts: 16-byte records, no header, little-endian.

pub const RECORD_BYTES: usize = 16;

/// The four slices of a format.
#[derive(Debug, Clone, Copy)]
pub struct FormatTables<'a> {
    pub records: &'a [u8],
    pub names: &'a [u8],
    pub references: &'a [u8],
    pub registry: &'a [u8],
}

/// Some records of the record table. The numbers are as wide as a caller can give them.
#[derive(Debug, Clone, Copy, PartialEq, Eq)]
pub struct Block {
    pub first: u64,
    pub count: u64,
}

/// A stretch of the name store.
#[derive(Debug, Clone, Copy, PartialEq, Eq)]
pub struct Span {
    pub start: u64,
    pub length: u64,
}

impl Span {
    pub fn of<'a>(&self, names: &'a [u8]) -> &'a [u8] {
        &names[self.start as usize..(self.start + self.length) as usize]
    }
}

#[derive(Debug, Clone, Copy, PartialEq, Eq)]
pub struct SchemaRecord {
    pub code: u8,
    pub named: u8,
    pub name: Span,
    pub first_child: u64,
    pub child_count: u64,
}

#[derive(Debug, Clone, Copy, PartialEq, Eq)]
pub struct Reference {
    pub kind: u8,
    /// Bytes 4..7 and 8..11, whose meaning is the kind's.
    pub fields: [u64; 2],
    /// Bytes 1..3 and 12..15.
    pub rest: [u8; 7],
}

impl Reference {
    pub const INLINE: u8 = 0;
    pub const REGISTRY: u8 = 1;

    /// What an inline reference points at.
    pub fn block(&self) -> Block {
        Block { first: self.fields[0], count: self.fields[1] }
    }

    /// What a registry reference names.
    pub fn name(&self) -> Span {
        Span { start: self.fields[0], length: self.fields[1] }
    }
}

#[derive(Debug, Clone, Copy, PartialEq, Eq)]
pub struct Entry {
    pub name: Span,
    pub block: Block,
}

/// How many whole records a table has; whether it is ragged is a question of form.
pub fn record_count(table: &[u8]) -> u64 {
    (table.len() / RECORD_BYTES) as u64
}

pub(crate) fn record(table: &[u8], index: u64) -> &[u8] {
    let start = index as usize * RECORD_BYTES;
    &table[start..start + RECORD_BYTES]
}

pub(crate) fn u16_at(bytes: &[u8], at: usize) -> u64 {
    u64::from(u16::from_le_bytes([bytes[at], bytes[at + 1]]))
}

pub(crate) fn u32_at(bytes: &[u8], at: usize) -> u64 {
    u64::from(u32::from_le_bytes([bytes[at], bytes[at + 1], bytes[at + 2], bytes[at + 3]]))
}

pub fn schema_record(records: &[u8], index: u64) -> SchemaRecord {
    let bytes = record(records, index);
    SchemaRecord {
        code: bytes[0],
        named: bytes[1],
        name: Span { start: u32_at(bytes, 4), length: u16_at(bytes, 2) },
        first_child: u32_at(bytes, 8),
        child_count: u32_at(bytes, 12),
    }
}

pub fn reference(references: &[u8], index: u64) -> Reference {
    let bytes = record(references, index);
    Reference {
        kind: bytes[0],
        fields: [u32_at(bytes, 4), u32_at(bytes, 8)],
        rest: [bytes[1], bytes[2], bytes[3], bytes[12], bytes[13], bytes[14], bytes[15]],
    }
}

pub fn entry(registry: &[u8], index: u64) -> Entry {
    let bytes = record(registry, index);
    Entry {
        name: Span { start: u32_at(bytes, 0), length: u32_at(bytes, 4) },
        block: Block { first: u32_at(bytes, 8), count: u32_at(bytes, 12) },
    }
}

/// Every table reference, in table order.
pub fn references(references: &[u8]) -> Vec<Reference> {
    (0..record_count(references)).map(|index| reference(references, index)).collect()
}

/// Every registry entry, in the registry's order.
pub fn entries(registry: &[u8]) -> Vec<Entry> {
    (0..record_count(registry)).map(|index| entry(registry, index)).collect()
}
