//! Flat forms: everything that refusal 2 stands for. It carries nothing and has place 0, so a form
//! is a yes or a no.

use crate::tables::{
    entries, record_count, references, schema_record, Block, Entry, FormatTables, Reference, SchemaRecord,
    Span, RECORD_BYTES,
};
use crate::wire_type::LAST_CODE;

pub const MOST_RECORDS: u64 = 131_072;

/// A table is whole records, even where no block reaches its tail.
pub fn is_whole(table: &[u8]) -> bool {
    table.len() % RECORD_BYTES == 0
}

/// A named span lies in the store, also when it is empty.
pub fn span_lies_in(names: &[u8], span: Span) -> bool {
    span.start + span.length <= names.len() as u64
}

/// A block has 1 to 131,072 records, all of them in the table.
pub fn block_lies_in(records: &[u8], block: Block) -> bool {
    let has = record_count(records);
    1 <= block.count && block.count <= MOST_RECORDS && block.count <= has && block.first <= has - block.count
}

/// What can be said of a record alone: its code, its flag and its name.
pub fn record_is_formed(names: &[u8], record: &SchemaRecord) -> bool {
    let name_is_formed = match record.named {
        0 => record.name.length == 0 && record.name.start == 0,
        1 => span_lies_in(names, record.name),
        _ => false,
    };
    record.code <= LAST_CODE && name_is_formed
}

/// Level order: a node with children has its first child at 1 + the sum of earlier nodes' counts,
/// which is greater than its own index; a node without has 0 there; and the block is as long as
/// 1 + the sum of all counts.
pub fn is_level_order(block_records: &[SchemaRecord]) -> bool {
    let mut earlier: u64 = 0;
    for (index, record) in block_records.iter().enumerate() {
        let fits = if record.child_count == 0 {
            record.first_child == 0
        } else {
            record.first_child == 1 + earlier && record.first_child > index as u64
        };
        if !fits {
            return false;
        }
        earlier += record.child_count;
    }
    block_records.len() as u64 == 1 + earlier
}

/// The records of a block that lies in the table.
pub fn block_records(records: &[u8], block: Block) -> Vec<SchemaRecord> {
    (block.first..block.first + block.count).map(|index| schema_record(records, index)).collect()
}

pub fn block_is_formed(records: &[u8], names: &[u8], block: Block) -> bool {
    if !block_lies_in(records, block) {
        return false;
    }
    let inside = block_records(records, block);
    inside.iter().all(|record| record_is_formed(names, record)) && is_level_order(&inside)
}

fn reference_is_formed(tables: &FormatTables, reference: &Reference) -> bool {
    let target_is_formed = match reference.kind {
        Reference::INLINE => block_is_formed(tables.records, tables.names, reference.block()),
        Reference::REGISTRY => span_lies_in(tables.names, reference.name()),
        _ => false,
    };
    reference.rest == [0; 7] && target_is_formed
}

fn entry_is_formed(tables: &FormatTables, entry: &Entry) -> bool {
    span_lies_in(tables.names, entry.name) && block_is_formed(tables.records, tables.names, entry.block)
}

/// Names strictly ascending by unsigned bytes, a proper prefix first. The spans lie in the store.
fn names_ascend(names: &[u8], entries: &[Entry]) -> bool {
    entries.windows(2).all(|pair| pair[0].name.of(names) < pair[1].name.of(names))
}

/// Every form of a block that a caller gives by its numbers, with the table it lies in.
pub fn lone_block_is_formed(records: &[u8], names: &[u8], block: Block) -> bool {
    is_whole(records) && block_is_formed(records, names, block)
}

/// Every form of a format: the three tables, every reference, every entry whether used or not, and
/// the registry's order. Records in no block are not looked at.
pub fn format_is_formed(tables: &FormatTables) -> bool {
    if !(is_whole(tables.records) && is_whole(tables.references) && is_whole(tables.registry)) {
        return false;
    }
    let entries = entries(tables.registry);
    references(tables.references).iter().all(|reference| reference_is_formed(tables, reference))
        && entries.iter().all(|entry| entry_is_formed(tables, entry))
        && names_ascend(tables.names, &entries)
}
