//! The calls of the format side, each in the order of refusals: all forms (2), all depths (3), all names (33), then
//! the schema rules in the original's order.

use crate::answer::number::{
    BAD_SCHEMA_TABLE, EMPTY_TABLE_SCHEMAS, MISSING_TABLE_SCHEMA, NAME_NOT_UTF8, TABLE_SCHEMA_MUST_BE_TUPLE,
    TABLE_SCHEMA_ROOT_MUST_BE_TUPLE, TOO_DEEP, UNKNOWN_REGISTRY_REFERENCE,
};
use crate::answer::{Checked, Refusal};
use crate::depth::{depth, MOST_LEVELS};
use crate::tables::{entries, record_count, reference, references, Block, FormatTables, Reference};
use crate::{forms, names, rules};

/// A lone block's form, its depth and the names of its nodes.
fn lone_block(records: &[u8], store: &[u8], block: Block) -> Checked {
    if !forms::lone_block_is_formed(records, store, block) {
        return Err(Refusal::bare(BAD_SCHEMA_TABLE));
    }
    if depth(records, block) > MOST_LEVELS {
        return Err(Refusal::bare(TOO_DEEP));
    }
    if !names::block_is_text(records, store, block) {
        return Err(Refusal::bare(NAME_NOT_UTF8));
    }
    Ok(())
}

/// `validate` of one block: form, depth, names, rules 4 and 5.
pub fn validate_schema(records: &[u8], names: &[u8], block: Block) -> Checked {
    lone_block(records, names, block)?;
    rules::schema(records, block)
}

/// The encoder's check of its block: schema, root, columns with names.
pub fn validate_encoder(records: &[u8], names: &[u8], block: Block) -> Checked {
    lone_block(records, names, block)?;
    encoder_rules(records, block)
}

/// The encoder's rules of a block whose form, depth and names are right.
pub fn encoder_rules(records: &[u8], block: Block) -> Checked {
    rules::schema(records, block)?;
    rules::root(records, block, TABLE_SCHEMA_MUST_BE_TUPLE)?;
    rules::names(records, block)
}

/// Every block of a format: the inline ones and every registry entry's, used or not.
pub fn blocks(tables: &FormatTables) -> Vec<Block> {
    let inline = references(tables.references)
        .into_iter()
        .filter(|reference| reference.kind == Reference::INLINE)
        .map(|reference| reference.block());
    inline.chain(entries(tables.registry).into_iter().map(|entry| entry.block)).collect()
}

/// The check of a format.
pub fn validate_format(tables: &FormatTables) -> Checked {
    if !forms::format_is_formed(tables) {
        return Err(Refusal::bare(BAD_SCHEMA_TABLE));
    }
    if blocks(tables).into_iter().any(|block| depth(tables.records, block) > MOST_LEVELS) {
        return Err(Refusal::bare(TOO_DEEP));
    }
    if !names_are_text(tables) {
        return Err(Refusal::bare(NAME_NOT_UTF8));
    }
    format_rules(tables)
}

/// All names of a format that are in use: of nodes in a block, of registry entries, of references. Names of records in
/// no block, and the store's other bytes, are not looked at.
pub fn names_are_text(tables: &FormatTables) -> bool {
    let is_text = |block: Block| names::block_is_text(tables.records, tables.names, block);
    blocks(tables).into_iter().all(is_text) && names::registry_is_text(tables)
}

/// The schema rules of a format whose forms, depths and names are right: no tables; registry schemas in
/// name order, which is the registry's own; then each table in turn.
pub fn format_rules(tables: &FormatTables) -> Checked {
    let references = references(tables.references);
    if references.is_empty() {
        return Err(Refusal::bare(EMPTY_TABLE_SCHEMAS));
    }
    for entry in entries(tables.registry) {
        rules::schema(tables.records, entry.block)?;
    }
    for (table, reference) in (0..).zip(&references) {
        if reference.kind == Reference::INLINE {
            rules::schema(tables.records, reference.block())?;
        }
        let Some(block) = resolve(tables, reference) else {
            return Err(Refusal::at(UNKNOWN_REGISTRY_REFERENCE, table, [table, 0, 0]));
        };
        rules::root(tables.records, block, TABLE_SCHEMA_ROOT_MUST_BE_TUPLE)?;
        rules::names(tables.records, block)?;
    }
    Ok(())
}

/// The block a reference stands for, if the registry knows its name.
fn resolve(tables: &FormatTables, reference: &Reference) -> Option<Block> {
    if reference.kind == Reference::INLINE {
        return Some(reference.block());
    }
    let wanted = reference.name().of(tables.names);
    let found = entries(tables.registry).into_iter().find(|entry| entry.name.of(tables.names) == wanted);
    found.map(|entry| entry.block)
}

/// `table_schema` with the format's check before it: the table's block, or 11 where there is none.
pub fn table_schema(tables: &FormatTables, table: u64) -> Result<Block, Refusal> {
    validate_format(tables)?;
    table_block(tables, table).ok_or(Refusal::at(MISSING_TABLE_SCHEMA, 0, [table, 0, 0]))
}

/// The block of a table of a checked format, if there is such a table.
pub fn table_block(tables: &FormatTables, table: u64) -> Option<Block> {
    if table >= record_count(tables.references) {
        return None;
    }
    let block = resolve(tables, &reference(tables.references, table));
    Some(block.expect("a checked format resolves every reference"))
}
