//! The reading calls: one row is skipped, or all rows of a slice.

use crate::answer::number::{MISSING_TABLE_SCHEMA, SETTING, TRUNCATED};
use crate::answer::{context, Refusal};
use crate::format::{table_block, validate_format};
use crate::settings::{numbers_are_good, Settings};
use crate::tables::FormatTables;
use crate::walk::Walk;

/// What an accepted row returns.
#[derive(Debug, Clone, Copy, PartialEq, Eq)]
pub struct Row {
    pub table: u64,
    pub bytes: u64,
    pub records: u64,
    pub payload: u64,
}

#[derive(Debug, Clone, Copy, PartialEq, Eq)]
pub enum Skipped {
    Row(Row),
    End,
}

/// The row at `position`: 1, then the format's refusals, then the end of the stream, then the row's.
pub fn skip(
    settings: &Settings,
    tables: &FormatTables,
    input: &[u8],
    position: u64,
) -> Result<Skipped, Refusal> {
    if !numbers_are_good(settings, tables, input, position) {
        return Err(Refusal::bare(SETTING));
    }
    validate_format(tables)?;
    if position == input.len() as u64 {
        return Ok(Skipped::End);
    }
    row(settings, tables, input, position).map(Skipped::Row)
}

/// A row under a checked format: the table's tag, then the root's value.
pub(crate) fn row(
    settings: &Settings,
    tables: &FormatTables,
    input: &[u8],
    position: u64,
) -> Result<Row, Refusal> {
    let start = position as usize;
    let Some(tag) = input.get(start..start + 2) else {
        return Err(Refusal::at(TRUNCATED, position, [context::TABLE_TAG, 0, 0]));
    };
    let table = u64::from(u16::from_le_bytes(tag.try_into().expect("two bytes")));
    let Some(block) = table_block(tables, table) else {
        return Err(Refusal::at(MISSING_TABLE_SCHEMA, position, [table, 0, 0]));
    };
    let mut walk = Walk::new(settings, tables.records, block, input, position + 2);
    walk.node(0)?;
    Ok(Row { table, bytes: walk.at - position, records: walk.records, payload: walk.payload })
}

/// What a run returns: the accepted rows, their bytes, and the refusal that stopped it, if one did.
#[derive(Debug, Clone, Copy, PartialEq, Eq)]
pub struct Run {
    pub rows: u64,
    pub bytes: u64,
    pub refusal: Option<Refusal>,
}

/// Row after row from the slice's start.
pub fn run(settings: &Settings, tables: &FormatTables, input: &[u8]) -> Run {
    let mut run = Run { rows: 0, bytes: 0, refusal: None };
    loop {
        match skip(settings, tables, input, run.bytes) {
            Ok(Skipped::Row(row)) => {
                run.rows += 1;
                run.bytes += row.bytes;
            }
            Ok(Skipped::End) => return run,
            Err(refusal) => return Run { refusal: Some(refusal), ..run },
        }
    }
}
