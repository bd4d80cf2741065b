//! The checks and the value of one record, and what can be wrong with them.

use plain::answer::number::TABLE_SCHEMA_CHILD_MISSING_NAME;
use plain::answer::Checked;
use plain::report::Report;
use plain::tables::{Block, FormatTables};
use plain::value_table::{case, value, value_record};
use plain::wire_type::parse;

use crate::fault::{looks_past, named};
use crate::naming::{checked_encoder, checked_format};

pub fn format_answer(tables: &FormatTables, answer: &mut [u8]) -> u32 {
    let checked: Checked = match named() {
        "passes_every_format" => Ok(()),
        _ => checked_format(tables),
    };
    Report::of_checked(&checked).write_to(answer)
}

pub fn block_answer(records: &[u8], names: &[u8], block: Block, answer: &mut [u8]) -> u32 {
    let mut checked = checked_encoder(records, names, block);
    if named() == "passes_a_column_without_a_name"
        && checked.is_err_and(|refusal| refusal.number == TABLE_SCHEMA_CHILD_MISSING_NAME)
    {
        checked = Ok(());
    }
    Report::of_checked(&checked).write_to(answer)
}

pub fn name_answer(name: &[u8], answer: &mut [u8]) -> u32 {
    let code = match named() {
        "reads_names_in_capitals" => parse(&name.to_ascii_lowercase()),
        _ => parse(name),
    };
    Report::of_parsed(code).write_to(answer)
}

pub fn value_answer(records: &[u8], index: u64, answer: &mut [u8]) -> u32 {
    looks_past(records);
    let mut said = value(records, index);
    if let Ok(said) = &mut said {
        if named() == "value_loses_its_sign" && said.case == case::SIGNED {
            said.number = value_record(records, index).start();
        }
    }
    Report::of_value(&said).write_to(answer)
}
