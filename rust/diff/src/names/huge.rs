//! Names and name stores of 4,294,967,295 bytes and of one more: as long as a slice that is read may be, and longer.

use plain::answer::number::SETTING;
use plain::answer::{Checked, Refusal};
use plain::format::validate_format;
use plain::names::check_name;
use plain::report::Report;
use plain::settings::is_short_enough;
use plain::tables::FormatTables;
use skiff::{sys, Format};

use crate::fence::Place;
use crate::in_process::huge::{same, zeros, Right, BOUND};
use crate::in_process::Reply;
use crate::plan::{record, words};
use crate::trap;

/// What the plain reading says of a format whose slices may be too long.
fn checked(tables: &FormatTables) -> Checked {
    let slices = [tables.records, tables.names, tables.references, tables.registry];
    if slices.into_iter().all(is_short_enough) {
        validate_format(tables)
    } else {
        Err(Refusal::bare(SETTING))
    }
}

fn compared(call: &str, wanted: &Checked, ask: impl FnOnce(&mut [u8]) -> u32) -> Right {
    let wanted = Reply::expected(&Report::of_checked(wanted), 88);
    same(call, wanted, Reply::of(88, Place::End, ask))
}

fn name(name: &[u8]) -> Right {
    let call = format!("a name of {} bytes", name.len());
    compared(&call, &check_name(name), |answer| sys::check_name(name, answer))
}

fn format(what: &str, tables: &FormatTables) -> Right {
    let FormatTables { records, names, references, registry } = *tables;
    let call = format!("a format with a store of {} bytes, {what}", names.len());
    let given = Format { records, names, references, registry };
    compared(&call, &checked(tables), |answer| sys::check_format(&given, answer))
}

/// A table whose only column has its name at the last bytes that a store may have, or a byte before them.
fn columns(names: &[u8]) -> Right {
    let mut right = 0;
    for length in [4, 3] {
        let start = BOUND as u32 - 4;
        let records = [record(19, 0, 0, 0, 1, 1), record(13, 1, length, start, 0, 0)].concat();
        let references = words([0, 0, 2, 0]);
        let tables = FormatTables { records: &records, names, references: &references, registry: &[] };
        right += format(&format!("a column's name of {length} bytes at {start}"), &tables)?;
    }
    Ok(right)
}

/// A registry entry whose name is all of the store.
fn entry(names: &[u8]) -> Right {
    let (records, references) = (record(19, 0, 0, 0, 0, 0), words([0, 0, 1, 0]));
    let registry = words([0, BOUND as u32, 0, 1]);
    let tables = FormatTables { records: &records, names, references: &references, registry: &registry };
    format("which is an entry's name", &tables)
}

/// The whole is gone through byte by byte, so there are few of these: all zeros, a byte that is no text in the middle
/// and at the end; and slices of a byte more, which are refused for what they are.
fn all(zeros: &mut [u8]) -> Right {
    let mut right = name(&zeros[..BOUND])? + columns(&zeros[..BOUND])?;
    right += name(zeros)? + columns(zeros)? + entry(zeros)?;
    zeros[BOUND / 2] = 0xFF;
    right += name(&zeros[..BOUND])?;
    zeros[BOUND / 2] = 0;
    zeros[BOUND - 1] = 0xFF;
    right += name(&zeros[..BOUND])? + columns(&zeros[..BOUND])? + entry(&zeros[..BOUND])?;
    right += name(zeros)? + columns(zeros)? + entry(zeros)?;
    Ok(right)
}

/// None where there is no room for such slices.
pub fn check() -> Option<Right> {
    let mut zeros = zeros()?;
    let told = || "a name or a store of 4,294,967,295 bytes or one more".to_owned();
    Some(trap::while_asked(&told, || all(&mut zeros.bytes()[..=BOUND])))
}
