//! The row view: what one record of a value table says of itself, the record behind its whole subtree, and a
//! tuple's field. Each answer is a number, or refused as the value query is.

use crate::answer::number::{BAD_VALUE_TABLE, SETTING};
use crate::answer::Refusal;
use crate::decoding::kind;
use crate::forms::is_whole;
use crate::settings::is_short_enough;
use crate::tables::record_count;
use crate::value_table::{record_is_formed, seen, value_record};

pub type Viewed = Result<u64, Refusal>;

pub fn kind(records: &[u8], index: u64) -> Viewed {
    seen(records, index).map(|record| u64::from(record.kind))
}

/// The tag by which its parent chose it.
pub fn tag(records: &[u8], index: u64) -> Viewed {
    seen(records, index).map(|record| record.tag)
}

pub fn child_count(records: &[u8], index: u64) -> Viewed {
    seen(records, index).map(|record| if record.has_children() { record.size } else { 0 })
}

/// The record behind a record and all that stands below it.
pub fn after(records: &[u8], index: u64) -> Viewed {
    seen(records, index)?;
    behind(records, index, 1)
}

/// Field so and so of a record: 1 where that is not there, is no tuple or has no such field; then 18, for the record
/// itself, for those before the field, and where the field is not there.
pub fn field(records: &[u8], index: u64, field: u64) -> Viewed {
    if !is_short_enough(records) || index >= record_count(records) {
        return Err(Refusal::bare(SETTING));
    }
    let record = value_record(records, index);
    if record.kind != kind::TUPLE || field >= record.size {
        return Err(Refusal::bare(SETTING));
    }
    if !is_whole(records) || !record_is_formed(&record) {
        return Err(Refusal::bare(BAD_VALUE_TABLE));
    }
    let found = behind(records, index + 1, field)?;
    if found >= record_count(records) {
        return Err(Refusal::bare(BAD_VALUE_TABLE));
    }
    Ok(found)
}

/// The record behind so many trees that stand one after the other, each in preorder: 18 where a record is bad by
/// itself or not there.
fn behind(records: &[u8], first: u64, trees: u64) -> Viewed {
    let mut at = first;
    // How many trees are left at each level, the deepest last.
    let mut left = vec![trees];
    while let Some(here) = left.last_mut() {
        if *here == 0 {
            left.pop();
            continue;
        }
        *here -= 1;
        if at >= record_count(records) || !record_is_formed(&value_record(records, at)) {
            return Err(Refusal::bare(BAD_VALUE_TABLE));
        }
        let record = value_record(records, at);
        if record.has_children() {
            left.push(record.size);
        }
        at += 1;
    }
    Ok(at)
}
