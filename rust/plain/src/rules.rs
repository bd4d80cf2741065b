//! The schema rules, over blocks whose forms and depths are right. Places are record numbers in the
//! whole record table.

use crate::answer::number::{TABLE_SCHEMA_CHILD_MISSING_NAME, TOO_MANY_CHILDREN, UNEXPECTED_CHILDREN};
use crate::answer::{Checked, Refusal};
use crate::tables::{schema_record, Block};
use crate::wire_type::{maximum_children, LAST_CHILDLESS, TUPLE};

/// Refusals 4 and 5: a node before its children, children in order.
pub fn schema(records: &[u8], block: Block) -> Checked {
    node(records, block, 0)
}

fn node(records: &[u8], block: Block, index: u64) -> Checked {
    let place = block.first + index;
    let record = schema_record(records, place);
    let (code, count) = (u64::from(record.code), record.child_count);
    if record.code <= LAST_CHILDLESS && count != 0 {
        return Err(Refusal::at(UNEXPECTED_CHILDREN, place, [code, count, 0]));
    }
    if let Some(maximum) = maximum_children(record.code) {
        if count > maximum {
            return Err(Refusal::at(TOO_MANY_CHILDREN, place, [code, count, maximum]));
        }
    }
    for child in record.first_child..record.first_child + count {
        node(records, block, child)?;
    }
    Ok(())
}

/// A table's root is a tuple: refusal 8 in a format, 9 in the encoder.
pub fn root(records: &[u8], block: Block, number: u64) -> Checked {
    let found = schema_record(records, block.first).code;
    if found != TUPLE {
        return Err(Refusal::at(number, block.first, [u64::from(found), 0, 0]));
    }
    Ok(())
}

/// Refusal 10: every direct child of the root has a non-empty name. The place is the child's.
pub fn names(records: &[u8], block: Block) -> Checked {
    let root = schema_record(records, block.first);
    for child in 0..root.child_count {
        let place = block.first + root.first_child + child;
        let record = schema_record(records, place);
        if record.named == 0 || record.name.length == 0 {
            return Err(Refusal::at(TABLE_SCHEMA_CHILD_MISSING_NAME, place, [child, 0, 0]));
        }
    }
    Ok(())
}
