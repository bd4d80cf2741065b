//! The row view, and what can be wrong with it.

use plain::report::Report;
use plain::tables::record_count;
use plain::view::{after, child_count, field, kind, tag, Viewed};
use std::slice;

use crate::fault::{looks_past, named};

macro_rules! view_call {
    ($symbol:literal, $name:ident, $getter:expr) => {
        /// # Safety
        /// Each pointer leads to as many bytes as the length after it says.
        #[export_name = $symbol]
        pub unsafe extern "C" fn $name(
            value_records: *const u8,
            value_records_len: usize,
            record: u64,
            answer: *mut u8,
            answer_len: usize,
        ) -> u32 {
            let records = slice::from_raw_parts(value_records, value_records_len);
            looks_past(records);
            let viewed: Viewed = $getter(records, record);
            Report::of_viewed(&viewed).write_to(slice::from_raw_parts_mut(answer, answer_len))
        }
    };
}

view_call!("skiff2_kind", skiff_kind, kind);
view_call!("skiff2_tag", skiff_tag, |records: &[u8], record| match named() {
    "tag_is_cut_to_8_bits" => tag(records, record).map(|tag| tag % 256),
    _ => tag(records, record),
});
view_call!("skiff2_child_count", skiff_child_count, child_count);
view_call!("skiff2_after", skiff_after, |records: &[u8], record| match named() {
    "after_is_the_next_record" => after(records, record).map(|_| record + 1),
    _ => after(records, record),
});

/// # Safety
/// Each pointer leads to as many bytes as the length after it says.
#[export_name = "skiff2_field"]
pub unsafe extern "C" fn skiff_field(
    value_records: *const u8,
    value_records_len: usize,
    record: u64,
    wanted: u64,
    answer: *mut u8,
    answer_len: usize,
) -> u32 {
    let records = slice::from_raw_parts(value_records, value_records_len);
    looks_past(records);
    let mut viewed = field(records, record, wanted);
    // The record that stands so far behind the tuple, whatever its parent is.
    if named() == "field_counts_a_grandchild" && record + 1 + wanted < record_count(records) {
        viewed = viewed.map(|_| record + 1 + wanted);
    }
    Report::of_viewed(&viewed).write_to(slice::from_raw_parts_mut(answer, answer_len))
}
