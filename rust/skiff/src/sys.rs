//! The library's C functions, as include/skiff.h has them, behind signatures that can't be misused.
//!
//! include/check-refusals compares the declarations below with the library's source, and the differential
//! runs put millions of inputs to each. Their contracts ask nothing of a caller but that each pointer leads
//! to as many bytes as its length says, which a slice guarantees.

use crate::{Format, SchemaBlock, Settings, ValueTable};

/// A shorter answer slice is left as it is, and so are all others; the call returns 1.
pub const ANSWER_SIZE: usize = 88;

/// Where an answer has the bytes of a row.
const ROW_BYTES: usize = 7 * 8;

/// What one value record takes of the slice that it is written to.
pub const VALUE_RECORD_BYTES: usize = 16;

/// What one schema record takes of a record table.
pub const SCHEMA_RECORD_BYTES: usize = 16;

/// What one row takes of an index.
pub const INDEX_RECORD_BYTES: usize = 16;

/// What the text of the widest integer takes: a minus sign and 64 digits.
pub const INTEGER_TEXT_BYTES: usize = 65;

/// The C functions: all of them are given settings, format and input first and the answer slice last, so
/// that only what stands between is written for each. The version of the layouts is part of the symbol, as
/// in the header, so that an archive of another version does not link.
macro_rules! reading_calls {
    ($($symbol:literal fn $name:ident($($own:ident: $type:ty),*);)+) => {
        extern "C" {
            $(#[link_name = $symbol] fn $name(
                node_charge: u64,
                max_string32_bytes: u64,
                max_yson32_bytes: u64,
                max_row_bytes: u64,
                records: *const u8,
                records_len: usize,
                names: *const u8,
                names_len: usize,
                references: *const u8,
                references_len: usize,
                registry: *const u8,
                registry_len: usize,
                input: *const u8,
                input_len: usize,
                $($own: $type,)*
                answer: *mut u8,
                answer_len: usize,
            ) -> u32;)+
        }
    };
}

reading_calls! {
    "skiff2_skip" fn skiff_skip(position: u64);
    "skiff2_decode" fn skiff_decode(
        position: u64,
        value_records: *mut u8,
        value_records_len: usize,
        payload: *mut u8,
        payload_len: usize
    );
    "skiff2_run" fn skiff_run();
    "skiff2_run_window" fn skiff_run_window(rows: u64, bytes: u64);
    "skiff2_build_index" fn skiff_build_index(index: *mut u8, index_len: usize);
    "skiff2_check_index" fn skiff_check_index(index: *const u8, index_len: usize);
    "skiff2_extend_index" fn skiff_extend_index(old: u64, index: *mut u8, index_len: usize);
    "skiff2_decode_indexed" fn skiff_decode_indexed(
        index: *const u8,
        index_len: usize,
        row: u64,
        value_records: *mut u8,
        value_records_len: usize,
        payload: *mut u8,
        payload_len: usize
    );
}

extern "C" {
    #[link_name = "skiff2_encode"]
    fn skiff_encode(
        node_charge: u64,
        max_string32_bytes: u64,
        max_yson32_bytes: u64,
        max_row_bytes: u64,
        records: *const u8,
        records_len: usize,
        names: *const u8,
        names_len: usize,
        first: u64,
        count: u64,
        value_records: *const u8,
        value_records_len: usize,
        payload: *const u8,
        payload_len: usize,
        output: *mut u8,
        output_len: usize,
        position: u64,
        answer: *mut u8,
        answer_len: usize,
    ) -> u32;
    #[link_name = "skiff2_check_value_table"]
    fn skiff_check_value_table(
        value_records: *const u8,
        value_records_len: usize,
        payload: *const u8,
        payload_len: usize,
        answer: *mut u8,
        answer_len: usize,
    ) -> u32;
    #[link_name = "skiff2_integer_text"]
    fn skiff_integer_text(
        bytes: *const u8,
        bytes_len: usize,
        text: *mut u8,
        text_len: usize,
        answer: *mut u8,
        answer_len: usize,
    ) -> u32;
    #[link_name = "skiff2_check_format"]
    fn skiff_check_format(
        records: *const u8,
        records_len: usize,
        names: *const u8,
        names_len: usize,
        references: *const u8,
        references_len: usize,
        registry: *const u8,
        registry_len: usize,
        answer: *mut u8,
        answer_len: usize,
    ) -> u32;
    #[link_name = "skiff2_check_encoder_schema"]
    fn skiff_check_encoder_schema(
        records: *const u8,
        records_len: usize,
        names: *const u8,
        names_len: usize,
        first: u64,
        count: u64,
        answer: *mut u8,
        answer_len: usize,
    ) -> u32;
    #[link_name = "skiff2_check_name"]
    fn skiff_check_name(name: *const u8, name_len: usize, answer: *mut u8, answer_len: usize) -> u32;
    #[link_name = "skiff2_parse"]
    fn skiff_parse(name: *const u8, name_len: usize, answer: *mut u8, answer_len: usize) -> u32;
    #[link_name = "skiff2_value"]
    fn skiff_value(
        value_records: *const u8,
        value_records_len: usize,
        index: u64,
        answer: *mut u8,
        answer_len: usize,
    ) -> u32;
    #[link_name = "skiff2_kind"]
    fn skiff_kind(
        value_records: *const u8,
        value_records_len: usize,
        record: u64,
        answer: *mut u8,
        answer_len: usize,
    ) -> u32;
    #[link_name = "skiff2_tag"]
    fn skiff_tag(
        value_records: *const u8,
        value_records_len: usize,
        record: u64,
        answer: *mut u8,
        answer_len: usize,
    ) -> u32;
    #[link_name = "skiff2_child_count"]
    fn skiff_child_count(
        value_records: *const u8,
        value_records_len: usize,
        record: u64,
        answer: *mut u8,
        answer_len: usize,
    ) -> u32;
    #[link_name = "skiff2_after"]
    fn skiff_after(
        value_records: *const u8,
        value_records_len: usize,
        record: u64,
        answer: *mut u8,
        answer_len: usize,
    ) -> u32;
    #[link_name = "skiff2_field"]
    fn skiff_field(
        value_records: *const u8,
        value_records_len: usize,
        record: u64,
        field: u64,
        answer: *mut u8,
        answer_len: usize,
    ) -> u32;
}

/// The four settings as numbers, unchecked: the library checks them.
#[derive(Debug, Clone, Copy, PartialEq, Eq)]
pub struct Numbers {
    /// What each value of a row costs.
    pub node_charge: u64,
    /// How long a string32 may be.
    pub max_string32_bytes: u64,
    /// How long a yson32 may be.
    pub max_yson32_bytes: u64,
    /// How much a row may cost.
    pub max_row_bytes: u64,
}

impl From<&Settings> for Numbers {
    #[inline]
    fn from(settings: &Settings) -> Self {
        Self {
            node_charge: settings.node_charge(),
            max_string32_bytes: settings.max_string32_bytes(),
            max_yson32_bytes: settings.max_yson32_bytes(),
            max_row_bytes: settings.max_row_bytes(),
        }
    }
}

/// The call of a C function: each slice, read or written, as pointer and length.
macro_rules! lend {
    ($function:ident: $($arguments:tt)*) => { lend!(@ $function [] $($arguments)*) };
    (@ $function:ident [$($done:expr,)*]) => { $function($($done),*) };
    (@ $function:ident [$($done:expr,)*] number $number:expr; $($rest:tt)*) => {
        lend!(@ $function [$($done,)* $number,] $($rest)*)
    };
    (@ $function:ident [$($done:expr,)*] read $slice:expr; $($rest:tt)*) => {
        lend!(@ $function [$($done,)* $slice.as_ptr(), $slice.len(),] $($rest)*)
    };
    (@ $function:ident [$($done:expr,)*] written $slice:expr; $($rest:tt)*) => {
        lend!(@ $function [$($done,)* $slice.as_mut_ptr(), $slice.len(),] $($rest)*)
    };
    (@ $function:ident [$($done:expr,)*] settings $numbers:expr; $($rest:tt)*) => {
        lend!(@ $function [
            $($done,)* $numbers.node_charge, $numbers.max_string32_bytes, $numbers.max_yson32_bytes,
            $numbers.max_row_bytes,
        ] $($rest)*)
    };
    (@ $function:ident [$($done:expr,)*] format $format:expr; $($rest:tt)*) => {
        lend!(@ $function [$($done,)*]
            read $format.records; read $format.names; read $format.references; read $format.registry;
            $($rest)*)
    };
}

mod indexing;
pub use indexing::{build_index, check_index, decode_indexed, extend_index};

/// `skiff_skip`: the refusal's number, 0 where there is none.
#[inline]
pub fn skip(numbers: Numbers, format: &Format, input: &[u8], position: u64, answer: &mut [u8]) -> u32 {
    // SAFETY: each pointer and length are those of a slice that is borrowed for the call, and the
    // answer slice, the only one that is written, is borrowed by nobody else.
    unsafe {
        lend!(skiff_skip: settings numbers; format format; read input; number position; written answer;)
    }
}

/// `skiff_decode`: the refusal's number, 0 where there is none.
#[inline]
pub fn decode(
    numbers: Numbers,
    format: &Format,
    input: &[u8],
    position: u64,
    records: &mut [u8],
    payload: &mut [u8],
    answer: &mut [u8],
) -> u32 {
    // SAFETY: as in `skip`; the three slices that are written are each borrowed by nobody else, so none
    // of them overlaps another.
    unsafe {
        lend!(skiff_decode: settings numbers; format format; read input; number position;
            written records; written payload; written answer;)
    }
}

/// `skiff_run`: the refusal's number, 0 where the run came to the end.
#[inline]
pub fn run(numbers: Numbers, format: &Format, input: &[u8], answer: &mut [u8]) -> u32 {
    // SAFETY: as in `skip`.
    unsafe { lend!(skiff_run: settings numbers; format format; read input; written answer;) }
}

/// `skiff_run_window`: the refusal's number, 0 where the run came to the window's end.
#[inline]
pub fn run_window(
    numbers: Numbers,
    format: &Format,
    window: &[u8],
    rows: u64,
    bytes: u64,
    answer: &mut [u8],
) -> u32 {
    // SAFETY: as in `skip`.
    unsafe {
        lend!(skiff_run_window: settings numbers; format format; read window; number rows; number bytes;
            written answer;)
    }
}

/// `skiff_encode`: the refusal's number, 0 where the row was written.
#[inline]
pub fn encode(
    numbers: Numbers,
    block: &SchemaBlock,
    value: &ValueTable,
    output: &mut [u8],
    position: u64,
    answer: &mut [u8],
) -> u32 {
    // SAFETY: as in `decode`: output and answer are written.
    unsafe {
        lend!(skiff_encode: settings numbers; read block.records; read block.names;
            number block.first; number block.count; read value.records; read value.payload;
            written output; number position; written answer;)
    }
}

/// `skiff_encode` behind the last byte of `output`, which has to grow by no more than `most`: the refusal's
/// number, 0 where the row was appended.
#[inline]
pub(crate) fn append(
    numbers: Numbers,
    block: &SchemaBlock,
    value: &ValueTable,
    output: &mut Vec<u8>,
    most: usize,
    answer: &mut [u8; ANSWER_SIZE],
) -> u32 {
    output.reserve(most);
    let free = output.spare_capacity_mut();
    let (start, room) = (free.as_mut_ptr().cast::<u8>(), free.len());
    // SAFETY: as in `decode`. The room has no bytes yet and the call reads none of it: it only writes there.
    let refused = unsafe {
        skiff_encode(
            numbers.node_charge,
            numbers.max_string32_bytes,
            numbers.max_yson32_bytes,
            numbers.max_row_bytes,
            block.records.as_ptr(),
            block.records.len(),
            block.names.as_ptr(),
            block.names.len(),
            block.first,
            block.count,
            value.records.as_ptr(),
            value.records.len(),
            value.payload.as_ptr(),
            value.payload.len(),
            start,
            room,
            0,
            answer.as_mut_ptr(),
            ANSWER_SIZE,
        )
    };
    if refused == 0 {
        let row = u64::from_le_bytes(*answer[ROW_BYTES..].first_chunk().expect("eight bytes")) as usize;
        debug_assert!(row <= room);
        // SAFETY: an accepted call has written a row of so many bytes from the start of the room on, and it
        // had room for them.
        unsafe { output.set_len(output.len() + row) };
    }
    refused
}

/// `skiff_check_value_table`: the refusal's number, 0 where it is a table.
#[inline]
pub fn check_value_table(value: &ValueTable, answer: &mut [u8]) -> u32 {
    // SAFETY: as in `skip`.
    unsafe { lend!(skiff_check_value_table: read value.records; read value.payload; written answer;) }
}

/// `skiff_integer_text`: the refusal's number, 0 where the text was written.
#[inline]
pub fn integer_text(bytes: &[u8], text: &mut [u8], answer: &mut [u8]) -> u32 {
    // SAFETY: as in `decode`: text and answer are written.
    unsafe { lend!(skiff_integer_text: read bytes; written text; written answer;) }
}

/// `skiff_check_format`: the refusal's number, 0 where it is a format.
#[inline]
pub fn check_format(format: &Format, answer: &mut [u8]) -> u32 {
    // SAFETY: as in `skip`.
    unsafe { lend!(skiff_check_format: format format; written answer;) }
}

/// `skiff_check_encoder_schema`: the refusal's number, 0 where an encoder may write by the block.
#[inline]
pub fn check_encoder_schema(records: &[u8], names: &[u8], first: u64, count: u64, answer: &mut [u8]) -> u32 {
    // SAFETY: as in `skip`.
    unsafe {
        lend!(skiff_check_encoder_schema: read records; read names; number first; number count;
            written answer;)
    }
}

/// `skiff_check_name`: the refusal's number, 0 where the string is well-formed UTF-8.
#[inline]
pub fn check_name(name: &[u8], answer: &mut [u8]) -> u32 {
    // SAFETY: as in `skip`.
    unsafe { lend!(skiff_check_name: read name; written answer;) }
}

/// `skiff_parse`: 0, the wire type's code being in the answer; 1 where the answer slice is too short.
#[inline]
pub fn parse(name: &[u8], answer: &mut [u8]) -> u32 {
    // SAFETY: as in `skip`.
    unsafe { lend!(skiff_parse: read name; written answer;) }
}

/// `skiff_value`: the refusal's number, 0 where the record's value is in the answer.
#[inline]
pub fn value(records: &[u8], index: u64, answer: &mut [u8]) -> u32 {
    // SAFETY: as in `skip`.
    unsafe { lend!(skiff_value: read records; number index; written answer;) }
}

/// `skiff_kind`: the refusal's number, 0 where the record's kind is in the answer.
#[inline]
pub fn kind(records: &[u8], record: u64, answer: &mut [u8]) -> u32 {
    // SAFETY: as in `skip`.
    unsafe { lend!(skiff_kind: read records; number record; written answer;) }
}

/// `skiff_tag`: the refusal's number, 0 where the tag by which its parent chose the record is in the answer.
#[inline]
pub fn tag(records: &[u8], record: u64, answer: &mut [u8]) -> u32 {
    // SAFETY: as in `skip`.
    unsafe { lend!(skiff_tag: read records; number record; written answer;) }
}

/// `skiff_child_count`: the refusal's number, 0 where the number of the record's children is in the answer.
#[inline]
pub fn child_count(records: &[u8], record: u64, answer: &mut [u8]) -> u32 {
    // SAFETY: as in `skip`.
    unsafe { lend!(skiff_child_count: read records; number record; written answer;) }
}

/// `skiff_after`: the refusal's number, 0 where the record behind the record's whole subtree is in the answer.
#[inline]
pub fn after(records: &[u8], record: u64, answer: &mut [u8]) -> u32 {
    // SAFETY: as in `skip`.
    unsafe { lend!(skiff_after: read records; number record; written answer;) }
}

/// `skiff_field`: the refusal's number, 0 where the record of a tuple's field is in the answer.
#[inline]
pub fn field(records: &[u8], record: u64, field: u64, answer: &mut [u8]) -> u32 {
    // SAFETY: as in `skip`.
    unsafe { lend!(skiff_field: read records; number record; number field; written answer;) }
}
