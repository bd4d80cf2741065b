//! The calls of an index.

use super::{skiff_build_index, skiff_check_index, skiff_decode_indexed, skiff_extend_index, Numbers};
use crate::Format;

/// `skiff_build_index`: the refusal's number, 0 where the index was written.
#[inline]
pub fn build_index(
    numbers: Numbers,
    format: &Format,
    input: &[u8],
    index: &mut [u8],
    answer: &mut [u8],
) -> u32 {
    // SAFETY: as in `decode`: index and answer are written.
    unsafe {
        lend!(skiff_build_index: settings numbers; format format; read input; written index; written answer;)
    }
}

/// `skiff_check_index`: the refusal's number, 0 where it is the stream's index.
#[inline]
pub fn check_index(numbers: Numbers, format: &Format, input: &[u8], index: &[u8], answer: &mut [u8]) -> u32 {
    // SAFETY: as in `skip`.
    unsafe {
        lend!(skiff_check_index: settings numbers; format format; read input; read index; written answer;)
    }
}

/// `skiff_extend_index`: the refusal's number, 0 where the index has all rows.
#[inline]
pub fn extend_index(
    numbers: Numbers,
    format: &Format,
    input: &[u8],
    old: u64,
    index: &mut [u8],
    answer: &mut [u8],
) -> u32 {
    // SAFETY: as in `build_index`.
    unsafe {
        lend!(skiff_extend_index: settings numbers; format format; read input; number old; written index;
            written answer;)
    }
}

/// `skiff_decode_indexed`: the refusal's number, 0 where there is none.
#[inline]
#[expect(clippy::too_many_arguments, reason = "one for each slice and number of the C function")]
pub fn decode_indexed(
    numbers: Numbers,
    format: &Format,
    input: &[u8],
    index: &[u8],
    row: u64,
    records: &mut [u8],
    payload: &mut [u8],
    answer: &mut [u8],
) -> u32 {
    // SAFETY: as in `decode`.
    unsafe {
        lend!(skiff_decode_indexed: settings numbers; format format; read input; read index; number row;
            written records; written payload; written answer;)
    }
}
