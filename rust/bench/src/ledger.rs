//! A ledger's rows: nothing but wide integers, whose bytes are most of the work. Beside decoding and encoding them
//! stands what copying the same bytes takes, from where they lie to where they go.

use std::hint::black_box;

use diff::case::Case;

use crate::timing::nanoseconds;

/// The bytes of the columns, in their order.
const COLUMNS: [usize; 10] = [32, 32, 32, 32, 32, 32, 32, 32, 16, 16];

/// Before a row's columns.
const TABLE_TAG: usize = 2;

const PAYLOAD: usize = 8 * 32 + 2 * 16;

const ROW: usize = TABLE_TAG + PAYLOAD;

/// How a row's columns are copied. The compiler knows no length in either, so it calls `memcpy`.
pub type Copying = fn(&[u8], &mut [u8]);

pub fn each_column(mut from: &[u8], mut to: &mut [u8]) {
    for length in black_box(&COLUMNS) {
        let (column, next) = from.split_at(*length);
        let (place, rest) = to.split_at_mut(*length);
        place.copy_from_slice(column);
        (from, to) = (next, rest);
    }
}

pub fn all_columns(from: &[u8], to: &mut [u8]) {
    to.copy_from_slice(&from[..black_box(PAYLOAD)]);
}

/// Out of the stream, into a store of one row, as decoding does.
pub fn copy_out(case: &Case, copying: Copying) -> f64 {
    let mut payload = vec![0; PAYLOAD];
    nanoseconds(|| {
        for row in case.input.chunks_exact(ROW) {
            copying(&row[TABLE_TAG..], &mut payload);
            black_box(&mut payload);
        }
    })
}

/// From the stores of rows that stand one after another, into a stream, as encoding does.
#[cfg(feature = "encode")]
pub fn copy_back(case: &Case, stores: &[u8], copying: Copying) -> f64 {
    let mut output = vec![0; case.input.len()];
    let time = nanoseconds(|| {
        for (store, row) in stores.chunks_exact(PAYLOAD).zip(output.chunks_exact_mut(ROW)) {
            copying(store, &mut row[TABLE_TAG..]);
        }
    });
    assert!(output == case.input, "rows of table 0");
    time
}

#[cfg(test)]
mod tests {
    use super::*;
    use crate::schemas::LEDGER;

    #[test]
    fn a_row_is_its_table_and_its_columns() {
        assert_eq!(COLUMNS.iter().sum::<usize>(), PAYLOAD);
        assert_eq!(LEDGER.stream(1_000).input.len(), 1_000 * ROW);
    }
}
