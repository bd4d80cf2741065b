//! The answer slice of the C functions: eleven numbers, little-endian, at its start.

use crate::answer::number::SETTING;
use crate::answer::{Checked, Refusal};
use crate::reading::{Row, Run, Skipped};
use crate::value_table::Said;
use crate::view::Viewed;

pub const REPORT_BYTES: usize = 88;

/// What the first number says.
pub mod what {
    pub const ROW: u64 = 0;
    pub const END: u64 = 1;
    pub const REFUSAL: u64 = 2;
    pub const NO_TYPE: u64 = 3;
}

/// The eleven numbers by name.
#[derive(Debug, Clone, Copy, PartialEq, Eq, Default)]
pub struct Report {
    pub what: u64,
    pub number: u64,
    pub place: u64,
    pub carried: [u64; 3],
    pub rows: u64,
    pub bytes: u64,
    pub table: u64,
    pub records: u64,
    pub payload: u64,
}

impl Report {
    fn of_refusal(refusal: &Refusal) -> Self {
        let Refusal { number, place, carried } = *refusal;
        Self { what: what::REFUSAL, number, place, carried, ..Self::default() }
    }

    pub fn of_skip(skipped: &Result<Skipped, Refusal>) -> Self {
        match skipped {
            Ok(Skipped::Row(row)) => Self {
                what: what::ROW,
                rows: 1,
                bytes: row.bytes,
                table: row.table,
                records: row.records,
                payload: row.payload,
                ..Self::default()
            },
            Ok(Skipped::End) => Self { what: what::END, ..Self::default() },
            Err(refusal) => Self::of_refusal(refusal),
        }
    }

    /// An encoded row is told as one that is read.
    pub fn of_encoded(encoded: &Result<Row, Refusal>) -> Self {
        Self::of_skip(&encoded.map(Skipped::Row))
    }

    /// What a check accepts is told by zeros alone.
    pub fn of_checked(checked: &Checked) -> Self {
        match checked {
            Ok(()) => Self { what: what::ROW, ..Self::default() },
            Err(refusal) => Self::of_refusal(refusal),
        }
    }

    /// A wire type is told by its code, in the table's place.
    pub fn of_parsed(code: Option<u64>) -> Self {
        match code {
            Some(table) => Self { table, ..Self::default() },
            None => Self { what: what::NO_TYPE, ..Self::default() },
        }
    }

    /// A record's value is told in the places of table, records and payload.
    pub fn of_value(said: &Result<Said, Refusal>) -> Self {
        match said {
            Ok(Said { case, number, length }) => {
                Self { table: *case, records: *number, payload: *length, ..Self::default() }
            }
            Err(refusal) => Self::of_refusal(refusal),
        }
    }

    /// What the row view tells is one number, in the records' place.
    pub fn of_viewed(viewed: &Viewed) -> Self {
        match viewed {
            Ok(records) => Self { records: *records, ..Self::default() },
            Err(refusal) => Self::of_refusal(refusal),
        }
    }

    /// The text of an integer is told by how many bytes it has, in the place of a row's.
    pub fn of_text(written: &Result<u64, Refusal>) -> Self {
        match written {
            Ok(bytes) => Self { bytes: *bytes, ..Self::default() },
            Err(refusal) => Self::of_refusal(refusal),
        }
    }

    pub fn of_run(run: &Run) -> Self {
        let stop = match &run.refusal {
            Some(refusal) => Self::of_refusal(refusal),
            None => Self { what: what::END, ..Self::default() },
        };
        Self { rows: run.rows, bytes: run.bytes, ..stop }
    }

    pub fn numbers(&self) -> [u64; 11] {
        let [x, y, z] = self.carried;
        let Self { what, number, place, rows, bytes, table, records, payload, .. } = *self;
        [what, number, place, x, y, z, rows, bytes, table, records, payload]
    }

    /// Writes the slice as a C function does, and returns what it returns: 1 and nothing written where
    /// the slice is too short, else the refusal's number. Bytes past the report stay.
    pub fn write_to(&self, answer: &mut [u8]) -> u32 {
        if answer.len() < REPORT_BYTES {
            return SETTING as u32;
        }
        for (number, field) in self.numbers().iter().zip(answer.chunks_exact_mut(8)) {
            field.copy_from_slice(&number.to_le_bytes());
        }
        self.number as u32
    }
}
