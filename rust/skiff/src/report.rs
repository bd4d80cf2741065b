//! The answer slice, taken apart: eleven little-endian numbers.

use crate::sys::ANSWER_SIZE;
use crate::{Extent, Refusal, Scalar};

/// What the first number says.
const ROW: u64 = 0;
const END: u64 = 1;

/// The numbers that an accepted call has something to say by; the rest are a refusal's.
pub(crate) struct Report {
    what: u64,
    pub(crate) refusal: Option<Refusal>,
    pub(crate) rows: u64,
    pub(crate) bytes: u64,
    pub(crate) table: u64,
    records: u64,
    payload: u64,
}

impl Report {
    /// Makes a call into an answer slice of its own and reads what it wrote.
    #[inline]
    pub(crate) fn of(call: impl FnOnce(&mut [u8; ANSWER_SIZE]) -> u32) -> Self {
        let mut answer = [0; ANSWER_SIZE];
        let returned = call(&mut answer);
        let number = |index: usize| {
            u64::from_le_bytes(answer[index * 8..index * 8 + 8].try_into().expect("eight bytes"))
        };
        debug_assert_eq!(u64::from(returned), number(1), "the number is told twice");
        let refusal = match number(1) {
            0 => None,
            refused => Some(Refusal::from_numbers(refused, number(2), [number(3), number(4), number(5)])),
        };
        Self {
            what: number(0),
            refusal,
            rows: number(6),
            bytes: number(7),
            table: number(8),
            records: number(9),
            payload: number(10),
        }
    }

    /// Of a call that only accepts or refuses.
    #[inline]
    pub(crate) fn accepted(&self) -> Result<(), Refusal> {
        self.refusal.map_or(Ok(()), Err)
    }

    /// Of a call that finds a wire type, whose code then stands in the table's place, or none.
    pub(crate) fn wire_code(&self) -> Option<u64> {
        (self.refusal.is_none() && self.what == ROW).then_some(self.table)
    }

    /// Of a call that finds a record's value: its case stands in the table's place, the value in the records',
    /// a payload's length in the payload's.
    pub(crate) fn scalar(&self) -> Result<Scalar, Refusal> {
        self.accepted()?;
        Ok(match (self.table, self.records) {
            (0, _) => Scalar::Nothing,
            (1, truth) => Scalar::Boolean(truth != 0),
            (2, bits) => Scalar::Signed(bits as i64),
            (3, number) => Scalar::Unsigned(number),
            (4, bits) => Scalar::Double(f64::from_bits(bits)),
            (5, start) => Scalar::Payload { start, length: self.payload },
            (6, count) => Scalar::Children(count),
            (case, value) => return Err(Refusal::from_numbers(0, 0, [case, value, self.payload])),
        })
    }

    /// Of a call that sees one number of a record, which stands in the records' place.
    pub(crate) fn viewed(&self) -> Result<u64, Refusal> {
        self.accepted()?;
        Ok(self.records)
    }

    /// Of a call that finds a row, an end or a refusal.
    #[inline]
    pub(crate) fn extent(&self) -> Result<Option<Extent>, Refusal> {
        match (self.refusal, self.what, u16::try_from(self.table), usize::try_from(self.bytes)) {
            (Some(refusal), ..) => Err(refusal),
            (None, ROW, Ok(table), Ok(bytes)) => {
                Ok(Some(Extent { table, bytes, records: self.records, payload: self.payload }))
            }
            (None, END, ..) => Ok(None),
            (None, what, ..) => Err(Refusal::from_numbers(0, what, [self.table, self.bytes, 0])),
        }
    }

    /// Of a call that finds a row or a refusal; an end is nothing that it answers.
    #[inline]
    pub(crate) fn row(&self) -> Result<Extent, Refusal> {
        self.extent()?.ok_or_else(|| Refusal::from_numbers(0, 0, [0; 3]))
    }
}
