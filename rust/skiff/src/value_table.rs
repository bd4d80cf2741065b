//! Values as records and payload bytes, checked and asked.

use crate::report::Report;
use crate::{sys, Refusal};

/// A value as value records and payload bytes: what [`crate::RowBuilder`] makes, and what a decoded row
/// is. Nothing is checked before it is written.
#[derive(Debug, Clone, Copy, PartialEq, Eq, Hash)]
pub struct ValueTable<'a> {
    /// Value records, 16 bytes each.
    pub records: &'a [u8],
    /// The payload bytes that they point at.
    pub payload: &'a [u8],
}

impl ValueTable<'_> {
    /// Whether it is one: exactly one tree of records, and a store that is exactly filled.
    ///
    /// ```
    /// use skiff::{Refusal, RowBuilder, ValueTable};
    ///
    /// let mut row = RowBuilder::new();
    /// assert_eq!(row.value(7_u8).finish()?.check(), Ok(()));
    /// let none = ValueTable { records: &[], payload: &[] };
    /// assert_eq!(none.check(), Err(Refusal::BadValueTable));
    /// # Ok::<(), skiff::Misuse>(())
    /// ```
    pub fn check(&self) -> Result<(), Refusal> {
        Report::of(|answer| sys::check_value_table(self, answer)).accepted()
    }

    /// What the record of this number says, judged by itself; [`ValueTable::check`] judges them together.
    ///
    /// ```
    /// use skiff::{RowBuilder, Scalar};
    ///
    /// let mut row = RowBuilder::new();
    /// let table = row.value(-7_i16).value("hi").finish()?;
    /// assert_eq!(table.value(0), Ok(Scalar::Children(2)));
    /// assert_eq!(table.value(1), Ok(Scalar::Signed(-7)));
    /// assert_eq!(table.value(2), Ok(Scalar::Payload { start: 0, length: 2 }));
    /// assert!(table.value(3).is_err());
    /// # Ok::<(), skiff::Misuse>(())
    /// ```
    pub fn value(&self, record: u64) -> Result<Scalar, Refusal> {
        Report::of(|answer| sys::value(self.records, record, answer)).scalar()
    }

    /// The kind of a record: 0 to 14 as the wire codes, 15 a variant, 16 a repeated variant, 17 a tuple.
    /// Refused as [`ValueTable::value`] is.
    pub fn kind(&self, record: u64) -> Result<u8, Refusal> {
        let kind = Report::of(|answer| sys::kind(self.records, record, answer)).viewed()?;
        u8::try_from(kind).map_err(|_| Refusal::from_numbers(0, 0, [kind, 0, 0]))
    }

    /// The tag by which its parent chose a record, 0 where it did not. Refused as [`ValueTable::value`] is.
    pub fn tag(&self, record: u64) -> Result<u16, Refusal> {
        let tag = Report::of(|answer| sys::tag(self.records, record, answer)).viewed()?;
        u16::try_from(tag).map_err(|_| Refusal::from_numbers(0, 0, [tag, 0, 0]))
    }

    /// How many children a record has. Refused as [`ValueTable::value`] is.
    pub fn child_count(&self, record: u64) -> Result<u64, Refusal> {
        Report::of(|answer| sys::child_count(self.records, record, answer)).viewed()
    }

    /// The number of the record behind a record and all below it: its next sibling's, where it has one.
    pub fn after(&self, record: u64) -> Result<u64, Refusal> {
        Report::of(|answer| sys::after(self.records, record, answer)).viewed()
    }

    /// The number of the record of a tuple's field, from 0 on.
    ///
    /// ```
    /// use skiff::{Refusal, RowBuilder, Scalar};
    ///
    /// let mut row = RowBuilder::new();
    /// let table = row.value(Some("hi")).value(7_u8).finish()?;
    /// // The tuple, the optional column with its string, the number.
    /// assert_eq!(table.after(0), Ok(4));
    /// assert_eq!((table.kind(1), table.child_count(1), table.after(1)), (Ok(15), Ok(1), Ok(3)));
    /// assert_eq!(table.tag(2), Ok(1));
    /// assert_eq!(table.field(0, 1), Ok(3));
    /// assert_eq!(table.value(3), Ok(Scalar::Unsigned(7)));
    /// assert_eq!(table.field(0, 2), Err(Refusal::Setting));
    /// # Ok::<(), skiff::Misuse>(())
    /// ```
    pub fn field(&self, record: u64, field: u64) -> Result<u64, Refusal> {
        Report::of(|answer| sys::field(self.records, record, field, answer)).viewed()
    }
}

/// What the library says of one value record by itself.
#[derive(Debug, Clone, Copy, PartialEq)]
#[non_exhaustive]
pub enum Scalar {
    /// A nothing.
    Nothing,
    /// A boolean.
    Boolean(bool),
    /// An int8 to int64.
    Signed(i64),
    /// A uint8 to uint64.
    Unsigned(u64),
    /// A double, with its bits.
    Double(f64),
    /// An int128, int256, string32 or yson32: where its bytes stand in the payload.
    Payload {
        /// The first byte.
        start: u64,
        /// How many there are.
        length: u64,
    },
    /// A variant, repeated variant or tuple: how many children it has.
    Children(u64),
}
