//! One schema, and the calls that write by it.

use crate::error::{Refused, Where};
use crate::report::Report;
use crate::sys::VALUE_RECORD_BYTES;
use crate::{path, sys, Extent, Refusal, Settings, ValueTable};

/// One schema among the records of a table, by its first record and their count; [`crate::Schema::tables`]
/// makes one. Every call checks it, so there is no way to write by a bad one.
///
/// [`crate::Encoder`] writes row after row; the calls here write one row each and keep nothing.
#[derive(Debug, Clone, Copy, PartialEq, Eq, Hash)]
pub struct SchemaBlock<'a> {
    /// Schema records, 16 bytes each.
    pub records: &'a [u8],
    /// The store that names lie in.
    pub names: &'a [u8],
    /// The number of its first record.
    pub first: u64,
    /// How many records it has.
    pub count: u64,
}

impl SchemaBlock<'_> {
    /// Whether rows can be written by it: in form, by the rules, a tuple whose columns have names.
    pub fn check(&self) -> Result<(), Refusal> {
        let Self { records, names, first, count } = *self;
        Report::of(|answer| sys::check_encoder_schema(records, names, first, count, answer)).accepted()
    }

    /// A refusal of this block, with the node that it is about.
    pub fn explain(&self, refusal: Refusal) -> Refused {
        Refused::of_schema(refusal, path::in_block(self, &refusal))
    }

    /// Writes a row at `position` of `output`. Refused, it has written nothing; where there is too little
    /// room, [`Refusal::NoOutputRoom`] says how many bytes the row has.
    pub fn encode<'v>(
        &self,
        settings: &Settings,
        row: impl Into<ValueTable<'v>>,
        output: &mut [u8],
        position: usize,
    ) -> Result<Extent, Refused> {
        let value = row.into();
        self.put(settings, &value, output, position as u64).map_err(|refusal| self.about(refusal, &value))
    }

    /// Appends a row to `output`, which grows as it has to. Refused, it has appended nothing.
    pub fn append<'v>(
        &self,
        settings: &Settings,
        row: impl Into<ValueTable<'v>>,
        output: &mut Vec<u8>,
    ) -> Result<Extent, Refused> {
        let value = row.into();
        // No value takes more than ten bytes beside its payload: a tag of two, and a number of eight.
        let most = 2 + value.records.len() / VALUE_RECORD_BYTES * 10 + value.payload.len();
        let report = Report::of(|answer| sys::append(settings.into(), self, &value, output, most, answer));
        report.row().map_err(|refusal| self.about(refusal, &value))
    }

    fn put(
        &self,
        settings: &Settings,
        value: &ValueTable,
        output: &mut [u8],
        position: u64,
    ) -> Result<Extent, Refusal> {
        let report = Report::of(|answer| sys::encode(settings.into(), self, value, output, position, answer));
        report.row()
    }

    fn about(&self, refusal: Refusal, value: &ValueTable) -> Refused {
        let path = path::in_values(self, value, &refusal);
        let at = if path.is_some() { Where::Value } else { Where::Nowhere };
        Refused { refusal, path: path.unwrap_or_default(), at }
    }
}
