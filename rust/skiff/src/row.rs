//! A decoded row: its value, its columns by name, its lines in a listing.

use std::fmt;

use crate::sys::VALUE_RECORD_BYTES;
use crate::value::Table;
use crate::{Extent, Format, ValueRef, ValueTable};

/// A row and its value, in the slices that the library wrote it to. Looking at it copies nothing.
///
/// ```
/// use skiff::{Decoder, FormatBuilder, Schema, WireType};
///
/// let page = Schema::leaf(WireType::Uint8).named("page");
/// let name = Schema::leaf(WireType::String32).optional().named("name");
/// let tables = FormatBuilder::new().table(Schema::tuple([page, name])).build()?;
/// let mut decoder = Decoder::from_slice(&[0, 0, 0x25, 1, 2, 0, 0, 0, b'h', b'i'], &tables)?;
///
/// let row = decoder.next_row()?.expect("there is one");
/// assert_eq!(row.get("page").and_then(|page| page.as_u64()), Some(0x25));
/// assert_eq!(row.get("name").and_then(|name| name.as_some()?.as_str()), Some("hi"));
/// assert_eq!(row.get("nome"), None);
/// # Ok::<(), Box<dyn std::error::Error>>(())
/// ```
///
/// It borrows from two sides: the value from the slices that it stands in, the columns' names from the
/// format's tables.
#[derive(Clone, Copy)]
pub struct Row<'a, 'f> {
    extent: Extent,
    format: Format<'f>,
    values: Table<'a>,
}

impl<'a, 'f> Row<'a, 'f> {
    /// The row that the library wrote to the starts of two slices.
    #[inline]
    pub(crate) fn new(extent: Extent, format: Format<'f>, records: &'a [u8], payload: &'a [u8]) -> Self {
        let records = &records[..extent.records as usize * VALUE_RECORD_BYTES];
        Self { extent, format, values: Table { records, payload: &payload[..extent.payload as usize] } }
    }

    /// Table, bytes, records and payload bytes.
    pub fn extent(&self) -> Extent {
        self.extent
    }

    /// Which table it is of.
    pub fn table(&self) -> u16 {
        self.extent.table
    }

    /// The row's value: a tuple of its table's columns.
    pub fn value(&self) -> ValueRef<'a> {
        self.values.value(0)
    }

    /// The value of the column of this name; the first, where several have it.
    pub fn get(&self, column: impl AsRef<[u8]>) -> Option<ValueRef<'a>> {
        self.at(self.format.table_schema(self.table())?.column(column)?)
    }

    /// The value of the column of this number, from 0.
    pub fn at(&self, column: usize) -> Option<ValueRef<'a>> {
        self.value().as_tuple()?.nth(column)
    }

    /// All columns, each with its name, in order.
    pub fn columns(&self) -> impl Iterator<Item = (&'f [u8], ValueRef<'a>)> + use<'a, 'f> {
        let names = self.format.table_schema(self.table()).map(|schema| schema.columns());
        names.into_iter().flatten().zip(self.value().as_tuple().into_iter().flatten())
    }

    /// The value records, 16 bytes each, in preorder; include/skiff.h has their layout.
    pub fn records(&self) -> &'a [u8] {
        self.values.records
    }

    /// The payload bytes, in the order of the records that point at them.
    pub fn payload(&self) -> &'a [u8] {
        self.values.payload
    }

    /// The lines of a listing for this row, if it is the one of this number: a line for each value record,
    /// with the row's number, the depth from 1, the tag, the kind and the value.
    ///
    /// ```
    /// # use skiff::{Decoder, FormatBuilder, Schema, WireType};
    /// let items = [Schema::leaf(WireType::Boolean), Schema::leaf(WireType::Int8)];
    /// let list = Schema::node(WireType::RepeatedVariant8, items).named("v");
    /// let tables = FormatBuilder::new().table(Schema::tuple([list])).build()?;
    /// let mut decoder = Decoder::from_slice(&[0, 0, 0, 7, 1, 0xFE, 0xFF], &tables)?;
    ///
    /// let row = decoder.next_row()?.expect("there is one");
    /// let lines = "0 1 0 tuple 1\n0 2 0 repeated_variant 2\n0 3 0 boolean 1\n0 3 1 int8 -2\n";
    /// assert_eq!(row.listing(0).to_string(), lines);
    /// # Ok::<(), Box<dyn std::error::Error>>(())
    /// ```
    pub fn listing(&self, number: u64) -> Listing<'a> {
        Listing { number, values: self.values }
    }

    /// The same row in memory of its own.
    pub fn to_owned_row(&self) -> OwnedRow<'f> {
        let (records, payload) = (self.records().to_vec(), self.payload().to_vec());
        OwnedRow { extent: self.extent, format: self.format, records, payload }
    }
}

impl PartialEq for Row<'_, '_> {
    /// The same table and the same value, bit for bit.
    fn eq(&self, other: &Self) -> bool {
        self.table() == other.table() && self.values == other.values
    }
}

impl fmt::Debug for Row<'_, '_> {
    fn fmt(&self, out: &mut fmt::Formatter<'_>) -> fmt::Result {
        out.debug_struct("Row").field("extent", &self.extent).field("value", &self.value()).finish()
    }
}

impl<'a> From<Row<'a, '_>> for ValueTable<'a> {
    fn from(row: Row<'a, '_>) -> Self {
        Self { records: row.records(), payload: row.payload() }
    }
}

/// A row in memory of its own; [`OwnedRow::row`] looks at it.
#[derive(Clone)]
pub struct OwnedRow<'f> {
    extent: Extent,
    format: Format<'f>,
    records: Vec<u8>,
    payload: Vec<u8>,
}

impl<'f> OwnedRow<'f> {
    /// The row.
    pub fn row(&self) -> Row<'_, 'f> {
        Row::new(self.extent, self.format, &self.records, &self.payload)
    }
}

impl PartialEq for OwnedRow<'_> {
    fn eq(&self, other: &Self) -> bool {
        self.row() == other.row()
    }
}

impl fmt::Debug for OwnedRow<'_> {
    fn fmt(&self, out: &mut fmt::Formatter<'_>) -> fmt::Result {
        self.row().fmt(out)
    }
}

impl<'a> From<&'a OwnedRow<'_>> for ValueTable<'a> {
    fn from(row: &'a OwnedRow<'_>) -> Self {
        row.row().into()
    }
}

/// A row's lines in a listing, each with its end.
#[derive(Clone, Copy)]
pub struct Listing<'a> {
    number: u64,
    values: Table<'a>,
}

impl fmt::Display for Listing<'_> {
    fn fmt(&self, out: &mut fmt::Formatter<'_>) -> fmt::Result {
        // How many children are left at each level above.
        let mut left: Vec<usize> = Vec::new();
        for at in 0..self.values.count() {
            while left.last() == Some(&0) {
                left.pop();
            }
            if let Some(siblings) = left.last_mut() {
                *siblings -= 1;
            }
            let (record, value) = (self.values.record(at), self.values.value(at));
            let kind = value.kind().replace(' ', "_");
            writeln!(out, "{} {} {} {kind} {value}", self.number, left.len() + 1, record.tag)?;
            left.push(record.children());
        }
        Ok(())
    }
}

impl fmt::Debug for Listing<'_> {
    fn fmt(&self, out: &mut fmt::Formatter<'_>) -> fmt::Result {
        write!(out, "Listing({:?})", self.to_string())
    }
}
