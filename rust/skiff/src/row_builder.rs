//! Value tables from Rust values: each value goes straight to its record, with no tree between.

use std::fmt;

use crate::sys::VALUE_RECORD_BYTES;
use crate::value::{REPEATED, TUPLE, VARIANT};
use crate::{Value, ValueTable};

/// A value table is at most so deep, the root counting as 1.
const MOST_LEVELS: usize = 64;

/// What a builder was asked for that no value table can be. `record` is the value record that it was about.
#[derive(Debug, Clone, Copy, PartialEq, Eq, Hash)]
#[non_exhaustive]
pub enum Misuse {
    /// A variant or an element was left without a value.
    NoValue {
        /// The variant's or the element's.
        record: usize,
    },
    /// A variant, or a whole row, was given a second value.
    SecondValue {
        /// The second value's.
        record: usize,
    },
    /// A value was put into a list without `item`, or a second one into an element.
    NoTag {
        /// The value's.
        record: usize,
    },
    /// `item` was asked for outside of a list.
    NotInAList {
        /// The element's.
        record: usize,
    },
    /// A value is more than 64 levels deep.
    TooDeep {
        /// The value's.
        record: usize,
    },
    /// Records or payload are over 4,294,967,295 bytes.
    TooLong {
        /// The first that has no room.
        record: usize,
    },
}

impl fmt::Display for Misuse {
    fn fmt(&self, out: &mut fmt::Formatter<'_>) -> fmt::Result {
        let (record, words) = match self {
            Self::NoValue { record } => (record, "a variant or an element has no value"),
            Self::SecondValue { record } => (record, "a variant or a row has a second value"),
            Self::NoTag { record } => (record, "a value of a list has no tag"),
            Self::NotInAList { record } => (record, "an element stands in no list"),
            Self::TooDeep { record } => (record, "a value is more than 64 levels deep"),
            Self::TooLong { record } => (record, "the row is too long for a value table"),
        };
        write!(out, "value record {record}: {words}")
    }
}

impl std::error::Error for Misuse {}

/// A value that waits for its children.
#[derive(Debug, Clone, Copy)]
struct Open {
    record: usize,
    kind: u8,
    children: u32,
    /// The tag that the next child takes: of a variant's only child, or of the element that was begun.
    tag: Option<u16>,
}

/// Makes a row's value table, column by column. A misuse is kept and told by [`RowBuilder::finish`]; what
/// comes after it is passed over. Whether the values fit a schema is told when the row is written.
///
/// ```
/// use skiff::RowBuilder;
///
/// let mut row = RowBuilder::new();
/// row.value(7_u8).value(Some("name")).nothing();
/// row.list(|list| {
///     for number in [1_i64, -2] {
///         list.item(0, |item| item.value(number));
///     }
/// });
/// row.tuple(|point| point.value(1.5).value(-0.5)).variant(2, |chosen| chosen.yson(b"{}"));
/// assert_eq!(row.finish()?.records.len(), 16 * 13);
/// # Ok::<(), skiff::Misuse>(())
/// ```
#[derive(Debug, Clone)]
pub struct RowBuilder {
    records: Vec<u8>,
    payload: Vec<u8>,
    open: Vec<Open>,
    misuse: Option<Misuse>,
}

impl Default for RowBuilder {
    fn default() -> Self {
        Self::new()
    }
}

impl RowBuilder {
    /// An empty row: the root's tuple is open, and values are its columns.
    pub fn new() -> Self {
        let mut builder = Self { records: Vec::new(), payload: Vec::new(), open: Vec::new(), misuse: None };
        builder.clear();
        builder
    }

    /// Begins again, with the memory that there is.
    pub fn clear(&mut self) -> &mut Self {
        self.empty();
        self.write_record(TUPLE, 0, 0, 0);
        self.open.push(Open { record: 0, kind: TUPLE, children: 0, tag: None });
        self
    }

    /// Begins again with a whole value, whatever its root is; nothing can be put after it.
    pub fn set(&mut self, value: &Value) -> &mut Self {
        self.empty();
        self.value(value)
    }

    fn empty(&mut self) {
        self.records.clear();
        self.payload.clear();
        self.open.clear();
        self.misuse = None;
    }

    /// The row's table; more columns may be put after it was looked at.
    pub fn finish(&mut self) -> Result<ValueTable<'_>, Misuse> {
        if let Some(misuse) = self.misuse {
            return Err(misuse);
        }
        if !self.open.is_empty() {
            self.set_count(0);
        }
        Ok(ValueTable { records: &self.records, payload: &self.payload })
    }

    /// A scalar, bytes, text, or an optional one of them, by its Rust type.
    pub fn value(&mut self, value: impl ToValue) -> &mut Self {
        value.put(self);
        self
    }

    /// A value without content.
    pub fn nothing(&mut self) -> &mut Self {
        self.push(0, 0, 0);
        self
    }

    /// A string32, which need not be UTF-8.
    pub fn bytes(&mut self, bytes: &[u8]) -> &mut Self {
        self.push_payload(13, bytes)
    }

    /// A yson32, whose bytes are not looked into.
    pub fn yson(&mut self, bytes: &[u8]) -> &mut Self {
        self.push_payload(14, bytes)
    }

    /// An int256: two's complement, the lowest byte first.
    pub fn int256(&mut self, bytes: &[u8; 32]) -> &mut Self {
        self.push_payload(7, bytes)
    }

    /// A column of [`crate::Schema::optional`] that is missing.
    pub fn none(&mut self) -> &mut Self {
        self.variant(0, Self::nothing)
    }

    /// One that is there: `value` puts it.
    pub fn some(&mut self, value: impl FnOnce(&mut Self) -> &mut Self) -> &mut Self {
        self.variant(1, value)
    }

    /// A variant: its tag, and the one value that `value` puts.
    pub fn variant(&mut self, tag: u16, value: impl FnOnce(&mut Self) -> &mut Self) -> &mut Self {
        self.compound(VARIANT, Some(tag), value)
    }

    /// A repeated variant, whose elements `items` puts by [`RowBuilder::item`].
    pub fn list(&mut self, items: impl FnOnce(&mut Self)) -> &mut Self {
        self.compound(REPEATED, None, |builder| {
            items(builder);
            builder
        })
    }

    /// An element of a list: its tag, and the one value that `value` puts.
    pub fn item(&mut self, tag: u16, value: impl FnOnce(&mut Self) -> &mut Self) -> &mut Self {
        let record = self.next_record();
        let depth = self.open.len();
        match self.open.last_mut() {
            Some(list) if list.kind == REPEATED && list.tag.is_none() => list.tag = Some(tag),
            _ => return self.misused(Misuse::NotInAList { record }),
        }
        value(self);
        if self.open.get(depth - 1).is_some_and(|list| list.tag.is_some()) {
            return self.misused(Misuse::NoValue { record });
        }
        self
    }

    /// A tuple inside the row, whose fields `fields` puts.
    pub fn tuple(&mut self, fields: impl FnOnce(&mut Self) -> &mut Self) -> &mut Self {
        self.compound(TUPLE, None, fields)
    }

    fn compound(
        &mut self,
        kind: u8,
        tag: Option<u16>,
        children: impl FnOnce(&mut Self) -> &mut Self,
    ) -> &mut Self {
        let record = self.next_record();
        self.push(kind, 0, 0);
        if self.misuse.is_some() {
            return self;
        }
        self.open.push(Open { record, kind, children: 0, tag });
        let depth = self.open.len();
        children(self);
        if self.misuse.is_some() {
            return self;
        }
        debug_assert_eq!(self.open.len(), depth, "each compound value closes itself");
        self.set_count(depth - 1);
        let closed = self.open.pop().expect("it was opened here");
        if kind == VARIANT && closed.children == 0 {
            return self.misused(Misuse::NoValue { record });
        }
        self
    }

    fn next_record(&self) -> usize {
        self.records.len() / VALUE_RECORD_BYTES
    }

    fn misused(&mut self, misuse: Misuse) -> &mut Self {
        self.misuse.get_or_insert(misuse);
        self
    }

    /// The tag that the next value takes from its parent, which then has one child more.
    fn take_tag(&mut self) -> Result<u16, Misuse> {
        let record = self.next_record();
        let levels = self.open.len();
        let Some(parent) = self.open.last_mut() else {
            return if record == 0 { Ok(0) } else { Err(Misuse::SecondValue { record }) };
        };
        let tag = match (parent.kind, parent.tag.take()) {
            (TUPLE, _) => 0,
            (_, Some(tag)) => tag,
            (VARIANT, None) => return Err(Misuse::SecondValue { record }),
            (_, None) => return Err(Misuse::NoTag { record }),
        };
        if levels + 1 > MOST_LEVELS {
            return Err(Misuse::TooDeep { record });
        }
        if record + 1 > u32::MAX as usize / VALUE_RECORD_BYTES {
            return Err(Misuse::TooLong { record });
        }
        parent.children += 1;
        Ok(tag)
    }

    fn push(&mut self, kind: u8, size: u32, data: u64) {
        if self.misuse.is_some() {
            return;
        }
        match self.take_tag() {
            Ok(tag) => self.write_record(kind, tag, size, data),
            Err(misuse) => {
                self.misused(misuse);
            }
        }
    }

    fn push_payload(&mut self, kind: u8, bytes: &[u8]) -> &mut Self {
        let start = self.payload.len();
        if start.saturating_add(bytes.len()) > u32::MAX as usize {
            return self.misused(Misuse::TooLong { record: self.next_record() });
        }
        self.push(kind, bytes.len() as u32, start as u64);
        if self.misuse.is_none() {
            self.payload.extend_from_slice(bytes);
        }
        self
    }

    fn write_record(&mut self, kind: u8, tag: u16, size: u32, data: u64) {
        self.records.extend([kind, 0]);
        self.records.extend(tag.to_le_bytes());
        self.records.extend(size.to_le_bytes());
        self.records.extend(data.to_le_bytes());
    }

    /// Writes an open value's child count into its record.
    fn set_count(&mut self, level: usize) {
        let Open { record, children, .. } = self.open[level];
        let at = record * VALUE_RECORD_BYTES + 4;
        self.records[at..at + 4].copy_from_slice(&children.to_le_bytes());
    }
}

/// What is one value of a row by its Rust type.
pub trait ToValue {
    /// Puts it.
    fn put(self, row: &mut RowBuilder);
}

macro_rules! numbers {
    ($($type:ty => $kind:literal,)+) => {
        $(impl ToValue for $type {
            fn put(self, row: &mut RowBuilder) {
                let mut data = [0; 8];
                let bytes = self.to_le_bytes();
                data[..bytes.len()].copy_from_slice(&bytes);
                row.push($kind, 0, u64::from_le_bytes(data));
            }
        })+
    };
}

numbers! {
    i8 => 2,
    i16 => 3,
    i32 => 4,
    i64 => 5,
    u8 => 8,
    u16 => 9,
    u32 => 10,
    u64 => 11,
    f64 => 12,
}

impl ToValue for () {
    fn put(self, row: &mut RowBuilder) {
        row.nothing();
    }
}

impl ToValue for bool {
    fn put(self, row: &mut RowBuilder) {
        row.push(1, 0, u64::from(self));
    }
}

impl ToValue for i128 {
    fn put(self, row: &mut RowBuilder) {
        row.push_payload(6, &self.to_le_bytes());
    }
}

impl ToValue for &[u8] {
    fn put(self, row: &mut RowBuilder) {
        row.bytes(self);
    }
}

impl ToValue for &str {
    fn put(self, row: &mut RowBuilder) {
        row.bytes(self.as_bytes());
    }
}

/// A column of [`crate::Schema::optional`].
impl<T: ToValue> ToValue for Option<T> {
    fn put(self, row: &mut RowBuilder) {
        match self {
            None => row.none(),
            Some(value) => row.some(|row| row.value(value)),
        };
    }
}
