//! Views of a decoded row. The records stay where the library wrote them; a view is a place among them,
//! so that looking at a value copies nothing and allocates nothing.

use crate::sys::VALUE_RECORD_BYTES;

/// A row's value records and payload bytes, as the library wrote them: exactly one tree. That is why
/// the views below index without a way to fail, and why only a decoded row, or one that was refused for what
/// it holds, can begin one.
#[derive(Clone, Copy, PartialEq, Eq)]
pub(crate) struct Table<'a> {
    pub(crate) records: &'a [u8],
    pub(crate) payload: &'a [u8],
}

/// A record's fields.
#[derive(Clone, Copy)]
pub(crate) struct Record {
    pub(crate) kind: u8,
    pub(crate) tag: u16,
    pub(crate) size: u32,
    data: [u8; 8],
}

pub(crate) const VARIANT: u8 = 15;
pub(crate) const REPEATED: u8 = 16;
pub(crate) const TUPLE: u8 = 17;

impl Record {
    pub(crate) fn children(&self) -> usize {
        match self.kind {
            VARIANT..=TUPLE => self.size as usize,
            _ => 0,
        }
    }

    /// The first bytes of the data, which are a number's bytes on the wire.
    fn wire<const N: usize>(&self) -> [u8; N] {
        *self.data.first_chunk().expect("a number in the record has at most eight bytes")
    }
}

impl<'a> Table<'a> {
    pub(crate) fn count(&self) -> usize {
        self.records.len() / VALUE_RECORD_BYTES
    }

    pub(crate) fn record(&self, at: usize) -> Record {
        let start = at * VALUE_RECORD_BYTES;
        let bytes: &[u8; VALUE_RECORD_BYTES] =
            self.records[start..start + VALUE_RECORD_BYTES].try_into().expect("sixteen bytes");
        let [kind, _, t0, t1, s0, s1, s2, s3, data @ ..] = *bytes;
        Record { kind, tag: u16::from_le_bytes([t0, t1]), size: u32::from_le_bytes([s0, s1, s2, s3]), data }
    }

    fn payload_of(&self, record: &Record) -> &'a [u8] {
        let start = u64::from_le_bytes(record.data) as usize;
        &self.payload[start..start + record.size as usize]
    }

    /// The record after the one at `at` and all below it.
    pub(crate) fn after(&self, mut at: usize) -> usize {
        let mut left = 1;
        while left > 0 {
            left = left - 1 + self.record(at).children();
            at += 1;
        }
        at
    }

    pub(crate) fn value(self, at: usize) -> ValueRef<'a> {
        let record = self.record(at);
        let wide = "the library writes as many bytes as the type has";
        match record.kind {
            0 => ValueRef::Nothing,
            1 => ValueRef::Boolean(record.data[0] != 0),
            2 => ValueRef::Int8(i8::from_le_bytes(record.wire())),
            3 => ValueRef::Int16(i16::from_le_bytes(record.wire())),
            4 => ValueRef::Int32(i32::from_le_bytes(record.wire())),
            5 => ValueRef::Int64(i64::from_le_bytes(record.wire())),
            6 => ValueRef::Int128(i128::from_le_bytes(self.payload_of(&record).try_into().expect(wide))),
            7 => ValueRef::Int256(self.payload_of(&record).try_into().expect(wide)),
            8 => ValueRef::Uint8(u8::from_le_bytes(record.wire())),
            9 => ValueRef::Uint16(u16::from_le_bytes(record.wire())),
            10 => ValueRef::Uint32(u32::from_le_bytes(record.wire())),
            11 => ValueRef::Uint64(u64::from_le_bytes(record.wire())),
            12 => ValueRef::Double(f64::from_le_bytes(record.wire())),
            13 => ValueRef::Bytes(self.payload_of(&record)),
            14 => ValueRef::Yson(self.payload_of(&record)),
            VARIANT => ValueRef::Variant(VariantRef { table: self, at: at + 1 }),
            REPEATED => ValueRef::RepeatedVariants(Variants(self.below(at, &record))),
            TUPLE => ValueRef::Tuple(Values(self.below(at, &record))),
            other => panic!("the library wrote a record of kind {other}"),
        }
    }

    fn below(self, at: usize, record: &Record) -> Children<'a> {
        Children { table: self, at: at + 1, left: record.children() }
    }
}

/// One value of a row, looked at where the library wrote it. Whether a tag had one byte or two is no part
/// of it. [`ValueRef::to_value`] makes a [`crate::Value`] of it, which lives by itself.
///
/// `Debug` shows text as text, and `Display` is the value as a listing has it: a number in decimal, but an
/// int128 and an int256 in hex, as [`crate::integer_text`] has them, a boolean as 0 or 1, a double as its bits
/// in hex, blobs in hex as they are stored, and of a compound value the count of its children.
///
/// ```
/// # use skiff::{Decoder, FormatBuilder, Schema, Value, WireType};
/// # let name = Schema::leaf(WireType::String32).named("name");
/// # let list = Schema::node(WireType::RepeatedVariant8, [Schema::leaf(WireType::Uint8)]).named("list");
/// # let tables = FormatBuilder::new().table(Schema::tuple([name, list])).build()?;
/// # let mut decoder = Decoder::from_slice(b"\0\0\x02\0\0\0hi\0\x07\0\x08\xff", &tables)?;
/// # let row = decoder.next_row()?.expect("there is one");
/// let (name, list) = (row.at(0).expect("a name"), row.at(1).expect("a list"));
/// assert_eq!((name.as_str(), name.as_u64()), (Some("hi"), None));
/// assert_eq!((format!("{name:?}"), name.to_string()), ("Bytes(\"hi\")".to_owned(), "6869".to_owned()));
/// let numbers: Vec<_> = list.as_list().expect("it is one").map(|item| item.value().as_u64()).collect();
/// assert_eq!(numbers, [Some(7), Some(8)]);
/// assert_eq!(name.to_value(), Value::text("hi"));
/// # Ok::<(), Box<dyn std::error::Error>>(())
/// ```
#[derive(Clone, PartialEq)]
pub enum ValueRef<'a> {
    /// A nothing.
    Nothing,
    /// A boolean.
    Boolean(bool),
    /// An int8.
    Int8(i8),
    /// An int16.
    Int16(i16),
    /// An int32.
    Int32(i32),
    /// An int64.
    Int64(i64),
    /// An int128.
    Int128(i128),
    /// An int256: two's complement, the lowest byte first.
    Int256(&'a [u8; 32]),
    /// A uint8.
    Uint8(u8),
    /// A uint16.
    Uint16(u16),
    /// A uint32.
    Uint32(u32),
    /// A uint64.
    Uint64(u64),
    /// A double, with the bits of the wire, those of a NaN too.
    Double(f64),
    /// A string32, which need not be UTF-8.
    Bytes(&'a [u8]),
    /// A yson32. Its bytes are not looked into.
    Yson(&'a [u8]),
    /// A variant8 or variant16.
    Variant(VariantRef<'a>),
    /// A repeated_variant8 or repeated_variant16.
    RepeatedVariants(Variants<'a>),
    /// A tuple.
    Tuple(Values<'a>),
}

/// A value and the tag by which it was chosen.
#[derive(Clone, Copy)]
pub struct VariantRef<'a> {
    table: Table<'a>,
    at: usize,
}

impl<'a> VariantRef<'a> {
    /// The tag.
    pub fn tag(&self) -> u16 {
        self.table.record(self.at).tag
    }

    /// The value that it chose.
    pub fn value(&self) -> ValueRef<'a> {
        self.table.value(self.at)
    }
}

impl PartialEq for VariantRef<'_> {
    fn eq(&self, other: &Self) -> bool {
        self.tag() == other.tag() && self.value() == other.value()
    }
}

/// Places of the children that are left. A step passes all records below the child, since a record
/// doesn't say where its next sibling stands; a whole tree is at most 64 deep, so looking at all of it
/// passes no record more than 64 times.
#[derive(Clone, Copy)]
struct Children<'a> {
    table: Table<'a>,
    at: usize,
    left: usize,
}

impl Children<'_> {
    fn next_place(&mut self) -> Option<usize> {
        self.left = self.left.checked_sub(1)?;
        let at = self.at;
        // The last child's end is nobody's start.
        if self.left > 0 {
            self.at = self.table.after(at);
        }
        Some(at)
    }
}

macro_rules! children {
    ($(#[$doc:meta])* $name:ident, $item:ty, $make:expr) => {
        $(#[$doc])*
        #[derive(Clone)]
        pub struct $name<'a>(Children<'a>);

        impl<'a> Iterator for $name<'a> {
            type Item = $item;

            fn next(&mut self) -> Option<Self::Item> {
                let at = self.0.next_place()?;
                Some($make(self.0.table, at))
            }

            fn size_hint(&self) -> (usize, Option<usize>) {
                (self.0.left, Some(self.0.left))
            }
        }

        impl ExactSizeIterator for $name<'_> {}

        impl PartialEq for $name<'_> {
            fn eq(&self, other: &Self) -> bool {
                Iterator::eq(self.clone(), other.clone())
            }
        }
    };
}

children!(
    /// The values of a tuple that are left, in the schema's order.
    Values,
    ValueRef<'a>,
    Table::value
);

children!(
    /// The elements of a repeated variant that are left, in the stream's order.
    Variants,
    VariantRef<'a>,
    |table, at| VariantRef { table, at }
);
