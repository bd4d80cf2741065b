//! Values that live by themselves.

use crate::{RowBuilder, ToValue, ValueRef};

/// One value of a row as a tree of its own. [`ValueRef`] looks at the same cases without making one;
/// `Debug` and `Display` are the same.
#[derive(Clone, PartialEq)]
pub enum Value {
    /// A nothing.
    Nothing,
    /// A boolean.
    Boolean(bool),
    /// An int8.
    Int8(i8),
    /// An int16.
    Int16(i16),
    /// An int32.
    Int32(i32),
    /// An int64.
    Int64(i64),
    /// An int128.
    Int128(i128),
    /// An int256: two's complement, the lowest byte first.
    Int256([u8; 32]),
    /// A uint8.
    Uint8(u8),
    /// A uint16.
    Uint16(u16),
    /// A uint32.
    Uint32(u32),
    /// A uint64.
    Uint64(u64),
    /// A double, with the bits of the wire, those of a NaN too.
    Double(f64),
    /// A string32, which need not be UTF-8.
    Bytes(Vec<u8>),
    /// A yson32. Its bytes are not looked into.
    Yson(Vec<u8>),
    /// A variant8 or variant16.
    Variant(Box<Variant>),
    /// A repeated_variant8 or repeated_variant16.
    RepeatedVariants(Vec<Variant>),
    /// A tuple.
    Tuple(Vec<Value>),
}

/// A value and the tag by which it was chosen.
#[derive(Clone, PartialEq)]
pub struct Variant {
    /// The tag.
    pub tag: u16,
    /// The value that it chose.
    pub value: Value,
}

impl Value {
    /// A variant of this tag and value.
    pub fn variant(tag: u16, value: Value) -> Self {
        Self::Variant(Box::new(Variant { tag, value }))
    }

    /// Text as a string32.
    pub fn text(text: &str) -> Self {
        Self::Bytes(text.as_bytes().to_vec())
    }
}

impl ValueRef<'_> {
    /// The same value, in memory of its own.
    pub fn to_value(&self) -> Value {
        match self {
            Self::Nothing => Value::Nothing,
            Self::Boolean(truth) => Value::Boolean(*truth),
            Self::Int8(number) => Value::Int8(*number),
            Self::Int16(number) => Value::Int16(*number),
            Self::Int32(number) => Value::Int32(*number),
            Self::Int64(number) => Value::Int64(*number),
            Self::Int128(number) => Value::Int128(*number),
            Self::Int256(bytes) => Value::Int256(**bytes),
            Self::Uint8(number) => Value::Uint8(*number),
            Self::Uint16(number) => Value::Uint16(*number),
            Self::Uint32(number) => Value::Uint32(*number),
            Self::Uint64(number) => Value::Uint64(*number),
            Self::Double(number) => Value::Double(*number),
            Self::Bytes(bytes) => Value::Bytes(bytes.to_vec()),
            Self::Yson(bytes) => Value::Yson(bytes.to_vec()),
            Self::Variant(chosen) => Value::variant(chosen.tag(), chosen.value().to_value()),
            Self::RepeatedVariants(items) => Value::RepeatedVariants(
                items
                    .clone()
                    .map(|item| Variant { tag: item.tag(), value: item.value().to_value() })
                    .collect(),
            ),
            Self::Tuple(values) => Value::Tuple(values.clone().map(|value| value.to_value()).collect()),
        }
    }
}

impl From<ValueRef<'_>> for Value {
    fn from(value: ValueRef<'_>) -> Self {
        value.to_value()
    }
}

/// A tree goes to its records; only its depth and its length can be misuses.
impl ToValue for &Value {
    fn put(self, row: &mut RowBuilder) {
        match self {
            Value::Nothing => row.nothing(),
            Value::Boolean(truth) => row.value(*truth),
            Value::Int8(number) => row.value(*number),
            Value::Int16(number) => row.value(*number),
            Value::Int32(number) => row.value(*number),
            Value::Int64(number) => row.value(*number),
            Value::Int128(number) => row.value(*number),
            Value::Int256(bytes) => row.int256(bytes),
            Value::Uint8(number) => row.value(*number),
            Value::Uint16(number) => row.value(*number),
            Value::Uint32(number) => row.value(*number),
            Value::Uint64(number) => row.value(*number),
            Value::Double(number) => row.value(*number),
            Value::Bytes(bytes) => row.bytes(bytes),
            Value::Yson(bytes) => row.yson(bytes),
            Value::Variant(chosen) => row.variant(chosen.tag, |row| row.value(&chosen.value)),
            Value::RepeatedVariants(items) => row.list(|list| {
                for item in items {
                    list.item(item.tag, |row| row.value(&item.value));
                }
            }),
            Value::Tuple(values) => row.tuple(|row| values.iter().fold(row, |row, value| row.value(value))),
        };
    }
}
