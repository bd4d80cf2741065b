//! What both kinds of value are asked for: the same questions of a view and of a tree.

use std::fmt;

use crate::sys::INTEGER_TEXT_BYTES;
use crate::{integer_text, Value, ValueRef, Values, Variant, VariantRef, Variants};

/// Bytes as text where they are UTF-8, else as an escaped byte string.
struct Text<'a>(&'a [u8]);

impl fmt::Debug for Text<'_> {
    fn fmt(&self, out: &mut fmt::Formatter<'_>) -> fmt::Result {
        match std::str::from_utf8(self.0) {
            Ok(text) => write!(out, "{text:?}"),
            Err(_) => write!(out, "b\"{}\"", self.0.escape_ascii()),
        }
    }
}

/// An int128 or int256 as the library shows it.
struct Wide<'a>(&'a [u8]);

impl fmt::Display for Wide<'_> {
    fn fmt(&self, out: &mut fmt::Formatter<'_>) -> fmt::Result {
        let mut text = [0; INTEGER_TEXT_BYTES];
        out.write_str(integer_text(self.0, &mut text).expect("there is room for the widest"))
    }
}

/// Among numbers that are in decimal: `-0x1`.
impl fmt::Debug for Wide<'_> {
    fn fmt(&self, out: &mut fmt::Formatter<'_>) -> fmt::Result {
        let shown = self.to_string();
        match shown.strip_prefix('-') {
            Some(digits) => write!(out, "-0x{digits}"),
            None => write!(out, "0x{shown}"),
        }
    }
}

/// Lower hex in stored order; no byte at all is `-`.
fn hex(bytes: &[u8], out: &mut fmt::Formatter<'_>) -> fmt::Result {
    if bytes.is_empty() {
        return out.write_str("-");
    }
    bytes.iter().try_for_each(|byte| write!(out, "{byte:02x}"))
}

macro_rules! questions {
    ($($type:ty),+) => { $(
        impl $type {
            /// The kind in words: the wire type's name, but `variant` and `repeated variant` for either width.
            pub const fn kind(&self) -> &'static str {
                match self {
                    Self::Nothing => "nothing",
                    Self::Boolean(_) => "boolean",
                    Self::Int8(_) => "int8",
                    Self::Int16(_) => "int16",
                    Self::Int32(_) => "int32",
                    Self::Int64(_) => "int64",
                    Self::Int128(_) => "int128",
                    Self::Int256(_) => "int256",
                    Self::Uint8(_) => "uint8",
                    Self::Uint16(_) => "uint16",
                    Self::Uint32(_) => "uint32",
                    Self::Uint64(_) => "uint64",
                    Self::Double(_) => "double",
                    Self::Bytes(_) => "string32",
                    Self::Yson(_) => "yson32",
                    Self::Variant(_) => "variant",
                    Self::RepeatedVariants(_) => "repeated variant",
                    Self::Tuple(_) => "tuple",
                }
            }

            /// Whether it is a nothing.
            pub const fn is_nothing(&self) -> bool {
                matches!(self, Self::Nothing)
            }

            /// A boolean's truth.
            pub const fn as_bool(&self) -> Option<bool> {
                match self {
                    Self::Boolean(truth) => Some(*truth),
                    _ => None,
                }
            }

            /// An integer of any width but an int256's, signed or not.
            pub fn as_i128(&self) -> Option<i128> {
                Some(match self {
                    Self::Int8(number) => i128::from(*number),
                    Self::Int16(number) => i128::from(*number),
                    Self::Int32(number) => i128::from(*number),
                    Self::Int64(number) => i128::from(*number),
                    Self::Int128(number) => *number,
                    Self::Uint8(number) => i128::from(*number),
                    Self::Uint16(number) => i128::from(*number),
                    Self::Uint32(number) => i128::from(*number),
                    Self::Uint64(number) => i128::from(*number),
                    _ => return None,
                })
            }

            /// An integer as by `as_i128` that is within the bounds of an `i64`.
            pub fn as_i64(&self) -> Option<i64> {
                i64::try_from(self.as_i128()?).ok()
            }

            /// An integer as by `as_i128` that is within the bounds of a `u64`.
            pub fn as_u64(&self) -> Option<u64> {
                u64::try_from(self.as_i128()?).ok()
            }

            /// A double, with the bits of the wire.
            pub const fn as_f64(&self) -> Option<f64> {
                match self {
                    Self::Double(number) => Some(*number),
                    _ => None,
                }
            }
        }

        /// Text as text: `Bytes("hi")`, and `Bytes(b"\xd1\xc5")` for what is not UTF-8.
        impl fmt::Debug for $type {
            fn fmt(&self, out: &mut fmt::Formatter<'_>) -> fmt::Result {
                let mut case = |name: &str, data: &dyn fmt::Debug| out.debug_tuple(name).field(data).finish();
                match self {
                    Self::Nothing => out.write_str("Nothing"),
                    Self::Boolean(truth) => case("Boolean", truth),
                    Self::Int8(number) => case("Int8", number),
                    Self::Int16(number) => case("Int16", number),
                    Self::Int32(number) => case("Int32", number),
                    Self::Int64(number) => case("Int64", number),
                    Self::Int128(number) => case("Int128", number),
                    Self::Int256(bytes) => case("Int256", &Wide(&bytes[..])),
                    Self::Uint8(number) => case("Uint8", number),
                    Self::Uint16(number) => case("Uint16", number),
                    Self::Uint32(number) => case("Uint32", number),
                    Self::Uint64(number) => case("Uint64", number),
                    Self::Double(number) => case("Double", number),
                    Self::Bytes(bytes) => case("Bytes", &Text(bytes)),
                    Self::Yson(bytes) => case("Yson", &Text(bytes)),
                    Self::Variant(chosen) => chosen.fmt(out),
                    Self::RepeatedVariants(items) => case("RepeatedVariants", items),
                    Self::Tuple(values) => case("Tuple", values),
                }
            }
        }

        /// As a listing has it, in one word.
        impl fmt::Display for $type {
            fn fmt(&self, out: &mut fmt::Formatter<'_>) -> fmt::Result {
                match self {
                    Self::Nothing => out.write_str("-"),
                    Self::Boolean(truth) => write!(out, "{}", u8::from(*truth)),
                    Self::Int8(number) => write!(out, "{number}"),
                    Self::Int16(number) => write!(out, "{number}"),
                    Self::Int32(number) => write!(out, "{number}"),
                    Self::Int64(number) => write!(out, "{number}"),
                    Self::Int128(number) => write!(out, "{}", Wide(&number.to_le_bytes())),
                    Self::Int256(bytes) => write!(out, "{}", Wide(&bytes[..])),
                    Self::Uint8(number) => write!(out, "{number}"),
                    Self::Uint16(number) => write!(out, "{number}"),
                    Self::Uint32(number) => write!(out, "{number}"),
                    Self::Uint64(number) => write!(out, "{number}"),
                    Self::Double(number) => write!(out, "{:016x}", number.to_bits()),
                    Self::Bytes(bytes) | Self::Yson(bytes) => hex(bytes, out),
                    Self::Variant(_) => out.write_str("1"),
                    Self::RepeatedVariants(items) => write!(out, "{}", items.len()),
                    Self::Tuple(values) => write!(out, "{}", values.len()),
                }
            }
        }
    )+ };
}

questions!(ValueRef<'_>, Value);

impl fmt::Debug for VariantRef<'_> {
    fn fmt(&self, out: &mut fmt::Formatter<'_>) -> fmt::Result {
        out.debug_struct("Variant").field("tag", &self.tag()).field("value", &self.value()).finish()
    }
}

impl fmt::Debug for Variant {
    fn fmt(&self, out: &mut fmt::Formatter<'_>) -> fmt::Result {
        out.debug_struct("Variant").field("tag", &self.tag).field("value", &self.value).finish()
    }
}

impl fmt::Debug for Values<'_> {
    fn fmt(&self, out: &mut fmt::Formatter<'_>) -> fmt::Result {
        out.debug_list().entries(self.clone()).finish()
    }
}

impl fmt::Debug for Variants<'_> {
    fn fmt(&self, out: &mut fmt::Formatter<'_>) -> fmt::Result {
        out.debug_list().entries(self.clone()).finish()
    }
}

impl<'a> ValueRef<'a> {
    /// The bytes of a string32.
    pub const fn as_bytes(&self) -> Option<&'a [u8]> {
        match self {
            Self::Bytes(bytes) => Some(bytes),
            _ => None,
        }
    }

    /// The text of a string32, where it is UTF-8.
    pub fn as_str(&self) -> Option<&'a str> {
        std::str::from_utf8(self.as_bytes()?).ok()
    }

    /// The bytes of a yson32.
    pub const fn as_yson(&self) -> Option<&'a [u8]> {
        match self {
            Self::Yson(bytes) => Some(bytes),
            _ => None,
        }
    }

    /// A variant's tag and value.
    pub const fn as_variant(&self) -> Option<VariantRef<'a>> {
        match self {
            Self::Variant(chosen) => Some(*chosen),
            _ => None,
        }
    }

    /// The elements of a repeated variant.
    pub fn as_list(&self) -> Option<Variants<'a>> {
        match self {
            Self::RepeatedVariants(items) => Some(items.clone()),
            _ => None,
        }
    }

    /// The values of a tuple.
    pub fn as_tuple(&self) -> Option<Values<'a>> {
        match self {
            Self::Tuple(values) => Some(values.clone()),
            _ => None,
        }
    }

    /// The value of a column of [`crate::Schema::optional`]: what tag 1 chose. None where the column is
    /// missing, and where this is no variant of tag 1.
    pub fn as_some(&self) -> Option<ValueRef<'a>> {
        self.as_variant().filter(|chosen| chosen.tag() == 1).map(|chosen| chosen.value())
    }
}

impl Value {
    /// The bytes of a string32.
    pub fn as_bytes(&self) -> Option<&[u8]> {
        match self {
            Self::Bytes(bytes) => Some(bytes),
            _ => None,
        }
    }

    /// The text of a string32, where it is UTF-8.
    pub fn as_str(&self) -> Option<&str> {
        std::str::from_utf8(self.as_bytes()?).ok()
    }

    /// The bytes of a yson32.
    pub fn as_yson(&self) -> Option<&[u8]> {
        match self {
            Self::Yson(bytes) => Some(bytes),
            _ => None,
        }
    }

    /// A variant's tag and value.
    pub fn as_variant(&self) -> Option<&Variant> {
        match self {
            Self::Variant(chosen) => Some(chosen),
            _ => None,
        }
    }

    /// The elements of a repeated variant.
    pub fn as_list(&self) -> Option<&[Variant]> {
        match self {
            Self::RepeatedVariants(items) => Some(items),
            _ => None,
        }
    }

    /// The values of a tuple.
    pub fn as_tuple(&self) -> Option<&[Value]> {
        match self {
            Self::Tuple(values) => Some(values),
            _ => None,
        }
    }

    /// The value of a column of [`crate::Schema::optional`]: what tag 1 chose. None where the column is
    /// missing, and where this is no variant of tag 1.
    pub fn as_some(&self) -> Option<&Value> {
        self.as_variant().filter(|chosen| chosen.tag == 1).map(|chosen| &chosen.value)
    }
}
