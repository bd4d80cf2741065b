//! The twenty wire types.

use std::fmt;

use crate::report::Report;
use crate::sys;

/// How one schema node is written on the wire. The order is that of the wire codes 0 to 19, which is
/// how a type stands in a schema record and in a refusal.
#[derive(Debug, Clone, Copy, PartialEq, Eq, PartialOrd, Ord, Hash)]
#[repr(u8)]
pub enum WireType {
    /// No bytes.
    Nothing,
    /// One byte; every one but 0 is true.
    Boolean,
    /// One byte, signed.
    Int8,
    /// Two bytes, signed.
    Int16,
    /// Four bytes, signed.
    Int32,
    /// Eight bytes, signed.
    Int64,
    /// Sixteen bytes, signed.
    Int128,
    /// Thirty-two bytes, signed.
    Int256,
    /// One byte.
    Uint8,
    /// Two bytes.
    Uint16,
    /// Four bytes.
    Uint32,
    /// Eight bytes.
    Uint64,
    /// Eight bytes of a floating-point number.
    Double,
    /// A length of four bytes, and so many bytes.
    String32,
    /// A length of four bytes, and so many bytes of YSON.
    Yson32,
    /// A tag of one byte, and the child that it chooses.
    Variant8,
    /// A tag of two bytes, and the child that it chooses.
    Variant16,
    /// Tags of one byte, each with its child, until tag 255.
    RepeatedVariant8,
    /// Tags of two bytes, each with its child, until tag 65,535.
    RepeatedVariant16,
    /// One child after another.
    Tuple,
}

impl WireType {
    /// All of them with their names, in code order.
    pub const ALL: [(WireType, &'static str); 20] = [
        (WireType::Nothing, "nothing"),
        (WireType::Boolean, "boolean"),
        (WireType::Int8, "int8"),
        (WireType::Int16, "int16"),
        (WireType::Int32, "int32"),
        (WireType::Int64, "int64"),
        (WireType::Int128, "int128"),
        (WireType::Int256, "int256"),
        (WireType::Uint8, "uint8"),
        (WireType::Uint16, "uint16"),
        (WireType::Uint32, "uint32"),
        (WireType::Uint64, "uint64"),
        (WireType::Double, "double"),
        (WireType::String32, "string32"),
        (WireType::Yson32, "yson32"),
        (WireType::Variant8, "variant8"),
        (WireType::Variant16, "variant16"),
        (WireType::RepeatedVariant8, "repeated_variant8"),
        (WireType::RepeatedVariant16, "repeated_variant16"),
        (WireType::Tuple, "tuple"),
    ];

    /// Its wire code, 0 to 19.
    pub const fn code(self) -> u8 {
        self as u8
    }

    /// The type of a wire code, if it is one.
    pub fn from_code(code: u64) -> Option<Self> {
        Self::ALL.get(usize::try_from(code).ok()?).map(|(wire_type, _)| *wire_type)
    }

    /// The type of a name, byte for byte: nothing is trimmed, and no case is folded.
    ///
    /// ```
    /// use skiff::WireType;
    ///
    /// assert_eq!(WireType::parse("repeated_variant8"), Some(WireType::RepeatedVariant8));
    /// assert_eq!(WireType::parse("Int8"), None);
    /// ```
    pub fn parse(name: impl AsRef<[u8]>) -> Option<Self> {
        Self::from_code(Report::of(|answer| sys::parse(name.as_ref(), answer)).wire_code()?)
    }

    /// How many bytes each value of it has, where that is the same for all; a nothing has none.
    pub const fn fixed_width(self) -> Option<usize> {
        Some(match self {
            Self::Nothing => 0,
            Self::Boolean | Self::Int8 | Self::Uint8 => 1,
            Self::Int16 | Self::Uint16 => 2,
            Self::Int32 | Self::Uint32 => 4,
            Self::Int64 | Self::Uint64 | Self::Double => 8,
            Self::Int128 => 16,
            Self::Int256 => 32,
            _ => return None,
        })
    }

    /// The name that schemas and messages use.
    pub fn name(self) -> &'static str {
        Self::ALL[usize::from(self.code())].1
    }
}

impl fmt::Display for WireType {
    fn fmt(&self, formatter: &mut fmt::Formatter<'_>) -> fmt::Result {
        formatter.write_str(self.name())
    }
}

#[cfg(test)]
mod tests {
    use super::*;
    use crate::{FormatBuilder, Schema, Settings};

    /// The names here are those that the library knows, each as its own code.
    #[test]
    fn a_type_is_parsed_by_its_name_alone() {
        for (code, (wire_type, name)) in (0..).zip(WireType::ALL) {
            assert_eq!(u64::from(wire_type.code()), code);
            assert_eq!(WireType::from_code(code), Some(wire_type));
            assert_eq!((wire_type.name(), wire_type.to_string().as_str()), (name, name));
            assert_eq!(WireType::parse(name), Some(wire_type));
            for other in [format!("{name} "), name.to_uppercase(), format!("{name}_")] {
                assert_eq!(WireType::parse(&other), None);
            }
        }
        assert_eq!(WireType::parse(""), None);
        assert_eq!(WireType::parse([0xFF, 0xFE]), None);
        assert_eq!(WireType::from_code(20), None);
    }

    /// A width here is that of the row that the library reads.
    #[test]
    fn a_width_is_the_librarys() {
        for (wire_type, _) in WireType::ALL {
            let column = Schema::leaf(wire_type).named("c");
            let tables = FormatBuilder::new().table(Schema::tuple([column])).build().expect("short names");
            let bytes = |filling| {
                let stream = [&[0, 0], &[filling; 64][..]].concat();
                tables.format().skip_row(&Settings::default(), &stream, 0).ok().flatten()
            };
            let same = [0, 1, 255].map(|filling| bytes(filling).map(|row| row.bytes - 2));
            let width = wire_type.fixed_width();
            // A tuple without children has no bytes either, but others have some.
            let is_fixed = same[0].is_some() && same[0] == same[1] && same[1] == same[2];
            assert_eq!(width, same[0].filter(|_| is_fixed && wire_type != WireType::Tuple), "{wire_type}");
        }
    }
}
