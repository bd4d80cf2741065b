//! Wire types: the twenty names in code order, and the widths.

pub const NAMES: [&str; 20] = [
    "nothing",
    "boolean",
    "int8",
    "int16",
    "int32",
    "int64",
    "int128",
    "int256",
    "uint8",
    "uint16",
    "uint32",
    "uint64",
    "double",
    "string32",
    "yson32",
    "variant8",
    "variant16",
    "repeated_variant8",
    "repeated_variant16",
    "tuple",
];

pub const LAST_CODE: u8 = 19;
pub const LAST_CHILDLESS: u8 = 14;
pub const BOOLEAN: u8 = 1;
pub const INT128: u8 = 6;
pub const INT256: u8 = 7;
pub const STRING32: u8 = 13;
pub const YSON32: u8 = 14;
pub const VARIANT8: u8 = 15;
pub const VARIANT16: u8 = 16;
pub const REPEATED_VARIANT8: u8 = 17;
pub const REPEATED_VARIANT16: u8 = 18;
pub const TUPLE: u8 = 19;

/// The code of a name, byte for byte; nothing is trimmed or folded.
pub fn parse(name: &[u8]) -> Option<u64> {
    NAMES.iter().position(|known| known.as_bytes() == name).map(|code| code as u64)
}

/// The fixed width of a wire code as schema.rs has it, where `nothing` has width 0. A number that is
/// no code has no width; it is taken whole, never cut to a byte.
pub fn fixed_width(code: u64) -> Option<u64> {
    match code {
        0 => Some(0),
        1 | 2 | 8 => Some(1),
        3 | 9 => Some(2),
        4 | 10 => Some(4),
        5 | 11 | 12 => Some(8),
        6 => Some(16),
        7 => Some(32),
        _ => None,
    }
}

/// The most children a type may have; none where there is no bound.
pub fn maximum_children(code: u8) -> Option<u64> {
    match code {
        VARIANT8 => Some(256),
        VARIANT16 => Some(65_536),
        REPEATED_VARIANT8 => Some(255),
        REPEATED_VARIANT16 => Some(65_535),
        _ => None,
    }
}
