//! A refusal: its number, its place and the values it carries, in document 01's order.

/// The refusal numbers of documents 01 and 02.
pub mod number {
    pub const SETTING: u64 = 1;
    pub const BAD_SCHEMA_TABLE: u64 = 2;
    pub const TOO_DEEP: u64 = 3;
    pub const UNEXPECTED_CHILDREN: u64 = 4;
    pub const TOO_MANY_CHILDREN: u64 = 5;
    pub const EMPTY_TABLE_SCHEMAS: u64 = 6;
    pub const UNKNOWN_REGISTRY_REFERENCE: u64 = 7;
    pub const TABLE_SCHEMA_ROOT_MUST_BE_TUPLE: u64 = 8;
    pub const TABLE_SCHEMA_MUST_BE_TUPLE: u64 = 9;
    pub const TABLE_SCHEMA_CHILD_MISSING_NAME: u64 = 10;
    pub const MISSING_TABLE_SCHEMA: u64 = 11;
    pub const TRUNCATED: u64 = 12;
    pub const ROW_TOO_LARGE: u64 = 13;
    pub const BLOB_TOO_LARGE: u64 = 14;
    pub const VALUE_DOES_NOT_MATCH_SCHEMA: u64 = 15;
    pub const TUPLE_LENGTH: u64 = 16;
    pub const INVALID_VARIANT_TAG: u64 = 17;
    pub const BAD_VALUE_TABLE: u64 = 18;
    pub const NO_NODE_ROOM: u64 = 19;
    pub const NO_PAYLOAD_ROOM: u64 = 20;
    pub const NO_OUTPUT_ROOM: u64 = 21;
    pub const NO_INDEX_ROOM: u64 = 30;
    pub const INDEX_MISMATCH: u64 = 31;
    pub const NO_SUCH_ROW: u64 = 32;
    pub const NAME_NOT_UTF8: u64 = 33;
}

/// What a stream was cut in, as 12 carries it. A fixed type's context is its own wire code, 1 to 12.
pub mod context {
    pub const BLOB_LENGTH: u64 = 13;
    pub const BLOB_PAYLOAD: u64 = 14;
    pub const VARIANT8_TAG: u64 = 15;
    pub const VARIANT16_TAG: u64 = 16;
    pub const TABLE_TAG: u64 = 17;
}

#[derive(Debug, Clone, Copy, PartialEq, Eq)]
pub struct Refusal {
    pub number: u64,
    pub place: u64,
    /// Absent values are 0.
    pub carried: [u64; 3],
}

impl Refusal {
    /// A refusal that carries nothing and has place 0.
    pub fn bare(number: u64) -> Self {
        Self::at(number, 0, [0, 0, 0])
    }

    pub fn at(number: u64, place: u64, carried: [u64; 3]) -> Self {
        Self { number, place, carried }
    }
}

/// What a check answers.
pub type Checked = Result<(), Refusal>;
