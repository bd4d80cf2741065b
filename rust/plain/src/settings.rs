//! Settings, and the sizes of what a call is given: everything that refusal 1 stands for.

use crate::tables::FormatTables;
use crate::wire_type::{STRING32, YSON32};

/// The most that a limit may be, and the most bytes that a slice to be read may have.
pub const MOST: u64 = 4_294_967_295;
pub const MOST_NODE_CHARGE: u64 = 4_096;

#[derive(Debug, Clone, Copy, PartialEq, Eq)]
pub struct Settings {
    pub node_charge: u64,
    pub max_string32_bytes: u64,
    pub max_yson32_bytes: u64,
    pub max_row_bytes: u64,
}

impl Default for Settings {
    fn default() -> Self {
        Self {
            node_charge: 48,
            max_string32_bytes: 134_217_728,
            max_yson32_bytes: 134_217_728,
            max_row_bytes: 268_435_456,
        }
    }
}

impl Settings {
    pub fn are_good(&self) -> bool {
        1 <= self.node_charge
            && self.node_charge <= MOST_NODE_CHARGE
            && self.max_string32_bytes <= MOST
            && self.max_yson32_bytes <= MOST
            && self.max_row_bytes <= MOST
    }

    /// How long a blob of this type may be.
    pub fn blob_limit(&self, code: u8) -> u64 {
        match code {
            STRING32 => self.max_string32_bytes,
            YSON32 => self.max_yson32_bytes,
            code => panic!("only string32 and yson32 have a limit, and not {code}"),
        }
    }

    /// The same limit for both types, as the original has it.
    #[must_use]
    pub fn with_max_blob_bytes(self, bytes: u64) -> Self {
        Self { max_string32_bytes: bytes, max_yson32_bytes: bytes, ..self }
    }
}

/// Every slice that is read, in every call.
pub fn is_short_enough(slice: &[u8]) -> bool {
    slice.len() as u64 <= MOST
}

/// A reading call's numbers are good: its settings, each slice that it reads, and its position, which
/// may be the slice's end.
pub fn numbers_are_good(settings: &Settings, tables: &FormatTables, input: &[u8], position: u64) -> bool {
    let slices = [tables.records, tables.names, tables.references, tables.registry, input];
    settings.are_good() && slices.into_iter().all(is_short_enough) && position <= input.len() as u64
}

/// Of a slice to be written only the first 4,294,967,295 bytes count, for positions and for room.
pub fn room(slice: &[u8]) -> u64 {
    MOST.min(slice.len() as u64)
}
