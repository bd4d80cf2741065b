//! What a call may spend on a row.

/// Bounds on one row, so that a few bytes of a hostile stream can't stand for a row that no reader
/// could hold. The node charge stands for what one value costs beside its bytes: a list of a million
/// one-byte values is a megabyte on the wire and far more in memory.
///
/// Nothing is checked here: a call whose settings are out of bounds answers [`crate::Refusal::Setting`].
///
/// ```
/// use skiff::Settings;
///
/// let settings = Settings::default().with_max_string32_bytes(1 << 10).with_max_row_bytes(1 << 24);
/// assert_eq!(settings.max_string32_bytes(), 1 << 10);
/// assert_eq!(settings.max_yson32_bytes(), Settings::DEFAULT_MAX_BLOB_BYTES);
/// assert_eq!(settings.node_charge(), Settings::DEFAULT_NODE_CHARGE);
/// ```
#[derive(Debug, Clone, Copy, PartialEq, Eq, Hash)]
pub struct Settings {
    node_charge: u64,
    max_string32_bytes: u64,
    max_yson32_bytes: u64,
    max_row_bytes: u64,
}

impl Settings {
    /// The node charge where none is given.
    pub const DEFAULT_NODE_CHARGE: u64 = 48;
    /// The limit of a string32 and that of a yson32 where none is given: 128 MiB.
    pub const DEFAULT_MAX_BLOB_BYTES: u64 = 134_217_728;
    /// The limit of a row where none is given: 256 MiB.
    pub const DEFAULT_MAX_ROW_BYTES: u64 = 268_435_456;
    /// The node charge is 1 to this.
    pub const MOST_NODE_CHARGE: u64 = 4_096;
    /// Each limit is at most this, and so is the length of each slice that is read.
    pub const MOST_BYTES: u64 = 4_294_967_295;

    /// The defaults.
    pub const fn new() -> Self {
        Self {
            node_charge: Self::DEFAULT_NODE_CHARGE,
            max_string32_bytes: Self::DEFAULT_MAX_BLOB_BYTES,
            max_yson32_bytes: Self::DEFAULT_MAX_BLOB_BYTES,
            max_row_bytes: Self::DEFAULT_MAX_ROW_BYTES,
        }
    }

    /// Another node charge: 1 to [`Settings::MOST_NODE_CHARGE`].
    #[must_use]
    pub const fn with_node_charge(self, node_charge: u64) -> Self {
        Self { node_charge, ..self }
    }

    /// Another limit of a string32: at most [`Settings::MOST_BYTES`].
    #[must_use]
    pub const fn with_max_string32_bytes(self, max_string32_bytes: u64) -> Self {
        Self { max_string32_bytes, ..self }
    }

    /// Another limit of a yson32: at most [`Settings::MOST_BYTES`].
    #[must_use]
    pub const fn with_max_yson32_bytes(self, max_yson32_bytes: u64) -> Self {
        Self { max_yson32_bytes, ..self }
    }

    /// Another limit of every blob, string32 and yson32 alike, as ytsaurus-rs has one for both: at most
    /// [`Settings::MOST_BYTES`].
    #[must_use]
    pub const fn with_max_blob_bytes(self, bytes: u64) -> Self {
        self.with_max_string32_bytes(bytes).with_max_yson32_bytes(bytes)
    }

    /// Another limit of a row: at most [`Settings::MOST_BYTES`].
    #[must_use]
    pub const fn with_max_row_bytes(self, max_row_bytes: u64) -> Self {
        Self { max_row_bytes, ..self }
    }

    /// What each value of a row costs.
    pub const fn node_charge(&self) -> u64 {
        self.node_charge
    }

    /// How long a string32 may be.
    pub const fn max_string32_bytes(&self) -> u64 {
        self.max_string32_bytes
    }

    /// How long a yson32 may be.
    pub const fn max_yson32_bytes(&self) -> u64 {
        self.max_yson32_bytes
    }

    /// How much all values of a row may cost, with the bytes of its blobs.
    pub const fn max_row_bytes(&self) -> u64 {
        self.max_row_bytes
    }
}

impl Default for Settings {
    fn default() -> Self {
        Self::new()
    }
}
