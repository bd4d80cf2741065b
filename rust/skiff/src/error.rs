//! What a decoder or an encoder fails with.

use std::{fmt, io};

use crate::path::{self, words};
use crate::{Misuse, Refusal};

/// A refusal, and which value it is about.
#[derive(Debug, Clone, PartialEq, Eq)]
pub struct Refused {
    /// Why, by the library's number.
    pub refusal: Refusal,
    /// From the row's root down to the value that it is about, as `column "name", element 3, tag 1`, or from
    /// a table down to a node of its schema; empty where it is about neither, or about the root.
    pub path: String,
    pub(crate) at: Where,
}

/// What a place counts.
#[derive(Debug, Clone, Copy, PartialEq, Eq)]
pub(crate) enum Where {
    /// Bytes of a stream, and which row of it was met.
    Row(u64),
    /// Nothing, but an index was asked for this row.
    Indexed(u64),
    /// Value records.
    Value,
    /// Schema records.
    Schema,
    /// Neither.
    Nowhere,
}

impl Refused {
    pub(crate) fn new(refusal: Refusal) -> Self {
        Self { refusal, path: String::new(), at: Where::Nowhere }
    }

    /// Of a format or a block, with the path to a schema record.
    pub(crate) fn of_schema(refusal: Refusal, path: Option<String>) -> Self {
        let at = if path::is_about_a_record(&refusal) { Where::Schema } else { Where::Nowhere };
        Self { refusal, path: path.unwrap_or_default(), at }
    }
}

/// The refusal's words, then where it was met: `byte 15, row 1, column "name"` in reading, `value record 3,
/// column "name", tag 1` in writing, `schema record 1, table 0, column "name"` of a format, `row 7` of an index.
impl fmt::Display for Refused {
    fn fmt(&self, out: &mut fmt::Formatter<'_>) -> fmt::Result {
        let place = self.refusal.place();
        let place = match self.at {
            Where::Row(row) => format!("byte {place}, row {row}"),
            Where::Indexed(row) => format!("row {row}"),
            Where::Value => format!("value record {place}"),
            Where::Schema => format!("schema record {place}"),
            Where::Nowhere => String::new(),
        };
        write!(out, "{}{}", self.refusal, words(&place, &self.path))
    }
}

impl std::error::Error for Refused {
    fn source(&self) -> Option<&(dyn std::error::Error + 'static)> {
        Some(&self.refusal)
    }
}

/// Why there is no row.
///
/// ```
/// use skiff::{Decoder, Error, FormatBuilder, Refusal, Schema, WireType};
///
/// fn pages(stream: &[u8]) -> Result<Vec<u64>, Error> {
///     let page = Schema::leaf(WireType::Uint8).named("page");
///     let tables = FormatBuilder::new().table(Schema::tuple([page])).build().expect("short names");
///     let mut decoder = Decoder::from_slice(stream, &tables)?;
///     let mut pages = Vec::new();
///     while let Some(row) = decoder.next_row()? {
///         pages.extend(row.get("page").and_then(|page| page.as_u64()));
///     }
///     Ok(pages)
/// }
///
/// assert_eq!(pages(&[0, 0, 7, 0, 0, 8]).expect("two rows"), [7, 8]);
/// let error = pages(&[1, 0]).expect_err("there is one table");
/// assert_eq!(error.refusal(), Some(Refusal::MissingTableSchema { index: 1, place: 0 }));
/// ```
#[derive(Debug)]
#[non_exhaustive]
pub enum Error {
    /// The library refused.
    Refused(Refused),
    /// A reader or a writer failed, or there is no memory for a row.
    Io(io::Error),
    /// A value was built that no value table can be.
    Misuse(Misuse),
}

impl Error {
    /// The refusal, where it is one.
    pub fn refusal(&self) -> Option<Refusal> {
        match self {
            Self::Refused(refused) => Some(refused.refusal),
            _ => None,
        }
    }
}

impl fmt::Display for Error {
    fn fmt(&self, out: &mut fmt::Formatter<'_>) -> fmt::Result {
        match self {
            Self::Refused(refused) => refused.fmt(out),
            Self::Io(error) => error.fmt(out),
            Self::Misuse(misuse) => misuse.fmt(out),
        }
    }
}

impl std::error::Error for Error {
    fn source(&self) -> Option<&(dyn std::error::Error + 'static)> {
        match self {
            Self::Refused(refused) => refused.source(),
            Self::Io(error) => error.source(),
            Self::Misuse(_) => None,
        }
    }
}

impl From<Refusal> for Error {
    fn from(refusal: Refusal) -> Self {
        Self::Refused(Refused::new(refusal))
    }
}

impl From<Refused> for Error {
    fn from(refused: Refused) -> Self {
        Self::Refused(refused)
    }
}

impl From<io::Error> for Error {
    fn from(error: io::Error) -> Self {
        Self::Io(error)
    }
}

impl From<Misuse> for Error {
    fn from(misuse: Misuse) -> Self {
        Self::Misuse(misuse)
    }
}
