#![doc = include_str!("../README.md")]
#![warn(missing_docs)]

mod accessors;
mod block;
mod decoder;
mod encoder;
mod error;
mod format;
mod index;
mod integer;
mod layout;
mod name;
mod owned;
mod path;
mod refusal;
mod report;
mod row;
mod row_builder;
mod schema;
mod settings;
mod source;
pub mod sys;
mod value;
mod value_table;
mod wire_type;

#[doc = include_str!("../FROM-YTSAURUS-RS.md")]
pub mod from_ytsaurus_rs {}

pub use block::SchemaBlock;
pub use decoder::{Decoder, IndexedRows, Rows};
pub use encoder::{Encoder, Sink, ToSlice, ToWriter};
pub use error::{Error, Refused};
pub use format::{Extent, Format, Run, Stop, WindowRun};
pub use index::{Index, IndexRecord, OwnedIndex};
pub use integer::integer_text;
pub use layout::{Columns, TableRef};
pub use name::{check_name, BadName, NameOf};
pub use owned::{Value, Variant};
pub use refusal::{Context, Refusal};
pub use row::{Listing, OwnedRow, Row};
pub use row_builder::{Misuse, RowBuilder, ToValue};
pub use schema::{FormatBuilder, FormatTables, NameTooLong, Schema, SchemaTables};
pub use settings::Settings;
pub use source::{FromReader, FromSlice, Source};
pub use value::{ValueRef, Values, VariantRef, Variants};
pub use value_table::{Scalar, ValueTable};
pub use wire_type::WireType;
