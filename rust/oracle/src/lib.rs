//! The Rust original, unchanged, with the root that its own modules expect (`crate::Format` and
//! so on). Nothing of it stands in this repository: the build script points at it.

#![allow(clippy::all, clippy::pedantic)]

include!(concat!(env!("OUT_DIR"), "/original.rs"));

pub use schema::{Format, Schema, SchemaError, SchemaRef, WireType};
pub use wire::{CodecError, Decoder, Encoder, Value, Variant};
