//! The node types that the original's schema.rs converts from and to; its parser is left out.

#![allow(clippy::all, clippy::pedantic)]

include!(concat!(env!("OUT_DIR"), "/original.rs"));

pub use node::{YsonNode, YsonValue};
