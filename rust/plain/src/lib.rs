//! Document 01, and of document 02 what has landed, in plain Rust: a second reading, to hold the proved
//! library against where the original has nothing to say (flat forms, depth, places, the order of refusals).
//!
//! It is meant to be compared with the document by eye. Every check runs over everything before the
//! next check begins, which is the order of refusals as it is written, and nothing is clever.
//!
//! The format side: [`wire_type`], [`tables`], [`forms`], [`depth`], [`names`], [`rules`] and the calls in
//! [`format`]. Reading: [`settings`], the [`walk`] over a row, the calls in [`reading`] and
//! [`decoding`], and the [`report`] that the C functions write. Writing: [`value_table`] and
//! [`encoding`]. Row starts beside a stream: [`indexing`]. What a host sees of a decoded row, record by record:
//! [`view`]. An int128 or int256 as text: [`integer`]. What the listing program prints: [`listing`].

pub mod answer;
pub mod decoding;
pub mod depth;
pub mod encoding;
pub mod format;
pub mod forms;
pub mod indexing;
pub mod integer;
pub mod listing;
pub mod names;
pub mod reading;
pub mod report;
pub mod rules;
pub mod settings;
pub mod tables;
pub mod value_table;
pub mod view;
pub mod walk;
pub mod wire_type;

#[cfg(test)]
mod tests;
