//! Differential runs: cases are made, put to what is under test, and each answer is held against the
//! plain reading and, on its domain, against the original. The format side goes to a program over a
//! pipe; the calls that read, write and index rows, that show integers and that judge names go to the library itself,
//! in this process.

// Its symbols are those that the front end calls.
#[cfg(feature = "double")]
extern crate double as _;

#[cfg(feature = "library")]
pub mod at_once;
pub mod bench;
pub mod blob_limits;
pub mod case;
pub mod compare;
#[cfg(feature = "library")]
pub mod fence;
pub mod generate;
#[cfg(feature = "library")]
pub mod in_process;
pub mod indexing;
#[cfg(feature = "library")]
pub mod integers;
pub mod judge;
pub mod listing;
#[cfg(feature = "library")]
pub mod names;
pub mod options;
pub mod original;
pub mod plan;
pub mod program;
pub mod record;
pub mod rng;
pub mod room;
pub mod show;
pub mod shrink;
#[cfg(feature = "library")]
pub mod trap;
pub mod writing;
