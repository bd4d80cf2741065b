//! Hand-made cases, each with the sentence of document 01 that it stands for.

mod decoding;
mod encoding;
mod format;
mod indexing;
mod integer;
mod listing;
mod names;
mod reading;
mod view;

use crate::tables::Block;

pub type Fields = (u8, u8, u16, u32, u32, u32);

pub fn records(rows: &[Fields]) -> Vec<u8> {
    let mut bytes = Vec::new();
    for &(code, named, length, start, first, count) in rows {
        bytes.extend([code, named]);
        bytes.extend(length.to_le_bytes());
        bytes.extend(start.to_le_bytes());
        bytes.extend(first.to_le_bytes());
        bytes.extend(count.to_le_bytes());
    }
    bytes
}

pub fn words(rows: &[[u32; 4]]) -> Vec<u8> {
    rows.iter().flatten().flat_map(|word| word.to_le_bytes()).collect()
}

pub fn block(first: u64, count: u64) -> Block {
    Block { first, count }
}

/// Document 01's A: tuple("page" uint8, "name" variant8(nothing, string32)).
pub fn a() -> (Vec<u8>, Vec<u8>) {
    let table = records(&[
        (19, 0, 0, 0, 1, 2),
        (8, 1, 4, 0, 0, 0),
        (15, 1, 4, 4, 3, 2),
        (0, 0, 0, 0, 0, 0),
        (13, 0, 0, 0, 0, 0),
    ]);
    (table, b"pagename".to_vec())
}
