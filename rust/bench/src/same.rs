//! Before a decoder is timed: both sides make the same values of every row.

use diff::case::Case;
use oracle::{Decoder, Format as Original, Value as Tree};
use skiff::{Settings, ValueRef};

use crate::timing::tables;

/// What the largest row of a stream needs: value records and payload bytes.
#[derive(Debug, Clone, Copy)]
pub struct Room {
    records: u64,
    payload: u64,
}

impl Room {
    pub fn slices(&self) -> (Vec<u8>, Vec<u8>) {
        (vec![0; self.records as usize * 16], vec![0; self.payload as usize])
    }
}

/// Compares the rows of a stream and says how much room they need.
pub fn check(case: &Case, format: &Original, rows: u64) -> Room {
    let room = room(case);
    let (mut records, mut payload) = room.slices();
    let mut decoder = Decoder::new(case.input.as_slice(), format.clone());
    let (mut met, mut at) = (0, 0);
    while let Some((table, tree)) = decoder.next_row().expect("good rows") {
        let settings = Settings::default();
        let decoded = tables(case).next_row(&settings, &case.input, at, &mut records, &mut payload);
        let Ok(Some(decoded)) = decoded else { panic!("row {met} is a row: {decoded:?}") };
        assert_eq!(usize::from(decoded.table()), table);
        assert!(same(&tree, decoded.value()), "row {met} is {tree:?} and {:?}", decoded.value());
        at += decoded.extent().bytes;
        met += 1;
    }
    assert_eq!((met, at), (rows, case.input.len()));
    room
}

fn room(case: &Case) -> Room {
    let mut room = Room { records: 0, payload: 0 };
    let mut at = 0;
    while let Some(row) = tables(case).skip_row(&Settings::default(), &case.input, at).expect("good rows") {
        room.records = room.records.max(row.records);
        room.payload = room.payload.max(row.payload);
        at += row.bytes;
    }
    room
}

fn same(tree: &Tree, value: ValueRef) -> bool {
    match (tree, value) {
        (Tree::Nothing, ValueRef::Nothing) => true,
        (Tree::Boolean(x), ValueRef::Boolean(y)) => *x == y,
        (Tree::Int8(x), ValueRef::Int8(y)) => *x == y,
        (Tree::Int16(x), ValueRef::Int16(y)) => *x == y,
        (Tree::Int32(x), ValueRef::Int32(y)) => *x == y,
        (Tree::Int64(x), ValueRef::Int64(y)) => *x == y,
        (Tree::Int128(x), ValueRef::Int128(y)) => *x == y,
        (Tree::Int256(x), ValueRef::Int256(y)) => x == y,
        (Tree::Uint8(x), ValueRef::Uint8(y)) => *x == y,
        (Tree::Uint16(x), ValueRef::Uint16(y)) => *x == y,
        (Tree::Uint32(x), ValueRef::Uint32(y)) => *x == y,
        (Tree::Uint64(x), ValueRef::Uint64(y)) => *x == y,
        (Tree::Double(x), ValueRef::Double(y)) => x.to_bits() == y.to_bits(),
        (Tree::Bytes(x), ValueRef::Bytes(y)) | (Tree::Yson(x), ValueRef::Yson(y)) => x == y,
        (Tree::Variant { tag, value }, ValueRef::Variant(y)) => *tag == y.tag() && same(value, y.value()),
        (Tree::RepeatedVariants(x), ValueRef::RepeatedVariants(y)) => {
            x.len() == y.len() && x.iter().zip(y).all(|(x, y)| x.tag == y.tag() && same(&x.value, y.value()))
        }
        (Tree::Tuple(x), ValueRef::Tuple(y)) => {
            x.len() == y.len() && x.iter().zip(y).all(|(x, y)| same(x, y))
        }
        _ => false,
    }
}

#[cfg(test)]
mod tests {
    use super::*;
    use crate::schemas::{ALL, LEDGER};
    use crate::timing::original;

    #[test]
    fn all_schemas_decode_to_the_originals_values() {
        for schema in ALL.iter().chain([&LEDGER]) {
            let case = schema.stream(2_000);
            check(&case, &original(&case), 2_000);
        }
    }

    /// The slices whole, stale bytes after the row too.
    #[test]
    fn all_schemas_decode_to_the_plain_readings_bytes() {
        for schema in ALL.iter().chain([&LEDGER]) {
            let case = schema.stream(2_000);
            let Case { records, names, references, registry, .. } = &case;
            let plain_tables = plain::tables::FormatTables { records, names, references, registry };
            let (mut records, mut payload) = room(&case).slices();
            let (mut plain_records, mut plain_payload) = (records.clone(), payload.clone());
            let mut at = 0;
            loop {
                let expected = plain::decoding::decode(
                    &plain::settings::Settings::default(),
                    &plain_tables,
                    &case.input,
                    at as u64,
                    &mut plain_records,
                    &mut plain_payload,
                );
                let settings = Settings::default();
                let decoded = tables(&case)
                    .next_row(&settings, &case.input, at, &mut records, &mut payload)
                    .expect("good rows");
                let Some(decoded) = decoded else { break };
                let skiff::Extent { table, bytes, records: made, payload: kept } = decoded.extent();
                let (table, row_bytes) = (u64::from(table), bytes as u64);
                let row = plain::reading::Row { table, bytes: row_bytes, records: made, payload: kept };
                assert_eq!(expected, Ok(plain::reading::Skipped::Row(row)));
                assert_eq!((&records, &payload), (&plain_records, &plain_payload));
                at += bytes;
            }
            assert_eq!(at, case.input.len());
        }
    }
}
