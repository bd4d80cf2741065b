//! A million rows: what the views make of each record is what the library's value query says of it.

mod common;

use common::{one_table, Chance};
use skiff::{Decoder, Encoder, Scalar, ValueRef, ValueTable};

const SCHEMAS: u64 = 500;
const ROWS: usize = 2_000;

/// Holds a value, and all below it, to the records from `next` on, which are its own in preorder.
struct Walk<'a> {
    table: ValueTable<'a>,
    next: u64,
    kinds: &'a mut [u64; 18],
}

impl Walk<'_> {
    fn payload(&self, start: u64, length: u64) -> &[u8] {
        &self.table.payload[start as usize..][..length as usize]
    }

    fn children<'v>(&mut self, children: impl ExactSizeIterator<Item = ValueRef<'v>>, count: u64) -> bool {
        children.len() as u64 == count && children.into_iter().all(|child| self.value(&child))
    }

    fn value(&mut self, value: &ValueRef) -> bool {
        let record = self.next as usize * 16;
        self.kinds[usize::from(self.table.records[record])] += 1;
        let answer = self.table.value(self.next).expect("a record of a decoded row");
        self.next += 1;
        match (value, answer) {
            (ValueRef::Nothing, Scalar::Nothing) => true,
            (ValueRef::Boolean(truth), Scalar::Boolean(told)) => *truth == told,
            (ValueRef::Int8(number), Scalar::Signed(told)) => i64::from(*number) == told,
            (ValueRef::Int16(number), Scalar::Signed(told)) => i64::from(*number) == told,
            (ValueRef::Int32(number), Scalar::Signed(told)) => i64::from(*number) == told,
            (ValueRef::Int64(number), Scalar::Signed(told)) => *number == told,
            (ValueRef::Uint8(number), Scalar::Unsigned(told)) => u64::from(*number) == told,
            (ValueRef::Uint16(number), Scalar::Unsigned(told)) => u64::from(*number) == told,
            (ValueRef::Uint32(number), Scalar::Unsigned(told)) => u64::from(*number) == told,
            (ValueRef::Uint64(number), Scalar::Unsigned(told)) => *number == told,
            (ValueRef::Double(number), Scalar::Double(told)) => number.to_bits() == told.to_bits(),
            (ValueRef::Int128(number), Scalar::Payload { start, length }) => {
                self.payload(start, length) == number.to_le_bytes()
            }
            (ValueRef::Int256(bytes), Scalar::Payload { start, length }) => {
                self.payload(start, length) == *bytes
            }
            (ValueRef::Bytes(bytes) | ValueRef::Yson(bytes), Scalar::Payload { start, length }) => {
                self.payload(start, length) == *bytes
            }
            (ValueRef::Variant(chosen), Scalar::Children(1)) => self.value(&chosen.value()),
            (ValueRef::RepeatedVariants(items), Scalar::Children(count)) => {
                self.children(items.clone().map(|item| item.value()), count)
            }
            (ValueRef::Tuple(values), Scalar::Children(count)) => self.children(values.clone(), count),
            _ => false,
        }
    }
}

#[test]
fn every_record_of_a_million_rows() {
    let (mut rows, mut kinds) = (0, [0; 18]);
    for seed in 0..SCHEMAS {
        let mut chance = Chance(seed);
        let columns = 1 + chance.below(6);
        let schema = chance.table(columns);
        let (tables, format) = (schema.tables().expect("short names"), one_table(&schema));
        let mut encoder = Encoder::to_writer(Vec::new(), &tables).expect("a table's schema");
        let values: Vec<_> = (0..ROWS).map(|_| chance.value(&schema)).collect();
        for value in &values {
            encoder.write_value(value).expect("it conforms");
        }
        let stream = encoder.into_inner();
        let mut decoder = Decoder::from_slice(&stream, &format).expect("a format");
        for value in &values {
            let row = decoder.next_row().expect("a good row").expect("as many as were written");
            let mut walk = Walk { table: row.into(), next: 0, kinds: &mut kinds };
            assert!(walk.value(&row.value()), "row {rows} is {row:?}");
            assert_eq!(walk.next, row.extent().records);
            // The query tells no tags: the tree that was written has them.
            assert_eq!(row.value().to_value(), *value);
            rows += 1;
        }
        assert!(decoder.next_row().expect("the end").is_none());
    }
    assert_eq!(rows, 1_000_000);
    assert!(kinds.iter().all(|count| *count > 1_000), "{kinds:?}");
}
