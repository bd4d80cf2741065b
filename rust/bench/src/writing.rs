//! Encoding against the original's `write`, both from values that stand already.

use std::hint::black_box;

use diff::case::Case;
use diff::generate::writes::draw::{lay_out, Body, Node};
use diff::generate::writes::schema_of;
use diff::plan::{fan, table_of};
use oracle::{Decoder, Encoder as OriginalEncoder, Format as Original, Value as Tree};
use skiff::{sys, SchemaBlock, Settings, ValueTable};

use crate::same::Room;
use crate::timing::{nanoseconds, tables};

/// A stream's rows as value tables, one after another, and as the original's trees.
pub struct Standing {
    records: Vec<u8>,
    payload: Vec<u8>,
    /// Where each row's records and payload end.
    ends: Vec<[usize; 2]>,
    trees: Vec<Tree>,
}

impl Standing {
    /// Decodes every row of a stream of one table, by both sides.
    pub fn of(case: &Case, format: &Original, room: Room) -> Self {
        let mut all = Self { records: vec![], payload: vec![], ends: vec![], trees: vec![] };
        let (mut records, mut payload) = room.slices();
        let mut decoder = Decoder::new(case.input.as_slice(), format.clone());
        let mut at = 0;
        while let Some((_, tree)) = decoder.next_row().expect("good rows") {
            let settings = Settings::default();
            let decoded = tables(case).next_row(&settings, &case.input, at, &mut records, &mut payload);
            let Ok(Some(decoded)) = decoded else { panic!("a row is a row: {decoded:?}") };
            all.records.extend_from_slice(decoded.records());
            all.payload.extend_from_slice(decoded.payload());
            all.ends.push([all.records.len(), all.payload.len()]);
            all.trees.push(tree);
            at += decoded.extent().bytes;
        }
        all
    }

    /// The payload stores of all rows, one after another.
    pub fn payload(&self) -> &[u8] {
        &self.payload
    }

    fn tables(&self) -> impl Iterator<Item = ValueTable<'_>> {
        let mut from = [0, 0];
        self.ends.iter().map(move |to| {
            let [records, payload] = std::mem::replace(&mut from, *to);
            ValueTable { records: &self.records[records..to[0]], payload: &self.payload[payload..to[1]] }
        })
    }
}

/// The only table's schema.
fn block(case: &Case) -> SchemaBlock<'_> {
    let count = (case.records.len() / 16) as u64;
    SchemaBlock { records: &case.records, names: &case.names, first: 0, count }
}

/// One call of the C function for each row, into an output that has room. The schema's check and the value
/// table's are part of each call.
pub fn encode_bare(case: &Case, standing: &Standing) -> f64 {
    let block = block(case);
    let settings = Settings::default();
    let mut output = vec![0; case.input.len()];
    let mut answer = [0; sys::ANSWER_SIZE];
    let time = nanoseconds(|| {
        let mut at = 0;
        for value in standing.tables() {
            let (numbers, to) = ((&settings).into(), black_box(&mut answer));
            let refused = sys::encode(numbers, black_box(&block), &value, &mut output, at, to);
            assert_eq!(refused, 0, "it was read");
            at += u64::from_le_bytes(*answer[7 * 8..].first_chunk().expect("a word"));
        }
    });
    assert!(output == case.input, "the rows that were read");
    time
}

/// The front end's `append` to a `Vec` that has room.
pub fn encode_library(case: &Case, standing: &Standing) -> f64 {
    let (block, settings) = (block(case), Settings::default());
    let mut output = Vec::with_capacity(case.input.len() + 1024);
    let time = nanoseconds(|| {
        for value in standing.tables() {
            black_box(&block).append(&settings, value, &mut output).expect("it was read");
        }
    });
    assert!(output == case.input, "the rows that were read");
    time
}

/// The original's `write` to a `Vec` that has room; its schema is checked before the clock starts.
pub fn encode_original(case: &Case, format: &Original, standing: &Standing) -> f64 {
    let schema = format.table_schema(0).expect("one table").clone();
    let output = Vec::with_capacity(case.input.len());
    let mut encoder = OriginalEncoder::new(output, schema).expect("a table's schema");
    let time = nanoseconds(|| {
        for tree in &standing.trees {
            black_box(&mut encoder).write(tree).expect("it was read");
        }
    });
    assert!(encoder.into_inner().expect("a Vec") == case.input, "the rows that were read");
    time
}

/// One row of a list of so many elements: how long the library takes for it.
pub struct Long {
    schema: Case,
    value: plain::decoding::ValueTable,
    output: Vec<u8>,
}

impl Long {
    pub fn new(records: usize) -> Self {
        let element = Node::new(8, Body::Data([7, 0, 0, 0, 0, 0, 0, 0]));
        let list = Node::new(16, Body::Children(vec![element; records - 2]));
        let value = lay_out(&Node::new(17, Body::Children(vec![list])));
        Self { schema: schema_of(&table_of(&fan(17, 1, 8))), value, output: vec![0; 3 + 2 * (records - 2)] }
    }

    pub fn encode(&mut self) -> f64 {
        let block = block(&self.schema);
        let settings = Settings::default();
        let value = ValueTable { records: &self.value.records, payload: &self.value.payload };
        nanoseconds(|| {
            let row = black_box(&block).encode(&settings, value, &mut self.output, 0).expect("it fits");
            assert_eq!(row.bytes, self.output.len());
        })
    }
}
