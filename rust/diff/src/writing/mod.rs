//! The writing calls: a value table is checked, and encoded by a schema into an output slice. Each answer
//! of the plain reading is held against the original, and with the feature `encode` the library's against
//! both, in every byte; and every accepted row goes through both round trips.

#[cfg(feature = "encode")]
pub mod huge;
#[cfg(feature = "encode")]
pub mod library;
pub mod round_trip;
pub mod run;
pub mod shrink;
#[cfg(feature = "encode")]
pub mod threads;

use plain::answer::Refusal;
use plain::decoding::ValueTable;
use plain::encoding::{encode, Given};
use plain::reading::Row;
use plain::report::Report;

use crate::case::{halves, hex, op, Answer, Case};
use crate::judge::{line, lone_block};
use crate::show::settings_in_words;

/// What an encoding call is given.
#[derive(Debug, Clone, PartialEq, Eq, Default)]
pub struct WriteCase {
    /// Settings, record table, name store, and the block by its numbers, as a case of the encoder's check
    /// has them.
    pub schema: Case,
    pub value: ValueTable,
    /// Bytes of the output slice.
    pub output: usize,
    pub position: u64,
}

impl WriteCase {
    pub fn given(&self) -> Given<'_> {
        Given {
            settings: self.schema.settings(),
            records: &self.schema.records,
            names: &self.schema.names,
            block: lone_block(&self.schema),
            value_records: &self.value.records,
            payload: &self.value.payload,
        }
    }

    /// The call as a case that a program is asked.
    pub fn asked(&self) -> Case {
        Case {
            op: op::ENCODE,
            a: halves([self.schema.a, self.schema.b]),
            b: self.position,
            references: self.value.records.clone(),
            registry: self.value.payload.clone(),
            input: filled(self.output),
            ..self.schema.clone()
        }
    }

    /// The call that a case asks for, but for what its output holds.
    pub fn of(case: &Case) -> Self {
        let value = ValueTable { records: case.references.clone(), payload: case.registry.clone() };
        let (first, count) = (u64::from(case.a as u32), case.a >> 32);
        let schema = Case {
            op: op::ENCODER,
            a: first,
            b: count,
            references: Vec::new(),
            registry: Vec::new(),
            input: Vec::new(),
            ..case.clone()
        };
        Self { schema, value, output: case.input.len(), position: case.b }
    }

    pub fn bytes(&self) -> usize {
        self.schema.bytes() + self.value.records.len() + self.value.payload.len()
    }
}

/// What an output slice holds before a call: no byte is what its neighbours are.
pub fn filled(bytes: usize) -> Vec<u8> {
    (0..bytes).map(|index| (index as u8).wrapping_mul(29) ^ 0x5C).collect()
}

/// What the plain reading answers, and what it leaves in the output.
pub fn plain_encoded(case: &WriteCase) -> (Result<Row, Refusal>, Vec<u8>) {
    let mut output = filled(case.output);
    let done = plain_encoded_into(case, &mut output);
    (done, output)
}

pub fn plain_encoded_into(case: &WriteCase, output: &mut [u8]) -> Result<Row, Refusal> {
    encode(&case.given(), output, case.position)
}

/// An encoding call's answer line, with what its output holds. It is told as a row that is read.
pub fn encoded_line(done: &Result<Row, Refusal>, output: Vec<u8>) -> Answer {
    Answer { output: Some(output), ..line(op::SKIP, &Report::of_encoded(done)) }
}

/// A case in words and in hex, record by record.
pub fn describe(case: &WriteCase) -> String {
    let Case { a, b, records, names, .. } = &case.schema;
    let mut words = format!(
        "  {}; block of {b} records from {a}; output of {} bytes, position {}\n",
        settings_in_words(&case.schema),
        case.output,
        case.position
    );
    let mut list = |name: &str, bytes: &[u8]| {
        words.push_str(&format!("  {name}, {} bytes:\n", bytes.len()));
        for line in bytes.chunks(16).take(40) {
            words.push_str(&format!("    {}\n", hex(line)));
        }
    };
    list("schema records", records);
    list("names", names);
    list("value records", &case.value.records);
    list("payload", &case.value.payload);
    words
}
