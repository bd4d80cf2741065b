//! The index calls: an index of a stream is built, checked, extended, and used to decode row n. Each answer of the
//! plain reading is held against the same sentences over the original's rows and, with the feature `index`, the
//! library's against both, in every byte of every slice.

#[cfg(feature = "index")]
pub mod calls;
#[cfg(feature = "index")]
pub mod huge;
#[cfg(feature = "index")]
pub mod library;
#[cfg(feature = "index")]
pub mod long;
pub mod run;
pub mod shrink;
#[cfg(feature = "index")]
pub mod threads;

use std::fmt::{self, Write};

use plain::indexing::{build, check, decode_row, extend, index_record, Plainly, Stream};
use plain::reading::Skipped;
use plain::report::Report;
use plain::tables::record_count;

use crate::case::{hex, op, Answer, Case};
use crate::judge::{line, tables};

#[derive(Debug, Clone, Copy, PartialEq, Eq, PartialOrd, Ord)]
pub enum Call {
    Build,
    Check,
    Extend,
    Row,
}

use Call::{Build, Check, Extend, Row};

pub const CALLS: [Call; 4] = [Build, Check, Extend, Row];

const OPERATIONS: [(Call, u32); 4] = [
    (Build, op::BUILD_INDEX),
    (Check, op::CHECK_INDEX),
    (Extend, op::EXTEND_INDEX),
    (Row, op::DECODE_INDEXED),
];

impl fmt::Display for Call {
    fn fmt(&self, out: &mut fmt::Formatter<'_>) -> fmt::Result {
        out.write_str(match self {
            Build => "build",
            Check => "check",
            Extend => "extend",
            Row => "row n",
        })
    }
}

/// What an index call is given.
#[derive(Debug, Clone, PartialEq, Eq)]
pub struct IndexCase {
    pub call: Call,
    /// Settings, format and stream, as a case of the run has them.
    pub stream: Case,
    /// The index slice before the call.
    pub index: Vec<u8>,
    /// The old count where an index is extended, the row's where one is used.
    pub number: u64,
    /// Bytes of the record slice and of the payload slice that row n is lent.
    pub lent: [usize; 2],
}

/// The lengths of both slices that row n is lent have so many bits in a case that a program is asked.
const LENT_BITS: u32 = 16;

impl IndexCase {
    pub fn plainly(&self) -> Plainly<'_> {
        plainly(&self.stream)
    }

    /// The call as a case that a program is asked, which has five strings: the stream stands behind the registry,
    /// and the index, which may be written, is the last. `b` says where the registry ends and what is lent.
    pub fn asked(&self) -> Case {
        let Case { registry, input, .. } = &self.stream;
        let [records, payload] = self.lent.map(|bytes| u64::from(u16::try_from(bytes).expect("16 bits")));
        let (_, op) = OPERATIONS[self.call as usize];
        Case {
            op,
            a: self.number,
            b: registry.len() as u64 | records << 32 | payload << (32 + LENT_BITS),
            registry: [&registry[..], input].concat(),
            input: self.index.clone(),
            ..self.stream.clone()
        }
    }

    /// The call that a case asks for.
    pub fn of(case: &Case) -> Self {
        let asked = OPERATIONS.iter().find(|(_, op)| *op == case.op);
        let &(call, _) = asked.expect("an operation of the index");
        let ends = (case.b as u32 as usize).min(case.registry.len());
        let lent = [case.b >> 32, case.b >> (32 + LENT_BITS)].map(|bytes| usize::from(bytes as u16));
        let (registry, input) = case.registry.split_at(ends);
        let (registry, input) = (registry.to_vec(), input.to_vec());
        let stream = Case { op: op::RUN, a: 0, b: 0, registry, input, ..case.clone() };
        Self { call, stream, index: case.input.clone(), number: case.a, lent }
    }

    pub fn bytes(&self) -> usize {
        self.stream.bytes() + self.index.len()
    }

    /// Where the row stands that row n's record names; none where there is no such record or no such offset.
    pub fn offset(&self) -> Option<u64> {
        let is_there = self.call == Row && self.number < record_count(&self.index);
        let offset = is_there.then(|| index_record(&self.index, self.number).offset);
        offset.filter(|offset| *offset < self.stream.input.len() as u64)
    }
}

/// The stream of a case as the plain reading reads it.
pub fn plainly(stream: &Case) -> Plainly<'_> {
    Plainly { settings: stream.settings(), tables: tables(stream), input: &stream.input }
}

/// What a call answers, and what it leaves in the slices that it was lent.
#[derive(Debug, Clone, PartialEq, Eq)]
pub struct Left {
    pub report: Report,
    pub index: Vec<u8>,
    pub lent: [Vec<u8>; 2],
}

/// What the sentences of the index say of a call over somebody's rows; `lent` is what both slices hold before.
pub fn left_over(stream: &impl Stream, case: &IndexCase, lent: [Vec<u8>; 2]) -> Left {
    let (mut index, mut lent) = (case.index.clone(), lent);
    let [records, payload] = &mut lent;
    let report = match case.call {
        Build => Report::of_run(&build(stream, &mut index)),
        Check => Report::of_run(&check(stream, &index)),
        Extend => Report::of_run(&extend(stream, case.number, &mut index)),
        Row => {
            let done = decode_row(stream, &index, case.number, records, payload);
            Report::of_skip(&done.map(Skipped::Row))
        }
    };
    Left { report, index, lent }
}

/// As an answer line: of the first three with the run's rows and bytes, and with all that the index slice holds where
/// that is lent; of row n with both of its slices.
pub fn index_line(call: Call, left: Left) -> Answer {
    let Left { report, index, lent } = left;
    match call {
        Row => Answer { lent: Some(lent), ..line(op::DECODE, &report) },
        Check => line(op::RUN, &report),
        Build | Extend => Answer { output: Some(index), ..line(op::RUN, &report) },
    }
}

/// What a lent slice holds before a call: no byte is what its neighbours are.
pub fn filled(which: usize, bytes: usize) -> Vec<u8> {
    (0..bytes).map(|at| ((at + 61 * which) as u8).wrapping_mul(43) ^ 0x96).collect()
}

/// Both slices of row n before the call.
pub fn filled_lent(case: &IndexCase) -> [Vec<u8>; 2] {
    [0, 1].map(|which| filled(which, case.lent[which]))
}

/// More records of an index are not printed.
const MOST_RECORDS: usize = 40;

/// A case in words and in hex, record by record.
pub fn describe(case: &IndexCase) -> String {
    let IndexCase { call, index, number, lent, stream } = case;
    let mut words = format!("  {call}");
    match call {
        Build | Check => {}
        Extend => write!(words, " from an old count of {number}").expect("a string grows"),
        Row => {
            write!(words, ", n = {number}, with {} bytes for records and {} for payload", lent[0], lent[1])
                .expect("a string grows")
        }
    }
    let ragged = index.len() % 16;
    writeln!(words, "; index of {} records and {ragged} bytes:", index.len() / 16).expect("a string grows");
    for (at, record) in index.chunks(16).enumerate().take(MOST_RECORDS) {
        write!(words, "    {at}: {}", hex(record)).expect("a string grows");
        if record.len() == 16 {
            let record = index_record(index, at as u64);
            write!(words, " (offset {}, length {}, table {})", record.offset, record.length, record.table)
                .expect("a string grows");
        }
        words.push('\n');
    }
    words + &crate::show::describe(stream)
}

#[cfg(test)]
mod tests {
    use super::*;
    use crate::generate::indexes;
    use crate::rng::Rng;

    /// A program is asked what the library is.
    #[test]
    fn a_case_is_the_call_that_it_asks_for() {
        let mut met = [0; 4];
        for number in 0..3_000 {
            for (_, case) in indexes::random(&mut Rng::for_case(3, number)) {
                if case.lent.iter().all(|bytes| *bytes < 1 << LENT_BITS) {
                    assert_eq!(IndexCase::of(&case.asked()), case);
                    met[case.call as usize] += 1;
                }
            }
        }
        assert!(met.iter().all(|count| *count > 1_000), "{met:?}");
    }
}
