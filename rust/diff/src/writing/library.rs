//! The library's writing calls, linked into this process. Every slice that a call is given stands between
//! unreadable pages: against one of them, or at an odd address.

use plain::answer::Refusal;
use plain::encoding::written;
use plain::format::validate_encoder;
use plain::reading::Row;
use plain::report::Report;
use plain::tables::record_count;
use plain::value_table::{check, value};
use skiff::{sys, Format, SchemaBlock, ValueTable};

use super::run::Tally;
use super::{describe, filled, round_trip, WriteCase};
use crate::fence::Turn;
use crate::in_process::numbers;
use crate::judge::lone_block;
use crate::trap;

/// What a call left.
#[derive(Debug, Clone, PartialEq, Eq)]
struct Left {
    returned: u32,
    answer: Vec<u8>,
    output: Vec<u8>,
}

/// What the library is given of a case, each slice by itself.
pub(super) struct Given<'a> {
    pub case: &'a WriteCase,
    /// Its records and its names.
    pub schema: [&'a [u8]; 2],
    /// Its records and its payload.
    pub value: [&'a [u8]; 2],
    /// For the slices that are written.
    pub turn: Turn,
}

/// The slices of a case that are read.
pub(super) fn slices(case: &WriteCase) -> [&Vec<u8>; 4] {
    [&case.schema.records, &case.schema.names, &case.value.records, &case.value.payload]
}

impl<'a> Given<'a> {
    pub fn new(case: &'a WriteCase, slices: [&'a [u8]; 4], turn: Turn) -> Self {
        let [records, names, value_records, payload] = slices;
        Self { case, schema: [records, names], value: [value_records, payload], turn }
    }

    fn block(&self) -> SchemaBlock<'_> {
        let [records, names] = self.schema;
        SchemaBlock { records, names, first: self.case.schema.a, count: self.case.schema.b }
    }

    fn table(&self) -> ValueTable<'_> {
        let [records, payload] = self.value;
        ValueTable { records, payload }
    }

    /// What a call leaves in an answer slice of so many bytes.
    fn left(&self, answer_size: usize, call: impl FnOnce(&mut [u8]) -> u32) -> Left {
        let mut answer = self.turn.hold(&filled(answer_size));
        let returned = call(&mut answer);
        Left { returned, answer: answer.to_vec(), output: Vec::new() }
    }

    fn encode(&self, answer_size: usize) -> Left {
        let mut output = self.turn.hold(&filled(self.case.output));
        let settings = numbers(self.case.schema.settings());
        let left = self.left(answer_size, |answer| {
            sys::encode(settings, &self.block(), &self.table(), &mut output, self.case.position, answer)
        });
        Left { output: output.to_vec(), ..left }
    }

    fn check_table(&self, answer_size: usize) -> Left {
        self.left(answer_size, |answer| sys::check_value_table(&self.table(), answer))
    }

    fn check_schema(&self, answer_size: usize) -> Left {
        let SchemaBlock { records, names, first, count } = self.block();
        self.left(answer_size, |answer| sys::check_encoder_schema(records, names, first, count, answer))
    }

    /// The value of each record, of the whole table or not, and of one that is not there.
    fn values(&self, answer_size: usize) -> Result<(), String> {
        let ValueTable { records, .. } = self.table();
        for index in 0..=record_count(records) {
            let got = self.left(answer_size, |answer| sys::value(records, index, answer));
            let report = Report::of_value(&value(records, index));
            same(&format!("value of record {index}"), &got, &expected(&report, answer_size, &[]))?;
        }
        Ok(())
    }

    fn stayed(&self) -> Result<(), String> {
        let given = self.schema.iter().chain(&self.value);
        let stayed = given.zip(slices(self.case)).all(|(held, slice)| **held == **slice);
        stayed.then_some(()).ok_or_else(|| "a call writes to a slice that it was to read".to_owned())
    }
}

fn expected(report: &Report, answer_size: usize, output: &[u8]) -> Left {
    let mut answer = filled(answer_size);
    let returned = report.write_to(&mut answer);
    Left { returned, answer, output: output.to_vec() }
}

fn same(call: &str, got: &Left, wanted: &Left) -> Result<(), String> {
    if got == wanted {
        return Ok(());
    }
    Err(format!("{call}\n  library: {got:02x?}\n  plain:   {wanted:02x?}"))
}

/// Answer slices that are long enough, and such as are not.
const ANSWER_SIZES: [usize; 4] = [88, 89, 200, 96];
const SHORT_SIZES: [usize; 5] = [0, 87, 1, 80, 8];

/// What is wrong about the library's answer to a call, if anything is: the encoding and, once for each
/// value, the check of its table; for an accepted row also what the library's reading calls make of it.
pub fn verdict(
    case: &WriteCase,
    number: u64,
    done: &Result<Row, Refusal>,
    output: &[u8],
    tally: &mut Tally,
) -> Result<(), String> {
    trap::while_asked(&|| describe(case), || {
        let turn = Turn::new(number);
        let held = slices(case).map(|slice| turn.hold(slice));
        let given = Given::new(case, held.each_ref().map(|slice| &**slice), turn);
        answers(&given, ANSWER_SIZES[number as usize % ANSWER_SIZES.len()], done, output)?;
        if number % 16 == 0 {
            // The value of each record and of one more, and three calls besides.
            tally.short_answers += 4 + record_count(&case.value.records);
            let size = SHORT_SIZES[number as usize / 16 % SHORT_SIZES.len()];
            answers(&given, size, done, &filled(case.output))?;
        }
        given.stayed()?;
        match done {
            Ok(row) => read_back(case, row, number),
            Err(_) => Ok(()),
        }
    })
}

/// Each call, with an answer slice of so many bytes; `output` is what encoding leaves.
pub(super) fn answers(
    given: &Given,
    size: usize,
    done: &Result<Row, Refusal>,
    output: &[u8],
) -> Result<(), String> {
    let WriteCase { schema, value, .. } = given.case;
    let encoded = Report::of_encoded(done);
    same("encode", &given.encode(size), &expected(&encoded, size, output))?;
    let table = Report::of_checked(&check(&value.records, &value.payload));
    same("check of a value table", &given.check_table(size), &expected(&table, size, &[]))?;
    let block = Report::of_checked(&validate_encoder(&schema.records, &schema.names, lone_block(schema)));
    same("check of the schema", &given.check_schema(size), &expected(&block, size, &[]))?;
    given.values(size)
}

/// The library's `decode` and `skip` of the row, canonical and with other bytes for true.
fn read_back(case: &WriteCase, row: &Row, number: u64) -> Result<(), String> {
    let canonical = written(&case.given()).expect("it was written before");
    let turn = Turn::new(!number);
    let [schema_records, names] = [&case.schema.records, &case.schema.names].map(|slice| turn.hold(slice));
    let mut wanted = [0; 88];
    Report::of_encoded(&Ok(*row)).write_to(&mut wanted);
    for bytes in [&canonical.bytes, &round_trip::loosened(&canonical, number as u8)] {
        let stream = round_trip::stream(case, bytes, number as usize % 5, number as usize % 3);
        let given: [&[u8]; 3] = [&stream.references, &[], &stream.input];
        let [references, registry, input] = given.map(|slice| turn.hold(slice));
        let format =
            Format { records: &schema_records, names: &names, references: &references, registry: &registry };
        let settings = numbers(stream.settings);
        let lent = [case.value.records.len(), case.value.payload.len()];
        let [mut records, mut payload] = lent.map(|bytes| turn.hold(&vec![0xA5; bytes]));
        let mut answer = turn.hold(&[0; 88]);
        sys::decode(settings, &format, &input, stream.position, &mut records, &mut payload, &mut answer);
        if *answer != wanted || *records != *case.value.records || *payload != *case.value.payload {
            return Err("the library decodes another value of what is written".to_owned());
        }
        sys::skip(settings, &format, &input, stream.position, &mut answer);
        if *answer != wanted {
            return Err("the library skips what is written otherwise".to_owned());
        }
    }
    Ok(())
}
