//! What the plain reading answers to a case.

use plain::answer::Refusal;
use plain::decoding::decode;
use plain::format::{table_schema, validate_encoder, validate_format, validate_schema};
use plain::reading::{run, skip};
use plain::report::{what, Report};
use plain::tables::{Block, FormatTables};
use plain::value_table::check;
use plain::wire_type::{fixed_width, parse};

use crate::case::{op, Answer, Case, UNTOUCHED};
use crate::indexing::{index_line, left_over, IndexCase};
use crate::writing::{encoded_line, plain_encoded_into, WriteCase};

pub fn tables(case: &Case) -> FormatTables<'_> {
    FormatTables {
        records: &case.records,
        names: &case.names,
        references: &case.references,
        registry: &case.registry,
    }
}

/// The block that a case of `validate` or of the encoder gives by its numbers.
pub fn lone_block(case: &Case) -> Block {
    Block { first: case.a, count: case.b }
}

pub fn refused(refusal: Refusal) -> Answer {
    let Refusal { number, place, carried: values } = refusal;
    Answer { number, place, values, ..Answer::default() }
}

pub fn checked(answer: Result<(), Refusal>) -> Answer {
    answer.map_or_else(refused, |()| Answer::accepted([0; 3]))
}

fn found(answer: Option<u64>) -> Answer {
    answer.map_or(Answer::NONE, |value| Answer::accepted([value, 0, 0]))
}

/// What the plain reading has a C function write; of a decoding one, where there is room.
pub fn plain_report(case: &Case) -> Report {
    match case.op {
        op::SKIP | op::DECODE => Report::of_skip(&skip(&case.settings(), &tables(case), &case.input, case.a)),
        op::RUN => Report::of_run(&run(&case.settings(), &tables(case), &case.input)),
        other => panic!("not a reading operation: {other}"),
    }
}

/// A reading call's report as an answer line. A row has bytes, so it differs from an end.
pub fn line(op: u32, report: &Report) -> Answer {
    let Report { number, place, carried: values, .. } = *report;
    let answer = Answer { number, place, values, ..Answer::default() };
    if op == op::RUN {
        Answer { run: Some([report.rows, report.bytes]), ..answer }
    } else if report.what == what::ROW {
        Answer { place: report.table, values: [report.bytes, report.records, report.payload], ..answer }
    } else {
        answer
    }
}

/// What the plain reading answers to a decoding call, and what it leaves in the slices that it is lent.
pub fn plain_decoded(case: &Case, mut lent: [Vec<u8>; 2]) -> (Report, [Vec<u8>; 2]) {
    let [records, payload] = &mut lent;
    let done = decode(&case.settings(), &tables(case), &case.input, case.a, records, payload);
    (Report::of_skip(&done), lent)
}

/// The same as an answer line.
pub fn decoded_line(report: &Report, lent: [Vec<u8>; 2]) -> Answer {
    Answer { lent: Some(lent), ..line(op::DECODE, report) }
}

pub fn plain_answer(case: &Case) -> Answer {
    match case.op {
        op::PARSE => found(parse(&case.names)),
        op::FIXED_WIDTH => found(fixed_width(case.a)),
        op::VALIDATE => checked(validate_schema(&case.records, &case.names, lone_block(case))),
        op::ENCODER => checked(validate_encoder(&case.records, &case.names, lone_block(case))),
        op::FORMAT => checked(validate_format(&tables(case))),
        op::TABLE_SCHEMA => table_schema(&tables(case), case.a)
            .map_or_else(refused, |block| Answer::accepted([block.first, block.count, 0])),
        op::SKIP | op::RUN => line(case.op, &plain_report(case)),
        op::DECODE => {
            let (report, lent) = plain_decoded(case, case.lent().map(|bytes| vec![UNTOUCHED; bytes]));
            decoded_line(&report, lent)
        }
        op::ENCODE => {
            let mut output = case.input.clone();
            let done = plain_encoded_into(&WriteCase::of(case), &mut output);
            encoded_line(&done, output)
        }
        op::CHECK_TABLE => checked(check(&case.references, &case.registry)),
        _ if case.is_of_index() => {
            let case = IndexCase::of(case);
            let lent = case.lent.map(|bytes| vec![UNTOUCHED; bytes]);
            index_line(case.call, left_over(&case.plainly(), &case, lent))
        }
        other => panic!("no such operation: {other}"),
    }
}
