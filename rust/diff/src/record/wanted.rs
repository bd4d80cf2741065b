//! What a recording has to have, whatever else is in it.

use std::collections::BTreeSet;

use plain::answer::number::{
    BLOB_TOO_LARGE, INDEX_MISMATCH, INVALID_VARIANT_TAG, MISSING_TABLE_SCHEMA, NO_NODE_ROOM, NO_PAYLOAD_ROOM,
    ROW_TOO_LARGE, SETTING, TRUNCATED, VALUE_DOES_NOT_MATCH_SCHEMA,
};
use plain::decoding::kind;
use plain::settings::{Settings, MOST, MOST_NODE_CHARGE};
use plain::wire_type::{BOOLEAN, INT128, INT256, STRING32, YSON32};

use crate::case::{op, Answer, Case};
use crate::generate::rows;

use super::{wanted_indexes, wanted_limits, wanted_names, wanted_writes, Part};

/// Operation, number, and what there is to tell apart besides: what a cut stream was cut in, a row from an
/// end, the wire type that an encoding call is about, and which of its two turns a mismatch with an index had.
pub type Answered = (u32, u64, u64);

pub const IS_ROW: u64 = 1;

pub fn answered(case: &Case, answer: &Answer) -> Answered {
    let [first, ..] = answer.values;
    let more = match (case.op, answer.number) {
        (_, TRUNCATED) => first,
        // A row has bytes, and an end has none.
        (op::SKIP | op::DECODE, 0) if first > 0 => IS_ROW,
        (op::ENCODE, 0) => wanted_writes::column(case),
        (op::ENCODE, BLOB_TOO_LARGE | VALUE_DOES_NOT_MATCH_SCHEMA | INVALID_VARIANT_TAG) => first,
        (op::DECODE_INDEXED, INDEX_MISMATCH) => wanted_indexes::mismatch(case),
        _ => 0,
    };
    (case.op, answer.number, more)
}

/// Operations, each with numbers that it can answer.
pub fn plainly(numbers: &[(u32, &[u64])]) -> BTreeSet<Answered> {
    let each = |(op, numbers): &(u32, &[u64])| -> Vec<Answered> {
        numbers.iter().map(|number| (*op, *number, 0)).collect()
    };
    numbers.iter().flat_map(each).collect()
}

/// Every operation with every number it can answer, the caller's slice bound (1) apart where that is
/// all that 1 stands for.
fn schema_answers() -> BTreeSet<Answered> {
    plainly(&[
        (op::PARSE, &[0, 255]),
        (op::FIXED_WIDTH, &[0, 255]),
        (op::VALIDATE, &[0, 2, 3, 33, 4, 5]),
        (op::ENCODER, &[0, 2, 3, 33, 4, 5, 9, 10]),
        (op::FORMAT, &[0, 2, 3, 33, 4, 5, 6, 7, 8, 10]),
        (op::TABLE_SCHEMA, &[0, 2, 3, 33, 4, 5, 6, 7, 8, 10, 11]),
    ])
}

/// The same of the reading calls, and each with every context.
fn reading_answers() -> BTreeSet<Answered> {
    let reading = &[0, 1, 2, 3, 33, 4, 5, 6, 7, 8, 10, 11, 13, 14, 17];
    let mut answers = plainly(&READING.map(|op| (op, &reading[..])));
    answers.extend(plainly(&[(op::DECODE, &[NO_NODE_ROOM, NO_PAYLOAD_ROOM])]));
    answers.extend(READING.into_iter().flat_map(|op| (1..=17).map(move |context| (op, TRUNCATED, context))));
    answers.extend([op::SKIP, op::DECODE].map(|op| (op, 0, IS_ROW)));
    answers
}

const READING: [u32; 3] = [op::SKIP, op::RUN, op::DECODE];

/// A reading call with these settings that is answered with this number; one row's from a position that
/// lies so far from the input's start or end.
#[derive(Debug)]
struct Edge {
    op: u32,
    settings: Settings,
    position: Position,
    number: u64,
}

#[derive(Debug, Clone, Copy)]
enum Position {
    Start,
    End,
    PastTheEnd,
}

impl Edge {
    fn is_met_by(&self, case: &Case, answer: &Answer) -> bool {
        let length = case.input.len() as u64;
        let position = match self.position {
            Position::Start => 0,
            Position::End => length,
            Position::PastTheEnd => length + 1,
        };
        case.op == self.op
            && case.settings() == self.settings
            && case.a == position
            && length > 0
            && answer.number == self.number
    }
}

/// One setting at or past its bound while the others are usual, and both sides of the last position.
fn edges() -> Vec<Edge> {
    let charge = |node_charge| Settings { node_charge, ..rows::usual() };
    let string32 = |max_string32_bytes| Settings { max_string32_bytes, ..rows::usual() };
    let yson32 = |max_yson32_bytes| Settings { max_yson32_bytes, ..rows::usual() };
    let row = |max_row_bytes| Settings { max_row_bytes, ..rows::usual() };
    let settings = [
        (charge(0), SETTING),
        (charge(1), 0),
        (charge(MOST_NODE_CHARGE), 0),
        (charge(MOST_NODE_CHARGE + 1), SETTING),
        (string32(0), BLOB_TOO_LARGE),
        (string32(MOST), 0),
        (string32(MOST + 1), SETTING),
        (yson32(0), 0),
        (yson32(MOST), 0),
        (yson32(MOST + 1), SETTING),
        (row(0), ROW_TOO_LARGE),
        // The table is looked for before anything is charged.
        (row(0), MISSING_TABLE_SCHEMA),
        (row(MOST), 0),
        (row(MOST + 1), SETTING),
    ];
    let reading =
        |(settings, number)| READING.map(|op| Edge { op, settings, position: Position::Start, number });
    let last = [(Position::End, 0), (Position::PastTheEnd, SETTING)];
    let one_row = |(position, number)| {
        [op::SKIP, op::DECODE].map(|op| Edge { op, settings: rows::usual(), position, number })
    };
    settings.into_iter().flat_map(reading).chain(last.into_iter().flat_map(one_row)).collect()
}

/// What a call has to show, in words and as a test of it.
pub type Shown = (String, Box<dyn Fn(&Case, &Answer) -> bool>);

type Test = fn(&Case, &Answer) -> bool;

const DECODED: [(&str, Test); 12] = [
    ("int128 as payload", |_, answer| has(answer, |value| is_sized(value, INT128))),
    ("int256 as payload", |_, answer| has(answer, |value| is_sized(value, INT256))),
    ("string32 as payload", |_, answer| has(answer, |value| is_sized(value, STRING32))),
    ("yson32 as payload", |_, answer| has(answer, |value| is_sized(value, YSON32))),
    ("true from a byte 2", is_true_from_2),
    ("a quiet NaN", |_, answer| has(answer, |value| is_nan(value) && is_quiet(value))),
    ("a signalling NaN", |_, answer| has(answer, |value| is_nan(value) && !is_quiet(value))),
    ("tags in a list", has_tags_in_a_list),
    ("room at equality", |case, answer| {
        let [_, records, payload] = answer.values.map(|value| value as usize);
        answer.number == 0 && payload > 0 && case.lent() == [16 * records, payload]
    }),
    ("a byte less than the records", |case, answer| {
        answer.number == NO_NODE_ROOM && case.lent()[0] + 1 == 16 * answer.values[0] as usize
    }),
    ("a byte less than the payload", |case, answer| {
        answer.number == NO_PAYLOAD_ROOM && case.lent()[1] + 1 == answer.values[0] as usize
    }),
    ("a tail that is no record", |case, answer| has(answer, |_| true) && case.lent()[0] % 16 > 0),
];

fn decoded() -> Vec<Shown> {
    let of_decoding = |(words, test): (&str, Test)| -> Shown {
        let shown = move |case: &Case, answer: &Answer| case.op == op::DECODE && test(case, answer);
        (words.to_owned(), Box::new(shown))
    };
    DECODED.map(of_decoding).into()
}

/// The value records of an accepted row.
fn values(answer: &Answer) -> Vec<&[u8]> {
    let count = if answer.number == 0 { answer.values[1] } else { 0 };
    let lent = answer.lent.as_ref().map_or(&[][..], |[records, _]| records);
    lent.chunks_exact(16).take(count as usize).collect()
}

fn has(answer: &Answer, test: fn(&[u8]) -> bool) -> bool {
    values(answer).into_iter().any(test)
}

/// Of this kind, and with payload or children.
fn is_sized(value: &[u8], kind: u8) -> bool {
    value[0] == kind && value[4..8] != [0; 4]
}

fn is_nan(value: &[u8]) -> bool {
    value[0] == 12 && f64::from_le_bytes(value[8..].try_into().expect("eight bytes")).is_nan()
}

fn is_quiet(value: &[u8]) -> bool {
    value[14] & 8 > 0
}

/// The root's first child is a boolean, whose byte follows the table's tag.
fn is_true_from_2(case: &Case, answer: &Answer) -> bool {
    let first = values(answer).get(1).copied();
    first.is_some_and(|value| value[0] == BOOLEAN && value[8] == 1 && case.input[case.a as usize + 2] == 2)
}

fn has_tags_in_a_list(_: &Case, answer: &Answer) -> bool {
    // A list that is not empty has its first element behind it.
    values(answer).windows(2).any(|pair| is_sized(pair[0], kind::REPEATED) && pair[1][2..4] != [0, 0])
}

/// What is still to be met.
pub struct Wanted {
    answers: BTreeSet<Answered>,
    edges: Vec<Edge>,
    shown: Vec<Shown>,
}

impl Wanted {
    pub fn of(part: Part) -> Self {
        let (answers, edges, mut shown, operations) = match part {
            Part::Reading => {
                let answers = schema_answers().into_iter().chain(reading_answers()).collect();
                let shown = decoded().into_iter().chain(wanted_names::shown()).collect();
                (answers, edges(), shown, &READING[..])
            }
            Part::Writing => (wanted_writes::answers(), vec![], wanted_writes::shown(), &[op::ENCODE][..]),
            Part::Indexing => {
                let operations = &wanted_indexes::OPERATIONS[..];
                (wanted_indexes::answers(), vec![], wanted_indexes::shown(), operations)
            }
        };
        shown.extend(wanted_limits::shown(operations));
        Self { answers, edges, shown }
    }

    pub fn meet(&mut self, case: &Case, answer: &Answer) {
        self.answers.remove(&answered(case, answer));
        self.edges.retain(|edge| !edge.is_met_by(case, answer));
        self.shown.retain(|(_, is_shown_by)| !is_shown_by(case, answer));
    }

    pub fn assert_met(&self) {
        let Self { answers, edges, shown } = self;
        assert!(answers.is_empty(), "no case was met with these operations and answers: {answers:?}");
        assert!(edges.is_empty(), "no case was met at these edges: {edges:?}");
        let shown: Vec<&String> = shown.iter().map(|(words, _)| words).collect();
        assert!(shown.is_empty(), "no call shows: {shown:?}");
    }
}
